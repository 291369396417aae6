"""What docs/architecture.md says that each crate stands on, against crates.txt."""
import os
import re

from program import ROOT, want

PAGE = os.path.join("docs", "architecture.md")
LIST = "crates.txt"
COLUMN = "Stands on"


def lines_of(path):
    with open(os.path.join(ROOT, path), encoding="utf-8") as file:
        return file.read().splitlines()


def listed_crates(lines):
    """The crates of crates.txt in its order, each with the libraries that it stands on. After a name, blanks may stand."""
    crates = {}
    for line in lines:
        if line and not line.startswith("#"):
            name, libraries = line.split(":")
            name = name.split()[0]
            want(name not in crates, f"{LIST} has two lines of {name}")
            crates[name] = libraries.split()
    return crates


def table_rows(lines):
    """The rows of the tables that have the column, in the page's order: the crate, and the libraries that the row names."""
    column = None
    rows = []
    for line in lines:
        if not line.startswith("|"):
            column = None
            continue
        cells = [cell.strip() for cell in line.strip("|").split("|")]
        if COLUMN in cells:
            column = cells.index(COLUMN)
        elif column is not None and not set(cells[0]) <= set("-:"):
            rows.append((cells[0].strip("`"), re.findall(r"`([^`]*)`", cells[column])))
    return rows


def first_table(lines):
    """The lines up to the end of the first table."""
    begin = next(at for at, line in enumerate(lines) if line.startswith("|"))
    end = next(at for at in range(begin, len(lines)) if not lines[at].startswith("|"))
    return lines[:end]


def crates_of_the_product():
    """The libraries of the product and its program, the last one."""
    return [name for name, _ in table_rows(first_table(lines_of(PAGE)))]


def test_crates_of_the_page():
    crates = listed_crates(lines_of(LIST))
    want(crates, f"{LIST} lists no crate")
    seen = []
    for name, libraries in table_rows(lines_of(PAGE)):
        want(name in crates, f"{PAGE} has a row of {name}, which is not in {LIST}")
        want(name not in seen, f"{PAGE} has two rows of {name}")
        want(libraries == crates[name], f"{PAGE}: {name} stands on {libraries}, and in {LIST} on {crates[name]}")
        below = [library for library in libraries if library in crates and library not in seen]
        want(not below, f"{PAGE}: {name} stands on {below}, which have no row above it")
        seen.append(name)
    missing = [name for name in crates if name not in seen]
    want(not missing, f"{PAGE} has no row of {missing}")
    return f"what each of {len(seen)} crates stands on is in {PAGE} as in {LIST}"
