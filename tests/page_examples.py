"""Examples of code in docs: each of their lines stands in a source that the gate compiles.

The examples are the blocks of the pages of the crates, which are the `//!` comments of their `lib.rt` and `main.rt`, and the
```rust blocks of docs/library.md. The signatures of functions on that page stand in a source too.
"""
import glob
import os
import re

from program import ROOT, want

CRATES = os.path.join(ROOT, "crates")
LIBRARY = os.path.join(ROOT, "docs", "library.md")
USAGE = os.path.join(CRATES, "gtfs_commands", "src", "definitions.rt")


def lines_of(path):
    with open(path, encoding="utf-8") as file:
        return file.read().splitlines()


def shown(path):
    return os.path.relpath(path, ROOT)


def code_of(line):
    """A line without its comment, and with one blank in place of each run of blanks."""
    return " ".join(re.split(r"(?:^|\s)//", line, maxsplit=1)[0].split())


def listed_crates():
    """The names of the crates that the gate compiles."""
    lines = [line.split("#")[0] for line in lines_of(os.path.join(ROOT, "crates.txt"))]
    return [line.split(":")[0].split()[0] for line in lines if line.strip()]


def compiled_lines():
    """The lines of code of all sources that the gate compiles, in their order."""
    paths = []
    for crate in listed_crates():
        paths += sorted(glob.glob(os.path.join(CRATES, crate, "src", "**", "*.rt"), recursive=True))
    return [code_of(line) for path in paths for line in lines_of(path)]


def blocks(lines, opening):
    """The lines of the blocks that such fences open, each with its number."""
    fence = None
    for number, line in lines:
        if line.startswith("```"):
            fence = line if fence is None else None
        elif fence is not None and re.fullmatch(opening, fence):
            yield number, line


def page_blocks(path):
    """The lines of the examples of a crate's page."""
    page = [(number, line[3:].strip()) for number, line in enumerate(lines_of(path), 1) if line.startswith("//!")]
    return blocks(page, "```(text|rust)?")


def usage_lines():
    """How the commands are called, as the program's help says it."""
    with open(USAGE, encoding="utf-8") as file:
        text = re.search(r'const COMMANDS: &str =\s*"(.*?)";', file.read(), re.DOTALL)
    want(text is not None, f"{shown(USAGE)} has no COMMANDS")
    usage = re.sub(r"\\\n\s*", "", text[1])
    return {line.strip() for line in usage.split(r"\n")}


def unknown_lines(path, examples, known):
    """The lines of examples that are not known, and how many there are in all."""
    code = [(number, code_of(line)) for number, line in examples]
    code = [(number, line) for number, line in code if line]
    return [f"{shown(path)}:{number}: {line}" for number, line in code if line not in known], len(code)


def signature_of(text):
    """A signature on one line, however its parameters are laid out."""
    return " ".join(text.split()).replace("( ", "(").replace(", )", ")").replace(",)", ")")


def unknown_signatures(lines):
    """The signatures of the library's page that stand in no source, and how many there are in all."""
    with open(LIBRARY, encoding="utf-8") as file:
        signatures = [signature_of(text) for text in re.findall(r"`((?:pub\s+)?fn\s[^`]+)`", file.read())]
    code = signature_of(" ".join(lines))
    # What follows a signature in a source is a clause, its body, or the end of a method without one.
    follows = r"(?= (?:requires|ensures|\{)|;)"
    return [f"{shown(LIBRARY)}: {it}" for it in signatures if not re.search(re.escape(it) + follows, code)], len(signatures)


def test_page_examples():
    lines = compiled_lines()
    code, usage = set(lines), usage_lines()
    unknown, count = [], 0
    for path in sorted(glob.glob(os.path.join(CRATES, "*", "src", "lib.rt")) + glob.glob(os.path.join(CRATES, "*", "src", "main.rt"))):
        known = code | usage if path.startswith(os.path.join(CRATES, "gtfs_commands", "")) else code
        more, checked = unknown_lines(path, page_blocks(path), known)
        unknown, count = unknown + more, count + checked
    more, checked = unknown_lines(LIBRARY, blocks(enumerate(lines_of(LIBRARY), 1), "```rust"), code)
    unknown, count = unknown + more, count + checked
    more, signatures = unknown_signatures(lines)
    unknown += more
    want(not unknown, "examples that stand in no source:\n" + "\n".join(unknown))
    want(count > 0 and signatures > 0, "no example or no signature was found")
    return f"{count} lines of examples and {signatures} signatures stand in sources that the gate compiles"
