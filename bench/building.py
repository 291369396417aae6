"""Builds the program that bench/run measures with, of the sources in bench/program/.

It is no crate of the repository, so that the gate need not prove it. It is proved and built in a copy in which it is the crate gtfs_bench,
and again only where the toolchain or a source that it stands on has changed. In bench/program/ the names of sources end in .rt.txt,
since `rt ci` takes a .rt file only in a crate; `line` is the crate's line of crates.txt, and `stdout` what it prints without words.
"""
import hashlib
import os
import shutil
import subprocess
import sys
import tempfile

ROOT = os.path.dirname(os.path.dirname(os.path.abspath(__file__)))
SOURCES = os.path.join(ROOT, "bench", "program")
NAME = "gtfs_bench"
PROGRAM = os.path.join(ROOT, "out", NAME)
# What the program that lies there was built of.
DIGEST = PROGRAM + ".digest"
PARTS = ("src", "specs", "proofs")


def read(*path):
    with open(os.path.join(*path), "rb") as file:
        return file.read()


def lines_of_crates():
    """The lines of crates.txt and that of the program, by their crates."""
    lines = [*read(ROOT, "crates.txt").decode().splitlines(), read(SOURCES, "line").decode().strip()]
    return {line.split(":")[0].split()[0]: line for line in lines if line and not line.startswith("#")}


def libraries_of(crate, lines):
    """The libraries of the repository that a crate names."""
    return [name for name in lines[crate].split(":")[1].split() if name in lines]


def below(crate, lines):
    """The libraries of the repository that a crate stands on, in the order of crates.txt."""
    found, waiting = set(), [crate]
    while waiting:
        more = set(libraries_of(waiting.pop(), lines)) - found
        found |= more
        waiting += more
    return [name for name in lines if name in found]


def files_of(crates):
    """The files of which the program is made, in order."""
    folders = [SOURCES, *(os.path.join(ROOT, "crates", crate, part) for crate in crates for part in PARTS)]
    return sorted(os.path.join(at, name) for folder in folders for at, _, names in os.walk(folder) for name in names)


def digest_now(lines, crates):
    """The digest of the toolchain and of all that the program is made of."""
    version = subprocess.run(["rt", "version"], check=True, stdout=subprocess.PIPE).stdout
    digest = hashlib.sha256(version + "\n".join(lines[crate] for crate in [*crates, NAME]).encode())
    for path in files_of(crates):
        digest.update(f"\n{os.path.relpath(path, ROOT)} {hashlib.sha256(read(path)).hexdigest()}".encode())
    return digest.hexdigest()


def is_built(digest):
    return os.path.isfile(PROGRAM) and os.path.isfile(DIGEST) and read(DIGEST).decode() == digest


def link_or_copy(path, to):
    """What was built takes gigabytes, so it is shared where it can be. `rt` never writes into it: it builds a library anew."""
    try:
        os.link(path, to)
    except OSError:
        shutil.copy2(path, to)


def copy_crate(crate, room):
    """Copies the sources of a library, and what was built of it."""
    for part, copied in (*((part, shutil.copy2) for part in PARTS), (os.path.join("out", "rlib"), link_or_copy)):
        folder = os.path.join("crates", crate, part)
        if os.path.isdir(os.path.join(ROOT, folder)):
            shutil.copytree(os.path.join(ROOT, folder), os.path.join(room, folder), copy_function=copied)


def copy_into(room, lines, crates):
    """Lays out the copy: the libraries below the program as they are built, and the program as a crate."""
    for crate in crates:
        copy_crate(crate, room)
    source = os.path.join(room, "crates", NAME, "src")
    os.makedirs(source)
    for name in os.listdir(SOURCES):
        if name.endswith(".rt.txt"):
            shutil.copy(os.path.join(SOURCES, name), os.path.join(source, name[: -len(".txt")]))
    shutil.copy(os.path.join(ROOT, "HANDLES"), room)
    with open(os.path.join(room, "crates.txt"), "w", encoding="utf-8") as file:
        file.writelines(f"{lines[crate]}\n" for crate in [*crates, NAME])


def build_in(room):
    """Proves and builds the program in the copy, has it print its usage, and brings it out."""
    crate = os.path.join(room, "crates", NAME)
    told = subprocess.run(["rt", "run"], cwd=crate, check=True, stdin=subprocess.DEVNULL, stdout=subprocess.PIPE).stdout
    if told != read(SOURCES, "stdout"):
        raise ValueError(f"without words the program does not print what {os.path.join(SOURCES, 'stdout')} has")
    os.makedirs(os.path.dirname(PROGRAM), exist_ok=True)
    shutil.copy(os.path.join(crate, "out", NAME), PROGRAM + ".new")
    os.replace(PROGRAM + ".new", PROGRAM)


def build():
    """Builds the program where it is not built of the sources as they are. The libraries below it stay built where they lie."""
    lines = lines_of_crates()
    crates = below(NAME, lines)
    digest = digest_now(lines, crates)
    if is_built(digest):
        return
    for library in libraries_of(NAME, lines):
        subprocess.run(["rt", "lib"], cwd=os.path.join(ROOT, "crates", library), check=True, stdin=subprocess.DEVNULL, stdout=sys.stderr)
    with tempfile.TemporaryDirectory(prefix="bench-") as room:
        copy_into(room, lines, crates)
        build_in(room)
    with open(DIGEST, "w", encoding="utf-8") as file:
        file.write(digest)
