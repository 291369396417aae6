"""Over what code the wrong bodies of a crate were tried: the lines of tests/wrong-bodies.tried, and the digests in them.

A digest is one of the crate's src/, specs/ and wrong-bodies/. It leaves out comments, blank lines and blanks at the ends of lines,
so that an edited comment asks for no new trial. In doubt something counts as code.
"""
import fcntl
import hashlib
import os
import re

from program import ROOT, want
from spec_words import NO_CODE, source

FILE = os.path.join("tests", "wrong-bodies.tried")
PARTS = ("src", "specs", "wrong-bodies")
HEAD = """\
# All wrong bodies of these crates were tried and refused: the crate, how many they are, and a digest of what they were tried over.
# tests/wrong-bodies writes the lines.
"""
LINE = re.compile(r"([a-z0-9_]+) ([0-9]+) ([0-9a-f]{64})")
# Comments of definitions, and texts, which can look like one.
NO_DEFINITION = re.compile(r"""(?<!\S)--(?=[\s-]|\Z)[^\n]*|"(?:\\.|[^"\\\n])*\"""")
COMMENTS = ("//", "/*", "--")


def without_comment(found):
    """A blank in the place of a comment. The line feeds of a text count, so they become what no source has."""
    want(found[0] != "/*", "a comment stands within a comment")
    return " " if found[0].startswith(COMMENTS) else found[0].replace("\n", "\0")


def code_of(path, text):
    """What counts of a file's text: of edits all, of sources and definitions the lines that have code."""
    _, ending = os.path.splitext(path)
    pattern = {".rt": NO_CODE, ".antt": NO_DEFINITION}.get(ending)
    if not pattern:
        return text
    lines = pattern.sub(without_comment, text).split("\n")
    return "".join(f"{line.rstrip()}\n" for line in lines if line.strip())


def files_of(folder):
    """The paths of the files that count, from the crate's folder, in order."""
    found = (os.path.join(at, name) for part in PARTS for at, _, names in os.walk(os.path.join(folder, part)) for name in names)
    return sorted(os.path.relpath(path, folder) for path in found)


def digest_of(crate, root=ROOT):
    """The digest of what the wrong bodies of a crate are tried over."""
    folder, digest = os.path.join(root, "crates", crate), hashlib.sha256()
    for path in files_of(folder):
        code = code_of(path, source(os.path.join(folder, path)))
        digest.update(f"{len(path)} {path} {len(code)} {code}".encode())
    return digest.hexdigest()


def lines_tried():
    """What the file has of each crate that it names: how many edits, and the digest."""
    path, lines = os.path.join(ROOT, FILE), {}
    for line in source(path).splitlines() if os.path.isfile(path) else []:
        found = LINE.fullmatch(line)
        want(found or line.startswith("#"), f"{FILE}: a line is not a crate, a count and a digest: {line}")
        if found:
            want(found[1] not in lines, f"{FILE} has two lines of {found[1]}")
            lines[found[1]] = int(found[2]), found[3]
    return lines


def put_line(crate, count, digest, order):
    """Writes the line of a crate. Lines stand in an order of crates. Of trials that end side by side each gets its turn."""
    path = os.path.join(ROOT, FILE)
    with open(os.path.abspath(__file__), "rb") as turn:
        fcntl.flock(turn, fcntl.LOCK_EX)
        lines = {**lines_tried(), crate: (count, digest)}
        with open(path + ".new", "w", encoding="utf-8") as file:
            file.write(HEAD + "".join(f"{name} {lines[name][0]} {lines[name][1]}\n" for name in order if name in lines))
        os.replace(path + ".new", path)


def faults_of(counts):
    """What is wrong with the file, by the crate: it needs a line of each that has edits, whose counts are given, and of no other."""
    lines = lines_tried()
    for crate, count in counts.items():
        tried, digest = lines.get(crate, (None, None))
        if tried is None:
            yield crate, f"{crate}: its {count} wrong bodies were not tried: run tests/wrong-bodies {crate}"
        elif tried != count:
            yield crate, f"{crate}: it has {count} wrong bodies, and {tried} were tried: run tests/wrong-bodies {crate}"
        elif digest != digest_of(crate):
            yield crate, f"{crate}: its code or its wrong bodies changed since these were tried: run tests/wrong-bodies {crate}"
    for crate in lines:
        if crate not in counts:
            yield crate, f"{crate}: it has no wrong bodies: remove its line from {FILE}"


# What is the same code, and what is not: the file, and two texts of it.
SAME = [
    ("a.rt", "// a\nlet b = 1; // c\n", "\n//! d\nlet b = 1;\n\n"),
    ("a.rt", "/// a\nlet b /* c */ = 1;  \n", "let b /* d\n e */ = 1;\n"),
    ("a.rt", "let a = '\"'; // b \" c\nlet d = b'\\'';", "let a = '\"'; // e\nlet d = b'\\'';"),
    ("a.rt", "fn a<'b>(c: &'b str) // d'", "fn a<'b>(c: &'b str)"),
    ("a.antt", "-- a\nb = c -- d \" e\n---- f", "b = c\n\n-- g"),
]
OTHER = [
    ("a.rt", "let a = 1;", "let a = 2;"),
    ("a.rt", 'let a = "// b";', 'let a = "// c";'),
    ("a.rt", 'let a = "/* b */";', 'let a = "/* c */";'),
    ("a.rt", 'let a = "b \\" // c";', 'let a = "b \\" // d";'),
    ("a.rt", 'let a = r#"b " // c"#;', 'let a = r#"b " // d"#;'),
    ("a.rt", "let a = '\"'; let b = \"// c\";", "let a = '\"'; let b = \"// d\";"),
    ("a.rt", "let a = '\\''; let b = \"// c\";", "let a = '\\''; let b = \"// d\";"),
    ("a.rt", 'let a = "b\n\nc";', 'let a = "b\nc";'),
    ("a.rt", 'let a = "b \nc";', 'let a = "b\nc";'),
    ("a.rt", 'let a = "b\\\nc";', 'let a = "b\\\\nc";'),
    ("a.rt", "    ensures { b }", "    ensures { b // c }"),
    ("a.antt", "a = 1", "a = 2"),
    ("a.antt", 'a = codes " -- b"', 'a = codes " -- c"'),
    ("a.antt", 'a = codes "--b" -- c', 'a = codes "--d" -- c'),
    ("a.antt", "a = b\n  c", "a = b\nc"),
    ("a.antt", "a = b--c", "a = b--d"),
    ("a.edit", "new: a // b", "new: a // c"),
]


def test_digest():
    """Each of these changes counts, or does not, as it should."""
    for path, one, two in SAME:
        want(code_of(path, one) == code_of(path, two), f"the code of {path} differs: {one!r} and {two!r}")
    for path, one, two in OTHER:
        want(code_of(path, one) != code_of(path, two), f"the code of {path} is the same: {one!r} and {two!r}")
