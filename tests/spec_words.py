"""The words of contracts, read from the sources alone: definitions of specs/, and the clauses of public functions that name them."""
import functools
import glob
import os
import re
from dataclasses import dataclass, field

from program import ROOT, read, want

IMPORT = re.compile(r"use (Rattle(?:\.\w+)+)\.(?:\{([^}]*)\}|(\w+))")
# Where a definition of specs/ begins, and lines there that are none.
DEFINITION = re.compile(r"(?:(?:abbrev|unfoldable|pub|record|data) )*(\S+)")
NO_DEFINITION = re.compile(r"(?:(?:unfoldable|pub) )*(?:use|mod|open) ")
# What a source has that is no code: comments, texts and characters. A comment within one is told as /* alone.
NO_CODE = re.compile(
    r"""//[^\n]*|/\*(?:(?!/\*).)*?\*/|/\*|\bb?r(#*)".*?"\1|b?"(?:\\.|[^"\\])*"|b?'(?:\\.[^']*|[^'\\\n])'""", re.S
)
CLAUSE = re.compile(r"\b(requires|ensures)(\s+\w+)?\s*$")
ATTRIBUTES = r"(?:#\[[^]]*\]\s*)*"
CLOSED = {"(": ")", "[": "]", "{": "}"}


@dataclass(frozen=True, order=True)
class Word:
    """A definition: its module, as Rattle.gtfs_rows.specs.Departures, and its name."""

    module: str
    name: str

    def __str__(self):
        return f"{self.name} of {self.module.removeprefix('Rattle.')}"


@dataclass
class Module:
    """A file of specs/: what it imports, by the names that it uses, and the text of each of its definitions."""

    imports: dict
    definitions: dict = field(default_factory=dict)


@dataclass
class Item:
    """An item of a source: what stands before its body, its clauses, its body, and those clauses that it requires, with their labels."""

    head: str
    clauses: list
    body: str
    required: list


@dataclass
class Clause:
    """A clause: the public function or type that it is of, its text, and what is imported where it stands."""

    of: str
    text: str
    imports: dict


def source(path):
    return read(path).decode("utf-8")


def imports_of(text):
    """What the `use` lines of a text import: the name that a word has there, and the word."""
    for module, names, single in IMPORT.findall(text):
        for item in (names or single).split(","):
            parts = item.split()
            if parts:
                yield parts[-1], Word(module, parts[0])


# ---- definitions


def is_own(module):
    """Whether someone wrote the module in this repository. Those of specs.declared are the types of the code."""
    _, crate, *parts = module.split(".")
    return crate.startswith("gtfs_") and parts[:1] == ["specs"] and parts[1:2] != ["declared"]


def path_of(module):
    _, crate, _, *parts = module.split(".")
    return os.path.join(ROOT, "crates", crate, "specs", *parts) + ".antt"


def module_of_text(text):
    lines = [re.sub(r"(^|\s)--.*", "", line) for line in text.splitlines()]
    module, current = Module(dict(imports_of("\n".join(lines)))), None
    for line in lines:
        if line and not line[0].isspace():
            current = None if NO_DEFINITION.match(line) else DEFINITION.match(line)[1]
        if current:
            module.definitions[current] = module.definitions.get(current, "") + line + "\n"
    return module


@functools.cache
def module_of(name):
    """The module of a name, with no definition where there is no such file."""
    return module_of_text(source(path_of(name))) if os.path.isfile(path_of(name)) else Module({})


def origin(word):
    """Where a word is defined that a module may only hand on, or None."""
    if not is_own(word.module):
        return None
    module = module_of(word.module)
    if word.name in module.definitions:
        return word
    return origin(module.imports[word.name]) if word.name in module.imports else None


def words_in(text, imports):
    """The own words that a text names, each once. The name of a field is no word."""
    named = [imports[name] for name in re.findall(r"(?<![.\w])[^\W\d]\w*", text) if name in imports]
    return list(dict.fromkeys(word for word in map(origin, named) if word))


def words_of(word):
    """The words that the definition of a word names."""
    module = module_of(word.module)
    local = {name: Word(word.module, name) for name in module.definitions}
    return words_in(module.definitions[word.name], {**module.imports, **local})


def reached_from(words):
    """All words that some words stand on, themselves too."""
    seen, waiting = set(), list(words)
    while waiting:
        word = waiting.pop()
        if word not in seen:
            seen.add(word)
            waiting += words_of(word)
    return seen


# ---- clauses


def code_of(text):
    """A source with blanks in the place of comments, texts and characters."""
    return NO_CODE.sub(lambda found: re.sub("[^\n]", " ", found[0]), text)


def end_of(text, start):
    """The place of the bracket that closes the one at a place."""
    open_ones = []
    for place in range(start, len(text)):
        if text[place] in CLOSED:
            open_ones.append(CLOSED[text[place]])
        elif text[place] == open_ones[-1]:
            open_ones.pop()
            if not open_ones:
                return place
    want(False, f"a bracket is not closed: {text[start : start + 80]}")


def items_of(code):
    """The items of a source or of a body, one after another."""
    head, clauses, required, place = "", [], [], 0
    while place < len(code):
        end = end_of(code, place) if code[place] in CLOSED else place
        clause = CLAUSE.search(head) if code[place] == "{" else None
        if clause:
            clauses.append(code[place + 1 : end])
            required += [head[clause.start() :] + code[place : end + 1]] if clause[1] == "requires" else []
            head = head[: clause.start()]
        elif code[place] == ";" or (code[place] == "{" and not re.search(r"(\.|::|=)\s*$", head)):
            yield Item(head.strip(), clauses, code[place + 1 : end], required)
            head, clauses, required = "", [], []
        else:
            head += code[place : end + 1]
        place = end + 1


def imported_in(items):
    """What the ghost imports among some items import."""
    return dict(imports_of("\n".join(item.head for item in items if item.head.startswith("ghost use"))))


def names_handed_out(code):
    """The names of a crate's own that its front door hands out."""
    lines = re.findall(r"pub use (\w+)(?:::\w+)*::(?:\{([^}]*)\}|(\w+));", code)
    return {name for first, names, name in lines for name in re.findall(r"\w+", names or name) if not first.startswith("gtfs_")}


def handed_out(crate):
    return names_handed_out(code_of(source(os.path.join(ROOT, "crates", crate, "src", "lib.rt"))))


def type_of(head):
    """The type that an `impl` is of, or the whole where it has no name, and the trait, or None."""
    head = re.sub(r"^impl\s*(<(?:[^<>]|<[^<>]*>)*>)?", "", head).strip()
    parts = re.split(r"\bfor\b", head, maxsplit=1)
    *traits, named = [(re.search(r"(?<!')\b[A-Z]\w*", part) or [part.strip()])[0] for part in parts]
    return named, traits[0] if traits else None


def clauses_of_members(item, of, is_trait, imports):
    """The clauses of what a block holds: of public functions, and of a trait all functions and ghost members."""
    members = list(items_of(item.body))
    imports = {**imports, **imported_in(members)}
    for member in members:
        function = re.match(ATTRIBUTES + r"(pub )?(?:const )?fn (\w+)", member.head)
        if function and (function[1] or is_trait):
            yield from (Clause(f"{of}::{function[2]}", text, imports) for text in member.clauses)
        elif is_trait and re.match(r"ghost \w+ =", member.head):
            yield Clause(of, member.head.split("=", 1)[1], imports)


def clauses_of_text(text, names):
    """The clauses of a source that are of public functions, and of the traits of public types."""
    items = list(items_of(code_of(text)))
    imports = imported_in(items)
    for item in items:
        head = re.sub("^" + ATTRIBUTES, "", item.head)
        function = re.match(r"pub (?:const )?fn (\w+)", head)
        trait = re.match(r"pub trait (\w+)", head)
        if function and function[1] in names:
            yield from (Clause(function[1], text, imports) for text in item.clauses)
        elif trait and trait[1] in names:
            yield from clauses_of_members(item, trait[1], True, imports)
        elif re.match(r"impl\b", head) and type_of(head)[0] in names:
            yield from clauses_of_members(item, *type_of(head), imports)


def public_words(crate):
    """The words that the public clauses of a crate name, each with those that it is named by."""
    names, words = handed_out(crate), {}
    for path in sorted(glob.glob(os.path.join(ROOT, "crates", crate, "src", "**", "*.rt"), recursive=True)):
        for clause in clauses_of_text(source(path), names):
            for word in words_in(clause.text, clause.imports):
                words.setdefault(word, []).append(clause.of)
    return words
