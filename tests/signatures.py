"""What a library hands out, as text: public functions with what they require, types with their public fields, variants and derives,
traits, and what is implemented for them. Bodies, comments, private items and what contracts ensure are left out.
"""
import glob
import os
import re
from dataclasses import dataclass, field

from program import ROOT, want
from spec_words import ATTRIBUTES, code_of, items_of, names_handed_out, source, type_of

FRONT = "lib"
DEFINITION = re.compile(r"pub (?:const |unsafe )?(fn|struct|enum|trait|const|static|type) (\w+)")
MEMBER = re.compile(r"(?:const |unsafe )?(fn|const|type) (\w+)")
MODULE = re.compile(r"(?m)^(pub )?mod (\w+);")
IMPORT = re.compile(r"(?:pub(?:\(crate\))? )?use ([\w:]+?)(?:::\{(.*)\})?(?: as (\w+))?", re.S)
# What no user of a library sees.
HIDDEN_ATTRIBUTES = re.compile(r"#!?\[(?:inline|tactic|error|doc|allow|expect|cold)\b[^]]*\]\s*")
# A trait of contracts alone.
HIDDEN_TRAITS = {"Model"}


@dataclass
class Surface:
    """What a crate hands out: names of other crates, its definitions by name, what is implemented for a type, and what names mean."""

    handed_on: set = field(default_factory=set)
    definitions: dict = field(default_factory=dict)
    implemented: dict = field(default_factory=dict)
    meanings: set = field(default_factory=set)


@dataclass
class Scope:
    """What is known of the crate where an item stands: the names that are handed out, its own traits, and its public module, if any."""

    names: set
    own_traits: set
    module: str = ""


def plain(text):
    """A signature on one line, however it is laid out."""
    text = " ".join(HIDDEN_ATTRIBUTES.sub("", text).split())
    return re.sub(r",? ?(?<!-)([)\]>])", r"\1", re.sub(r"([(\[<]) ", r"\1", text))


def without_attributes(head):
    return re.sub("^" + ATTRIBUTES, "", HIDDEN_ATTRIBUTES.sub("", head))


def parts_of(text):
    """The parts of a list between its commas."""
    parts, depth, before = [""], 0, ""
    for character in text:
        depth += (character in "([{<") - (character in ")]}>" and before + character != "->")
        before = character
        if character == "," and depth == 0:
            parts.append("")
        else:
            parts[-1] += character
    return [part.strip() for part in parts if part.strip()]


def imports_in(head):
    """What a `use` line imports: the name that it has in the file, and its path."""
    found = IMPORT.fullmatch(without_attributes(head))
    for part in parts_of(found[2]) if found and found[2] else []:
        path, _, name = part.partition(" as ")
        yield name or path.split("::")[-1], f"{found[1]}::{path}"
    if found and not found[2]:
        yield found[3] or found[1].split("::")[-1], found[1]


# ---- definitions


def is_public(text):
    return without_attributes(text).startswith("pub ")


def fields_of(text):
    """The public fields of a record, and a mark where it has others."""
    fields = parts_of(text)
    public = [plain(it) for it in fields if is_public(it)]
    return public + [".."] * (len(public) < len(fields))


def with_public_fields(head):
    """The head of a record whose fields have no names, with a mark in the place of each that is not public."""
    found = re.fullmatch(r"(.*?\bstruct \w+(?:<[^(]*>)?)\s*\((.*)\)(.*)", head, re.S)
    if not found:
        return head
    fields = [plain(it) if is_public(it) else "_" for it in parts_of(found[2])]
    return f"{found[1]}({', '.join(fields)}){found[3]}"


def required_of(item):
    return [" ".join(clause.split()) for clause in item.required]


def member_lines(member):
    """The lines of a function, a constant or a type of a block. A body stands for one that a trait gives."""
    return [plain(member.head), *(f"    {line}" for line in required_of(member))]


def members_of_trait(item):
    lines = []
    for member in items_of(item.body):
        if MEMBER.match(without_attributes(member.head)):
            first, *below = member_lines(member)
            lines += [first + " { .. }" * bool(member.body.strip()), *below]
    return lines


def lines_of_definition(item, kind):
    """The first line of a definition, and those below it."""
    if kind == "struct":
        return [plain(with_public_fields(item.head)), *fields_of(item.body)]
    if kind == "enum":
        return [plain(item.head), *map(plain, parts_of(item.body))]
    if kind == "trait":
        return [plain(item.head), *members_of_trait(item)]
    return [plain(item.head), *required_of(item)]


# ---- what is implemented


def members_of_impl(item, is_trait):
    """The lines of each member that an `impl` adds: public functions and constants, and of a trait types and constants alone."""
    members = {}
    for member in items_of(item.body):
        head = without_attributes(member.head)
        found = MEMBER.match(head.removeprefix("pub "))
        want(found or is_trait or not is_public(head), f"this is not understood: {plain(head)}")
        if found and (found[1] != "fn" if is_trait else is_public(head)):
            members[found[2]] = member_lines(member)
    return members


def joined(members):
    return [line for name in sorted(members) for line in members[name]]


def is_seen(named, trait, scope):
    """Whether a user sees what is implemented: of a type that is handed out, or by a trait that is, and by no hidden trait."""
    if trait in HIDDEN_TRAITS or (trait in scope.own_traits and trait not in scope.names):
        return False
    return named in scope.names or (trait in scope.own_traits and trait in scope.names)


def read_definition(surface, item, kind, name, scope):
    """Takes down a definition, and gives its lines."""
    first, *below = lines_of_definition(item, kind)
    key = f"{scope.module}::{name}".removeprefix("::")
    want(key not in surface.definitions, f"{key} is defined twice")
    surface.definitions[key] = [f"in {scope.module}: {first}" if scope.module else first, *below]
    return [first, *below]


def read_impl(surface, item, scope):
    """Takes down what is implemented where a user sees it, and gives its lines. A block without public members says nothing."""
    named, trait = type_of(without_attributes(item.head))
    members = members_of_impl(item, bool(trait)) if is_seen(named, trait, scope) else {}
    if not members and not (trait and is_seen(named, trait, scope)):
        return []
    surface.implemented.setdefault((named, plain(item.head)), {}).update(members)
    return [plain(item.head), *joined(members)]


def read_item(surface, item, scope):
    """Takes down an item, where it is handed out, and gives its lines."""
    head = without_attributes(item.head)
    definition = DEFINITION.match(head)
    if definition and definition[2] in scope.names:
        return read_definition(surface, item, definition[1], definition[2], scope)
    return read_impl(surface, item, scope) if re.match(r"(?:unsafe )?impl\b", head) else []


# ---- crates


def own_traits_of(codes):
    return {name for code in codes for name in re.findall(r"(?m)^(?:pub(?:\([^)]*\))? )?trait (\w+)", code)}


def defined_in(code):
    """The names of all public definitions of a file."""
    found = (DEFINITION.match(without_attributes(item.head)) for item in items_of(code))
    return {it[2] for it in found if it}


def meanings_in(items, lines):
    """What the names in some lines mean, as far as their file imports them from other crates."""
    imports = dict(pair for item in items for pair in imports_in(item.head))
    used = set(re.findall(r"\w+", "\n".join(lines)))
    return {f"{name} is {path}" for name, path in imports.items() if name in used and not re.match("(crate|self|super)::", path)}


def public_imports(code):
    """What the `pub use` lines of a file hand on: each name and its path."""
    for item in items_of(code):
        if without_attributes(item.head).startswith("pub use "):
            found = list(imports_in(item.head))
            want(found, f"this is not understood: {plain(item.head)}")
            yield from found


def handed_on(front, names):
    """The names of other crates that a front door hands on."""
    own = {name for _, name in MODULE.findall(front)}
    for name, path in public_imports(front):
        first, *_, last = path.split("::")
        if first not in own:
            yield f"pub use {path}" + f" as {name}" * (last != name)
        else:
            want(name in names and name == last, f"this is not understood: pub use {path} as {name}")


def surface_of_codes(codes):
    """What a library hands out, of its code by the paths of its modules."""
    front = codes[FRONT]
    names, own_traits = names_handed_out(front) | defined_in(front), own_traits_of(codes.values())
    public = {name for is_public_one, name in MODULE.findall(front) if is_public_one}
    surface = Surface(set(handed_on(front, names)))
    for module, code in codes.items():
        want(module not in public or not list(public_imports(code)), f"the public module {module} hands on names, which is not understood")
        scope = Scope(defined_in(code), own_traits, module) if module in public else Scope(names, own_traits)
        items = list(items_of(code))
        surface.meanings |= meanings_in(items, [line for item in items for line in read_item(surface, item, scope)])
    lost = sorted(name for name in names if name not in surface.definitions)
    want(not lost, f"no definition was found of what the front door hands out: {', '.join(lost)}")
    return surface


def codes_of(crate):
    """The code of a crate, by the paths of its modules."""
    folder = os.path.join(ROOT, "crates", crate, "src")
    paths = sorted(glob.glob("**/*.rt", root_dir=folder, recursive=True))
    return {path[: -len(".rt")].replace(os.sep, "::"): code_of(source(os.path.join(folder, path))) for path in paths}


def lines_of(surface):
    """The lines of what a library hands out, in an order that does not depend on where it stands."""
    yield from sorted(surface.handed_on)
    implemented = sorted(surface.implemented.items())
    for name in sorted(surface.definitions):
        first, *below = surface.definitions[name]
        yield from ("", first, *(f"    {line}" for line in below))
        for (named, head), members in implemented:
            if named == name:
                yield from (head, *(f"    {line}" for line in joined(members)))
    yield ""
    yield from (head for (named, head), _ in implemented if named not in surface.definitions)
    yield from sorted(surface.meanings)


def signatures_of(codes):
    """What a library hands out, as one text."""
    return "\n".join(lines_of(surface_of_codes(codes))).strip("\n") + "\n"
