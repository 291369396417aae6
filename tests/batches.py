"""Which wrong bodies are tried together, and what one check says of each: a check tells the goals of each function apart.

Edits of different functions can lie over one copy. One of them counts as refused where a goal of the very function that it changes is
refused. What is not plain counts for nothing here, and is tried alone.
"""
import collections
import functools
import re
from dataclasses import dataclass, field

from program import Failed, want
from spec_words import ATTRIBUTES, CLAUSE, CLOSED, code_of, end_of, type_of

# So many edits are tried together at most. Of more of them more would wait for a function that another one changes.
MOST = 12

PUBLIC = r"(?:pub(?:\([^)]*\))?\s+)?"
# A constant can have the value of a `const fn`, so the body of one counts beyond its contract.
FUNCTION = re.compile(ATTRIBUTES + PUBLIC + r"(?:(?:unsafe|final)\s+)*(?<!const )\bfn\s+(\w+)")
BLOCK = re.compile(rf"(?m)^{PUBLIC}(?:unsafe\s+)?((impl|trait)\b[^{{;]*){{")
LINE = re.compile(r"(?m)^(file|old|new): ?(.*)")

# Lines of a check: a goal that is open, and a fault of a file.
OPEN = re.compile(r"note: (?:\./)?(src/\S+?\.rt):(\d+):\d+: it is not proved that ")
WRONG = re.compile(r"(?:\./)?(\S+?):\d+:\d+: error\b(.*)")
PROOF = re.compile(r"proofs/(.+)/(?:Answers|Invariants|Proof)\.antt")
# What a fault of a proof says where a name is gone, or where it stands on what was refused itself. It says nothing of a contract.
LOST = re.compile(r"has no field|is not in scope|has no `|was not admitted|was not checked")
STALE = re.compile(r"Run the lower steps again")


@dataclass(frozen=True)
class Function:
    """A function with a body: its name, where its attributes begin, and where its body begins and ends."""

    name: str
    start: int
    body: int
    end: int


@dataclass
class Batch:
    """Edits that are tried together: the function of each, and the texts of the files that they change, with all of them."""

    functions: dict = field(default_factory=dict)
    texts: dict = field(default_factory=dict)


# ---- functions of a file


def name_of(folders):
    """The name of a function, of its folder in proofs/. A method goes by its type, whose module need not be the file of the method."""
    *folders, last = folders
    own = folders[-1:] if folders and folders[-1][0].isupper() else folders
    return "/".join([*own, last.removeprefix("+")])


def body_of(code, start):
    """Where the body begins of a function whose name ends at a place, or None where it has none."""
    place = start
    while place < len(code) and code[place] != ";":
        head = code[start:place]
        if code[place] == "{" and not CLAUSE.search(head) and not re.search(r"(\.|::|=)\s*$", head):
            return place
        place = end_of(code, place) + 1 if code[place] in CLOSED else place + 1
    return None


def owners_of(code):
    """Where each block of methods begins and ends, and the name that its proofs have: of the type, and the trait."""
    for block in BLOCK.finditer(code):
        head = re.sub(r"\bwhere\b.*", "", block[1], flags=re.S)
        named, trait = type_of(head) if block[2] == "impl" else (re.findall(r"\w+", head)[1], None)
        yield block.end(), end_of(code, block.end() - 1), named + (trait or "")


def module_of(path):
    parts = path.removeprefix("src/").removesuffix(".rt").split("/")
    return [] if parts in (["lib"], ["main"]) else parts


@functools.cache
def functions_of(path, text):
    """The functions of a file that have a body, one after another. What is within a body belongs to it."""
    code, found, end = code_of(text), [], 0
    owners = list(owners_of(code))
    for head in FUNCTION.finditer(code):
        body = body_of(code, head.end()) if head.start() >= end else None
        if body is not None:
            end = end_of(code, body) + 1
            owner = [name for first, last, name in owners if first < body < last]
            found.append(Function(name_of([*module_of(path), *owner, head[1]]), head.start(), body, end))
    return found


def function_at(path, text, start, end):
    """The name of the function whose body has all from one place to another, or None."""
    return next((it.name for it in functions_of(path, text) if it.body < start and end < it.end), None)


def function_of_line(path, text, line):
    """The name of the function that has a line, from its attributes on, or the line where none has it."""
    for function in functions_of(path, text):
        if text.count("\n", 0, function.start) < line <= text.count("\n", 0, function.end) + 1:
            return function.name
    return f"{path}:{line}"


# ---- groups


def pairs_of(edit):
    """What an edit replaces: of each pair the file, the old text and the new one."""
    path = old = None
    for word, text in LINE.findall(edit):
        if word == "file":
            path = text.strip()
        elif word == "old":
            old = text
        else:
            yield path, old, text


def replaced(path, text, old, new):
    """The name of the function whose body has the old text, and the file's text with the new one in its place."""
    want(text.count(old) == 1, f"found {text.count(old)} times and not once: {old}")
    start, after = text.index(old), text.replace(old, new)
    name = function_at(path, text, start, start + len(old))
    # (a new text could close the body)
    want(name and name == function_at(path, after, start, start + len(new)), f"it is not within one body: {old}")
    return name, after


def laid_over(texts, edit):
    """The name of the one function whose body an edit changes, and the texts of its files with it, or None twice."""
    changed, names = {}, set()
    try:
        for path, old, new in pairs_of(edit):
            name, changed[path] = replaced(path, changed.get(path) or texts[path], old, new)
            names.add(name)
    except (Failed, KeyError):
        return None, None
    return (names.pop(), changed) if len(names) == 1 else (None, None)


def put(batches, texts, name, edit, function):
    """Puts an edit into the first batch that has room and changes other functions, and over whose edits it changes the same function."""
    for batch in [*batches, Batch()]:
        if len(batch.functions) < MOST and function not in batch.functions.values():
            changes, changed = laid_over({**texts, **batch.texts}, edit)
            if changes == function:
                batch.functions[name] = function
                batch.texts.update(changed)
                return batches if batch in batches else [*batches, batch]
    return batches


def batches_of(texts, edits):
    """Groups edits, which are given by their names, over the texts of a crate. It leaves out what has to be tried alone."""
    counts = collections.Counter(it.name for path, text in texts.items() for it in functions_of(path, text))
    batches = []
    for name, edit in edits.items():
        function, _ = laid_over(texts, edit)
        if counts[function] == 1:
            batches = put(batches, texts, name, edit, function)
    return [batch for batch in batches if len(batch.functions) > 1]


# ---- what a check says


def function_of_proof(folder):
    """The name of the function that a folder of proofs/ is of. That of a closure stands below one of the name `fn`, and its function's."""
    before, closure, after = f"/{folder}".rpartition("/fn/")
    parts = [*before.split("/"), after.split("/")[0]] if closure else folder.split("/")
    return name_of([part for part in parts if part])


def refused_goals(said, texts):
    """The names of the functions of which a check refused a goal, and each line that tells a fault of something else."""
    for line in said.splitlines():
        goal, fault = OPEN.match(line), WRONG.match(line)
        if goal:
            yield function_of_line(goal[1], texts[goal[1]], int(goal[2])) if goal[1] in texts else line
        elif fault and not (fault[1].startswith("proofs/") and LOST.search(fault[2])):
            proof = PROOF.fullmatch(fault[1])
            yield function_of_proof(proof[1]) if proof else line


def refused_of(batch, texts, status, said):
    """The names of the edits that a check of the whole batch plainly refused, or None where what it says is not plain.

    It is not where a goal of a function is refused that no edit changes: then one function could be refused for another's body.
    """
    if status != 1 or not re.search("(?m)^logic=not-proved", said) or STALE.search(said):
        return None
    # (an edit leaves each line where it was)
    refused = set(refused_goals(said, texts))
    if not refused <= set(batch.functions.values()):
        return None
    return {name for name, function in batch.functions.items() if function in refused}


# ---- tests, over a crate and what checks of it could say

SHOP = "src/a/shop.rt"
TEXT = """\
/// A shop. It has no fn text(&self) { .. }
pub struct Shop {
    open: bool,
}

impl Shop {
    ghost view = { λ shop. shop.open };

    /// Opens.
    #[inline]
    pub fn open(&mut self) -> bool
        requires { self.old ≡ false }
        ensures now { result ≡ true }
    {
        let text = "} fn other() {"; // }
        self.open = true;
        one(2)
    }

    fn price(&self) -> u32 {
        1 + 1
    }
}

impl<T: Sold> Sale<T> for Shop
where
    T: Drop,
{
    fn price(&self) -> u32 {
        3
    }
}

trait Sold {
    fn is_sold(&self) -> bool
        ensures { result ≡ self.now };

    fn price(&self) -> u32 {
        4
    }
}

const LEAST: u32 = least();

const fn least() -> u32 {
    5
}

fn one(number: u32) -> u32
    requires { number < 9 }
{
    fn six() -> u32 { 6 }
    let add = |more| more + six();
    match number {
        7 => 8,
        it => add(it),
    }
}
"""
NAMES = ["Shop/open", "Shop/price", "ShopSale/price", "Sold/price", "a/shop/one"]
# The function that an edit changes, of its pairs of texts.
CHANGED = [
    ("Shop/open", ["self.open = true;", "self.open = false;"]),
    ("Shop/open", ["one(2)", "one(3)", "one(3)", "one(4)"]),
    ("Shop/price", ["1 + 1", "1 + 2"]),
    ("ShopSale/price", ["        3", "        5"]),
    ("Sold/price", ["        4", "        { 5 }"]),
    ("a/shop/one", ["more + six()", "more + 7"]),
    ("a/shop/one", ["7 => 8", "7 => 9"]),
    (None, ["7 => 8", "7 => 9", "one(2)", "one(3)"]),
    (None, ["        3", "3 } fn two() -> u32 { 4"]),
    (None, ["7 => 8", "7 => {"]),
    (None, ["result ≡ true", "result ≡ false"]),
    (None, ["number < 9", "number < 8"]),
    (None, ["pub fn open", "fn open"]),
    (None, ["#[inline]", "#[cold]"]),
    (None, ["open: bool", "open: u8"]),
    (None, ["u32 = least()", "u32 = 6"]),
    (None, ["    5", "    6"]),
    (None, ["impl Shop {", "impl Other {"]),
    (None, ["Opens.", "Closes."]),
    (None, ["add", "sum"]),
    (None, ["not there", "there"]),
]
# Which edits are tried together, of their pairs of texts.
GROUPS = [
    ([["a", "b"]], {"a": ["one(2)", "one(3)"], "b": ["1 + 1", "1 + 2"], "b again": ["1 + 1", "3"], "no function": ["    5", "    6"]}),
    ([["a", "b"], ["c", "d"]], {"a": ["one(2)", "one(3)"], "c": ["one(2)", "one(4)"], "b": ["1 + 1", "1"], "d": ["1 + 1", "2"]}),
    ([["a", "b"]], {"a": ["1 + 1", "7 => 8"], "text twice": ["7 => 8", "7 => 9"], "b": ["one(2)", "one(3)"]}),
    ([], {"a": ["more + six()", "more"], "same function": ["7 => 8", "7 => 9"]}),
    ([], {"a": ["1 + 1", "1 + 2"]}),
]
LAID = {"open.edit": ["one(2)", "one(3)"], "one.edit": ["7 => 8", "7 => 9"], "sold.edit": ["        4", "        5"]}
GOAL = "it is not proved that what the function ensures holds when it returns (`returns`)"
OTHERS = "fn a::shop::Shop::price: no proof: it calls `a::shop::one`, which is not proved"
# The edits of these that are refused, of lines of a check.
SAID = [
    ({"open.edit"}, [f"note: src/a/shop.rt:11:5: {GOAL}", OTHERS]),
    ({"open.edit"}, [f"note: ./src/a/shop.rt:10:5: {GOAL}; `search` gave up at one of its limits"]),
    ({"open.edit"}, [f"note: src/a/shop.rt:18:5: {GOAL}"]),
    ({"one.edit", "sold.edit"}, [f"note: src/a/shop.rt:39:9: {GOAL}", f"note: src/a/shop.rt:55:9: {GOAL}"]),
    ({"one.edit"}, ["./proofs/a/shop/one/Answers.antt:7:3: error: `returns`: the two types differ"]),
    ({"one.edit"}, ["proofs/a/shop/fn/one/add/Answers.antt:7:3: error: `returns`: the two types differ"]),
    ({"one.edit"}, ["proofs/a/shop/+one/Invariants.antt:7:3: error: `loop`: the two types differ"]),
    ({"open.edit"}, ["./proofs/where/it/is/Shop/open/Proof.antt:7:3: error: `returns`: the two types differ"]),
    ({"open.edit"}, ["proofs/where/it/is/Shop/fn/open/all/Answers.antt:7:3: error: `returns`: the two types differ"]),
    (set(), ["./proofs/a/shop/one/Answers.antt:7:3: error: `returns`: `c.one` is not in scope"]),
    (set(), ["./proofs/a/shop/one/Answers.antt:7:3: error: `returns`: `c` has no field `one`"]),
    (set(), ["./proofs/a/shop/one/Answers.antt:7:3: error: `goal` has no `returns`"]),
    (set(), ["./proofs/a/shop/one/Answers.antt:7:3: error: `returns` was not admitted"]),
    (set(), ["./proofs/a/shop/one/Answers.antt:7:3: error: 1 declaration that depends on `one`, which was rejected, was not checked"]),
    (set(), ["./proofs/a/shop/one/Answers.antt:7:3: note: large solution"]),
    (set(), ["note: `returns` of proofs/a/shop/one/Answers.antt must prove: 1 ≡ 2", "fn a::shop::one: not proved", OTHERS]),
    (None, [f"note: src/a/shop.rt:55:9: {GOAL}", f"note: src/a/shop.rt:20:5: {GOAL}"]),
    (None, [f"note: src/a/shop.rt:55:9: {GOAL}", "./proofs/Lemmas.antt:7:3: error: `lemma`: the two types differ"]),
    (None, [f"note: src/a/shop.rt:55:9: {GOAL}", f"note: src/a/shop.rt:43:1: {GOAL}"]),
    (None, [f"note: src/a/shop.rt:55:9: {GOAL}", f"note: src/a/shop.rt:45:1: {GOAL}"]),
    (None, [f"note: src/a/shop.rt:55:9: {GOAL}", f"note: src/b.rt:50:9: {GOAL}"]),
    (None, [f"note: src/a/shop.rt:55:9: {GOAL}", "src/a/shop.rt:17:9: error: `three` is not in scope"]),
    (None, [f"note: src/a/shop.rt:55:9: {GOAL}", "src/a/shop.rt:17:9: error[mismatched-types]: expected u32"]),
    (None, [f"note: src/a/shop.rt:55:9: {GOAL}", "specs/A.antt:7:3: error: `is_sold`: the two types differ"]),
    (None, [f"note: src/a/shop.rt:55:9: {GOAL}", "module `Rattle-gtfs_a` is stale. Run the lower steps again"]),
]


def edit_of(texts):
    return f"file: {SHOP}\n" + "".join(f"{word}: {text}\n" for word, text in zip(["old", "new"] * len(texts), texts))


def groups_of(texts, edits):
    return [list(batch.functions) for batch in batches_of(texts, {name: edit_of(pairs) for name, pairs in edits.items()})]


def test_functions():
    """The functions of the crate are told apart, and which of them an edit changes."""
    names = [it.name for it in functions_of(SHOP, TEXT)]
    want(names == NAMES, f"the functions are others: {names}")
    for name, texts in CHANGED:
        changes, _ = laid_over({SHOP: TEXT}, edit_of(texts))
        want(changes == name, f"the edit {texts} changes {changes} and not {name}")
    want(module_of("src/lib.rt") == [] and module_of("src/a/lib.rt") == ["a", "lib"], "modules have other names")


def test_groups():
    """The edits of the crate are tried together, or are not, as they should be."""
    for groups, edits in GROUPS:
        found = groups_of({SHOP: TEXT}, edits)
        want(found == groups, f"the edits {edits} are tried as {found} and not as {groups}")
    # (two functions of one name are not told apart by the names of their proofs)
    found = groups_of({SHOP: TEXT, "src/b.rt": "impl Shop {\n    fn price() {}\n}\n"}, GROUPS[0][1])
    want(found == [], f"an edit of a function whose name another one has is tried as {found}")
    many = {SHOP: "".join(f"fn f{number}() -> u32 {{\n    {number + 100}\n}}\n" for number in range(MOST + 2))}
    found = groups_of(many, {str(number): [f" {number + 100}", " 7"] for number in range(MOST + 2)})
    want([len(group) for group in found] == [MOST, 2], f"many edits are tried as {found}")


def test_said():
    """Of what checks say, what is plain counts, and nothing else."""
    texts = {SHOP: TEXT}
    [batch] = batches_of(texts, {name: edit_of(pairs) for name, pairs in LAID.items()})
    for refused, lines in SAID:
        found = refused_of(batch, texts, 1, "\n".join([*lines, "logic=not-proved", ""]))
        want(found == refused, f"the edits {found} are refused, and not {refused}, where a check says {lines}")
    (_, lines), *_ = SAID
    for status, last in ((0, "logic=proved"), (1, "rt: it stopped"), (3, "logic=not-proved"), (-9, "")):
        want(refused_of(batch, texts, status, "\n".join([*lines, last])) is None, f"status {status} and {last} are a verdict")


def test_batches():
    test_functions()
    test_groups()
    test_said()
