"""The pages of the documentation as tests/docs reads them: fenced blocks, commands, links, headings, and paths that are named."""
import glob
import os
import re
from dataclasses import dataclass, field

from program import ROOT, read, want

# Blocks that are run, that are shown alone, and that are code.
KINDS = ["console", "sh", "text", "python", "rust"]
FENCE = re.compile(r"( *)(```+)(.*)")

# Folders whose files are named in the pages by paths from the root.
FOLDERS = ["tests", "tools", "dist", "docs", "crates", "bench", "examples", "python", ".ci"]
PLACE = re.compile("(?:%s)/.*" % "|".join(map(re.escape, FOLDERS)))


@dataclass
class Block:
    """A fenced block: what stands behind its fence, the number of its first line, and its lines."""

    kind: str
    number: int
    lines: list = field(default_factory=list)


@dataclass
class Command:
    """A command of a console block, the number of its line, and the lines that it has to print."""

    text: str
    number: int
    wanted: list = field(default_factory=list)


@dataclass
class Page:
    """A page by its path from the root. What stands outside of blocks is `prose`, in which their lines are empty."""

    name: str
    lines: list
    blocks: list
    prose: list

    def text(self):
        return "\n".join(self.prose)


def names_of_pages():
    """The paths of all pages that there are."""
    own = ["README.md", "CHANGELOG.md", "CONTRIBUTING.md", "dist/README.md"]
    below = glob.glob("docs/**/*.md", root_dir=ROOT, recursive=True)
    return [name for name in own if os.path.isfile(os.path.join(ROOT, name))] + sorted(below)


def page_of(name, text):
    """A page of a text."""
    lines = text.split("\n")
    page = Page(name, lines, [], [])
    block, margin, fence = None, "", ""
    for number, line in enumerate(lines, 1):
        found = FENCE.fullmatch(line)
        page.prose.append("" if block or found else line)
        if block and line.strip() == fence:
            block = None
        elif block:
            block.lines.append(line.removeprefix(margin))
        elif found:
            margin, fence, kind = found.groups()
            block = Block(kind.strip(), number + 1)
            page.blocks.append(block)
    want(block is None, f"{name}:{len(lines)}: a block has no end")
    return page


def read_page(name):
    return page_of(name, read(os.path.join(ROOT, name)).decode("utf-8"))


def commands_of(page):
    """The commands of all console blocks of a page, in order."""
    for block in page.blocks:
        if block.kind != "console":
            continue
        commands, continued = [], False
        for number, line in enumerate(block.lines, block.number):
            if continued:
                commands[-1].text += "\n" + line
            elif line.startswith("$ "):
                commands.append(Command(line[2:], number))
            else:
                want(commands, f"{page.name}:{number}: no command stands above this line")
                commands[-1].wanted.append(line)
            continued = line.endswith("\\") and (continued or line.startswith("$ "))
        want(commands, f"{page.name}:{block.number}: a console block without a command")
        yield from commands


def without_code(text):
    """A text in which what stands between backticks is blank, with its line ends."""
    return re.sub(r"(`+)(?!`)(.*?)(?<!`)\1(?!`)", lambda found: re.sub("[^\n]", " ", found[0]), text, flags=re.S)


def links_of(page):
    """Where the links of a page lead that lead to no other host, each with the number of its line."""
    text = without_code(page.text())
    for found in re.finditer(r"\]\(([^)]*)\)", text):
        if not re.match("[a-z]+:", found[1]):
            yield text.count("\n", 0, found.start(1)) + 1, found[1]


def anchors_of(page):
    """The anchors of a page's headings, as hosts of repositories make them."""
    anchors = []
    for line in page.prose:
        found = re.match("#+ +(.*?) *$", line)
        if found:
            words = re.sub(r"\[(.*?)\]\(.*?\)", r"\1", found[1])
            anchor = re.sub(r"[^\w\- ]", "", words.lower()).replace(" ", "-")
            earlier = sum(re.fullmatch(re.escape(anchor) + "(-[0-9]+)?", other) is not None for other in anchors)
            anchors.append(f"{anchor}-{earlier}" if earlier else anchor)
    return anchors


def code_of(page):
    """What stands between backticks in a page, each with the number of its line."""
    text = page.text()
    for found in re.finditer(r"(?<!`)`([^`]+)`(?!`)", text):
        yield text.count("\n", 0, found.start()) + 1, found[1]


def paths_of(page):
    """The paths that a page names between backticks, each with the number of its line, without what follows them."""
    for number, code in code_of(page):
        if code.startswith("gtfs: "):
            continue
        for word in re.split(r"[\s{}()\[\]]", code):
            if PLACE.fullmatch(word) and "/out/" not in word:
                yield number, word.rstrip("/,;:.").removesuffix("/..")


def is_there(path):
    """Whether the repository has an entry of a path, in which a word in capitals stands for any name."""
    parts = ["*" if re.fullmatch("[A-Z]{2,}", part) else part for part in path.split("/")]
    return bool(glob.glob("/".join(parts), root_dir=ROOT, recursive=True))
