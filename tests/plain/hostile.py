"""Changes of bytes: of the files of feeds, of zone files and of words. Each byte may change, be lost, come twice or move."""
import os

# Bytes that mean something in a feed, a zone file or words, and some that never should be there.
BYTES = [
    b"\0", b"\1", b"\2", b"\x04", b"\x7f", b"\x80", b"\xc3", b"\xff", b"\t", b"\n", b"\r", b"\r\n", b" ", b",", b",,", b'"', b'""',
    b"-", b"+", b".", b"/", b":", b"@", b"<", b">", b"=", b"0", b"1", b"5", b"9", b"99", b"A", b"M", b"T", b"t", b"x",
    b"\xef\xbb\xbf", b"\xc2\xa0", b"\xe2\x80\xa8", b"\xf0\x9f\x9a\x8b",
]


def places(random, length):
    """Two places of a text, in order, near each other in most draws."""
    first = random.randint(0, length)
    last = first + random.choice([1, 1, 2, 4, 8, 44, length])
    return first, min(last, length)


def changed(random, held):
    """Some bytes in place of others, or between them."""
    at = random.randint(0, len(held))
    return held[:at] + random.choice(BYTES) + held[at + random.choice([0, 1, 1, 1]):]


def turned(random, held):
    """A bit of a byte turned."""
    if not held:
        return held
    at = random.randrange(len(held))
    return held[:at] + bytes([held[at] ^ 1 << random.randrange(8)]) + held[at + 1:]


def cut(random, held):
    """The beginning alone, or all but a part."""
    first, last = places(random, len(held))
    return held[:first] if random.random() < 0.5 else held[:first] + held[last:]


def doubled(random, held):
    """A part twice, or some hundred times."""
    first, last = places(random, len(held))
    return held[:first] + held[first:last] * random.choice([2, 2, 2, 3, 300]) + held[last:]


def swapped(random, held):
    """Two parts that change places."""
    first, second, third, fourth = sorted(random.randint(0, len(held)) for _ in range(4))
    return held[:first] + held[third:fourth] + held[second:third] + held[first:second] + held[fourth:]


WAYS = [changed, changed, changed, turned, turned, cut, doubled, swapped]


def hostile(random, held):
    """The bytes after some changes."""
    for _ in range(random.choice([1, 1, 1, 2, 3])):
        held = random.choice(WAYS)(random, held)
    return held


def lines_swapped(random, held):
    """Two lines that change places, or one that comes twice."""
    lines = held.splitlines(keepends=True)
    if lines:
        at, other = random.randrange(len(lines)), random.randrange(len(lines))
        lines[at], lines[other] = lines[other], lines[at] if random.random() < 0.6 else lines[other]
    return b"".join(lines)


def files_below(folder):
    """The paths of all files below a folder, in the order of their bytes."""
    return sorted(os.path.join(above, name) for above, _, names in os.walk(folder) for name in names)


def change_file(random, path, ways):
    with open(path, "rb") as file:
        held = file.read()
    with open(path, "wb") as file:
        file.write(random.choice(ways)(random, held))


def change_files(random):
    """Changes one or two files of the folder where this runs, or has two change places."""
    paths = [path for path in files_below(".") if not path.startswith("./zones/")]
    for _ in range(random.choice([1, 1, 2])):
        change_file(random, random.choice(paths), [hostile, hostile, hostile, lines_swapped])
    if random.random() < 0.05:
        path, other = random.choice(paths), random.choice(paths)
        os.rename(path, "other")
        if path != other:
            os.rename(other, path)
        os.rename("other", other)


def change_zone(random):
    change_file(random, os.path.join("zones", "z"), [hostile])


def change_requests(random, name):
    change_file(random, name, [hostile, hostile, lines_swapped])


def change_words(random, words):
    """Words of which one is changed, lost, doubled or moved."""
    words = list(words)
    form = random.random()
    at = random.randrange(len(words))
    if form < 0.7:
        held = hostile(random, words[at].encode("utf-8", "surrogateescape")).replace(b"\0", b"0")
        # (a merge writes, and has to stay in the folder of its case)
        held = held.replace(b"..", b"00").lstrip(b"/")
        words[at] = held.decode("utf-8", "surrogateescape")
    elif form < 0.8:
        words.pop(at)
    elif form < 0.9:
        words.insert(random.randint(0, len(words)), words[at])
    else:
        words.insert(random.randrange(len(words)), words.pop(at))
    return words


def change_case(random, words):
    """Changes the files of a case, its zone file, its requests or its words, and gives the words."""
    form = random.random()
    if form < 0.2:
        return change_words(random, words)
    for name in ("requests", "input"):
        if os.path.exists(name) and random.random() < 0.6:
            change_requests(random, name)
            return words
    if form < 0.5 and os.path.exists(os.path.join("zones", "z")):
        change_zone(random)
    else:
        change_files(random)
    return words
