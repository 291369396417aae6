"""Zone files that are made: with a rule at the end, with transitions before it, and with bytes that are none."""
import struct

# Rules as they stand at the end of a zone file, and the offset of their standard time.
RULES = [
    ("UTC0", 0),
    ("CET-1CEST,M3.5.0,M10.5.0/3", 3600),
    ("EST5EDT,M3.2.0,M11.1.0", -18000),
    ("<+1030>-10:30<+11>-11,M10.1.0,M4.1.0", 37800),
    ("IST-1GMT0,M10.5.0,M3.5.0/1", 3600),
    ("<-02>2<-01>,M3.5.0/-1,M10.5.0/0", -7200),
    ("<+14>-14", 50400),
    ("XXX3YYY,J60,J300", -10800),
    ("LMT0:44:30", -2670),
]


# Offsets of zones whose clocks change once and again.
OFFSETS = [-36000, -18000, -3600, 0, 3600, 7200, 19800, 20700, 50400, 37800]

# Offsets a day and more from each other: a date is skipped or comes twice, or a service day begins before the day before it.
LEAPS = [
    [-36000, 50400], [-43200, 43200], [-39600, 46800], [-50400, 50400], [-43200, 57600], [-72000, 72000], [50400, -36000],
    [72000, -72000], [-86399, 86340, 0],
]


def header(times, types, names):
    return struct.pack(">4sc15x6l", b"TZif", b"2", 0, 0, 0, times, types, names)


def zone_file(offsets, transitions, rule):
    """The bytes of a file whose types have these offsets. The transitions are instants, each to the type of a place."""
    names, kinds = b"", b""
    for offset in offsets:
        kinds += struct.pack(">lBB", offset, 0, len(names))
        names += named(offset).encode() + b"\0"
    first = header(0, 1, 4) + struct.pack(">lBB", 0, 0, 0) + b"UTC\0"
    second = header(len(transitions), len(offsets), len(names))
    second += b"".join(struct.pack(">q", at) for at, _ in transitions) + bytes(place for _, place in transitions)
    return first + second + kinds + names + b"\n" + rule.encode() + b"\n"


def named(offset):
    hours, seconds = divmod(abs(offset), 3600)
    return f"{'-' if offset < 0 else '+'}{hours:02}{seconds // 60:02}"


def make_zone(random, near):
    """A zone file, with transitions near the instant if it has some."""
    if random.random() < 0.45:
        rule, standard = random.choice(RULES)
        return zone_file([standard], [], rule)
    offsets = random.choice(LEAPS) if random.random() < 0.7 else random.sample(OFFSETS, random.randint(2, 4))
    furthest = random.choice([1, 1, 2, 20])
    instants = sorted(near + random.randint(-furthest, furthest) * 86_400 + random.randint(0, 86_399) for _ in offsets[1:])
    spread = [at + 3 * 86_400 * place for place, at in enumerate(instants)]
    transitions = list(zip(spread, range(1, len(offsets))))
    last = named(offsets[-1])
    turned = ("-" if offsets[-1] > 0 else "") + last[1:3] + (":" + last[3:] if last[3:] != "00" else "")
    return zone_file(offsets, transitions, f"<{last}>{turned}")


def no_zone(random):
    """Bytes that are no zone file."""
    whole = zone_file([0], [], "UTC0")
    cut = whole[: random.randint(1, 90)]
    return random.choice([b"", b"TZif", cut, b"X" + whole[1:], whole[:-3] + b"!!\n", b"\n" * 200])
