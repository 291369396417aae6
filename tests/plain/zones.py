"""Time zones, read from the bytes of a zone file (TZif, RFC 9636), with the rule at its end (POSIX.1, TZ).

Instants are seconds since 1970-01-01T00:00:00Z; a local clock is such a number too, as if it were that of UTC.
"""
import bisect
import datetime
import re
import struct
from dataclasses import dataclass

DAY = 86_400
EPOCH = datetime.date(1970, 1, 1)
GREATEST_FILE = 1_048_576

HEADER = struct.Struct(">4sc15x6L")

# The greatest offset from UTC, either way, and the longest name of one.
GREATEST_OFFSET = 93_599
LONGEST_NAME = 15

# Instants outside of these lie in no year of Python's.
FIRST_INSTANT, LAST_INSTANT = -62_100_000_000, 253_402_000_000

SIXTY = "[0-5][0-9]"
NAME = rf"([A-Za-z]{{3,{LONGEST_NAME}}}|<[A-Za-z0-9+-]{{3,{LONGEST_NAME}}}>)"
OFFSET = rf"([+-]?(?:[0-9]|[01][0-9]|2[0-4])(?::{SIXTY}(?::{SIXTY})?)?)"
TIME = rf"([+-]?(?:[0-9]{{1,2}}|0[0-9]{{2}}|1[0-5][0-9]|16[0-7])(?::{SIXTY}(?::{SIXTY})?)?)"
DAY_OF_YEAR = "[0-9]{1,2}|[0-2][0-9]{2}|3[0-5][0-9]|36[0-5]"
DATE = rf"(J(?!0{{1,3}}(?![0-9]))(?:{DAY_OF_YEAR})|M(?:[1-9]|0[1-9]|1[0-2])\.[1-5]\.[0-6]|{DAY_OF_YEAR})"
CHANGE = rf"{DATE}(?:/{TIME})?"
RULE = re.compile(rf"{NAME}{OFFSET}(?:{NAME}{OFFSET}?,{CHANGE},{CHANGE})?", re.ASCII)


class NoZone(Exception):
    """The bytes are no zone file."""


class Odd(Exception):
    """A zone file of which these pages do not say what it means: its clocks change too often, or in years far away."""


def seconds_of(text):
    """The seconds of a signed time of the rule, as `-1:30`."""
    parts = [int(part) for part in text.lstrip("+-").split(":")] + [0, 0]
    seconds = parts[0] * 3600 + parts[1] * 60 + parts[2]
    return -seconds if text.startswith("-") else seconds


def midnight(date):
    return (date - EPOCH).days * DAY


def years_near(local):
    """The year of a local clock, and those before and after it."""
    year = (EPOCH + datetime.timedelta(local // DAY)).year
    return [near for near in (year - 1, year, year + 1) if 1 <= near <= 9999]


def date_in(year, day):
    """The date that a rule names in a year: `Mm.w.d`, `Jn` without 29 February, or `n` from 0."""
    if day.startswith("M"):
        month, week, weekday = (int(part) for part in day[1:].split("."))
        first = datetime.date(year, month, 1)
        date = first + datetime.timedelta((weekday - first.isoweekday()) % 7 + 7 * (week - 1))
        return date if date.month == month else date - datetime.timedelta(7)
    if day.startswith("J"):
        date = datetime.date(2001, 1, 1) + datetime.timedelta(int(day[1:]) - 1)
        return date.replace(year=year)
    return datetime.date(year, 1, 1) + datetime.timedelta(int(day))


class Rule:
    """The rule at the end of a zone file: an offset, and another one for a part of each year, if any."""

    def __init__(self, text):
        found = RULE.fullmatch(text)
        if not found:
            raise NoZone
        name, standard, summer_name, summer, start, start_time, end, end_time = found.groups()
        self.names = {False: name.strip("<>"), True: (summer_name or "").strip("<>")}
        self.standard = -seconds_of(standard)
        self.summer = None
        if start:
            self.summer = -seconds_of(summer) if summer else self.standard + 3600
            self.start = start, seconds_of(start_time or "2")
            self.end = end, seconds_of(end_time or "2")

    def offsets(self):
        return {self.standard} if self.summer is None else {self.standard, self.summer}

    def changes(self, year):
        """The changes of a year: the instant from which on each offset holds."""
        if self.summer is None:
            return []
        starts = midnight(date_in(year, self.start[0])) + self.start[1] - self.standard
        ends = midnight(date_in(year, self.end[0])) + self.end[1] - self.summer
        return [(starts, self.summer), (ends, self.standard)]

    def offset(self, instant):
        changes = sorted(change for year in years_near(instant + self.standard) for change in self.changes(year))
        past = [offset for at, offset in changes if at <= instant]
        return past[-1] if past else self.standard

    def kind(self, instant):
        """The offset at an instant, whether it is that of summer time, and its name."""
        offset = self.offset(instant)
        is_summer = offset != self.standard
        return offset, is_summer, self.names[is_summer]

    def is_odd(self):
        """Whether some changes lie near each other or near the end of a year, or change nothing."""
        if self.summer is None:
            return False
        found = [self.changes(year) for year in (2011, 2012)]
        ends = [(midnight(datetime.date(year, 1, 1)), None) for year in (2011, 2012, 2013)]
        return self.summer == self.standard or are_near(sorted(at for at, _ in [*found[0], *found[1], *ends]))


def are_near(instants):
    return any(later - at < 8 * DAY for at, later in zip(instants, instants[1:]))


@dataclass
class Zone:
    """The offset before the first transition, the transitions as instants and offsets, and the rule after the last."""

    first: int
    transitions: list
    rule: Rule

    def __post_init__(self):
        self.instants = [at for at, offset in self.transitions]

    def offset(self, instant):
        at = bisect.bisect_right(self.instants, instant)
        if at == len(self.instants) and self.rule:
            return self.rule.offset(instant)
        return self.transitions[at - 1][1] if at else self.first

    def changes_near(self, local):
        """The instants near a local clock at which the offset may change."""
        ruled = [at for year in years_near(local) if self.rule for at, offset in self.rule.changes(year)]
        return [at for at in [*self.instants, *ruled] if abs(at - local) < 4 * DAY]

    def instant(self, local):
        """The instant of a local clock: the earlier of two, and where it is skipped that of the offset before the gap."""
        offsets = {self.first, *(offset for at, offset in self.transitions)}
        if self.rule:
            offsets |= self.rule.offsets()
        shown = [local - offset for offset in offsets if self.offset(local - offset) == offset]
        if shown:
            return min(shown)
        gaps = [at for at in self.changes_near(local) if at + self.offset(at - 1) <= local < at + self.offset(at)]
        return local - self.offset(min(gaps) - 1)

    def origin(self, date):
        """Where the times of a service day count from: its noon less twelve hours."""
        return self.instant(midnight(date) + DAY // 2) - DAY // 2

    def clock(self, instant):
        """The local date and time at an instant, with the offset from UTC."""
        offset = self.offset(instant)
        days, seconds = divmod(instant + offset, DAY)
        date = EPOCH + datetime.timedelta(days)
        ahead = abs(offset)
        sign = "-" if offset < 0 else "+"
        told = f"{sign}{ahead // 3600:02}:{ahead // 60 % 60:02}" + (f":{ahead % 60:02}" if ahead % 60 else "")
        time = f"{seconds // 3600:02}:{seconds // 60 % 60:02}:{seconds % 60:02}"
        return f"{date.year:04}-{date.month:02}-{date.day:02} {time}{told}"


@dataclass
class Block:
    """The data behind a header: what the file says of its transitions and of the kinds of local time."""

    version: bytes
    instants: tuple
    places: bytes
    types: bytes
    names: bytes
    standard: bytes
    ut: bytes

    def kinds(self):
        """The kinds of local time: offset, whether it is summer time, and name."""
        return [self.kind(*kind) for kind in struct.iter_unpack(">lBB", self.types)]

    def kind(self, offset, summer, at):
        end = self.names.find(b"\0", at)
        if abs(offset) > GREATEST_OFFSET or at > len(self.names) or not 0 <= end - at <= LONGEST_NAME:
            raise NoZone
        try:
            return offset, summer == 1, self.names[at:end].decode("utf-8")
        except UnicodeDecodeError:
            raise NoZone from None

    def are_indicators_right(self):
        """Whether the indicators are 0 or 1, and no time is in UT that is not standard time."""
        standard = self.standard or bytes(len(self.ut))
        ut = self.ut or bytes(len(standard))
        return all(one <= 1 and other <= one for one, other in zip(standard, ut))


def read_block(data, at, width):
    """A header and its data, and the place after it."""
    magic, version, ut, standard, leaps, times, types, names = HEADER.unpack_from(data, at)
    counts_fit = 1 <= types <= 256 and names and ut in (0, types) and standard in (0, types)
    if magic != b"TZif" or not counts_fit:
        raise NoZone
    at += HEADER.size
    parts = []
    for length in (width * times, times, 6 * types, names, (width + 4) * leaps, standard, ut):
        parts.append(data[at:at + length])
        at += length
    if len(data) < at:
        raise NoZone
    instants = struct.unpack(f">{times}{'q' if width == 8 else 'l'}", parts[0])
    return at, Block(version, instants, parts[1], parts[2], parts[3], parts[5], parts[6])


def transitions_of(block, kinds):
    """The transitions, as instants and kinds, which have to run forward on the local clock too."""
    if any(place >= len(kinds) for place in block.places):
        raise NoZone
    found = [(min(max(at, -377_705_023_201), 253_402_207_200), kinds[place]) for at, place in zip(block.instants, block.places)]
    before, reached = kinds[0][0], None
    for at, (after, *_) in found:
        if reached is not None and (at < reached[0] or at + min(before, after) < reached[1]):
            raise NoZone
        reached = at, at + max(before, after)
        before = after
    return found


def zone_of_block(block, footer):
    kinds = block.kinds()
    found = transitions_of(block, kinds)
    if not block.are_indicators_right():
        raise NoZone
    text = footer_text(footer) if footer is not None else ""
    rule = Rule(text) if text else None
    if any(not FIRST_INSTANT < at < LAST_INSTANT for at, _ in found) or rule and rule.is_odd():
        raise Odd
    if rule and found:
        last, kind = found[-1]
        if are_near(sorted([last, *(at for year in years_near(last) for at, _ in rule.changes(year))])):
            raise Odd
        if rule.kind(last) != kind:
            raise NoZone
    return Zone(kinds[0][0], [(at, kind[0]) for at, kind in found], rule)


def footer_text(footer):
    """The rule between two line feeds, of which the second comes soon."""
    end = footer[:1025].find(b"\n", 1)
    if not footer.startswith(b"\n") or end < 0:
        raise NoZone
    return footer[1:end].decode("ascii", "replace")


def read_zone(data):
    """The zone of a file's bytes."""
    if len(data) > GREATEST_FILE:
        raise NoZone
    try:
        at, block = read_block(data, 0, 4)
        if block.version == b"\0":
            return zone_of_block(block, None)
        at, block = read_block(data, at, 8)
    except struct.error:
        raise NoZone from None
    return zone_of_block(block, data[at:])
