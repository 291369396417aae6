"""Merges of two feeds, and what they tell."""
import os
from dataclasses import dataclass, field
from datetime import date
from typing import Dict, List, Mapping, Optional, Tuple

from .faults import BrokenProcess, is_about_errors
from .folders import errors_of, explained
from .paths import Path
from .program import fault_of, run
from .reports import check
from .requests import text_of_day

_KINDS = {"agency", "stop", "route", "service", "trip"}


@dataclass(frozen=True)
class Renamed:
    """An id that got another one.

    side: the feed that had it, `A` for the first and `B` for the second.
    kind: what it names: `agency`, `stop`, `route`, `service` or `trip`.
    old, new: the id before and after.
    """

    side: str
    kind: str
    old: str
    new: str


@dataclass(frozen=True)
class Merged:
    """What a merge did.

    renamed: the ids that changed, in the order of the program.
    joined: how many of each kind are the same in both feeds.
    near: how many stops of the second feed lie near one of the first, or None where the merge did not look for them.
    """

    renamed: Tuple[Renamed, ...]
    joined: Mapping[str, int] = field(hash=False)
    near: Optional[int]


def merge(
    first: Path, second: Path, out: Path, *, near: Optional[int] = None, cutoff: Optional[date] = None, time_limit: Optional[float] = 600.0
) -> Merged:
    """Merges the feeds of two folders into the folder `out`, and tells what was renamed and joined.

    `near` makes one stop of two that are at most so many millionths of a degree apart. With `cutoff` the service days of the first feed
    count before that day, and those of the second from it on. `time_limit` is in seconds; None is no limit. Raises `HasErrors` with the
    report of the feed that has them, `DeviceFault`, `OutOfMemory`, `Refused` (as `zones differ`), `TypeError` for a cutoff that is no
    date, `BrokenProcess` and `NoProgram`. After a `DeviceFault`, an `OutOfMemory` or a `BrokenProcess` a part of the files may have been
    written.
    """
    words = ["merge"]
    if near is not None:
        words.append(f"--near={near}")
    if cutoff is not None:
        words.append(f"--cutoff={text_of_day(cutoff)}")
    ended = run([*words, "--", *map(os.fsdecode, (first, second, out))], time_limit)
    if ended.status != 0:
        raise _fault_of_merge(fault_of(ended.status, ended.told), (os.fsdecode(first), os.fsdecode(second)), time_limit)
    try:
        return _merged_of(ended.output.decode().split("\n"))
    except (ValueError, LookupError):
        raise BrokenProcess("gtfs gave a report of a merge that is none") from None


def _fault_of_merge(fault: Exception, feeds: Tuple[str, str], time_limit: Optional[float]) -> Exception:
    """The fault, with the report of the feed that has errors: of both the program tells the first."""
    if is_about_errors(fault):
        for feed in feeds:
            report = check(feed, time_limit=time_limit)
            if report.errors:
                return errors_of(feed, str(fault), report)
    return explained(fault, *feeds)


def _merged_of(lines: List[str]) -> Merged:
    renamed: List[Renamed] = []
    joined: Dict[str, int] = {}
    near: Optional[int] = None
    *lines, end = lines
    for line in lines:
        if "\t" in line:
            renamed.append(Renamed(*_four(line)))
        else:
            word, kind, count = line.split(" ")
            if word == "joined":
                joined[kind] = int(count)
            elif (word, kind) == ("near", "stop"):
                near = int(count)
            else:
                raise ValueError(line)
    if end or set(joined) != _KINDS:
        raise ValueError(end)
    return Merged(tuple(renamed), joined, near)


def _four(line: str) -> Tuple[str, str, str, str]:
    side, kind, old, new = line.split("\t")
    return side, kind, old, new
