"""Checks of a feed, and their reports."""
import os
import re
from dataclasses import dataclass
from datetime import date
from typing import List, Optional, Tuple

from .faults import BrokenProcess
from .folders import explained
from .paths import Path
from .program import fault_of, run
from .requests import text_of_day

# Names of files and columns that are not kept may have any characters; all others have no colons and no spaces.
_LINES = [
    re.compile(r"(W03) (.*):(\d+) (-) (file not kept)"),
    re.compile(r"(W04) ([^:]*):(\d+) (.*) (column not kept)"),
    re.compile(r"([EW]\d\d) ([^: ]*):(\d+) ([^ ]+) (.+)"),
]
_ADVICE = re.compile(r"(A\d\d) ([^\t]*)\t([^\t]*)\t([^\t]+)")
_COUNTS = re.compile(r"errors (\d+) warnings (\d+)(?: advice (\d+))?")


@dataclass(frozen=True)
class Problem:
    """A problem of a feed.

    code: its kind, as `E07`. An `E` is an error, and a `W` a warning.
    file: the name of the file.
    row: the row. Row 1 has the names of the columns, and 0 is the file as a whole. Lines without any field do not count.
    column: the name of the column, or None where the problem is not about one.
    text: what is wrong, as `value unreadable`.
    value: what stands there, as the program prints it: with spaces for control characters, and cut if it is long. It is empty where the
        problem is not about a value, and None where the program prints none.
    """

    code: str
    file: str
    row: int
    column: Optional[str]
    text: str
    value: Optional[str] = None

    def __str__(self) -> str:
        """Where it is and what is wrong, as `stops.txt, row 4, stop_lat: value unreadable`."""
        place = [self.file, *([f"row {self.row}"] if self.row else []), *([self.column] if self.column else [])]
        return f"{', '.join(place)}: {self.text}"


@dataclass(frozen=True)
class Advice:
    """Advice on a feed: what is allowed, and yet most often a slip.

    code: its kind, as `A03`.
    file: the name of the file.
    subject: what it is about: the id of a row of the file, of a trip, or a day as `20240401`.
    text: what the advice is, as `no trip stops here`.
    """

    code: str
    file: str
    subject: str
    text: str


@dataclass(frozen=True)
class Report:
    """What a check found, in the order of the program.

    errors, warnings: how many there are.
    problems: each of them.
    advice: the advice, where it was asked for and there is no error.
    """

    errors: int
    warnings: int
    problems: Tuple[Problem, ...]
    advice: Tuple[Advice, ...] = ()


def check(feed: Path, *, advise: bool = False, day: Optional[date] = None, time_limit: Optional[float] = 600.0) -> Report:
    """The report on the feed in a folder. A feed with errors has a report too; that is no exception.

    `advise` asks for advice, and `day` with it for advice where fewer than seven days of service are left on that day. `time_limit` is in
    seconds; None is no limit. Raises `DeviceFault` where the folder is not there or cannot be read, `OutOfMemory`, `Refused` for a path
    that is not UTF-8, for a day before 1900 or after 9998 and for one without `advise`, `TypeError` for one that is no date,
    `BrokenProcess` and `NoProgram`.
    """
    words = ["check", "--values", *(["--advise"] if advise else []), *([] if day is None else [f"--day={text_of_day(day)}"])]
    folder = os.fsdecode(feed)
    ended = run([*words, "--", folder], time_limit)
    if ended.status not in (0, 1) or ended.told:
        raise explained(fault_of(ended.status, ended.told), folder)
    try:
        report = _report_of(ended.output.decode().split("\n"))
    except (ValueError, LookupError):
        raise BrokenProcess("gtfs gave a report that is none") from None
    if (report.errors > 0) != (ended.status == 1):
        raise BrokenProcess(f"gtfs found {report.errors} errors, and ended with status {ended.status}")
    return report


def _report_of(lines: List[str]) -> Report:
    *lines, counts, end = lines
    found = _COUNTS.fullmatch(counts)
    if not found or end:
        raise ValueError(counts)
    problems = [line for line in lines if not line.startswith("A")]
    advice = lines[len(problems):]
    if len(advice) != int(found[3] or 0):
        raise ValueError(counts)
    return Report(int(found[1]), int(found[2]), tuple(map(_problem_of, problems)), tuple(map(_advice_of, advice)))


def _problem_of(line: str) -> Problem:
    line, tab, quoted = line.partition("\t")
    for form in _LINES:
        found = form.fullmatch(line)
        if found:
            code, file, row, column, text = found.groups()
            is_named = column != "-" or code == "W04"
            return Problem(code, file, int(row), column if is_named else None, text, _value_of(quoted) if tab else None)
    raise ValueError(line)


def _value_of(quoted: str) -> str:
    """The text between the outer quotes: a value may have quotes too."""
    if len(quoted) < 2 or quoted[0] != '"' or quoted[-1] != '"':
        raise ValueError(quoted)
    return quoted[1:-1]


def _advice_of(line: str) -> Advice:
    found = _ADVICE.fullmatch(line)
    if not found:
        raise ValueError(line)
    return Advice(*found.groups())
