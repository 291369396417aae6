"""Sheets of a timetable."""
from dataclasses import dataclass
from datetime import date, timedelta
from typing import Iterator, List, Optional, Tuple

from .departures import day_of
from .faults import BrokenProcess

_DIRECTIONS = {"-": None, "0": 0, "1": 1}
_BEGIN = "== "


@dataclass(frozen=True)
class Sheet:
    """The runs of a route on a service day, in one direction and with one list of stops.

    route: the `route_id`.
    direction: the `direction_id`, 0 or 1, or None.
    date: the service day.
    stops: the `stop_id` of each row.
    trips: the `trip_id` of each column. A trip by headway has a column for each run.
    times: for each row its times, one for each column, from the origin of the service day on: past midnight they are more than a day.
        None where the feed has no time.
    """

    route: str
    direction: Optional[int]
    date: date
    stops: Tuple[str, ...]
    trips: Tuple[str, ...]
    times: Tuple[Tuple[Optional[timedelta], ...], ...]


def sheets_of(lines: List[str]) -> Iterator[Sheet]:
    """The sheets of a timetable's lines, one after another. Raises `BrokenProcess` where they are none."""
    part: List[str] = []
    for line in lines:
        # Only the first line of a sheet has no tab.
        if "\t" not in line and part:
            yield _sheet_of(part)
            part = []
        part.append(line)
    if part:
        yield _sheet_of(part)


def _sheet_of(lines: List[str]) -> Sheet:
    try:
        heading, trips, *rows = lines
        if not heading.startswith(_BEGIN) or not trips.startswith("trip\t"):
            raise ValueError
        # Only the route_id may have spaces.
        route, direction, day = heading[len(_BEGIN):].rsplit(" ", 2)
        names = tuple(trips.split("\t")[1:])
        cells = [row.split("\t") for row in rows]
        if any(len(row) != len(names) + 1 for row in cells):
            raise ValueError
        times = tuple(tuple(map(_time_of, row[1:])) for row in cells)
        return Sheet(route, _DIRECTIONS[direction], day_of(day), tuple(row[0] for row in cells), names, times)
    except (ValueError, LookupError):
        raise BrokenProcess(f"gtfs gave lines that are no sheet: {lines[0][:200]!r}") from None


def _time_of(text: str) -> Optional[timedelta]:
    if text == "-":
        return None
    hours, minutes, seconds = text.split(":")
    return timedelta(hours=int(hours), minutes=int(minutes), seconds=int(seconds))
