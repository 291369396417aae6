"""Departures, as the lines of a board tell them."""
from dataclasses import dataclass
from datetime import date, datetime

from .faults import BrokenProcess

# What the last field of a line says: whether the time is exact, and whether it was filled in.
_MARKS = {"s": (True, False), "f": (False, False), "si": (True, True), "fi": (False, True)}


@dataclass(frozen=True)
class Departure:
    """A departure at a stop.

    key: its place in all boards, one text. A page may begin after it.
    time: when it leaves by the clock at the stop, with the offset from UTC of that moment. It is to the second.
    stop_id: the stop or the platform.
    route: `route_short_name`, or `route_long_name` where that is empty.
    headsign: `stop_headsign`, or `trip_headsign` where that is empty, or nothing.
    trip_id: the trip.
    run: when the run starts, in seconds after the origin of the service day. It may be more than a day.
    sequence: the `stop_sequence`.
    service_day: the service day, which begins a day earlier than `time` where that is past midnight.
    exact: false where the trip runs by headway. Then show "about", or the headway.
    filled: true where the feed gives no time and the program filled it in.
    """

    key: str
    time: datetime
    stop_id: str
    route: str
    headsign: str
    trip_id: str
    run: int
    sequence: int
    service_day: date
    exact: bool
    filled: bool


def day_of(text: str) -> date:
    """The day of a text `YYYYMMDD`. Raises `ValueError`."""
    if len(text) != 8:
        raise ValueError(text)
    return date(int(text[:4]), int(text[4:6]), int(text[6:]))


def departure_of(line: str) -> Departure:
    """The departure of a line of a board. Raises `BrokenProcess` where it is none."""
    try:
        key, clock, stop_id, route, headsign, mark = line.split("\t")
        # A trip_id may have slashes, and what stands before and behind it has none.
        instant_and_trip, run, sequence, day = key.rsplit("/", 3)
        trip_id = instant_and_trip.split("/", 1)[1]
        exact, filled = _MARKS[mark]
        time = datetime.fromisoformat(clock)
        if not key.startswith("@") or time.tzinfo is None:
            raise ValueError(line)
        return Departure(key, time, stop_id, route, headsign, trip_id, int(run), int(sequence), day_of(day), exact, filled)
    except (ValueError, LookupError):
        raise BrokenProcess(f"gtfs gave a line that is no departure: {line[:200]!r}") from None
