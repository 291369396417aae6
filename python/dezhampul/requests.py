"""Requests as `gtfs serve` takes them: lines of fields with a tab between them."""
from datetime import date, datetime, timedelta, timezone
from typing import Optional, Union

Moment = Union[date, datetime]

_EPOCH = datetime(1970, 1, 1, tzinfo=timezone.utc)
_SECOND = timedelta(seconds=1)


def text_of_day(day: date) -> str:
    """A service day as `YYYYMMDD`. Raises `TypeError` for what is no date, and for a moment."""
    if not isinstance(day, date) or isinstance(day, datetime):
        raise TypeError(f"a date is wanted, and not {day!r}")
    return f"{day.year:04}{day.month:02}{day.day:02}"


def text_of_moment(moment: Moment) -> str:
    """An end of a span: a service day, or an instant. Raises `ValueError` for a datetime without an offset."""
    if not isinstance(moment, datetime):
        return text_of_day(moment)
    if moment.utcoffset() is None:
        raise ValueError(f"the datetime has no offset from UTC: {moment}")
    # A departure is at a whole second, so it is not before a moment exactly where it is not before the whole second that follows.
    return f"@{-((_EPOCH - moment) // _SECOND)}"


def text_of_id(name: str) -> str:
    """An id as a field of a line. Raises `ValueError` for one with a tab or a line feed, and `TypeError` for what is no text."""
    if not isinstance(name, str):
        raise TypeError(f"an id is a text, and not {name!r}")
    if "\t" in name or "\n" in name:
        raise ValueError(f"an id with a tab or a line feed cannot be asked for: {name!r}")
    name.encode()
    return name


def board_request(stop: str, begin: str, end: str, limit: int, key: Optional[str]) -> str:
    """The line that asks for a page of a board."""
    return "\t".join(("board", stop, begin, end, str(limit), key or ""))


def timetable_request(route: str, day: date, direction: Optional[int]) -> str:
    """The line that asks for the timetable of a route. Raises as the texts do, and `ValueError` for a direction that is none."""
    if direction not in (None, 0, 1):
        raise ValueError(f"a direction is 0, 1 or None, and not {direction!r}")
    return "\t".join(("timetable", text_of_id(route), text_of_day(day), "" if direction is None else str(int(direction))))
