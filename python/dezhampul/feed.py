"""A feed that is read once and then asked again and again."""
import os
import threading
from datetime import date, datetime, timezone, tzinfo
from types import TracebackType
from typing import Iterator, List, Optional, Tuple, Type

from .departures import Departure, departure_of
from .faults import BrokenProcess, NoZone, Refused, is_about_errors, refusal
from .folders import errors_of, explained
from .paths import Path
from .process import Process
from .reports import check
from .requests import Moment, board_request, text_of_id, text_of_moment, timetable_request
from .sheets import Sheet, sheets_of
from .zones import zone_file, zone_of

# The most departures that are asked for at once, so that memory does not grow with the span and no request takes long.
_PAGE = 1000

# The last service day on which a board may end: what `next` asks for ends there.
_LAST_DAY = date(9998, 12, 31)

# The status with which the command of its name would have ended, of each refusal of a request.
_STATUSES = {
    "unknown stop": 1, "unknown route": 1, "bad request": 2, "line too long": 2, "until lies before from": 2, "out of memory": 4,
}
_REFUSED = "!! "


class Feed:
    """A feed that the program keeps, until it is closed. Several threads may ask; they take turns, page by page.

    folder: the folder with the feed's files. Do not change it while the feed is open: put the next feed into another folder.
    zone: the path of the zone file. Without it, the `agency_timezone` of agency.txt is looked up among the system's zone files.
    interpolate: whether times that the feed leaves out are filled in.
    time_limit: how many seconds the program may take to read the feed, and then for each answer. None is no limit.

    Raises `HasErrors` where the feed has errors, `NoZone` where no zone file was found, `DeviceFault` where a file cannot be read,
    `OutOfMemory`, `Refused` for a path that is not UTF-8, `BrokenProcess` and `NoProgram`.

    Use it with `with`, or call `close`. It ends with the interpreter, or when nothing refers to it, at the latest. All requests of a feed
    that is closed raise `ValueError`.
    """

    def __init__(
        self, folder: Path, *, zone: Optional[Path] = None, interpolate: bool = False, time_limit: Optional[float] = 60.0
    ) -> None:
        self._folder = os.fsdecode(folder)
        self._time_limit = time_limit
        self._lock = threading.Lock()
        self._is_closed = False
        self._zone = self._find_zone(zone)
        self._tzinfo: Optional[tzinfo] = None
        self._words = ["serve", f"--zone={self._zone}", *(["--interpolate"] if interpolate else []), "--", self._folder]
        self._process: Optional[Process] = self._start()

    @property
    def zone(self) -> str:
        """The path of the zone file."""
        return self._zone

    def now(self) -> datetime:
        """The time at the stops now: an aware datetime, with the zone of the feed as its `tzinfo`.

        Raises `DeviceFault` where Python cannot read the zone file, and `NotImplementedError` before Python 3.9, which has no zoneinfo.
        """
        self._tzinfo = self._tzinfo or zone_of(self._zone)
        return datetime.now(timezone.utc).astimezone(self._tzinfo)

    def board(
        self, stop: str, begin: Moment, end: Moment, *, limit: Optional[int] = None, after: Optional[str] = None
    ) -> Iterator[Departure]:
        """The departures at a stop, or at all platforms of a station, in the program's order.

        `begin` and `end` are aware datetimes, or dates, which are service days: each stands for noon less twelve hours. A departure at
        `begin` is among them, and one at `end` is not. `limit` is the most departures, and `after` the key of one that is passed over with
        all before it. They come page by page while they are taken, so a long span needs no more memory than a short one.

        Raises `ValueError` at once for a datetime without an offset, a negative limit, and an id or a key with a tab or a line feed, and
        `TypeError` for an id that is no text or an end that is no date. When the first departure is taken, it raises `UnknownStop`, or
        `Refused` for an end before the beginning, a day before 1900 or after 9998, or a key that is none. `OutOfMemory` may come after some
        departures; those are right. `BrokenProcess` may come after some too.
        """
        if limit is not None and limit < 0:
            raise ValueError(f"the limit is negative: {limit}")
        span = text_of_moment(begin), text_of_moment(end)
        return self._pages(text_of_id(stop), span, limit, None if after is None else text_of_id(after))

    def next(self, stop: str, count: Optional[int] = None) -> Iterator[Departure]:
        """The next departures at a stop from now on, as many as `count`, or all that there ever are. Raises as `board` does.

        Where there is none, the feed has probably expired, or trips only end at this stop.
        """
        return self.board(stop, datetime.now(timezone.utc), _LAST_DAY, limit=count)

    def timetable(self, route: str, day: date, direction: Optional[int] = None) -> Iterator[Sheet]:
        """The sheets of a route on a service day, and none if nothing runs: all, or those with the `direction_id` 0 or 1.

        Raises `ValueError` at once for another direction, and for an id with a tab or a line feed, and `TypeError` for an id that is no
        text or a day that is no date. When the first sheet is taken, it raises `UnknownRoute`, `BrokenProcess`, or `Refused` for a day
        before 1900. `OutOfMemory` may come after some sheets; those are right.
        """
        return self._sheets(route, timetable_request(route, day, direction))

    def close(self) -> None:
        """Ends the program. It may be called again."""
        with self._lock:
            self._is_closed = True
            if self._process:
                self._process.end()
                self._process = None

    def __enter__(self) -> "Feed":
        return self

    def __exit__(
        self, kind: Optional[Type[BaseException]], fault: Optional[BaseException], traceback: Optional[TracebackType]
    ) -> None:
        self.close()

    def _find_zone(self, zone: Optional[Path]) -> str:
        """The zone file. Where a feed has errors, these are told and not that it has none."""
        if zone is not None:
            return os.fsdecode(zone)
        try:
            return zone_file(self._folder)
        except NoZone:
            report = check(self._folder, time_limit=self._time_limit)
            if report.errors:
                raise errors_of(self._folder, f"{self._folder} has errors", report) from None
            raise

    def _start(self) -> Process:
        """A process that has read the feed."""
        process = Process(self._words, self._time_limit)
        try:
            process.open()
        except Refused as fault:
            if is_about_errors(fault):
                raise errors_of(self._folder, fault.message, check(self._folder, time_limit=self._time_limit)) from None
            raise explained(fault, self._folder, zone=self._zone) from None
        return process

    def _ask(self, request: str, name: str) -> Tuple[List[str], Optional[Refused]]:
        """The lines of an answer about an id, and what is raised after them. If a process broke, the next request starts another."""
        with self._lock:
            if self._is_closed:
                raise ValueError("the feed is closed")
            process, self._process = self._process or self._start(), None
            lines = process.ask(request)
            self._process = process
        if lines and lines[-1].startswith(_REFUSED) and "\t" not in lines[-1]:
            message = lines.pop()[len(_REFUSED):]
            return lines, refusal(_STATUSES.get(message, 2), message, name)
        return lines, None

    def _pages(self, stop: str, span: Tuple[str, str], limit: Optional[int], key: Optional[str]) -> Iterator[Departure]:
        """The departures of a span, each page after the last key of the one before."""
        while True:
            size = _PAGE if limit is None else min(limit, _PAGE)
            lines, fault = self._ask(board_request(stop, *span, size, key), stop)
            if len(lines) > size:
                raise BrokenProcess(f"gtfs was asked for {size} lines, and gave {len(lines)}")
            for line in lines:
                departure = departure_of(line)
                key = departure.key
                yield departure
            if fault:
                raise fault
            if limit is not None:
                limit -= len(lines)
            if len(lines) < size or limit == 0:
                return

    def _sheets(self, route: str, request: str) -> Iterator[Sheet]:
        lines, fault = self._ask(request, route)
        yield from sheets_of(lines)
        if fault:
            raise fault
