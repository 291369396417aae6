"""Departure boards: the departures at the place of a stop, and their lines."""
import datetime
from dataclasses import dataclass

from content import leaves
from values import FIRST_SERVICE_DAY, LAST_SERVICE_DAY, date_text
from zones import DAY, EPOCH

# No origin lies further than this from midnight UTC of its date, in seconds.
FURTHEST = 93_599


@dataclass(frozen=True, order=True)
class Key:
    """What orders departures and names each of them."""

    instant: int
    trip: str
    run: int
    sequence: int
    date: datetime.date

    def text(self):
        return f"@{self.instant}/{self.trip}/{self.run}/{self.sequence}/{date_text(self.date)}"


def service_day(instant):
    """The date of an instant in UTC, or the nearest service day."""
    days = min(max(instant // DAY, (FIRST_SERVICE_DAY - EPOCH).days), (LAST_SERVICE_DAY - EPOCH).days)
    return EPOCH + datetime.timedelta(days)


def departures(feed, zone, stop, begin, end):
    """The departures of a place from one instant to before another: the key, the trip, its row and the mark of each."""
    place = feed.place(stop)
    origins = {}
    for id, trip in feed.trips.items():
        rows = [row for row in trip.departure_rows() if row["stop_id"] in place]
        runs = trip.runs() if rows else []
        if not runs:
            continue
        latest = max(run for run, _ in runs) + leaves(rows[-1])
        service = feed.services[trip.row["service_id"]]
        for date in service.active_dates(service_day(begin - latest - FURTHEST), service_day(end + FURTHEST)):
            if date not in origins:
                origins[date] = zone.origin(date)
            for run, by_headway in runs:
                for row in rows:
                    key = Key(origins[date] + trip.passes_at(run, row), id, run, row["stop_sequence"], date)
                    if begin <= key.instant < end:
                        yield key, trip, row, mark(row, by_headway)


def mark(row, by_headway):
    """How exact a departure is: by the clock or by headway, and behind it whether its time was filled in."""
    return ("f" if by_headway else "s") + ("i" if row.get("is_filled") else "")


def line(feed, zone, departure):
    key, trip, row, mark = departure
    route = feed.routes[trip.row["route_id"]]
    name = route["route_short_name"] or route["route_long_name"]
    headsign = row["stop_headsign"] or trip.row["trip_headsign"] or ""
    return "\t".join([key.text(), zone.clock(key.instant), row["stop_id"], name, headsign, mark]) + "\n"


def board(feed, zone, stop, begin, end, limit=None, after=None):
    """The text of a board: at most so many lines, of the departures above the key."""
    listed = [found for found in departures(feed, zone, stop, begin, end) if after is None or found[0] > after]
    listed.sort(key=lambda found: found[0])
    return "".join(line(feed, zone, found) for found in listed[:limit])
