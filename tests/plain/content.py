"""The content of a dataset that passes: its rows by their ids, each a dict of the values of its kept columns."""
import datetime
from dataclasses import dataclass, field

from columns import FILES, KEYS, WEEKDAYS
from values import FIRST_SERVICE_DAY, LAST_SERVICE_DAY


@dataclass
class Service:
    """A row of calendar.txt, if any, and the exception types of calendar_dates.txt by their dates."""

    week: dict = None
    exceptions: dict = field(default_factory=dict)

    def is_active(self, date):
        if not FIRST_SERVICE_DAY <= date <= LAST_SERVICE_DAY:
            return False
        if date in self.exceptions:
            return self.exceptions[date] == 1
        week = self.week
        if week is None or not week["start_date"] <= date <= week["end_date"]:
            return False
        return week[WEEKDAYS[date.weekday()]] == 1

    def active_dates(self, first, last):
        """The active dates from the first to the last."""
        if self.week:
            first_named, last_named = self.week["start_date"], self.week["end_date"]
        else:
            first_named, last_named = LAST_SERVICE_DAY, FIRST_SERVICE_DAY
        date = max(first, min([first_named, *self.exceptions]))
        last = min(last, max([last_named, *self.exceptions]), LAST_SERVICE_DAY)
        while date <= last:
            if self.is_active(date):
                yield date
            date += datetime.timedelta(1)


@dataclass
class Trip:
    """The row of trips.txt, the stop times by sequence and the frequencies by start."""

    row: dict
    stop_times: list = field(default_factory=list)
    frequencies: list = field(default_factory=list)

    def runs(self):
        """The seconds at which runs start, each with whether it is by headway alone."""
        if not self.stop_times:
            return []
        if not self.frequencies:
            return [(leaves(self.stop_times[0]), False)]
        return [
            (start, period["exact_times"] == 0)
            for period in self.frequencies
            for start in range(period["start_time"], period["end_time"], period["headway_secs"])
        ]

    def passes_at(self, run, stop_time):
        """When a run passes a stop time after the origin of its day, none where that is untimed."""
        left = leaves(stop_time)
        return None if left is None else run + left - leaves(self.stop_times[0])

    def departure_rows(self):
        return [row for row in self.stop_times[:-1] if leaves(row) is not None and row["pickup_type"] != 1]

    def stops(self):
        return [row["stop_id"] for row in self.stop_times]


def leaves(stop_time):
    departure = stop_time["departure_time"]
    return stop_time["arrival_time"] if departure is None else departure


def reaches(stop_time):
    arrival = stop_time["arrival_time"]
    return stop_time["departure_time"] if arrival is None else arrival


def is_timed(stop_time):
    return leaves(stop_time) is not None


@dataclass
class Content:
    """A feed. Transfers are by the six parts of their key."""

    agencies: dict
    stops: dict
    routes: dict
    services: dict
    trips: dict
    transfers: dict

    def zone(self):
        return next(iter(self.agencies.values()))["agency_timezone"]

    def place(self, stop):
        """The stop, and each stop or platform whose parent it is."""
        children = {id for id, row in self.stops.items() if row["location_type"] == 0 and row["parent_station"] == stop}
        return children | {stop}


def typed(row, name):
    """The values of a row, an empty one by its meaning; an empty text or id is none."""
    return {column.name: row.meaning(column.name) for column in FILES[name]}


def content_of(tables):
    """The content of tables that pass."""
    files = {name: [typed(row, name) for row in table.rows] for name, table in tables.files.items()}
    agencies = {row["agency_id"] or "": row for row in files["agency.txt"]}
    for route in files["routes.txt"]:
        route["agency_id"] = route["agency_id"] or next(iter(agencies))
    trips = {row["trip_id"]: Trip(row) for row in files["trips.txt"]}
    for row in sorted(files["stop_times.txt"], key=lambda row: row["stop_sequence"]):
        trips[row["trip_id"]].stop_times.append(row)
    for row in sorted(files["frequencies.txt"], key=lambda row: row["start_time"]):
        trips[row["trip_id"]].frequencies.append(row)
    services = {row["service_id"]: Service(row) for row in files["calendar.txt"]}
    for row in files["calendar_dates.txt"]:
        services.setdefault(row["service_id"], Service()).exceptions[row["date"]] = row["exception_type"]
    return Content(
        agencies,
        {row["stop_id"]: row for row in files["stops.txt"]},
        {row["route_id"]: row for row in files["routes.txt"]},
        services,
        trips,
        {transfer_key(row): row for row in files["transfers.txt"]},
    )


def transfer_key(row):
    """The six ids of a transfer, the empty text where one is not there."""
    return tuple(row[name] or "" for name in KEYS["transfers.txt"][0])
