"""The nine kept files: their columns in written order, their keys and their references."""
from dataclasses import dataclass

WEEKDAYS = ("monday", "tuesday", "wednesday", "thursday", "friday", "saturday", "sunday")


@dataclass(frozen=True)
class Column:
    """A kept column. `empty` is the text that an empty value stands for, if it stands for one."""

    name: str
    kind: str
    required: bool = False
    empty: str = ""
    choices: frozenset = frozenset()


def need(name, kind):
    return Column(name, kind, required=True)


def may(name, kind, empty=""):
    return Column(name, kind, empty=empty)


def choice(name, *numbers, required=False, empty=""):
    return Column(name, "choice", required, empty, frozenset(numbers))


FILES = {
    "agency.txt": [
        may("agency_id", "id"), need("agency_name", "text"), need("agency_url", "text"),
        need("agency_timezone", "id"), may("agency_lang", "text"), may("agency_phone", "text"),
        may("agency_fare_url", "text"), may("agency_email", "text"),
    ],
    "stops.txt": [
        need("stop_id", "id"), may("stop_code", "text"), may("stop_name", "text"), may("tts_stop_name", "text"),
        may("stop_desc", "text"), may("stop_lat", "latitude"), may("stop_lon", "longitude"), may("stop_url", "text"),
        choice("location_type", *range(5), empty="0"), may("parent_station", "id"),
        choice("wheelchair_boarding", 0, 1, 2, empty="0"), may("platform_code", "text"),
    ],
    "routes.txt": [
        need("route_id", "id"), may("agency_id", "id"), may("route_short_name", "text"), may("route_long_name", "text"),
        may("route_desc", "text"), choice("route_type", *range(8), 11, 12, *range(100, 1800), required=True),
        may("route_url", "text"), may("route_color", "colour", "FFFFFF"), may("route_text_color", "colour", "000000"),
        may("route_sort_order", "count"),
    ],
    "trips.txt": [
        need("route_id", "id"), need("service_id", "id"), need("trip_id", "id"), may("trip_headsign", "text"),
        may("trip_short_name", "text"), choice("direction_id", 0, 1),
        choice("wheelchair_accessible", 0, 1, 2, empty="0"), choice("bikes_allowed", 0, 1, 2, empty="0"),
    ],
    "stop_times.txt": [
        need("trip_id", "id"), may("arrival_time", "time"), may("departure_time", "time"), need("stop_id", "id"),
        need("stop_sequence", "count"), may("stop_headsign", "text"), choice("pickup_type", *range(4), empty="0"),
        choice("drop_off_type", *range(4), empty="0"), choice("timepoint", 0, 1),
    ],
    "calendar.txt": [
        need("service_id", "id"), *(choice(day, 0, 1, required=True) for day in WEEKDAYS),
        need("start_date", "date"), need("end_date", "date"),
    ],
    "calendar_dates.txt": [
        need("service_id", "id"), need("date", "date"), choice("exception_type", 1, 2, required=True),
    ],
    "frequencies.txt": [
        need("trip_id", "id"), need("start_time", "time"), need("end_time", "time"), need("headway_secs", "positive"),
        choice("exact_times", 0, 1, empty="0"),
    ],
    "transfers.txt": [
        may("from_stop_id", "id"), may("to_stop_id", "id"), may("from_route_id", "id"), may("to_route_id", "id"),
        may("from_trip_id", "id"), may("to_trip_id", "id"), choice("transfer_type", *range(6), empty="0"),
        may("min_transfer_time", "count"),
    ],
}

# The first five are needed; one of the last four that has no record counts as absent.
NEEDED = list(FILES)[:5]

# The columns of each file's key, and the one at which a second row with the same key is told.
KEYS = {
    "agency.txt": (["agency_id"], "agency_id"),
    "stops.txt": (["stop_id"], "stop_id"),
    "routes.txt": (["route_id"], "route_id"),
    "trips.txt": (["trip_id"], "trip_id"),
    "stop_times.txt": (["trip_id", "stop_sequence"], "stop_sequence"),
    "calendar.txt": (["service_id"], "service_id"),
    "calendar_dates.txt": (["service_id", "date"], "date"),
    "frequencies.txt": (["trip_id", "start_time"], "start_time"),
    "transfers.txt": ([column.name for column in FILES["transfers.txt"][:6]], "from_stop_id"),
}

# The columns that name rows of another file, or of one of two, and the column that they name.
REFERENCES = [
    ("stops.txt", "parent_station", ["stops.txt"], "stop_id"),
    ("stop_times.txt", "stop_id", ["stops.txt"], "stop_id"),
    ("transfers.txt", "from_stop_id", ["stops.txt"], "stop_id"),
    ("transfers.txt", "to_stop_id", ["stops.txt"], "stop_id"),
    ("routes.txt", "agency_id", ["agency.txt"], "agency_id"),
    ("trips.txt", "route_id", ["routes.txt"], "route_id"),
    ("transfers.txt", "from_route_id", ["routes.txt"], "route_id"),
    ("transfers.txt", "to_route_id", ["routes.txt"], "route_id"),
    ("trips.txt", "service_id", ["calendar.txt", "calendar_dates.txt"], "service_id"),
    ("stop_times.txt", "trip_id", ["trips.txt"], "trip_id"),
    ("frequencies.txt", "trip_id", ["trips.txt"], "trip_id"),
    ("transfers.txt", "from_trip_id", ["trips.txt"], "trip_id"),
    ("transfers.txt", "to_trip_id", ["trips.txt"], "trip_id"),
]
