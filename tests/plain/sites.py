"""Where problems can stand: each code with every file and every column at which it can be told."""
from columns import FILES, KEYS, NEEDED, REFERENCES

# Where codes stand that are about values beside each other.
BESIDE = {
    "E11": {"stops.txt": ["parent_station"], "stop_times.txt": ["stop_id"], "transfers.txt": ["from_stop_id", "to_stop_id"]},
    "E12": {
        "agency.txt": ["agency_id"], "routes.txt": ["agency_id", "route_short_name"],
        "stops.txt": ["stop_name", "stop_lat", "stop_lon", "parent_station"],
        "transfers.txt": ["from_stop_id", "to_stop_id", "from_trip_id", "to_trip_id"],
    },
    "E13": {"agency.txt": ["agency_timezone"]},
    "E14": {"calendar.txt": ["end_date"]},
    "E15": {"stop_times.txt": ["arrival_time"]},
    "E16": {"stop_times.txt": ["departure_time"]},
    "E17": {"stop_times.txt": ["arrival_time"]},
    "E18": {"frequencies.txt": ["end_time"]},
    "E19": {"frequencies.txt": ["start_time"]},
    "W06": {"trips.txt": ["trip_id"]},
    "W07": {"calendar.txt": ["service_id"], "calendar_dates.txt": ["service_id"]},
    "W08": {"stop_times.txt": ["arrival_time", "departure_time"]},
}


def codes_of(column):
    """The codes of a column's name and of its values, by its kind."""
    yield "E04"
    if column.required:
        yield from ("E03", "E06")
    if column.kind in ("id", "text"):
        yield "E20" if column.kind == "id" else "W05"
    else:
        yield "E07"
        # (whatever looks like a time or a colour is one)
        if column.kind not in ("time", "colour"):
            yield "E08"


def sites():
    """Each code with a file and a column, which is empty where none is told. Other files and columns have no name here."""
    yield "W03", "", ""
    for name in [*NEEDED, "calendar.txt"]:
        yield "E01", name, ""
    for name in NEEDED:
        yield "E05", name, ""
    for name, columns in FILES.items():
        for code in ("E02", "W01", "W02", "W04"):
            yield code, name, ""
        for column in columns:
            for code in codes_of(column):
                yield code, name, column.name
        yield "E09", name, KEYS[name][1]
    for name, column, _, _ in REFERENCES:
        yield "E10", name, column
    for code, files in BESIDE.items():
        for name, columns in files.items():
            for column in columns:
                yield code, name, column


def site_of(code, name, column):
    """The site of a problem."""
    return code, "" if code == "W03" else name, "" if code == "W04" else column
