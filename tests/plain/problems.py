"""What is wrong with a dataset: every problem.

A rule is a function of a dataset's tables that yields problems: a file, a row, a code and a column, which is empty
where none is named. It applies to a row only where the values that it uses are readable, or empty where it asks that.
"""
import datetime
from collections import Counter, defaultdict

from columns import FILES, KEYS, NEEDED, REFERENCES, WEEKDAYS
from values import CONTROL, FIRST_SERVICE_DAY, LAST_SERVICE_DAY, Form, Range

TEXTS = {
    "E01": "file missing", "E02": "not UTF-8", "E03": "column missing", "E04": "column twice", "E05": "file empty",
    "E06": "value empty", "E07": "value unreadable", "E08": "value out of range", "E09": "key twice",
    "E10": "unknown reference", "E11": "wrong kind of stop", "E12": "value missing or forbidden", "E13": "zones differ",
    "E14": "end before start", "E15": "first or last row untimed", "E16": "departure before arrival",
    "E17": "time goes back", "E18": "period empty", "E19": "periods overlap", "E20": "control character in id",
    "W01": "short row", "W02": "long row", "W03": "file not kept", "W04": "column not kept",
    "W05": "control character in text", "W06": "fewer than two rows", "W07": "service never active",
    "W08": "one time of two",
}


def file_rules(tables):
    files = tables.files
    absent = {name for name, table in files.items() if table.counts_as_absent()}
    for name in NEEDED:
        if files[name].state == "absent":
            yield name, 0, "E01", ""
    if {"calendar.txt", "calendar_dates.txt"} <= absent:
        yield "calendar.txt", 0, "E01", ""
    for name, table in files.items():
        if table.state == "not UTF-8":
            yield name, 0, "E02", ""
        if table.state == "read" and name in NEEDED and not table.records:
            yield name, 0, "E05", ""
    if files["agency.txt"].records and not files["agency.txt"].rows:
        yield "agency.txt", 1, "E05", ""
    for name in tables.others:
        yield name, 0, "W03", ""


def header_rules(tables):
    for name, table in tables.files.items():
        kept = {column.name for column in FILES[name]}
        for column in FILES[name]:
            if table.records and column.required and column.name not in table.header:
                yield name, 1, "E03", column.name
            if table.header.count(column.name) > 1:
                yield name, 1, "E04", column.name
        for other in set(table.header) - kept - {""}:
            yield name, 1, "W04", other


def field_rules(tables):
    for name, table in tables.files.items():
        for row in table.rows:
            if row.length < len(table.header):
                yield name, row.number, "W01", ""
            if row.length > len(table.header):
                yield name, row.number, "W02", ""
            for column in FILES[name]:
                code = field_code(table, row, column)
                if code:
                    yield name, row.number, code, column.name


def field_code(table, row, column):
    """What is wrong with one field, if anything."""
    text = row.texts[column.name]
    if not text:
        return "E06" if column.required and column.name in table.header else None
    if CONTROL.search(text) and column.kind in ("id", "text"):
        return "E20" if column.kind == "id" else "W05"
    return {Form: "E07", Range: "E08", None: None}[row.faults.get(column.name)]


def key_of(name, row):
    return row.key(KEYS[name][0], parts_may_be_empty=name == "transfers.txt")


def key_rules(tables):
    for name, table in tables.files.items():
        seen = set()
        for row in table.rows:
            key = key_of(name, row)
            if key in seen:
                yield name, row.number, "E09", KEYS[name][1]
            if key is not None:
                seen.add(key)


def reference_rules(tables):
    for name, column, targets, key in REFERENCES:
        known = {row.value(key) for target in targets for row in tables.files[target].rows}
        for row in tables.files[name].rows:
            value = row.value(column)
            if value is not None and value not in known:
                yield name, row.number, "E10", column


def first_types(tables):
    """The location type of the first row of each stop, none where it is not readable."""
    types = {}
    for row in tables.files["stops.txt"].rows:
        types.setdefault(row.value("stop_id"), row.meaning("location_type"))
    return types


PARENTS = {0: 1, 2: 1, 3: 1, 4: 0}


def stop_kind_rules(tables):
    types = first_types(tables)

    def is_wrong(row, column, wanted):
        kind = types.get(row.value(column))
        return row.value(column) is not None and kind is not None and kind not in wanted

    for row in tables.files["stops.txt"].rows:
        own = row.meaning("location_type")
        if own in PARENTS and is_wrong(row, "parent_station", {PARENTS[own]}):
            yield "stops.txt", row.number, "E11", "parent_station"
    for row in tables.files["stop_times.txt"].rows:
        if is_wrong(row, "stop_id", {0}):
            yield "stop_times.txt", row.number, "E11", "stop_id"
    for row in tables.files["transfers.txt"].rows:
        for column in ("from_stop_id", "to_stop_id"):
            if is_wrong(row, column, {0, 1}):
                yield "transfers.txt", row.number, "E11", column


def presence_rules(tables):
    several = len(tables.files["agency.txt"].rows) > 1
    for name in ("agency.txt", "routes.txt"):
        for row in tables.files[name].rows:
            if several and row.is_empty("agency_id"):
                yield name, row.number, "E12", "agency_id"
    for row in tables.files["routes.txt"].rows:
        if row.is_empty("route_short_name") and row.is_empty("route_long_name"):
            yield "routes.txt", row.number, "E12", "route_short_name"
    for row in tables.files["stops.txt"].rows:
        own = row.meaning("location_type")
        if own in (0, 1, 2):
            for column in ("stop_name", "stop_lat", "stop_lon"):
                if row.is_empty(column):
                    yield "stops.txt", row.number, "E12", column
        forbidden = own == 1 and row.value("parent_station") is not None
        missing = own in (2, 3, 4) and row.is_empty("parent_station")
        if forbidden or missing:
            yield "stops.txt", row.number, "E12", "parent_station"
    for row in tables.files["transfers.txt"].rows:
        kind = row.meaning("transfer_type")
        needed = {1: "stop", 2: "stop", 3: "stop", 4: "trip", 5: "trip"}.get(kind)
        for column in (f"from_{needed}_id", f"to_{needed}_id"):
            if needed and row.is_empty(column):
                yield "transfers.txt", row.number, "E12", column


def zone_rules(tables):
    zones = [(row.number, row.value("agency_timezone")) for row in tables.files["agency.txt"].rows]
    readable = [(number, zone) for number, zone in zones if zone is not None]
    for number, zone in readable:
        if zone != readable[0][1]:
            yield "agency.txt", number, "E13", "agency_timezone"


def span_rules(tables):
    for row in tables.files["calendar.txt"].rows:
        start, end = row.value("start_date"), row.value("end_date")
        if start and end and end < start:
            yield "calendar.txt", row.number, "E14", "end_date"


def time_rules(tables):
    for row in tables.files["stop_times.txt"].rows:
        arrival, departure = row.value("arrival_time"), row.value("departure_time")
        if arrival is not None and departure is not None and departure < arrival:
            yield "stop_times.txt", row.number, "E16", "departure_time"
        if arrival is not None and row.is_empty("departure_time"):
            yield "stop_times.txt", row.number, "W08", "departure_time"
        if departure is not None and row.is_empty("arrival_time"):
            yield "stop_times.txt", row.number, "W08", "arrival_time"


def leaves(row):
    arrival, departure = row.value("arrival_time"), row.value("departure_time")
    return arrival if departure is None else departure


def comes(row):
    arrival, departure = row.value("arrival_time"), row.value("departure_time")
    return departure if arrival is None else arrival


def is_timed(row):
    return leaves(row) is not None and not {"arrival_time", "departure_time"} & set(row.faults)


def order_rules(tables):
    trips = defaultdict(list)
    for row in tables.files["stop_times.txt"].rows:
        if row.key(["trip_id", "stop_sequence"]):
            trips[row.value("trip_id")].append(row)
    for rows in trips.values():
        rows.sort(key=lambda row: (row.value("stop_sequence"), row.number))
        last = next(row for row in rows if row.value("stop_sequence") == rows[-1].value("stop_sequence"))
        for row in (rows[0], last):
            if row.is_empty("arrival_time") and row.is_empty("departure_time"):
                yield "stop_times.txt", row.number, "E15", "arrival_time"
        timed = [row for row in rows if is_timed(row)]
        for before, row in zip(timed, timed[1:]):
            if comes(row) < leaves(before):
                yield "stop_times.txt", row.number, "E17", "arrival_time"


def period_rules(tables):
    earlier = defaultdict(list)
    for row in tables.files["frequencies.txt"].rows:
        start, end = row.value("start_time"), row.value("end_time")
        if start is None or end is None:
            continue
        if end <= start:
            yield "frequencies.txt", row.number, "E18", "end_time"
        trip = row.value("trip_id")
        if trip is not None:
            if any(max(start, first) < min(end, last) for first, last in earlier[trip]):
                yield "frequencies.txt", row.number, "E19", "start_time"
            earlier[trip].append((start, end))


def trip_rules(tables):
    counts = Counter(row.value("trip_id") for row in tables.files["stop_times.txt"].rows)
    for row in tables.files["trips.txt"].rows:
        trip = row.value("trip_id")
        if trip is not None and counts[trip] < 2:
            yield "trips.txt", row.number, "W06", "trip_id"


def service_rules(tables):
    told = {(name, number) for name, number, code, _ in [*key_rules(tables), *span_rules(tables)]}
    services = defaultdict(list)
    for name in ("calendar.txt", "calendar_dates.txt"):
        for row in tables.files[name].rows:
            services[row.value("service_id")].append((name, row))
    services.pop(None, None)
    for rows in services.values():
        whole = all(row.value(column.name) is not None for name, row in rows for column in FILES[name])
        if whole and not any((name, row.number) in told for name, row in rows) and not is_ever_active(rows):
            name, row = rows[0]
            yield name, row.number, "W07", "service_id"


def is_ever_active(rows):
    """Whether the service of these rows, of which at most one is of calendar.txt, runs on any service day."""
    exceptions = {row.value("date"): row.value("exception_type") for name, row in rows if name == "calendar_dates.txt"}
    if any(kind == 1 and is_service_day(date) for date, kind in exceptions.items()):
        return True
    removed = {date for date, kind in exceptions.items() if kind == 2}
    weeks = [row for name, row in rows if name == "calendar.txt"]
    return any(date not in removed for row in weeks for date in some_dates(row, len(removed)))


def is_service_day(date):
    return FIRST_SERVICE_DAY <= date <= LAST_SERVICE_DAY


def some_dates(row, removed):
    """Service days that a calendar row covers: one more than are removed, or all where there are fewer."""
    date, end, found = row.value("start_date"), min(row.value("end_date"), LAST_SERVICE_DAY), 0
    days = {at for at, day in enumerate(WEEKDAYS) if row.value(day)}
    while days and date <= end and found <= removed:
        if date.weekday() in days:
            found += 1
            yield date
        date += datetime.timedelta(1)


RULES = [
    file_rules, header_rules, field_rules, key_rules, reference_rules, stop_kind_rules, presence_rules, zone_rules,
    span_rules, time_rules, order_rules, period_rules, trip_rules, service_rules,
]


def problems(tables):
    """The problems of a dataset, each once, by file, row, code and column."""
    ranks = {name: (at, "") for at, name in enumerate(FILES)}
    found = {problem for rule in RULES for problem in rule(tables)}
    return sorted(found, key=lambda problem: (ranks.get(problem[0], (len(FILES), problem[0])), *problem[1:]))


def errors_in(found):
    """How many problems are errors."""
    return sum(code.startswith("E") for _, _, code, _ in found)


def passes(tables):
    return not errors_in(problems(tables))
