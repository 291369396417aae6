"""Changes of a made feed that aim at a site: a problem of one code in one file and column. Others of the same feed may hide it."""
from columns import FILES, KEYS, WEEKDAYS
from oddities import show
from sites import sites
from values import date_text

UNREADABLE = {
    "choice": ["x", "-1", '"1"'], "count": ["x", "-1", '1"0'], "positive": ["1 0", "+1"], "time": ["8:5:00", "24:60:00", '8"'],
    "date": ["2024-01-01", "1", "x" * 61], "colour": ["#ffffff", "FFFFF", "x" * 60], "latitude": ["52,5", "1e1"],
    "longitude": ["-", "1.2.3"],
}
OUT_OF_RANGE = {
    "choice": ["99", "2147483648"], "count": ["2147483648", "9" * 61], "positive": ["0", "99999999999999999999"],
    "date": ["20240230", "18991231"], "latitude": ["90.000000001", "-91"], "longitude": ["180.1", "-999"],
}
CONTROLLED = ["a\tb", "a\nb", "\x01b", "a\x7f1", "a\t" + "x" * 58, "a\n" + "é" * 59]


def row_of(random, feed, name):
    """A row of a file, which is made where there is none."""
    rows = feed.sheets[name]
    if not rows:
        date = date_text(feed.base)
        made = {
            "trip_id": (feed.ids("trips.txt", "trip_id") or ["T1"])[0], "service_id": "C9", **{day: "1" for day in WEEKDAYS},
            "stop_id": (feed.ids("stops.txt", "stop_id") or ["S1"])[0], "stop_sequence": "1", "start_date": date, "end_date": date,
            "date": date, "exception_type": "1", "start_time": "06:00:00", "end_time": "07:00:00", "headway_secs": "600",
        }
        rows.append({column.name: made.get(column.name, "") for column in FILES[name]})
        for column in FILES[name]:
            if column.required or rows[0][column.name]:
                show(feed, name, column.name)
    return random.choice(rows)


def set_value(random, feed, name, values):
    """A row of a file with these values."""
    row = row_of(random, feed, name)
    for column, text in values.items():
        show(feed, name, column)
        row[column] = text
    return row


def without_file(random, feed, name, _):
    feed.set[name] = None
    if name == "calendar.txt":
        feed.set["calendar_dates.txt"] = random.choice([None, b""])


def not_text(random, feed, name, _):
    feed.set[name] = random.choice([b"\xff", b"a,b\n1,\xc3\n"])


def empty_file(random, feed, name, _):
    feed.set[name] = random.choice([b"", b"\r\n\n", b"\xef\xbb\xbf"])


def without_column(random, feed, name, column):
    row_of(random, feed, name)
    if column in feed.headers[name]:
        feed.headers[name].remove(column)


def column_twice(random, feed, name, column):
    set_value(random, feed, name, {})
    show(feed, name, column)
    feed.headers[name].insert(random.randint(0, len(feed.headers[name])), column)


def column_not_kept(random, feed, name, _):
    row_of(random, feed, name)
    feed.headers[name].append(random.choice(["foo", "Stop_ID", "shape_id"]))


def length_of(change):
    """A change of how many fields the rows of a file have."""

    def changed(random, feed, name, _):
        row_of(random, feed, name)
        feed.lengths[name] = change

    return changed


def value_of(choose):
    """A change of a value to one that is chosen by the kind of its column."""

    def change(random, feed, name, column):
        kind = next(other.kind for other in FILES[name] if other.name == column)
        set_value(random, feed, name, {column: random.choice(choose(kind))})

    return change


def key_twice(random, feed, name, _):
    row = row_of(random, feed, name)
    for column in KEYS[name][0]:
        show(feed, name, column)
        row[column] = row.get(column) or {"stop_sequence": "3", "date": "20240401", "start_time": "06:00:00"}.get(column, "A9")
    feed.sheets[name].insert(random.randint(0, len(feed.sheets[name])), dict(row))


def value_missing(random, feed, name, column):
    """A value that is empty where another one requires it."""
    others = {
        "agency_id": {}, "route_short_name": {"route_long_name": ""}, "parent_station": {"location_type": random.choice("234")},
        "stop_name": {"location_type": random.choice(["", "1", "2"])}, "from_stop_id": {"transfer_type": random.choice("123")},
        "from_trip_id": {"transfer_type": random.choice("45")},
    }
    alike = {"stop_lat": "stop_name", "stop_lon": "stop_name", "to_stop_id": "from_stop_id", "to_trip_id": "from_trip_id"}
    if column == "agency_id":
        feed.sheets["agency.txt"].append({**row_of(random, feed, "agency.txt"), "agency_id": "Z8"})
        show(feed, "agency.txt", "agency_id")
    set_value(random, feed, name, {column: "", **others[alike.get(column, column)]})


def period_empty(random, feed, name, _):
    set_value(random, feed, name, {"start_time": "06:00:00", "end_time": random.choice(["06:00:00", "05:59:59"])})


def periods_overlap(random, feed, name, _):
    row = set_value(random, feed, name, {"start_time": "06:00:00", "end_time": "07:00:00"})
    feed.sheets[name].append({**row, "start_time": "06:59:59"})


def zones_differ(random, feed, name, _):
    """Another agency, with an id as all then have, in another zone."""
    rows = feed.sheets[name]
    show(feed, name, "agency_id")
    rows.append({**row_of(random, feed, name), "agency_id": "Z7", "agency_timezone": "Europe/Paris"})


CHANGES = {
    "E01": without_file, "E02": not_text, "E03": without_column, "E04": column_twice, "E05": empty_file, "W04": column_not_kept,
    "E06": value_of(lambda kind: ["", " "]), "E07": value_of(UNREADABLE.get), "E08": value_of(OUT_OF_RANGE.get),
    "E20": value_of(lambda kind: CONTROLLED), "W05": value_of(lambda kind: CONTROLLED), "E09": key_twice,
    "E10": value_of(lambda kind: ["nobody", "t1"]), "E12": value_missing, "W01": length_of(-1), "W02": length_of(1),
    "E13": zones_differ, "E18": period_empty, "E19": periods_overlap,
}
AIMS = sorted(site for site in sites() if site[0] in CHANGES)


def aim(random, feed, number, times):
    """Aims at so many sites, of which each number has others, far from each other."""
    for at in range(number * times, (number + 1) * times):
        # (each time round they come together with others)
        code, name, column = AIMS[(at * 97 + at // len(AIMS)) % len(AIMS)]
        CHANGES[code](random, feed, name, column)
