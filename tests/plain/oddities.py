"""Changes of a made feed that may break it: odd values, rows and columns too many or too few, files of another kind."""
from columns import FILES, WEEKDAYS
from values import Form, Range, coordinate_text, date_text, read_coordinate

VALUES = [
    "", " ", "x", "-1", "007", "2147483647", "2147483648", "9", "0", "1", "2", "3", "4", "5", "6:00:00", "06:00:00",
    "24:60:00", "25:61:00", "999:59:59", "1000:00:00", "08:60:00", "8:5:0", "20230229", "2024-01-01", "19000101",
    "18991231", "99991231", "99990101", "20240230", "20240331", "\x01", "a\tb", "a\nb", "a\x7fb",
    "99999999999999999999", "52,5", "1e1", ".5", "5.",
    "-", ".", "90.0000000001", "90.000000001", "-180.1", "#ffffff", "ffffff", "FFFFF", "１", "\u00a0", "\ufeff", "13",
    "100", "1799", "1800", "12",
    "T1", "S1", "R1", "C1", "H", "M", "nobody", "UTC", "é", 'a "b"', '"', "x" * 60, "x" * 61, "é" * 60, "\u0085" + "🚋" * 60,
]
NAMES = ["shapes.txt", "Stops.txt", "feed_info.txt", "notes", "ä.txt", "a\tb.txt", "agency.txt~", "calendar"]


def filled(random, feed):
    """A file that has rows."""
    return random.choice([name for name, rows in feed.sheets.items() if rows])


def column_of(random, name):
    return random.choice(FILES[name]).name


def show(feed, name, column):
    """Names a column in the header of a file."""
    if column not in feed.headers[name]:
        feed.headers[name].append(column)


def odd_value(random, feed):
    name = filled(random, feed)
    column = column_of(random, name)
    show(feed, name, column)
    random.choice(feed.sheets[name])[column] = random.choice(VALUES)


def other_value(random, feed):
    """The value of another row, or of another column of the row."""
    name = filled(random, feed)
    row, other = random.choice(feed.sheets[name]), random.choice(feed.sheets[name])
    column = column_of(random, name)
    show(feed, name, column)
    row[column] = other.get(column if random.random() < 0.7 else column_of(random, name), "")


def row_twice(random, feed):
    name = filled(random, feed)
    rows = feed.sheets[name]
    rows.insert(random.randint(0, len(rows)), dict(random.choice(rows)))


def row_less(random, feed):
    rows = feed.sheets[filled(random, feed)]
    rows.pop(random.randrange(len(rows)))


def rows_less(random, feed):
    feed.sheets[filled(random, feed)].clear()


def column_less(random, feed):
    header = feed.headers[filled(random, feed)]
    if header:
        header.pop(random.randrange(len(header)))


def column_more(random, feed):
    header = feed.headers[random.choice(list(FILES))]
    name = random.choice([*header, "", "foo", "shape_id", "a\tb", " "]) if header else "foo"
    header.insert(random.randint(0, len(header)), name)


def file_less(random, feed):
    feed.set[random.choice(list(FILES))] = None


def file_of_bytes(random, feed):
    name = random.choice(list(FILES))
    feed.set[name] = random.choice([b"", b"\n\n", b"\xef\xbb\xbf", b"\xff", b"a,b\n1,\xc3\n", b'"', ",".join(
        column.name for column in FILES[name]
    ).encode()])


def name_more(random, feed):
    feed.set[random.choice(NAMES)] = b"x"


def times_swapped(random, feed):
    rows = feed.sheets["stop_times.txt"]
    if rows:
        row, other = random.choice(rows), random.choice(rows)
        column = random.choice(["arrival_time", "departure_time", "stop_sequence"])
        row[column], other[column] = other[column], row[column]


def times_less(random, feed):
    rows = feed.sheets["stop_times.txt"]
    if rows:
        row = random.choice(rows)
        row["arrival_time"] = ""
        row["departure_time"] = random.choice(["", row["departure_time"]])


def period_moved(random, feed):
    rows = feed.sheets["frequencies.txt"]
    if rows:
        row = random.choice(rows)
        times = ["00:10:00", "06:20:00", "06:30:00", "23:59:59", "24:10:00"]
        row[random.choice(["start_time", "end_time"])] = random.choice(times)


def week_emptied(random, feed):
    rows = feed.sheets["calendar.txt"]
    if rows:
        random.choice(rows).update({day: "0" for day in WEEKDAYS})


def week_turned(random, feed):
    """A calendar row whose two dates change places."""
    rows = feed.sheets["calendar.txt"]
    if rows:
        row = random.choice(rows)
        row["start_date"], row["end_date"] = row["end_date"], row["start_date"]


def kind_changed(random, feed):
    row = random.choice(feed.sheets["stops.txt"])
    show(feed, "stops.txt", "location_type")
    show(feed, "stops.txt", "parent_station")
    row["location_type"] = random.choice(["", "0", "1", "2", "3", "4"])
    if random.random() < 0.5:
        row["parent_station"] = random.choice(["", "H", "S1", "E1"])


def agency_more(random, feed):
    rows = feed.sheets["agency.txt"]
    zone = random.choice(["UTC", "Europe/Paris", ""])
    rows.append({**rows[0], "agency_id": random.choice(["", "Z"]), "agency_timezone": zone})


ODDITIES = [
    *[odd_value] * 8, *[other_value] * 4, row_twice, row_twice, row_less, rows_less, column_less, column_more,
    file_less, file_of_bytes, name_more, times_swapped, times_swapped, times_less, period_moved, week_emptied, week_turned,
    kind_changed, kind_changed, agency_more,
]


def trip_later(random, feed):
    """A trip whose stop times are an hour later."""
    rows = feed.sheets["stop_times.txt"]
    if rows:
        trip = random.choice(rows)["trip_id"]
        for row in rows:
            for column in ("arrival_time", "departure_time"):
                hours, colon, rest = row[column].partition(":")
                if row["trip_id"] == trip and colon and hours.isdecimal():
                    row[column] = f"{int(hours) + 1}:{rest}"


def name_changed(random, feed):
    """A stop, a route or an agency of another name."""
    name, column = random.choice([("stops.txt", "stop_name"), ("routes.txt", "route_long_name"), ("agency.txt", "agency_name")])
    rows = feed.sheets[name]
    if rows:
        show(feed, name, column)
        random.choice(rows)[column] = random.choice(["New", "Mill"])


def day_more(random, feed):
    """A service with one more exception."""
    rows, services = feed.sheets["calendar_dates.txt"], feed.ids("trips.txt", "service_id")
    if services:
        exception = {"service_id": random.choice(services), "date": date_text(feed.base), "exception_type": random.choice("12")}
        if not any((row["service_id"], row["date"]) == (exception["service_id"], exception["date"]) for row in rows):
            rows.append(exception)
        for column in exception:
            show(feed, "calendar_dates.txt", column)


# Changes of a feed of which another one is a copy; it mostly still passes.
DIFFERENCES = [
    *[odd_value] * 3, other_value, row_less, times_less, week_emptied, period_moved, *[trip_later, name_changed, day_more] * 3,
]


def stop_called_anew(random, feed):
    """A stop of another id, wherever it is named."""
    ids = feed.ids("stops.txt", "stop_id")
    if not ids:
        return
    old = random.choice(ids)
    new = random.choice(["A" + old, old + "0", "Z9"])
    if new in ids:
        return
    for rows in feed.sheets.values():
        for row in rows:
            for column in ("stop_id", "parent_station", "from_stop_id", "to_stop_id"):
                if row.get(column) == old:
                    row[column] = new


def stop_moved(random, feed):
    """A stop about a millionth of a degree away."""
    row = random.choice(feed.sheets["stops.txt"])
    column, limit = random.choice([("stop_lat", 90), ("stop_lon", 180)])
    try:
        units = read_coordinate(row.get(column, ""), limit)
    except (Form, Range):
        return
    units += random.choice([1, 999, 1000, 1001, 5000, 9999]) * random.choice([1, -1])
    if abs(units) <= limit * 10**9:
        row[column] = coordinate_text(units)


# Changes of a feed of which another one is a copy, that leave its stops close to those of the other.
MOVES = [stop_called_anew, stop_called_anew, stop_moved]


def change(random, feed, changes, times):
    for _ in range(times):
        if any(feed.sheets.values()) and feed.sheets["stops.txt"] and feed.sheets["agency.txt"]:
            random.choice(changes)(random, feed)
