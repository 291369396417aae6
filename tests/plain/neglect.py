"""Changes of a made feed that aim at an advice, or that just miss it. The feed goes on to pass."""
import datetime

from columns import FILES
from oddities import show
from values import date_text

ADDRESSES = [
    "http://m.example", "https://m.example", "http:/m.example", "HTTP://m.example", "Https://m.example", "www.m.example", "xhttp://m",
]

# Coordinates about 0,0 and the poles.
PLACES = [
    ("1", "1"), ("-1", "-1"), ("1.000000001", "0"), ("0", "1.000000001"), ("0", "-1.000000001"), ("-1.000000001", "0"), ("0.5", "0.5"),
    ("89", "50"), ("-89", "50"), ("88.999999999", "50"), ("-88.999999999", "50"), ("90", "180"),
]

# Those of a station, the type of a stop of it, and the coordinates of that.
PARENTS = [
    (("50", "10"), "0", ("50.01", "10")), (("50", "10"), "0", ("50.010000001", "10")), (("50", "10"), "", ("49.99", "10.02")),
    (("50", "10"), "", ("49.989999999", "10")), (("50", "10"), "2", ("50", "10.020000001")), (("50", "10"), "2", ("50", "9.98")),
    (("50", "10"), "3", ("", "")), (("50", "10"), "3", ("51", "")), (("50", "10"), "3", ("51", "10")),
    (("50", "179.999"), "0", ("50", "-179.999")), (("-0.005", "0"), "0", ("0.005", "0.02")),
]

# What another route has that is else as one of the feed.
ROUTES = [
    {}, {}, {"route_id": "A1"}, {"route_type": "4"}, {"route_short_name": "10a"}, {"route_long_name": "Ring-"}, {"agency_id": None},
    {"route_color": "00ff00"}, {"route_desc": "x"},
]

# The short and the long names of a route.
NAMES = [
    ("x" * 12, ""), ("x" * 13, ""), ("é" * 12, ""), ("線路" * 6 + "線", "x"), ("🚋" * 12, ""), ("🚋" * 13, ""), ("x" * 12, "x" * 13),
    ("10", "10"), ("10", "10 Ring"), ("10", "10-Ring"), ("10", "10_Ring"), ("10", "10\tRing"), ("10", "100"), ("10", "10a"),
    ("10", "10Z"), ("10", "10é"), ("10", "10\u00a0Ring"), ("10", "1"), ("10", "Ring 10"), ("Bahn", "Bahnübergang"),
    ("Bahn", "bahn 1"), ("Ü", "Ü/1"),
    ("a\tb", "a b"), ("7", "7@"), ("7", "7["), ("7", "7`"), ("7", "7{"), ("7", "7:"), ("7", "7/"), ("", "Ring"), ("7", ""),
]

# Colours and text colours.
COLOURS = [
    ("", ""), ("", "FFFFFF"), ("000000", ""), ("000000", "484848"), ("000000", "494949"), ("FFFFFF", "B6B6B6"), ("B7B7B7", "FFFFFF"),
    # (two pairs that are 72,857 thousandths apart, and two that are 72,858)
    ("0352D1", "000000"), ("000000", "0352d1"), ("006C53", "000000"), ("000000", "006c53"), ("FF0000", "00FF00"), ("FF0000", "FF0001"),
]

# Texts that are garbled, and some that are not.
TEXTS = [
    "ZÃ¼rich", "\ufffd", "a\ufffdb", "Â\u0080", "Ã\u00bf", "Ã\u00c0", "Ä\u0080", "Â", "aÃ", "Ã Â¼", "Â \u00bf", "Ã\u007f1",
    "\u00c1\u0080", "ÃÃ\u0080", "Zürich",
]
SITES = [
    ("agency.txt", "agency_name"), ("stops.txt", "stop_name"), ("routes.txt", "route_short_name"), ("routes.txt", "route_long_name"),
    ("trips.txt", "trip_headsign"), ("stops.txt", "stop_desc"), ("stop_times.txt", "stop_headsign"),
]

EIGHT, NINE = ("08:00:00", "08:00:00"), ("09:00:00", "09:00:00")

# The times of a trip's stop times.
TIMES = [
    [EIGHT] * 6, [EIGHT] * 5, [EIGHT] * 5 + [NINE], [EIGHT] * 7,
    [EIGHT] * 2 + [("", "")] + [EIGHT] * 3, [EIGHT] * 3 + [("", "")] + [EIGHT] * 3,
    [("07:00:00", "08:00:00"), *[EIGHT] * 4, ("08:00:00", "09:00:00")], [("08:00:00", "")] + [EIGHT] * 4 + [("", "08:00:00")],
    [EIGHT] * 5 + [("08:00:01", "08:00:01")], [("07:59:59", "07:59:59")] + [EIGHT] * 5, [("07:59:59", "07:59:59")] + [EIGHT] * 6,
    [("01:00:00", "01:00:00"), ("25:00:00", "25:00:00")], [("01:00:00", "01:00:00"), ("25:00:01", "25:00:01")],
    [("01:00:00", "01:00:01"), ("25:00:01", "25:00:01")], [("01:00:00", "01:00:00"), ("25:00:00", "25:00:01")],
    [("01:00:00", ""), ("", ""), ("", "25:00:01")], [("00:00:00", "00:00:00"), EIGHT, ("50:00:00", "50:00:00")],
    [EIGHT], [],
]

# The latitudes of the stops of a trip, and its times.
SPEEDS = [
    (["50", "50.075"], [EIGHT, EIGHT]), (["50", "50.075000001"], [EIGHT, EIGHT]), (["50.075000001", "50"], [EIGHT, EIGHT]),
    (["50", "50.15"], [EIGHT, ("08:01:00", "08:01:00")]), (["50", "50.150000001"], [EIGHT, ("08:01:00", "08:01:00")]),
    (["-0.1", "0.1"], [EIGHT, ("08:01:40", "08:01:40")]), (["-0.1", "0.100000001"], [EIGHT, ("08:01:40", "")]),
    (["50", "50.1", "50.2"], [EIGHT, ("", ""), EIGHT]), (["50", "50.2"], [("07:00:00", "08:00:00"), ("08:01:39", "09:00:00")]),
    (["50", "50.2"], [("07:00:00", "08:00:00"), ("08:01:40", "09:00:00")]), (["-88", "88"], [EIGHT, NINE]),
    (["50", "50", "50.08"], [EIGHT, EIGHT, EIGHT]),
]

# What a stop time of three has, and its trip.
STOP_TIMES = [
    ({"stop_headsign": ""}, {"trip_headsign": ""}), ({"stop_headsign": "x"}, {"trip_headsign": ""}),
    ({"stop_headsign": ""}, {"trip_headsign": "x"}),
    *[({"pickup_type": pickup, "drop_off_type": drop_off}, {}) for pickup, drop_off in ["11", "10", "01", "12", "21", "31", ("1", "")]],
]

# Which stops a trip of three or four stop times has.
STOPS = [[0, 0, 1], [0, 1, 0], [0, 1, 1, 0], [0, 1, 0, 1]]

# In what a trip is another one than one that it is else the same as. None is another id.
TWINS = [
    {}, {}, {"stop_sequence": "5"}, {"arrival_time": "8:30:00"}, {"arrival_time": ""}, {"departure_time": ""},
    {"departure_time": "08:30:01"}, {"stop_headsign": "x"}, {"pickup_type": "0"}, {"pickup_type": "2"}, {"drop_off_type": "0"},
    {"drop_off_type": "3"}, {"timepoint": "0"}, {"timepoint": "1"}, {"headway_secs": "601"}, {"headway_secs": "0600"},
    {"exact_times": "0"}, {"exact_times": "1"}, {"end_time": "07:00:01"},
    {"trip_headsign": "x"}, {"direction_id": "1"}, {"stop_id": None}, {"route_id": None}, {"service_id": None}, {"trip_id": "A"},
]

# The headway of a period of 1,800 seconds.
HEADWAYS = ["1799", "1800", "1801", "900"]

# The days of a service, from the first one on, that are given or taken away, and whether a trip with stop times has it.
GAPS = [
    ([0, 14], True), ([0, 15], True), ([0, 16], True), ([0, 15], False), ([0, 15, 29, 44], True), ([0, 15, 30, 46], True), ([0], True),
    ([0, 400], True),
]


def unused(ids, stem):
    """An id that none of these is."""
    number = 1
    while f"{stem}{number}" in ids:
        number += 1
    return f"{stem}{number}"


def add(feed, name, row):
    """A row of a file, and all its columns in the header."""
    feed.sheets[name].append({column.name: row.get(column.name, "") for column in FILES[name]})
    for column, text in row.items():
        if text:
            show(feed, name, column)


def set_values(feed, name, row, values):
    for column, text in values.items():
        show(feed, name, column)
        row[column] = text


def new_stop(feed, stem, latitude, longitude, kind="", parent=""):
    id = unused(feed.ids("stops.txt", "stop_id"), stem)
    row = {"stop_id": id, "stop_name": "Mill", "stop_lat": latitude, "stop_lon": longitude, "location_type": kind, "parent_station": parent}
    add(feed, "stops.txt", row)
    return id


def new_agency(feed):
    """An agency with an id. All others, and all routes, have one then."""
    agencies = feed.sheets["agency.txt"]
    show(feed, "agency.txt", "agency_id")
    show(feed, "routes.txt", "agency_id")
    for row in agencies:
        row["agency_id"] = row["agency_id"] or "M"
    for row in feed.sheets["routes.txt"]:
        row["agency_id"] = row["agency_id"] or agencies[0]["agency_id"]
    id = unused(feed.ids("agency.txt", "agency_id"), "Z")
    agencies.append({**agencies[0], "agency_id": id})
    return id


def new_route(feed, values):
    """A route that is a copy of another one but for these values."""
    values = {"route_id": unused(feed.ids("routes.txt", "route_id"), "R"), **values}
    if "agency_id" in values:
        values["agency_id"] = new_agency(feed)
    rows = feed.sheets["routes.txt"]
    if values["route_id"] not in feed.ids("routes.txt", "route_id"):
        rows.append(dict(rows[0]))
        set_values(feed, "routes.txt", rows[-1], values)
    return values["route_id"]


def new_service(feed, days=(0,)):
    """A service that has these days, from some day after all others on: all days before are of other services."""
    id = unused(feed.ids("calendar.txt", "service_id") + feed.ids("calendar_dates.txt", "service_id"), "C")
    for day in days:
        date = feed.base + datetime.timedelta(-40 - day if feed.base.year > 9000 else 40 + day)
        add(feed, "calendar_dates.txt", {"service_id": id, "date": date_text(date), "exception_type": "1"})
    return id


def new_trip(feed, times, values=None, stops=None, row=None):
    """A trip with these times, at these stops or in turn at two of the feed, and with these values of its second row."""
    platforms = [row["stop_id"] for row in feed.sheets["stops.txt"] if row["location_type"] in ("", "0")]
    stops = stops or [platforms[at % 2] for at in range(len(times))]
    ids = feed.ids("trips.txt", "trip_id")
    routes, services = (feed.ids("trips.txt", column) for column in ("route_id", "service_id"))
    trip = {"trip_id": unused(ids, "T"), "route_id": routes[0], "service_id": services[0], "trip_headsign": "Mill", **(values or {})}
    add(feed, "trips.txt", trip)
    for at, (arrival, departure) in enumerate(times):
        stop_time = {"arrival_time": arrival, "departure_time": departure, "stop_id": stops[at], "stop_sequence": str(3 * at)}
        add(feed, "stop_times.txt", {"trip_id": trip["trip_id"], **stop_time, **(row if row and at == 1 else {})})
    return trip["trip_id"]


def clear(feed, names):
    """Files of names of columns alone."""
    for name in names:
        feed.sheets[name].clear()
        feed.set[name] = ",".join(feed.headers[name]).encode()


# ---- the changes


def agency_more(random, feed, has_route):
    id = new_agency(feed)
    if has_route:
        random.choice(feed.sheets["routes.txt"])["agency_id"] = id


def address(random, feed, text):
    random.choice(feed.sheets["agency.txt"])["agency_url"] = text


def rows_less(random, feed, names):
    clear(feed, names)


def agency_alone(random, feed, id):
    """One agency with this id or with none, and no route and no trip."""
    feed.sheets["agency.txt"][1:] = []
    feed.sheets["agency.txt"][0]["agency_id"] = id
    clear(feed, ["stop_times.txt", "frequencies.txt", "transfers.txt", "trips.txt", "routes.txt"])


def stop_more(random, feed, kinds):
    """A stop of the first type, and one of each of the others below it."""
    id = new_stop(feed, "S" if kinds[0] == "0" else "H", "52.5", "13.4", kinds[0])
    for kind in kinds[1:]:
        new_stop(feed, "S", "52.5", "13.4", kind, id)


def place(random, feed, place):
    row = random.choice(feed.sheets["stops.txt"])
    if row["stop_lat"]:
        row["stop_lat"], row["stop_lon"] = place


def parent(random, feed, places):
    station, kind, own = places
    new_stop(feed, "S", *own, kind, new_stop(feed, "H", *station, "1"))


def platform_with_a_place(random, feed, own):
    """A boarding area of a platform, far from it or near."""
    new_stop(feed, "B", *own, "4", new_stop(feed, "S", "50", "10"))


def route_more(random, feed, values):
    new_route(feed, values)


def names(random, feed, names):
    set_values(feed, "routes.txt", random.choice(feed.sheets["routes.txt"]), dict(zip(["route_short_name", "route_long_name"], names)))


def colours(random, feed, colours):
    set_values(feed, "routes.txt", random.choice(feed.sheets["routes.txt"]), dict(zip(["route_color", "route_text_color"], colours)))


def directions(random, feed, texts):
    """A route whose trips, one for each, have these directions. They have no stop times."""
    route = new_route(feed, {"route_short_name": "12"})
    for text in texts:
        new_trip(feed, [], {"route_id": route, "direction_id": text})


def times(random, feed, times):
    new_trip(feed, times)


def speed(random, feed, course):
    latitudes, times = course
    new_trip(feed, times, stops=[new_stop(feed, "S", latitude, "13.4") for latitude in latitudes])


def stop_time(random, feed, values):
    row, trip = values
    new_trip(feed, [EIGHT, ("08:30:00", "08:30:00"), NINE], trip, row=row)


def stops_of_trip(random, feed, places):
    stops = [new_stop(feed, "S", "52.5", "13.4") for _ in range(2)]
    new_trip(feed, [EIGHT, ("08:30:00", "08:30:00"), NINE, NINE][:len(places)], stops=[stops[at] for at in places])


def has_column(name, column):
    return any(other.name == column for other in FILES[name])


def twin(random, feed, values):
    """Two trips that are the same but for these values."""
    others = {
        "route_id": lambda: new_route(feed, {}), "service_id": lambda: new_service(feed),
        "stop_id": lambda: new_stop(feed, "S", "52.5", "13.4"),
    }
    values = {column: others[column]() if text is None else text for column, text in values.items()}
    if values.get("trip_id") in feed.ids("trips.txt", "trip_id"):
        return
    has_periods = random.random() < 0.5 or any(has_column("frequencies.txt", column) for column in values)
    trip = {column: text for column, text in values.items() if has_column("trips.txt", column)}
    row = {column: text for column, text in values.items() if has_column("stop_times.txt", column) and column != "trip_id"}
    for changed_trip, changed_row, changed in [({}, {}, {}), (trip, row, values)]:
        id = new_trip(feed, [EIGHT, ("08:30:00", "08:30:00"), NINE], changed_trip, row=changed_row)
        period = {"trip_id": id, "start_time": "06:00:00", "end_time": "07:00:00", "headway_secs": "600", "exact_times": ""}
        if has_periods:
            add(feed, "frequencies.txt", {**period, **{column: changed[column] for column in list(period)[2:] if column in changed}})


def period_of_one(random, feed, number):
    """Two trips of which one alone has a period, or none has stop times."""
    for at in range(2):
        id = new_trip(feed, [EIGHT, NINE] if number < 2 else [])
        if at == number:
            add(feed, "frequencies.txt", {"trip_id": id, "start_time": "06:00:00", "end_time": "07:00:00", "headway_secs": "600"})


def headway(random, feed, text):
    id = new_trip(feed, [EIGHT, NINE])
    for start, end, seconds in [("05:00:00", "06:00:00", "600"), ("06:00:00", "06:30:00", text)]:
        add(feed, "frequencies.txt", {"trip_id": id, "start_time": start, "end_time": end, "headway_secs": seconds})


def service_more(random, feed, form):
    """A service of calendar.txt, of calendar_dates.txt or of both, without a trip, or with one that has no stop times."""
    in_weeks, in_dates, has_trip = form
    id = new_service(feed, (0,) if in_dates else ())
    if in_weeks and feed.sheets["calendar.txt"]:
        feed.sheets["calendar.txt"].append({**feed.sheets["calendar.txt"][0], "service_id": id})
    if has_trip and (in_dates or feed.sheets["calendar.txt"]):
        new_trip(feed, [], {"service_id": id})


def gap(random, feed, form):
    days, is_used = form
    new_trip(feed, [EIGHT, NINE] if is_used else [], {"service_id": new_service(feed, days)})


def gap_in_a_week(random, feed, removed):
    """A service of each day, of which so many days in a row are taken away."""
    if not feed.sheets["calendar.txt"]:
        return
    first = feed.base + datetime.timedelta(-70 if feed.base.year > 9000 else 10)
    dates = [date_text(first + datetime.timedelta(day)) for day in (0, 40)]
    id = new_service(feed, ())
    week = {column.name: "1" for column in FILES["calendar.txt"]}
    feed.sheets["calendar.txt"].append({**week, "service_id": id, "start_date": dates[0], "end_date": dates[1]})
    for day in range(10, 10 + removed):
        exception = {"date": date_text(first + datetime.timedelta(day)), "exception_type": "2"}
        add(feed, "calendar_dates.txt", {"service_id": id, **exception})
    new_trip(feed, [EIGHT, NINE], {"service_id": id})


def text(random, feed, found):
    name, column, text = found
    if feed.sheets[name]:
        set_values(feed, name, random.choice(feed.sheets[name]), {column: text})


CHANGES = {
    agency_more: [False, True],
    address: ADDRESSES,
    agency_alone: ["", "M"],
    rows_less: [["stop_times.txt", "frequencies.txt"]],
    stop_more: ["0", "1", "10", "12", "123", "04"],
    place: PLACES,
    parent: PARENTS,
    platform_with_a_place: [("50.01", "10"), ("50.02", "10"), ("", "")],
    route_more: ROUTES,
    names: NAMES,
    colours: COLOURS,
    directions: [["0", ""], ["0", "1"], ["", ""], ["", "1", "0"], [""]],
    times: TIMES,
    speed: SPEEDS,
    stop_time: STOP_TIMES,
    stops_of_trip: STOPS,
    twin: TWINS,
    period_of_one: [0, 1, 2],
    headway: HEADWAYS,
    service_more: [(True, False, False), (False, True, False), (True, True, False), (True, False, True), (False, True, True)],
    gap: GAPS,
    gap_in_a_week: [13, 14, 15],
    text: [(*site, text) for site in SITES for text in TEXTS],
}
AIMS = [(change, value) for change, values in CHANGES.items() for value in values]


def neglect(random, feed, number, times):
    """Aims so often, with others for each number, and as often at anything."""
    aimed = [AIMS[(at * 97 + at // len(AIMS)) % len(AIMS)] for at in range(number * times, (number + 1) * times)]
    for change, value in [*aimed, *random.choices(AIMS, k=times)]:
        if feed.sheets["routes.txt"] and feed.sheets["trips.txt"]:
            change(random, feed, value)
