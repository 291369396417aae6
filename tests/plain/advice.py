"""Advice on a feed that passes: what is no error, and yet is poor.

A rule is a function of a feed that gives ids for which it advises, or dates. Each stands in the list of its code and its file.
"""
import datetime
import re

from columns import FILES
from content import is_timed, leaves, reaches
from values import FIRST_SERVICE_DAY, LAST_SERVICE_DAY, date_text

TEXTS = {
    "A01": "no route", "A02": "address without http", "A03": "no trip stops here", "A04": "no stop belongs to it",
    "A05": "near 0,0 or a pole", "A06": "far from its parent", "A07": "no trip", "A08": "named as another one",
    "A09": "short name over 12 characters", "A10": "long name repeats the short one", "A11": "colours hard to tell apart",
    "A12": "direction of some trips only", "A13": "no headsign", "A14": "same as another one", "A15": "stops twice in a row",
    "A16": "six stops at one moment", "A17": "faster than 500 km/h", "A18": "nobody gets on or off", "A19": "longer than a day",
    "A20": "one run alone", "A21": "no trip", "A22": "no service for two weeks", "A23": "fewer than seven days left",
    "A24": "garbled letters",
}

DEGREE = 10**9
ONE_DAY = datetime.timedelta(1)


def followers(rows):
    """Each row with the one that follows it."""
    return zip(rows, rows[1:])


# ---- agencies


def agencies_without_a_route(feed):
    named = {route["agency_id"] for route in feed.routes.values()}
    return [id for id in feed.agencies if id not in named]


def addresses_without_http(feed):
    return [id for id, agency in feed.agencies.items() if not agency["agency_url"].startswith(("http://", "https://"))]


# ---- stops


def stops_without_a_trip(feed):
    named = {stop_id for trip in feed.trips.values() for stop_id in trip.stops()}
    return [id for id, stop in feed.stops.items() if stop["location_type"] == 0 and id not in named]


def stations_without_a_stop(feed):
    parents = {stop["parent_station"] for stop in feed.stops.values() if stop["location_type"] == 0}
    return [id for id, stop in feed.stops.items() if stop["location_type"] == 1 and id not in parents]


def has_place(stop):
    return stop["stop_lat"] is not None and stop["stop_lon"] is not None


def is_at_a_pole_or_zero(stop):
    if not has_place(stop):
        return False
    latitude, longitude = abs(stop["stop_lat"]), abs(stop["stop_lon"])
    return (latitude <= DEGREE and longitude <= DEGREE) or latitude >= 89 * DEGREE


def stops_at_a_pole_or_zero(feed):
    return [id for id, stop in feed.stops.items() if is_at_a_pole_or_zero(stop)]


def are_far(stop, other):
    if not has_place(stop) or not has_place(other):
        return False
    latitudes = abs(stop["stop_lat"] - other["stop_lat"])
    longitudes = abs(stop["stop_lon"] - other["stop_lon"])
    return latitudes > 10_000_000 or longitudes > 20_000_000


def stops_far_from_their_parents(feed):
    children = {id: stop for id, stop in feed.stops.items() if stop["parent_station"] is not None}
    return [id for id, stop in children.items() if are_far(stop, feed.stops[stop["parent_station"]])]


# ---- routes


def trips_of(feed, route):
    return [trip for trip in feed.trips.values() if trip.row["route_id"] == route]


def routes_without_a_trip(feed):
    return [id for id in feed.routes if not trips_of(feed, id)]


def name_of_route(route):
    return [route[column] for column in ("agency_id", "route_type", "route_short_name", "route_long_name")]


def routes_named_as_another(feed):
    return [
        id for id, route in feed.routes.items()
        if any(other < id and name_of_route(feed.routes[other]) == name_of_route(route) for other in feed.routes)
    ]


def long_short_names(feed):
    return [id for id, route in feed.routes.items() if len(route["route_short_name"] or "") > 12]


def repeats(long, short):
    """Whether a long name begins with the short one, and this is not the beginning of a longer word."""
    if not short or not long.startswith(short):
        return False
    behind = long[len(short):len(short) + 1]
    return behind == "" or (behind.isascii() and not behind.isalnum())


def long_names_that_repeat(feed):
    return [id for id, route in feed.routes.items() if repeats(route["route_long_name"] or "", route["route_short_name"] or "")]


def brightness(colour):
    """The brightness of a colour of 24 bits, in thousandths."""
    red, green, blue = colour >> 16, colour >> 8 & 255, colour & 255
    return 299 * red + 587 * green + 114 * blue


def colours_that_are_alike(feed):
    return [
        id for id, route in feed.routes.items()
        if 7 * abs(brightness(route["route_color"]) - brightness(route["route_text_color"])) < 510_000
    ]


def routes_with_some_directions(feed):
    return [
        id for id in feed.routes
        if len({trip.row["direction_id"] is None for trip in trips_of(feed, id)}) == 2
    ]


# ---- trips


def lacks_headsign(trip):
    return not trip.row["trip_headsign"] and any(not row["stop_headsign"] for row in trip.stop_times[:-1])


def trips_without_a_headsign(feed):
    return [id for id, trip in feed.trips.items() if lacks_headsign(trip)]


def without(row, *names):
    return {name: value for name, value in row.items() if name not in names}


def course(trip):
    """What two trips are compared by."""
    return [
        trip.row["route_id"],
        trip.row["service_id"],
        [without(row, "trip_id", "stop_sequence") for row in trip.stop_times],
        [without(row, "trip_id") for row in trip.frequencies],
    ]


def trips_that_are_the_same(feed):
    return [
        id for id, trip in feed.trips.items()
        if trip.stop_times and any(other < id and course(feed.trips[other]) == course(trip) for other in feed.trips)
    ]


# ---- stop times, by their trips


def trips_whose(holds):
    """The rule that advises for each trip whose stop times are so."""
    return lambda feed: [id for id, trip in feed.trips.items() if holds(feed, trip.stop_times)]


def stops_twice_in_a_row(feed, rows):
    return any(row["stop_id"] == after["stop_id"] for row, after in followers(rows))


def has_six_at_one_moment(feed, rows):
    sixes = [rows[at:at + 6] for at in range(len(rows) - 5)]
    return any(all(map(is_timed, six)) and leaves(six[0]) == reaches(six[5]) for six in sixes)


def is_too_fast(feed, row, after):
    stops = feed.stops[row["stop_id"]], feed.stops[after["stop_id"]]
    if not (is_timed(row) and is_timed(after) and all(map(has_place, stops))):
        return False
    seconds = reaches(after) - leaves(row)
    return abs(stops[0]["stop_lat"] - stops[1]["stop_lat"]) > 1_250_000 * (seconds + 60)


def is_anywhere_too_fast(feed, rows):
    return any(is_too_fast(feed, row, after) for row, after in followers(rows))


def has_a_row_for_nobody(feed, rows):
    return any(row["pickup_type"] == 1 and row["drop_off_type"] == 1 for row in rows)


def is_longer_than_a_day(feed, rows):
    return bool(rows) and reaches(rows[-1]) > leaves(rows[0]) + 86_400


# ---- frequencies, by their trips


def trips_with_one_run_alone(feed):
    return [
        id for id, trip in feed.trips.items()
        if any(period["headway_secs"] >= period["end_time"] - period["start_time"] for period in trip.frequencies)
    ]


# ---- services


def services_without_a_trip(feed):
    named = {trip.row["service_id"] for trip in feed.trips.values()}
    return [id for id in feed.services if id not in named]


def unused_in_calendar(feed):
    return [id for id in services_without_a_trip(feed) if feed.services[id].week]


def unused_in_calendar_dates(feed):
    return [id for id in services_without_a_trip(feed) if not feed.services[id].week]


def days_of_service(feed):
    """All days on which a service is active that a trip with a stop time has."""
    used = {trip.row["service_id"] for trip in feed.trips.values() if trip.stop_times}
    return {date for id in used for date in feed.services[id].active_dates(FIRST_SERVICE_DAY, LAST_SERVICE_DAY)}


def begins_of_gaps(feed):
    """The days that begin at least fourteen without service, between two with it."""
    days = sorted(days_of_service(feed))
    return [day + ONE_DAY for day, after in followers(days) if (after - day).days > 14]


def end_of_service(feed, day):
    """The last day of service, where it lies fewer than seven days from this one, in a list."""
    last = max(days_of_service(feed), default=None)
    if last is not None and (last - day).days >= 6:
        return []
    return [last]


def text_of_day(day):
    return "-" if day is None else date_text(day)


# ---- texts


def is_garbled(text):
    return re.search("\ufffd|[\u00c2\u00c3][\u0080-\u00bf]", text or "") is not None


def garbled(rows, *columns):
    return [id for id, row in rows.items() if any(is_garbled(row[column]) for column in columns)]


# ---- all of it

RULES = [
    ("A01", "agency.txt", agencies_without_a_route),
    ("A02", "agency.txt", addresses_without_http),
    ("A24", "agency.txt", lambda feed: garbled(feed.agencies, "agency_name")),
    ("A03", "stops.txt", stops_without_a_trip),
    ("A04", "stops.txt", stations_without_a_stop),
    ("A05", "stops.txt", stops_at_a_pole_or_zero),
    ("A06", "stops.txt", stops_far_from_their_parents),
    ("A24", "stops.txt", lambda feed: garbled(feed.stops, "stop_name")),
    ("A07", "routes.txt", routes_without_a_trip),
    ("A08", "routes.txt", routes_named_as_another),
    ("A09", "routes.txt", long_short_names),
    ("A10", "routes.txt", long_names_that_repeat),
    ("A11", "routes.txt", colours_that_are_alike),
    ("A12", "routes.txt", routes_with_some_directions),
    ("A24", "routes.txt", lambda feed: garbled(feed.routes, "route_short_name", "route_long_name")),
    ("A13", "trips.txt", trips_without_a_headsign),
    ("A14", "trips.txt", trips_that_are_the_same),
    ("A24", "trips.txt", lambda feed: garbled({id: trip.row for id, trip in feed.trips.items()}, "trip_headsign")),
    ("A15", "stop_times.txt", trips_whose(stops_twice_in_a_row)),
    ("A16", "stop_times.txt", trips_whose(has_six_at_one_moment)),
    ("A17", "stop_times.txt", trips_whose(is_anywhere_too_fast)),
    ("A18", "stop_times.txt", trips_whose(has_a_row_for_nobody)),
    ("A19", "stop_times.txt", trips_whose(is_longer_than_a_day)),
    ("A21", "calendar.txt", unused_in_calendar),
    ("A21", "calendar_dates.txt", unused_in_calendar_dates),
    ("A20", "frequencies.txt", trips_with_one_run_alone),
]


def sites():
    """Each code with each file under which it can stand."""
    return [*((code, name) for code, name, _ in RULES), ("A22", "calendar.txt"), ("A23", "calendar.txt")]


def by_ids(feed, name):
    """The advice on the ids of a file, by id and code."""
    found = [(id, code) for code, file, rule in RULES if file == name for id in rule(feed)]
    return [(code, name, id) for id, code in sorted(found)]


def by_days(feed, day):
    """The advice on days, and on the end of service where a day is given."""
    found = [("A22", "calendar.txt", date_text(date)) for date in begins_of_gaps(feed)]
    if day is not None:
        found += [("A23", "calendar.txt", text_of_day(last)) for last in end_of_service(feed, day)]
    return found


def advise(feed, day=None):
    """All advice on a feed: code, file and subject."""
    found = []
    for name in FILES:
        found += by_ids(feed, name)
        if name == "calendar.txt":
            found += by_days(feed, day)
    return found
