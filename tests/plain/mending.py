"""Changes of a made feed after which there is no advice on it, for nearly all draws."""
from neglect import add, new_trip
from oddities import show


def set_all(feed, name, values):
    for column, text in values.items():
        show(feed, name, column)
        for row in feed.sheets[name]:
            row[column] = text


def name_routes(feed):
    set_all(feed, "routes.txt", {"route_color": "", "route_text_color": "", "route_long_name": ""})
    for row in feed.sheets["routes.txt"]:
        row["route_short_name"] = row["route_id"]


def turn_to_agencies(feed):
    """Each agency has a route."""
    for at, row in enumerate(feed.sheets["agency.txt"]):
        if at > 0:
            id = f"R{row['agency_id']}"
            add(feed, "routes.txt", {**feed.sheets["routes.txt"][0], "route_id": id, "agency_id": row["agency_id"], "route_short_name": id})


def spread(feed):
    """No stop time is at the stop of the one before, if there are two stops."""
    platforms = [row["stop_id"] for row in feed.sheets["stops.txt"] if row["location_type"] in ("", "0")]
    for at, row in enumerate(sorted(feed.sheets["stop_times.txt"], key=lambda row: (row["trip_id"], int(row["stop_sequence"])))):
        row["stop_id"] = platforms[at % len(platforms)]
    return platforms


def run(feed, platforms):
    """Trips of all routes and services, and each of them at all stops."""
    services = sorted(set(feed.ids("calendar.txt", "service_id") + feed.ids("calendar_dates.txt", "service_id")))
    for at, (route, service) in enumerate((route, service) for route in feed.ids("routes.txt", "route_id") for service in services):
        time = f"{at + 1:02}:00:00"
        times = [(time, time), *[("", "")] * (len(platforms) - 2), (f"{at + 1:02}:50:00", "")]
        new_trip(feed, times, {"route_id": route, "service_id": service}, platforms)


def mend(feed):
    set_all(feed, "agency.txt", {"agency_url": "https://m.example"})
    for row in feed.sheets["stops.txt"]:
        if row["stop_lat"]:
            row["stop_lat"], row["stop_lon"] = "52.5", "13.4"
    stations = {row["stop_id"] for row in feed.sheets["stops.txt"] if row["location_type"] == "1"}
    for row in feed.sheets["stops.txt"]:
        if row["location_type"] in ("", "0"):
            row["parent_station"] = "".join(stations)
    show(feed, "stops.txt", "parent_station")
    name_routes(feed)
    turn_to_agencies(feed)
    set_all(feed, "trips.txt", {"direction_id": "", "trip_headsign": "Mill"})
    set_all(feed, "stop_times.txt", {"drop_off_type": ""})
    set_all(feed, "frequencies.txt", {"headway_secs": "1", "start_time": "06:00:00", "end_time": "07:00:00"})
    feed.sheets["frequencies.txt"][1:] = []
    run(feed, spread(feed))
