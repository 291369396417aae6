"""Timetables: the runs of a route on a date, a sheet for each direction and list of stops."""
from collections import defaultdict

from values import date_text, time_text


def sheets(feed, route, direction, date):
    """The sheets in their order: direction, stops, and the runs, each as its start and trip."""
    found = defaultdict(list)
    for id, trip in feed.trips.items():
        own = trip.row["direction_id"]
        if trip.row["route_id"] != route or (direction is not None and own != direction):
            continue
        if feed.services[trip.row["service_id"]].is_active(date):
            for run, _ in trip.runs():
                found[(-1 if own is None else own, tuple(trip.stops()))].append((run, id))
    return [(own, stops, sorted(runs)) for (own, stops), runs in sorted(found.items())]


def sheet_text(feed, route, date, sheet):
    direction, stops, runs = sheet
    lines = [f"== {route} {'-' if direction < 0 else direction} {date_text(date)}"]
    lines.append("\t".join(["trip", *(id for run, id in runs)]))
    for at, stop in enumerate(stops):
        times = []
        for run, id in runs:
            trip = feed.trips[id]
            passes = trip.passes_at(run, trip.stop_times[at])
            times.append("-" if passes is None else time_text(passes))
        lines.append("\t".join([stop, *times]))
    return "".join(text + "\n" for text in lines)


def timetable(feed, route, direction, date):
    return "".join(sheet_text(feed, route, date, sheet) for sheet in sheets(feed, route, direction, date))
