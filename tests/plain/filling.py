"""Times between timepoints: when a trip passes the stop times that have neither an arrival nor a departure."""
from dataclasses import replace
from fractions import Fraction
from math import floor

from content import is_timed, leaves, reaches


def passed(stop_times, at):
    """When the stop time at a position is passed: the part of the time between its timed neighbours that it has gone of the way."""
    before = max(place for place in range(at) if is_timed(stop_times[place]))
    after = min(place for place in range(at, len(stop_times)) if is_timed(stop_times[place]))
    left, reached = leaves(stop_times[before]), reaches(stop_times[after])
    return floor(left + (reached - left) * Fraction(at - before, after - before))


def filled(stop_times):
    """The stop times of a trip, each with a time. Those that were given none are marked."""
    found = []
    for at, row in enumerate(stop_times):
        if not is_timed(row):
            time = passed(stop_times, at)
            row = {**row, "arrival_time": time, "departure_time": time, "is_filled": True}
        found.append(row)
    return found


def interpolated(feed):
    """The feed with a time at each stop time."""
    return replace(feed, trips={id: replace(trip, stop_times=filled(trip.stop_times)) for id, trip in feed.trips.items()})
