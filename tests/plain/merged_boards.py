"""Boards of a merged folder: what both feeds list, under the new names, without a look at the merged feed."""
import datetime
from dataclasses import replace

from boards import departures, line
from filling import interpolated
from zone_maker import make_zone
from zones import DAY, EPOCH, midnight, read_zone


def sides(merged):
    """Both feeds, each with whether it serves a service day: with a cutoff the first one before it, the second one from it on."""
    a, b, _, cutoff = merged
    return [
        ("A", a, lambda date: cutoff is None or date < cutoff),
        ("B", b, lambda date: cutoff is None or date >= cutoff),
    ]


def dates(service, cutoff):
    """The dates that a service names, and those at the cutoff, on which it runs."""
    named = [*service.exceptions, *([service.week["start_date"], service.week["end_date"]] if service.week else [])]
    if cutoff is not None:
        named += [cutoff - datetime.timedelta(1), cutoff]
    return [date for date in named if service.is_active(date)]


def passings(merged):
    """Stops by their new names, each with about when a trip departs there."""
    _, _, names, cutoff = merged
    for side, feed, serves in sides(merged):
        for trip in feed.trips.values():
            runs = trip.runs()[:3]
            for row in trip.departure_rows() if runs else []:
                stops = {row["stop_id"], feed.stops[row["stop_id"]]["parent_station"] or row["stop_id"]}
                for date in filter(serves, dates(feed.services[trip.row["service_id"]], cutoff)):
                    at = midnight(date) + trip.passes_at(runs[-1][0], row)
                    yield from ((names.of(side, "stop", stop), at) for stop in stops)


def some_passing(random, merged):
    """A stop and an instant near which something may depart there, if anything ever departs."""
    found = sorted(set(passings(merged)))
    if found and random.random() < 0.95:
        return random.choice(found)
    stops = {merged[2].of(side, "stop", stop) for side, feed, _ in sides(merged) for stop in feed.stops}
    return random.choice(sorted(stops)), midnight(EPOCH)


def union(merged, zone, stop, begin, end):
    """The text of the board of a merged stop: the departures of what became it in both feeds, those of joined trips once.

    With a cutoff those of each feed count on the service days that it serves.
    """
    names, lines = merged[2], {}
    for side, feed, serves in sides(merged):
        for old in feed.stops:
            if names.of(side, "stop", old) != stop:
                continue
            for key, trip, row, mark in departures(feed, zone, old, begin, end):
                if not serves(key.date):
                    continue
                key = replace(key, trip=names.of(side, "trip", key.trip))
                row = {**row, "stop_id": names.of(side, "stop", row["stop_id"])}
                text = line(feed, zone, (key, trip, row, mark))
                if lines.setdefault(key, text) != text:
                    raise AssertionError(f"two lines of one key: {lines[key]!r} and {text!r}")
    return "".join(lines[key] for key in sorted(lines))


def make_board(random, merged, out):
    """The bytes of a zone file, the words for a board of the folder `out` but for that file, and the board's text."""
    a, b, names, cutoff = merged
    flags = random.choice([[], ["--interpolate"]])
    if flags:
        # (which trips are joined, and all names, are told by the rows as they are given)
        merged = interpolated(a), interpolated(b), names, cutoff
    stop, at = some_passing(random, merged)
    held = make_zone(random, at)
    begin, end = at - random.randint(0, DAY), at + random.randint(1, 3 * DAY)
    words = ["board", f"--stop={stop}", f"--from=@{begin}", f"--until=@{end}", *flags, "--", out]
    return held, words, union(merged, read_zone(held), stop, begin, end)
