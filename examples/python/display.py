#!/usr/bin/env python3
"""Prints the next departures at a stop, or those of the two hours from a moment on."""
import argparse
import sys
import time
from datetime import datetime, timedelta

import dezhampul

# What clears a terminal.
CLEAR = "\033[H\033[J"


def table(rows):
    """A line for each row, with its cells below those of the row before. Columns without any text are left out."""
    widths = [max(map(len, column)) for column in zip(*rows)]
    return ["  ".join(f"{cell:{width}}" for cell, width in zip(row, widths) if width).rstrip() for row in rows]


def platform_of(departure, stop, stops):
    """The platform of a departure at a station. At other stops there is none to tell."""
    if stops[stop].location_type != "1":
        return ""
    place = stops[departure.stop_id]
    return f"platform {place.platform}" if place.platform else place.name


def row(departure, platform, today):
    """A row of the display, with its day unless that is today, and with `~` where the time is not exact."""
    day = "" if departure.time.date() == today else f"{departure.time:%a %d %b}"
    about = " " if departure.exact and not departure.filled else "~"
    return day, f"{about}{departure.time:%H:%M}", departure.route, platform, departure.headsign


def lines(feed, stops, stop, moment):
    """The next ten departures, or those of two hours from a moment on, or a line that there is none."""
    ahead = feed.board(stop, moment, moment + timedelta(hours=2)) if moment else feed.next(stop, count=10)
    today = (moment or feed.now()).date()
    rows = [row(departure, platform_of(departure, stop, stops), today) for departure in ahead]
    if rows:
        return table(rows)
    return ["Nothing departs in these two hours." if moment else "No more departures: the feed may have ended."]


def refresh(feed, stops, stop):
    """Shows the next departures below a clock, anew each minute. If the program died, they stay, and it is started again a minute later."""
    while True:
        try:
            print(f"{CLEAR}{feed.now():%H:%M}", *lines(feed, stops, stop, None), sep="\n", flush=True)
        except dezhampul.BrokenProcess as fault:
            print(f"display: {fault}", file=sys.stderr)
        time.sleep(60)


def show(folder, stop, moment, zone, stays):
    """Prints the display once, or keeps it up to date."""
    with dezhampul.Feed(folder, zone=zone) as feed:
        stops = dezhampul.names(folder).stops
        if stays:
            refresh(feed, stops, stop)
        print(*lines(feed, stops, stop, moment), sep="\n")


def main():
    parser = argparse.ArgumentParser(description=__doc__)
    parser.add_argument("folder", help="the folder of the feed")
    parser.add_argument("stop", help="a stop_id")
    parser.add_argument("--zone", help="the zone file, if it is not that of agency_timezone")
    when = parser.add_mutually_exclusive_group()
    when.add_argument("--at", type=datetime.fromisoformat, help="the moment, such as 2024-04-02T06:50:00+02:00")
    when.add_argument("--refresh", action="store_true", help="show them anew each minute, below a clock")
    given = parser.parse_args()
    try:
        show(given.folder, given.stop, given.at, given.zone, given.refresh)
    except KeyboardInterrupt:
        pass
    except (dezhampul.Refused, dezhampul.BrokenProcess, LookupError, ValueError, NotImplementedError) as fault:
        sys.exit(f"display: {fault}")


if __name__ == "__main__":
    main()
