#!/usr/bin/env python3
"""Prints the timetable of a route on a date as tables: timetable.py FEED ZONE ROUTE YYYY-MM-DD"""
import sys
from datetime import date

import dezhampul


def clock(time):
    """A time of the service day: past midnight it has 24 hours and more."""
    if time is None:
        return "    -"
    minutes = int(time.total_seconds()) // 60
    return f"{minutes // 60:02}:{minutes % 60:02}"


def show(feed, route, day):
    for sheet in feed.timetable(route, day):
        print(f"Route {sheet.route}, {sheet.date:%d %B %Y}")
        for stop, times in zip(sheet.stops, sheet.times):
            print(f"{stop:8}", *map(clock, times))


if __name__ == "__main__":
    folder, zone, route, day = sys.argv[1:]
    with dezhampul.Feed(folder, zone=zone) as feed:
        show(feed, route, date.fromisoformat(day))
