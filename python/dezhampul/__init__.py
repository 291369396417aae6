"""Departures, timetables, checks and merges of GTFS feeds, by the program `gtfs`.

    with dezhampul.Feed("feed") as feed:
        for departure in feed.next("HAR", count=10):
            print(departure.time, departure.route, departure.headsign)

The program answers. This package starts it, asks it, and makes objects of its lines. Only `names` reads the files of a feed itself, and
only `Feed.now` tells a time that is not the program's.
"""
from .departures import Departure
from .faults import (
    BrokenProcess, DeviceFault, HasErrors, NoProgram, NoZone, OutOfMemory, Refused, UnknownRoute, UnknownStop,
)
from .feed import Feed
from .merges import Merged, Renamed, merge
from .naming import Names, Route, Stop, names
from .reports import Advice, Problem, Report, check
from .sheets import Sheet
from .version import VERSION as __version__

__all__ = [
    "Advice", "BrokenProcess", "Departure", "DeviceFault", "Feed", "HasErrors", "Merged", "Names", "NoProgram", "NoZone", "OutOfMemory",
    "Problem", "Refused", "Renamed", "Report", "Route", "Sheet", "Stop", "UnknownRoute", "UnknownStop", "__version__", "check", "merge",
    "names",
]
