"""What a feed calls its stops and routes, and how it colours them."""
import csv
import os
from dataclasses import dataclass, field
from typing import Mapping

from .faults import DeviceFault
from .folders import text_of_file
from .paths import Path
from .tables import rows_of


@dataclass(frozen=True)
class Stop:
    """A stop, a platform or a station of stops.txt. What the feed leaves out is empty.

    stop_id: its id.
    name: `stop_name`.
    platform: `platform_code`.
    location_type: what it is: "1" for a station, and "0" or nothing for a stop. Nothing departs from others.
    """

    stop_id: str
    name: str
    platform: str
    location_type: str


@dataclass(frozen=True)
class Route:
    """A route of routes.txt. What the feed leaves out is empty.

    route_id: its id.
    short_name, long_name: `route_short_name` and `route_long_name`.
    color, text_color: `route_color` and `route_text_color`, each six hexadecimal digits. Where they are empty, white and black are meant.
    """

    route_id: str
    short_name: str
    long_name: str
    color: str
    text_color: str


@dataclass(frozen=True)
class Names:
    """What stands in a feed about stops and routes, in the order of its files.

    stops: each stop, by its id.
    routes: each route, by its id.
    route_of: the `route_id` of each trip, by the `trip_id`.
    """

    stops: Mapping[str, Stop] = field(hash=False)
    routes: Mapping[str, Route] = field(hash=False)
    route_of: Mapping[str, str] = field(hash=False)


def names(feed: Path) -> Names:
    """The names in the folder of a feed. It is not checked: ask a `Feed` first whether it has errors.

    Raises `DeviceFault` where stops.txt, routes.txt or trips.txt is not there or cannot be read.
    """
    try:
        stops = rows_of(feed, "stops.txt", "stop_id", "stop_name", "platform_code", "location_type")
        routes = rows_of(feed, "routes.txt", "route_id", "route_short_name", "route_long_name", "route_color", "route_text_color")
        trips = rows_of(feed, "trips.txt", "trip_id", "route_id")
        return Names({row[0]: Stop(*row) for row in stops}, {row[0]: Route(*row) for row in routes}, {trip: route for trip, route in trips})
    except (OSError, ValueError, csv.Error):
        folder = os.fsdecode(feed)
        raise DeviceFault(3, f"stops.txt, routes.txt or trips.txt of {folder} cannot be read", text_of_file(folder)) from None
