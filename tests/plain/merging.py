"""The merger of two feeds: which rows are joined, the names of ids, the merged feed, its files and the report."""
import trimming
from columns import FILES
from content import Content, Service, Trip, transfer_key
from values import written

KINDS = ["agency", "stop", "route", "service", "trip"]


class ZonesDiffer(Exception):
    """The two feeds name different time zones."""


def without(row, *names):
    return {name: value for name, value in row.items() if name not in names}


class Names:
    """The names that the ids of both feeds have in the merged one, the ids of each kind that are joined, and the near stops of B.

    `near` is how many millionths of a degree near stops are apart at most, or None where no stop is near another.
    """

    def __init__(self, a, b, near=None):
        self.a, self.b, self.near = a, b, near
        self.near_stops = []
        self.names = {side: {kind: {} for kind in KINDS} for side in "AB"}
        self.joined = {kind: [] for kind in KINDS}
        self.name_agencies()
        for id in sorted(b.stops, key=self.depth):
            self.name_stop(id)
        for id in b.routes:
            self.name("route", id, a.routes, b.routes, self.route)
        for id in b.services:
            self.name("service", id, a.services, b.services, self.service)
        for id in b.trips:
            self.name("trip", id, a.trips, b.trips, self.trip)

    def of(self, side, kind, id):
        """The name of an id of a side; those of A stay, the empty one of an agency that is not joined apart."""
        return self.names[side][kind].get(id, id)

    def depth(self, stop):
        """How many stops lie above a stop of B, so that parents are named before their children."""
        parent = self.b.stops[stop]["parent_station"]
        return 0 if parent is None else 1 + self.depth(parent)

    def name(self, kind, id, in_a, in_b, same):
        """Names an id of B: it stays where A lacks it or where it is joined."""
        if id not in in_a:
            return
        if same("A", id) == same("B", id):
            self.joined[kind].append(id)
        else:
            self.names["B"][kind][id] = free(f"{id}_merged_", set(in_a) | set(in_b))

    def name_stop(self, id):
        """Names a stop of B: one that is not joined takes the least id of A that it is near, if there is one."""
        a, b = self.a.stops, self.b.stops
        is_joined = id in a and self.stop("A", id) == self.stop("B", id)
        near = [] if is_joined else [other for other in a if self.is_near(other, id)]
        if near:
            self.near_stops.append(id)
            self.names["B"]["stop"][id] = min(near)
        else:
            self.name("stop", id, a, b, self.stop)

    def is_near(self, id_a, id_b):
        """Whether a stop of B, whose parent has its name already, is near a stop of A."""
        x, y = self.stop("A", id_a), self.stop("B", id_b)
        if self.near is None or x["stop_name"] is None:
            return False
        if any(x[column] != y[column] for column in ("stop_name", "location_type", "parent_station")):
            return False
        places = [(x[column], y[column]) for column in ("stop_lat", "stop_lon")]
        return all(None not in place and abs(place[0] - place[1]) <= self.near * 1000 for place in places)

    def name_agencies(self):
        a, b = self.a.agencies, self.b.agencies
        for id in b:
            if id:
                self.name("agency", id, a, b, self.agency)
        if "" in a and "" in b and self.agency("A", "") == self.agency("B", ""):
            self.joined["agency"].append("")
            return
        taken = set(a) | set(b)
        for side, agencies in (("A", a), ("B", b)):
            if "" in agencies:
                self.names[side]["agency"][""] = free("agency_merged_", taken)
                taken.add(self.names[side]["agency"][""])

    # What two rows of one id are compared by, their own ids apart.

    def feed(self, side):
        return self.a if side == "A" else self.b

    def agency(self, side, id):
        return without(self.feed(side).agencies[id], "agency_id")

    def stop(self, side, id):
        row = self.feed(side).stops[id]
        parent = row["parent_station"]
        return {**without(row, "stop_id"), "parent_station": parent and self.of(side, "stop", parent)}

    def route(self, side, id):
        row = self.feed(side).routes[id]
        return {**without(row, "route_id"), "agency_id": self.of(side, "agency", row["agency_id"])}

    def service(self, side, id):
        service = self.feed(side).services[id]
        return service.week and without(service.week, "service_id"), service.exceptions

    def trip(self, side, id):
        trip = self.feed(side).trips[id]
        row = {
            **without(trip.row, "trip_id"),
            "route_id": self.of(side, "route", trip.row["route_id"]),
            "service_id": self.of(side, "service", trip.row["service_id"]),
        }
        stop_times = [
            {**without(stop_time, "trip_id"), "stop_id": self.of(side, "stop", stop_time["stop_id"])}
            for stop_time in trip.stop_times
        ]
        return row, stop_times, [without(period, "trip_id") for period in trip.frequencies]


def free(stem, taken):
    """The first of the stem's numbered names that is not taken."""
    number = 1
    while f"{stem}{number}" in taken:
        number += 1
    return f"{stem}{number}"


def renamed(row, names, side):
    """The row with its id and all ids that it names renamed."""
    kinds = {
        "agency_id": "agency", "stop_id": "stop", "parent_station": "stop", "route_id": "route",
        "service_id": "service", "trip_id": "trip", "from_stop_id": "stop", "to_stop_id": "stop",
        "from_route_id": "route", "to_route_id": "route", "from_trip_id": "trip", "to_trip_id": "trip",
    }
    return {
        column: names.of(side, kinds[column], value) if column in kinds and value is not None else value
        for column, value in row.items()
    }


def renamed_feed(feed, names, side):
    def rows(kind, found):
        return {names.of(side, kind, id): renamed(row, names, side) for id, row in found.items()}

    agencies = rows("agency", {id: {**row, "agency_id": id} for id, row in feed.agencies.items()})
    services = {
        names.of(side, "service", id): Service(service.week and renamed(service.week, names, side), service.exceptions)
        for id, service in feed.services.items()
    }
    trips = {
        names.of(side, "trip", id): Trip(
            renamed(trip.row, names, side),
            [renamed(row, names, side) for row in trip.stop_times],
            [renamed(row, names, side) for row in trip.frequencies],
        )
        for id, trip in feed.trips.items()
    }
    transfers = {}
    for key in sorted(feed.transfers):
        row = renamed(feed.transfers[key], names, side)
        transfers.setdefault(transfer_key(row), row)
    return Content(agencies, rows("stop", feed.stops), rows("route", feed.routes), services, trips, transfers)


def merge(a, b, near=None, cutoff=None):
    """The merged feed, in which the rows of A stand before those of B with the same id, and the names.

    Where there is a cutoff, A counts only before it and B only from it on.
    """
    if a.zone() != b.zone():
        raise ZonesDiffer
    if cutoff is not None:
        a, b = trimming.before(a, cutoff), trimming.from_on(b, cutoff)
    names = Names(a, b, near)
    first, second = renamed_feed(a, names, "A"), renamed_feed(b, names, "B")
    return Content(*({**vars(second)[part], **rows} for part, rows in vars(first).items())), names


def report(names):
    lines = []
    for kind in KINDS:
        for side in "AB":
            changed = sorted((old, new) for old, new in names.names[side][kind].items() if old != new)
            lines += [f"{side}\t{kind}\t{old}\t{new}\n" for old, new in changed]
    lines += [f"joined {kind} {len(names.joined[kind])}\n" for kind in KINDS]
    if names.near is not None:
        lines.append(f"near stop {len(names.near_stops)}\n")
    return "".join(lines)


def by_id(rows):
    return [rows[id] for id in sorted(rows)]


def written_rows(feed):
    """The rows of each file of a feed, in the order of their keys."""
    services = [(id, feed.services[id]) for id in sorted(feed.services)]
    trips = by_id(feed.trips)
    return {
        "agency.txt": by_id(feed.agencies),
        "stops.txt": by_id(feed.stops),
        "routes.txt": by_id(feed.routes),
        "trips.txt": [trip.row for trip in trips],
        "stop_times.txt": [row for trip in trips for row in trip.stop_times],
        "calendar.txt": [service.week for _, service in services if service.week],
        "calendar_dates.txt": [
            {"service_id": id, "date": date, "exception_type": service.exceptions[date]}
            for id, service in services
            for date in sorted(service.exceptions)
        ],
        "frequencies.txt": [row for trip in trips for row in trip.frequencies],
        "transfers.txt": by_id(feed.transfers),
    }


def quoted(text):
    if any(char in text for char in ',"\r\n'):
        return '"' + text.replace('"', '""') + '"'
    return text


def written_files(feed):
    """The bytes of the nine files of a feed."""
    files = {}
    for name, rows in written_rows(feed).items():
        columns = FILES[name]
        records = [[column.name for column in columns]]
        records += [[written(column, row[column.name]) for column in columns] for row in rows]
        text = "".join(",".join(map(quoted, record)) + "\n" for record in records)
        files[name] = text.encode()
    return files
