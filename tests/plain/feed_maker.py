"""Feeds that are made: small ones that pass, as rows of texts, and the bytes of their files in many dresses."""
import datetime

from columns import FILES, WEEKDAYS
from values import date_text, time_text

# Days near which feeds run: changes of summer time, a skipped day, the first and the last service days.
BASES = [
    datetime.date(2024, 3, 30), datetime.date(2024, 10, 26), datetime.date(2011, 12, 30), datetime.date(2024, 4, 5),
    datetime.date(2023, 11, 4), datetime.date(1900, 1, 3), datetime.date(9998, 12, 27),
]
TEXTS = ["Mill", "Lake Side", "Ö", "a, b", 'the "Old" Inn', "線路", "x" * 40, "-", "=1", "Hill/Top"]
ZONES = ["UTC", "Europe/Berlin"]


class MadeFeed:
    """A feed as rows: of each file a list of dicts from columns to texts; how many fields its rows have beside those of the header;
    and files that are set as bytes, or taken away."""

    def __init__(self, base):
        self.base = base
        self.sheets = {name: [] for name in FILES}
        self.headers = {}
        self.lengths = {}
        self.set = {}

    def ids(self, name, column):
        return [row[column] for row in self.sheets[name] if row.get(column)]


def some(random, texts, empty=0.3):
    return "" if random.random() < empty else random.choice(texts)


def count_text(random, number):
    """A count, at times with leading zeros."""
    return ("0" * random.randint(1, 3) if random.random() < 0.1 else "") + str(number)


def hours_text(random, seconds):
    """A time, at times with one digit of hours."""
    text = time_text(seconds)
    return text[1:] if text.startswith("0") and random.random() < 0.3 else text


def make_agencies(random, feed):
    zone = ZONES[0] if random.random() < 0.8 else ZONES[1]
    ids = random.choice([[""], ["M"], ["M", "N/1"], ["M", "agency"]])
    for id in ids:
        row = {"agency_id": id, "agency_name": random.choice(TEXTS), "agency_url": "http://m.example"}
        row["agency_timezone"] = zone
        for column in ("agency_lang", "agency_phone", "agency_fare_url", "agency_email"):
            row[column] = some(random, TEXTS, 0.8)
        feed.sheets["agency.txt"].append(row)


def make_stop(random, id, kind="", parent=""):
    named = kind in ("", "0", "1", "2")
    return {
        "stop_id": id,
        "stop_code": some(random, ["7", "x"], 0.8),
        "stop_name": random.choice(TEXTS) if named else some(random, TEXTS),
        "stop_lat": random.choice(["52.5", "-0.0000000001", "+12.", ".5", "90", "52.1234567899"]) if named else "",
        "stop_lon": random.choice(["13.4", "-180", "179.999999999", "0"]) if named else "",
        "location_type": kind,
        "parent_station": parent,
        "wheelchair_boarding": some(random, ["0", "1", "2"], 0.7),
        "platform_code": some(random, ["1", "2a"], 0.8),
    }


def make_stops(random, feed):
    stops = feed.sheets["stops.txt"]
    station = random.random() < 0.5
    if station:
        stops.append(make_stop(random, "H", "1"))
    for number in range(1, random.randint(3, 5)):
        parent = "H" if station and random.random() < 0.6 else ""
        stops.append(make_stop(random, f"S{number}", random.choice(["", "0"]), parent))
    if station and random.random() < 0.4:
        stops.append(make_stop(random, "E1", random.choice(["2", "3"]), "H"))
    if random.random() < 0.2:
        stops.append(make_stop(random, "B1", "4", "S1"))
    random.shuffle(stops)


def make_routes(random, feed):
    agencies = feed.ids("agency.txt", "agency_id")
    for number in range(random.randint(1, 2)):
        short, long = random.choice([("10", ""), ("", "Ring"), ("7", "Harbour")])
        feed.sheets["routes.txt"].append({
            "route_id": f"R{number + 1}",
            "agency_id": some(random, agencies, 0.5 if len(agencies) == 1 else 0) if agencies else "",
            "route_short_name": short,
            "route_long_name": long,
            "route_type": random.choice(["3", "0", "11", "700"]),
            "route_color": some(random, ["00ff7f", "FFFFFF"], 0.6),
            "route_text_color": some(random, ["000000", "aBcDeF"], 0.8),
            "route_sort_order": some(random, ["5", "007"], 0.8),
        })


def make_services(random, feed):
    for number in range(random.randint(1, 3)):
        id = f"C{number + 1}"
        start = feed.base + datetime.timedelta(random.randint(-2, 1))
        form = random.random()
        if form < 0.8:
            days = {day: random.choice("11110") for day in WEEKDAYS}
            end = start + datetime.timedelta(random.randint(0, 6))
            feed.sheets["calendar.txt"].append(
                {"service_id": id, **days, "start_date": date_text(start), "end_date": date_text(end)}
            )
        if form > 0.5:
            days = random.sample(range(-2, 5), random.randint(1, 3))
            feed.sheets["calendar_dates.txt"] += [
                {
                    "service_id": id,
                    "date": date_text(feed.base + datetime.timedelta(day)),
                    "exception_type": random.choice("112"),
                }
                for day in days
            ]


def make_trip(random, feed, id):
    routes, services = feed.ids("routes.txt", "route_id"), sorted(set(
        feed.ids("calendar.txt", "service_id") + feed.ids("calendar_dates.txt", "service_id")
    ))
    feed.sheets["trips.txt"].append({
        "route_id": random.choice(routes),
        "service_id": random.choice(services),
        "trip_id": id,
        "trip_headsign": some(random, TEXTS),
        "trip_short_name": some(random, ["n", ""], 0.8),
        "direction_id": some(random, ["0", "1"]),
        "bikes_allowed": some(random, ["0", "1", "2"], 0.7),
    })
    platforms = [row["stop_id"] for row in feed.sheets["stops.txt"] if row["location_type"] in ("", "0")]
    count = random.choice([0, 1, 2, 3, 3, 4, 4, 5, 5, 9])
    untimed_part = random.choice([0.2, 0.2, 0.8])
    time = random.choice([0, 300, 5400, 28800, 43200, 82800, 86400, 91000, 200_000])
    sequence = random.randint(0, 3)
    rows = []
    for place in range(count):
        arrival, departure = time, time + random.choice([0, 0, 60])
        untimed = 0 < place < count - 1 and random.random() < untimed_part
        alone = random.random()
        rows.append({
            "trip_id": id,
            "arrival_time": "" if untimed or alone < 0.1 else hours_text(random, arrival),
            "departure_time": "" if untimed or alone > 0.9 else hours_text(random, departure),
            "stop_id": random.choice(platforms),
            "stop_sequence": count_text(random, sequence),
            "stop_headsign": some(random, TEXTS, 0.8),
            "pickup_type": some(random, ["0", "1", "2", "3"], 0.7),
            "drop_off_type": some(random, ["0", "1"], 0.8),
            "timepoint": some(random, ["0", "1"], 0.8),
        })
        time = departure + random.choice([0, 60, 600, 4000])
        sequence += random.randint(1, 9)
    feed.sheets["stop_times.txt"] += rows
    if random.random() < 0.25:
        make_periods(random, feed, id)


def make_periods(random, feed, id):
    start = random.choice([0, 21600, 86000])
    for _ in range(random.randint(1, 2)):
        end = start + random.choice([1, 1800, 3600])
        feed.sheets["frequencies.txt"].append({
            "trip_id": id,
            "start_time": hours_text(random, start),
            "end_time": hours_text(random, end),
            "headway_secs": count_text(random, random.choice([600, 900, 1799, 5000])),
            "exact_times": some(random, ["0", "1"]),
        })
        start = end + random.choice([0, 600])


def make_transfers(random, feed):
    stops = [row["stop_id"] for row in feed.sheets["stops.txt"] if row["location_type"] in ("", "0", "1")]
    trips = feed.ids("trips.txt", "trip_id")
    found = {}
    for _ in range(random.randint(0, 2)):
        row = {
            "from_stop_id": random.choice(stops), "to_stop_id": random.choice(stops),
            "from_route_id": some(random, feed.ids("routes.txt", "route_id"), 0.8),
            "from_trip_id": random.choice(trips), "to_trip_id": random.choice(trips),
            "transfer_type": some(random, list("012345")), "min_transfer_time": some(random, ["120", "0"], 0.7),
        }
        found[tuple(row[column] for column in list(row)[:5])] = row
    feed.sheets["transfers.txt"] += found.values()


def make_feed(random, base):
    """A feed that passes, for nearly all draws."""
    feed = MadeFeed(base)
    make_agencies(random, feed)
    make_stops(random, feed)
    make_routes(random, feed)
    make_services(random, feed)
    for number in range(random.choice([1, 2, 3, 4, 5, 6])):
        make_trip(random, feed, random.choice(["T", "T/", "t ", "Ü"]).strip() + str(number + 1))
    make_transfers(random, feed)
    random.shuffle(feed.sheets["stop_times.txt"])
    for name, rows in feed.sheets.items():
        used = {column for row in rows for column, text in row.items() if text}
        used |= {column.name for column in FILES[name] if column.required or random.random() < 0.1}
        wanted = [column.name for column in FILES[name] if column.name in used]
        random.shuffle(wanted)
        feed.headers[name] = wanted
    return feed


# ---- the bytes of a feed


def field_text(random, text, dressed):
    """A field of a file: quoted where it has to be, and at times where it need not be."""
    if dressed and random.random() < 0.05:
        text = random.choice([" ", "  ", "\t"]) + text + random.choice(["", " "])
    if any(char in text for char in ',"\r\n') or (dressed and random.random() < 0.1):
        return '"' + text.replace('"', '""') + '"'
    return text


def file_text(random, records, dressed):
    end = random.choice(["\n", "\r\n", "\r"]) if dressed else "\n"
    lines = []
    for number, record in enumerate(records):
        record = list(record)
        if dressed and number and random.random() < 0.05:
            while len(record) > 1 and not record[-1]:
                record.pop()
        if dressed and number and random.random() < 0.02:
            record += [""] * (random.randint(0, 1)) + ["more"]
        if dressed and random.random() < 0.03:
            lines.append(random.choice(["", " , ,", '""', "\t"]) if number else "")
        line = ",".join(field_text(random, text, dressed) for text in record)
        lines.append(line or '""')
    text = end.join(lines)
    return text + (end if not dressed or random.random() < 0.8 else "")


def resized(record, change):
    """A record with so many fields more or less."""
    return record[:len(record) + change] if change < 0 else record + ["more"] * change


def file_bytes(random, feed):
    """The files of a feed by their names."""
    files = {}
    dressed = random.random() < 0.4
    for name, rows in feed.sheets.items():
        if not rows and name not in ("stop_times.txt", "trips.txt") and random.random() < 0.8:
            continue
        header = feed.headers[name]
        records = [header, *(resized([row.get(column, "") for column in header], feed.lengths.get(name, 0)) for row in rows)]
        marks = b"\xef\xbb\xbf" * (random.randint(1, 2) if dressed and random.random() < 0.2 else 0)
        files[name] = marks + file_text(random, records, dressed).encode("utf-8", "surrogateescape")
    files.update(feed.set)
    return {name: held for name, held in files.items() if held is not None}
