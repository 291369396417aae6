"""What the tests of the Python package share: the program, feeds, stand-ins, and the texts of the program for what it was asked."""
import contextlib
import importlib.util
import os
import shutil
import subprocess
import sys
import tempfile
import unittest
from datetime import date, datetime, timezone
from unittest import mock

from program import LIMIT, PROGRAM, ROOT, SMALL

PACKAGE = os.path.join(ROOT, "python")
ZONE = os.path.join(ROOT, "examples", "central-europe")
UTC = os.path.join(ROOT, "examples", "utc")
FEEDS = {"harbour": ZONE, "ferry": ZONE, "tram": ZONE, "careless": ZONE, "f1": UTC}
ROUTES = {"harbour": ["RING", "NIGHT"], "ferry": ["1", "N"], "tram": ["1", "N"], "careless": ["CITY", "HILL"], "f1": ["R1"]}

# What needs the time at the stops.
HAS_ZONES = unittest.skipIf(sys.version_info < (3, 9), "Python 3.8 has no zoneinfo")

# A span that has all services of the examples.
BEGIN, END = date(2024, 3, 1), date(2024, 7, 31)


def example(name):
    return os.path.join(ROOT, "examples", name)


# What is said where a feed with errors is to be opened or merged.
BROKEN = f"{example('broken')} has 6 errors, the first: stops.txt, row 4, stop_lat: value unreadable"


class Tried:
    """The program that is tried."""

    path = PROGRAM


def at(seconds):
    """An instant as an aware datetime."""
    return datetime.fromtimestamp(seconds, timezone.utc)


def load(path):
    """A script as a module."""
    spec = importlib.util.spec_from_file_location(os.path.basename(path)[: -len(".py")], path)
    module = importlib.util.module_from_spec(spec)
    spec.loader.exec_module(module)
    return module


def gtfs(*words):
    """What the program prints for words, and its status. It is called gtfs, as in a wheel, whatever the name of its file."""
    ran = subprocess.run(["gtfs", *words], executable=Tried.path, stdin=subprocess.DEVNULL, stdout=subprocess.PIPE, stderr=subprocess.PIPE,
                         timeout=LIMIT)
    return ran.returncode, ran.stdout.decode(), ran.stderr.decode()


def answer(*words):
    """The text that the program prints for words that it takes."""
    status, out, err = gtfs(*words)
    if status != 0:
        raise AssertionError(f"{words}: status {status}, {err}")
    return out


def stops_of(feed):
    """The first fields of stops.txt, which are ids in all examples."""
    with open(os.path.join(example(feed), "stops.txt"), encoding="utf-8") as file:
        return [line.split(",")[0] for line in file][1:]


# ---- the text of what the package gives


def compact(day):
    return day.isoformat().replace("-", "")


def line_of(departure):
    """The line of a departure, made of all its parts but the key."""
    instant = int(departure.time.timestamp())
    key = f"@{instant}/{departure.trip_id}/{departure.run}/{departure.sequence}/{compact(departure.service_day)}"
    mark = ("s" if departure.exact else "f") + ("i" if departure.filled else "")
    fields = key, departure.time.isoformat(sep=" "), departure.stop_id, departure.route, departure.headsign, mark
    return "\t".join(fields) + "\n"


def text_of_board(departures):
    return "".join(map(line_of, departures))


def clock_of(time):
    if time is None:
        return "-"
    seconds = int(time.total_seconds())
    return f"{seconds // 3600:02}:{seconds // 60 % 60:02}:{seconds % 60:02}"


def text_of_sheet(sheet):
    direction = "-" if sheet.direction is None else sheet.direction
    lines = [f"== {sheet.route} {direction} {compact(sheet.date)}", "\t".join(("trip", *sheet.trips))]
    lines += ["\t".join((stop, *map(clock_of, times))) for stop, times in zip(sheet.stops, sheet.times)]
    return "".join(f"{line}\n" for line in lines)


# ---- feeds that are made


def put(path, text, mode=0o644):
    with open(path, "w", encoding="utf-8") as file:
        file.write(text)
    os.chmod(path, mode)


def make_feed(folder, **files):
    """The small feed in a folder, with other files in place of some, and gives the folder."""
    shutil.copytree(os.path.join(SMALL, "f1"), folder)
    for name, text in files.items():
        put(os.path.join(folder, f"{name}.txt"), text)
    return folder


def make_long_feed(folder):
    """A feed with 100,000 departures on 2024-04-01 from the stop S1, one a second."""
    return make_feed(folder, frequencies="trip_id,start_time,end_time,headway_secs\nT1,00:00:00,27:46:40,1\n")


# ---- stand-ins for the program


# How a stand-in begins: it answers the first line as gtfs serve does, and then what stands below it.
OPENED = """
import os, signal, sys, time
out, err = sys.stdout.buffer, sys.stderr
def tell(data):
    out.write(data)
    out.flush()
lines = sys.stdin.buffer
lines.readline()
tell(b"!! bad request\\n\\n")
"""


class Case(unittest.TestCase):
    """A test with a folder of its own, over the program that is tried."""

    def setUp(self):
        room = tempfile.TemporaryDirectory()
        self.addCleanup(room.cleanup)
        self.room = room.name
        self.use(Tried.path)

    def use(self, program):
        """Has the package call a program."""
        changed = mock.patch.dict(os.environ, {"GTFS": program})
        changed.start()
        self.addCleanup(changed.stop)

    def path(self, name):
        return os.path.join(self.room, name)

    def stand_in(self, text, begin=OPENED):
        """Has the package call a script in place of the program."""
        # (without the site's modules it starts in a fifth of the time)
        put(self.path("stand-in"), f"#!{sys.executable} -IS\n{begin}\n{text}\n", 0o755)
        self.use(self.path("stand-in"))

    @contextlib.contextmanager
    def refused(self, kind, status, text, message=None):
        """Wants a refusal of exactly this kind, with this status, text and message, which is the same unless it is given."""
        with self.assertRaises(kind) as raised:
            yield raised
        fault = raised.exception
        self.assertEqual((type(fault), fault.status, str(fault), fault.message), (kind, status, text, message or text))
