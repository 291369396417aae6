"""What the test scripts share: the repository's root, the launcher, and the program that was built."""
import os
import subprocess
import sys

ROOT = os.path.dirname(os.path.dirname(os.path.abspath(__file__)))
LAUNCHER = os.path.join(ROOT, "gtfs")
BUILD = os.path.join(ROOT, "tools", "build")
PROGRAM = os.path.join(ROOT, "crates", "gtfs", "out", "gtfs")

# The small feed f1 and the zone file z1, of UTC, on which the cases build too.
SMALL = os.path.join(ROOT, "tests", "cases", "files")

# The small feed as a merge writes it, and the files of it in the order in which they are written.
WRITTEN = os.path.join(ROOT, "tests", "written-f1")
FILES = [
    "agency.txt",
    "stops.txt",
    "routes.txt",
    "trips.txt",
    "stop_times.txt",
    "calendar.txt",
    "calendar_dates.txt",
    "frequencies.txt",
    "transfers.txt",
]

# No run of the program over an example takes longer, in seconds.
LIMIT = 60


class Failed(Exception):
    """A test that did not pass, and why."""


def want(holds, why):
    if not holds:
        raise Failed(why)


def build():
    """Builds the program, where it is not built."""
    built = subprocess.run([BUILD], stdin=subprocess.DEVNULL)
    want(built.returncode == 0, f"{BUILD} ended with status {built.returncode}")


def want_lines(name, text, wanted):
    """Wants a text of these lines, and names the first that differs."""
    lines = text.splitlines(keepends=True)
    for number, (line, want_line) in enumerate(zip(lines, wanted), 1):
        want(line == want_line, f"{name}: line {number} is {shortened(line)} and not {shortened(want_line)}")
    want(len(lines) == len(wanted), f"{name}: {len(lines)} lines and not {len(wanted)}")


def shortened(value):
    """How a value is shown that may be long."""
    shown = repr(value)
    return shown if len(shown) < 1000 else f"{shown[:400]} .. {shown[-400:]}"


def clock(seconds):
    """The time of a second after the beginning of a service day."""
    return f"{seconds // 3600:02}:{seconds // 60 % 60:02}:{seconds % 60:02}"


def read(path):
    with open(path, "rb") as file:
        return file.read()


def files_in(folder):
    """The bytes of the files of a folder, by their names; none where there is no folder."""
    return {name: read(os.path.join(folder, name)) for name in os.listdir(folder)} if os.path.isdir(folder) else {}


def first_written(folder, wanted=WRITTEN):
    """How many of the files of the small feed, or of another folder, stand whole in one. The next may be there, and no other."""
    held = files_in(folder)
    whole = [held.get(name) == read(os.path.join(wanted, name)) for name in FILES]
    count = whole.index(False) if False in whole else len(whole)
    want(set(held) <= set(FILES[:count + 1]), f"{count} files are whole, and there are {sorted(held)}")
    return count


def main(name, tests):
    """Runs the tests, functions that give the line to print, and ends with status 1 where one fails."""
    failed = 0
    for test in tests:
        try:
            print(f"{name}: {test()}", flush=True)
        except (Failed, OSError, subprocess.SubprocessError) as fault:
            failed += 1
            print(f"{name}: FAILED: {test.__name__}: {fault}", flush=True)
    sys.exit(1 if failed else 0)
