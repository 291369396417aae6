#!/usr/bin/env python3
"""Prints the departures at a stop as a small table: the local time, the route, and where it goes.

    display.py FEED ZONE STOP [FROM UNTIL]

Without FROM and UNTIL it shows the two hours from now on. It calls `gtfs`, or the program that the variable GTFS names, and asks for
20 lines a page, or as many as PAGE says.
"""
import os
import subprocess
import sys
import time
from dataclasses import dataclass

PROGRAM = os.environ.get("GTFS", "gtfs")
PAGE = int(os.environ.get("PAGE", 20))
AHEAD = 2 * 60 * 60
OUT_OF_MEMORY = 4


@dataclass
class Departure:
    key: str
    clock: str
    stop: str
    route: str
    headsign: str
    mark: str


class Refused(Exception):
    """There is no page: the status, and the line that says why."""


def departures_in(output):
    """The departures of a page. What stands behind the last line feed is no line."""
    return [Departure(*line.decode().split("\t")) for line in output.split(b"\n")[:-1]]


def page(feed, zone, stop, begin, end, after):
    """A page of the board, and whether there may be more behind it."""
    words = ["board", f"--zone={zone}", f"--stop={stop}", f"--from={begin}", f"--until={end}", f"--limit={PAGE}"]
    if after:
        words.append(f"--after={after}")
    ran = subprocess.run([PROGRAM, *words, "--", feed], stdin=subprocess.DEVNULL, capture_output=True)
    found = departures_in(ran.stdout)
    if ran.returncode == 0:
        return found, len(found) == PAGE
    if ran.returncode == OUT_OF_MEMORY and found:
        return found, True
    raise Refused(ran.returncode, ran.stderr.decode(errors="replace"))


def board(feed, zone, stop, begin, end):
    """All departures of the span, page by page."""
    # The folder itself in place of a link to it, so that all pages are of one feed where the link is changed.
    feed, after, more = os.path.realpath(feed), None, True
    while more:
        found, more = page(feed, zone, stop, begin, end, after)
        yield from found
        after = found[-1].key if found else None


def row(departure):
    """A row of the table, with `~` where the time is not exact."""
    about = "~" if departure.mark == "f" else " "
    return f"{about}{departure.clock[11:16]}  {departure.route:12}{departure.headsign}".rstrip()


def main(feed, zone, stop, *span):
    now = int(time.time())
    begin, end = span or (f"@{now}", f"@{now + AHEAD}")
    try:
        for departure in board(feed, zone, stop, begin, end):
            print(row(departure))
    except Refused as refused:
        status, told = refused.args
        sys.stderr.write(told)
        return status
    return 0


if __name__ == "__main__":
    if len(sys.argv) not in (4, 6):
        sys.exit(__doc__)
    sys.exit(main(*sys.argv[1:]))
