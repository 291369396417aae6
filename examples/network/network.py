#!/usr/bin/env python3
"""Writes the boards of all stops of a feed, a file for each stop, from one call of gtfs.

    network.py FEED ZONE FROM UNTIL OUT

OUT is a folder that is not there yet. It is there as soon as all of its files are whole, and never with some of them alone.
It calls `gtfs`, or the program that the variable GTFS names.
"""
import csv
import os
import subprocess
import sys
import tempfile
import urllib.parse

PROGRAM = os.environ.get("GTFS", "gtfs")


def stops_of(feed):
    """The ids of stops.txt."""
    with open(os.path.join(feed, "stops.txt"), encoding="utf-8-sig", newline="") as file:
        header, *rows = filter(None, csv.reader(file))
    at = [name.strip(" ") for name in header].index("stop_id")
    return [row[at].strip(" ") for row in rows if any(row)]


def requests(stops, begin, end):
    """The text of a file that asks for the boards of these stops."""
    # The empty line is passed over. Behind it an id that begins with a byte order mark is whole.
    return "\n" + "".join(f"{stop}\t{begin}\t{end}\n" for stop in stops)


def boards_in(lines):
    """The stop of each board, and its lines."""
    stop, held = None, []
    for line in lines:
        if line.startswith(b"== "):
            if stop is not None:
                yield stop, held
            # The span has no spaces, and the id of the stop may have some.
            stop, held = line[3:].rsplit(b" ", 2)[0], []
        else:
            held.append(line)
    if stop is not None:
        yield stop, held


def file_name(stop):
    """A name for the file of a stop: no two ids have the same, and none has a slash, or a dot before `.tsv`."""
    return urllib.parse.quote(stop, safe="").replace(".", "%2E") + ".tsv"


def write_boards(lines, folder):
    """Writes each board into the file of its stop. Boards of one stop stand one below another, as they were asked for."""
    for stop, held in boards_in(lines):
        with open(os.path.join(folder, file_name(stop)), "ab") as file:
            file.writelines(held)


def run(feed, zone, asked, folder):
    """Writes the boards that a file asks for, and gives the status."""
    words = ["boards", f"--zone={zone}", f"--requests={asked}", "--", feed]
    with subprocess.Popen([PROGRAM, *words], stdin=subprocess.DEVNULL, stdout=subprocess.PIPE) as ran:
        write_boards(ran.stdout, folder)
    return ran.returncode


def main(feed, zone, begin, end, out):
    if os.path.lexists(out):
        return f"{out} is there already"
    with tempfile.TemporaryDirectory(dir=os.path.dirname(os.path.abspath(out))) as room:
        asked, folder = os.path.join(room, "requests"), os.path.join(room, "boards")
        with open(asked, "w", encoding="utf-8", newline="") as file:
            file.write(requests(stops_of(feed), begin, end))
        os.mkdir(folder)
        status = run(feed, zone, asked, folder)
        if status == 0:
            os.rename(folder, out)
        return status


if __name__ == "__main__":
    if len(sys.argv) != 6:
        sys.exit(__doc__)
    sys.exit(main(*sys.argv[1:]))
