#!/usr/bin/env python3
"""Shows the departures and the timetables of a feed in a browser."""
import argparse
import contextlib
import errno
import json
import sys
import threading
import time
from datetime import date, datetime, timedelta, timezone
from http.server import BaseHTTPRequestHandler, ThreadingHTTPServer
from pathlib import Path
from urllib.parse import parse_qsl

import dezhampul

# The page: where each of its files is found, and of which kind it is. They are read here, so no request opens a file.
FILES = {path: (kind, Path(__file__).with_name(name).read_bytes()) for path, name, kind in [
    ("/", "page.html", "text/html"), ("/page.css", "page.css", "text/css"), ("/page.js", "page.js", "text/javascript"),
]}
HEADERS = {
    "Allow": "GET, HEAD",
    "Cache-Control": "no-store",
    "Content-Security-Policy": "default-src 'self'; base-uri 'none'; form-action 'none'; frame-ancestors 'none'",
    "X-Content-Type-Options": "nosniff",
}
# The most departures of a board, how far it looks ahead, how many errors of a feed are told, and the seconds until it is opened again.
ROWS, AHEAD, ERRORS, PAUSE = 10, timedelta(days=7), 5, 10

# After these faults the feed has to be opened again.
LOST = (dezhampul.BrokenProcess, dezhampul.HasErrors, dezhampul.DeviceFault, dezhampul.NoProgram, dezhampul.NoZone)

# The status of a fault, and what is told of it: the first that fits.
REFUSALS = [
    (dezhampul.UnknownStop, 404, "The feed has no such stop."),
    (dezhampul.UnknownRoute, 404, "The feed has no such route."),
    (dezhampul.OutOfMemory, 503, "The server is short of memory. Please try again later."),
    (dezhampul.HasErrors, 503, "The feed has errors. Nothing can be shown until they are mended."),
    (LOST, 503, "The feed cannot be read at the moment. The server keeps trying."),
    (Exception, 400, "This cannot be asked for."),
]


class Opened:
    """A feed that the program has read: its names, its zone, and when it was read, by which a page knows whether it has these names."""

    def __init__(self, folder, how):
        self.feed, self.read = dezhampul.Feed(folder, **how), time.time()
        self.names, self.zone = dezhampul.names(folder), self.feed.now().tzinfo


class Source:
    """The feed. It is opened for the first question, and again after a fault, but only once in PAUSE seconds."""

    def __init__(self, folder, now, **how):
        self.folder, self.now, self.how, self.lock = folder, now, how, threading.Lock()
        self.opened, self.fault, self.again = None, dezhampul.BrokenProcess("the feed was not opened"), 0

    def ask(self, question, fields):
        """The answer to a question, with the time in the feed's zone. If the program has died, another is started and asked."""
        with self.lock:
            for _ in range(2):
                try:
                    opened, now = self.get(), self.now or datetime.now(timezone.utc)
                    clock = now.astimezone(opened.zone).replace(microsecond=0)
                    return {"now": clock, "fixed": self.now is not None, "read": opened.read, **question(opened, now, **fields)}
                except LOST as fault:
                    if fault is not self.fault:
                        print(f"server: {fault}", file=sys.stderr, flush=True)
                    self.opened, self.fault = None, fault
            raise self.fault.with_traceback(None)

    def get(self):
        """The feed, which is opened if it is not."""
        if not self.opened:
            if time.monotonic() < self.again:
                raise self.fault.with_traceback(None)
            self.again = time.monotonic() + PAUSE
            self.opened = Opened(self.folder, self.how)
        return self.opened


def names(opened, now):
    return {"stops": list(opened.names.stops.values()), "routes": list(opened.names.routes.values())}


def board(opened, now, stop):
    departures = opened.feed.board(stop, now, now + AHEAD, limit=ROWS)
    return {"departures": [{**vars(departure), "route_id": opened.names.route_of.get(departure.trip_id)} for departure in departures]}


def timetable(opened, now, route, day):
    return {"sheets": list(opened.feed.timetable(route, date.fromisoformat(day)))}


# What may be asked, and the fields of each question.
QUESTIONS = {"/names": (names, []), "/board": (board, ["stop"]), "/timetable": (timetable, ["day", "route"])}


def fields_of(query, wanted):
    """The fields of a query: each of these once, and no other. Raises `ValueError`."""
    pairs = parse_qsl(query, keep_blank_values=True, strict_parsing=True, errors="strict") if query else []
    if sorted(name for name, _ in pairs) != wanted:
        raise ValueError(query)
    return dict(pairs)


def plain(value):
    """What JSON has for a time of a service day, seconds, for a moment or a day, a text by ISO 8601, and for others their fields."""
    if isinstance(value, timedelta):
        return value.total_seconds()
    return value.isoformat() if isinstance(value, date) else vars(value)


def refusal_of(fault):
    """The status of a fault, and what is told of it."""
    status, words = next(refusal[1:] for refusal in REFUSALS if isinstance(fault, refusal[0]))
    problems = fault.report.problems if isinstance(fault, dezhampul.HasErrors) else ()
    errors = [str(problem) for problem in problems if problem.code.startswith("E")]
    return status, {"error": words, "problems": errors[:ERRORS]}


class Handler(BaseHTTPRequestHandler):
    """Answers GET and HEAD, one request on each connection. A client that says nothing for some seconds is let go."""

    source, timeout, server_version, sys_version = None, 10, "dezhampul", ""

    def handle(self):
        with contextlib.suppress(ConnectionError):
            super().handle()

    def do_GET(self):
        path, _, query = self.path.partition("?")
        if path in FILES:
            self.reply(200, *FILES[path])
        elif path in QUESTIONS:
            self.tell(*self.answer(*QUESTIONS[path], query))
        else:
            self.tell(404, {"error": "There is no such page."})

    do_HEAD = do_GET

    def answer(self, question, wanted, query):
        try:
            return 200, self.source.ask(question, fields_of(query, wanted))
        except (dezhampul.Refused, ValueError, *LOST) as fault:
            return refusal_of(fault)

    def tell(self, status, told):
        self.reply(status, "application/json", (json.dumps(told, default=plain) + "\n").encode())

    def reply(self, status, kind, body):
        self.send_response(status)
        for name, value in {**HEADERS, "Content-Type": f"{kind}; charset=utf-8", "Content-Length": len(body)}.items():
            self.send_header(name, value)
        self.end_headers()
        if self.command != "HEAD":
            self.wfile.write(body)

    def send_error(self, code, message=None, explain=None):
        """Refuses other methods, and what is no request."""
        self.tell(405 if code == 501 else code, {"error": "This cannot be asked for."})

    def log_message(self, *words):
        """Displays ask all day, so nothing is logged."""


def main():
    parser = argparse.ArgumentParser(description=__doc__)
    parser.add_argument("folder", help="the folder of the feed")
    parser.add_argument("--zone", help="the zone file, if it is not that of agency_timezone")
    parser.add_argument("--interpolate", action="store_true", help="fill in times that the feed leaves out")
    parser.add_argument("--host", default="127.0.0.1", help="the address to listen on; without it only this computer can ask")
    parser.add_argument("--port", type=int, default=8000, help="the port to listen on; 0 takes one that is free")
    parser.add_argument("--now", type=datetime.fromisoformat, help="a moment in place of now, such as 2024-04-02T06:50:00+02:00")
    given = parser.parse_args()
    if given.now and given.now.utcoffset() is None:
        parser.error("--now has no offset from UTC")
    Handler.source = Source(given.folder, given.now, zone=given.zone, interpolate=given.interpolate)
    try:
        with contextlib.suppress(dezhampul.HasErrors):  # (the page tells them)
            Handler.source.ask(names, {})
        with ThreadingHTTPServer((given.host, given.port), Handler) as server:
            print("http://{}:{}/".format(*server.server_address), flush=True)
            server.serve_forever()
    except KeyboardInterrupt:
        pass
    except LOST:
        sys.exit(1)
    except (dezhampul.Refused, OSError) as fault:
        is_taken = getattr(fault, "errno", None) == errno.EADDRINUSE
        sys.exit(f"server: port {given.port} is in use: try --port {given.port + 1}" if is_taken else f"server: {fault}")


if __name__ == "__main__":
    main()
