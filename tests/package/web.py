"""The server of the display in a browser: what it answers and refuses, and what it does after faults."""
import json
import os
import shutil
import signal
import socket
import threading
import time
from datetime import date, datetime, timedelta, timezone
from unittest import mock
from urllib.parse import quote, urlencode

import dezhampul
from made import FEEDS, ROUTES, UTC, answer, at, compact, example, make_feed, put, stops_of, text_of_sheet
from program import read
from served import NOW, SCRIPT, Served, board, server

LOST = "The feed cannot be read at the moment. The server keeps trying."


def line_of(told):
    """The line of a departure that was told."""
    mark = ("s" if told["exact"] else "f") + ("i" if told["filled"] else "")
    return "\t".join((told["key"], told["time"].replace("T", " "), told["stop_id"], told["route"], told["headsign"], mark)) + "\n"


def sheet_of(told):
    """The sheet that was told."""
    times = tuple(tuple(None if time is None else timedelta(seconds=time) for time in row) for row in told["times"])
    return dezhampul.Sheet(told["route"], told["direction"], date.fromisoformat(told["date"]), told["stops"], told["trips"], times)


class Answers(Served):
    def test_boards(self):
        """the boards of all stops of the examples are the program's"""
        count = 0
        for name, zone in FEEDS.items():
            for words in ([], ["--interpolate"]):
                source = self.serve(example(name), zone, interpolate=bool(words))
                for stop in stops_of(name):
                    for source.now in (NOW, NOW - timedelta(days=1), at(1711958400)):
                        told = self.told("/board", stop=stop)
                        lines = "".join(map(line_of, told["departures"]))
                        self.assertEqual(lines, board(example(name), zone, stop, source.now, *words))
                        self.assertEqual(datetime.fromisoformat(told["now"]), source.now)
                        count += len(told["departures"])
        self.assertGreater(count, 200)

    def test_timetables(self):
        """so are the timetables of their routes"""
        count = 0
        for name, zone in FEEDS.items():
            self.serve(example(name), zone)
            for route in ROUTES[name]:
                for day in (date(2024, 3, 30), date(2024, 4, 1), date(2024, 4, 2), date(9999, 12, 31)):
                    sheets = self.told("/timetable", route=route, day=day.isoformat())["sheets"]
                    text = "".join(text_of_sheet(sheet_of(sheet)) for sheet in sheets)
                    self.assertEqual(text, answer("timetable", example(name), f"--route={route}", "--date", compact(day)))
                    count += len(sheets)
        self.assertGreater(count, 10)

    def test_names(self):
        """the choices are the stops and routes of the files, and the clock is that of the zone"""
        self.serve(example("harbour"), now=at(1712033400))
        told = self.told("/names")
        self.assertEqual((told["now"], told["fixed"]), ("2024-04-02T06:50:00+02:00", True))
        self.assertEqual([stop["stop_id"] for stop in told["stops"]], stops_of("harbour"))
        self.assertIn({"stop_id": "HAR-1", "name": "Old Harbour", "platform": "1", "location_type": "0"}, told["stops"])
        ring, night = told["routes"]
        self.assertEqual((ring["color"], ring["text_color"], night["color"], night["long_name"]), ("0055A4", "FFFFFF", "", "Night Line"))
        self.serve(example("harbour"), now=None)
        told = self.told("/board", stop="HAR")
        self.assertEqual((told["departures"], told["fixed"]), ([], False))
        self.assertLess(abs(datetime.now(timezone.utc) - datetime.fromisoformat(told["now"])), timedelta(seconds=30))

    def test_odd_texts(self):
        """texts of a feed are only ever values of JSON"""
        text = "<script>alert('1')</script> & \"two\" </table>\u2028"
        cell = '"' + text.replace('"', '""') + '"'
        folder = make_feed(
            self.path("odd"), stops=f"stop_id,stop_name,stop_lat,stop_lon\n{cell},{cell},1,2\nS2,Lake,1,2\n",
            trips=f"route_id,service_id,trip_id,trip_headsign\nR1,C1,T1,{cell}\n",
            stop_times="trip_id,arrival_time,departure_time,stop_id,stop_sequence\n"
            f"T1,08:00:00,08:00:00,{cell},1\nT1,08:10:00,08:10:00,S2,2\n")
        self.serve(folder, UTC, at(1711958400))
        departure, = self.told("/board", stop=text)["departures"]
        self.assertEqual((departure["headsign"], departure["stop_id"]), (text, text))
        self.assertEqual(self.told("/names")["stops"][0]["name"], text)
        for path in ("/names", "/board?" + urlencode({"stop": text})):
            self.assertEqual(self.ask(path)[1]["X-Content-Type-Options"], "nosniff")
        self.assertEqual(self.told("/board", 404, stop="<b>"), {"error": "The feed has no such stop.", "problems": []})


class Refusals(Served):
    def test_methods(self):
        """GET and HEAD are answered, with the same headers, and nothing else is"""
        self.serve(example("harbour"))
        for path in ("/", "/page.css", "/page.js", "/names", "/board?stop=HAR", "/board?stop=HAR-9", "/none"):
            status, headers, body = self.ask(path)
            again, same, nothing = self.ask(path, "HEAD")
            del headers["Date"], same["Date"]
            self.assertEqual((again, same.items(), nothing), (status, headers.items(), b""), path)
            self.assertEqual(int(headers["Content-Length"]), len(body))
            self.assertRegex(headers["Content-Security-Policy"], "^default-src 'self'; .*frame-ancestors 'none'$")
            self.assertEqual(headers["X-Content-Type-Options"], "nosniff")
            self.assertEqual(headers["Server"].strip(), "dezhampul")
        for method in ("POST", "PUT", "DELETE", "PATCH", "OPTIONS", "TRACE", "get", "BREW"):
            status, headers, body = self.ask("/board?stop=HAR", method, b"stop=HAR")
            self.assertEqual((status, headers["Allow"], headers["X-Content-Type-Options"]), (405, "GET, HEAD", "nosniff"), method)
            self.assertIn("error", json.loads(body))

    def test_paths(self):
        """only the files of the page are served, whatever a path looks like"""
        self.serve(example("harbour"))
        folder = os.path.dirname(SCRIPT)
        for path, name in (("/", "page.html"), ("/page.css", "page.css"), ("/page.js", "page.js")):
            self.assertEqual(self.ask(path)[2], read(os.path.join(folder, name)))
        for path in (
            "/page.html", "/server.py", "/../server.py", "/%2e%2e/server.py", "/..%2fserver.py", "//etc/passwd", "/etc/passwd",
            "/page.css/", "/page.css/../server.py", "/.", "/./", "/page.css%00", "/\\..\\server.py", f"/{quote(SCRIPT)}",
            f"file://{SCRIPT}", "/Board?stop=HAR", "/board/?stop=HAR", "http://127.0.0.1/page.css", "*", "/board;stop=HAR",
            "/stops.txt", "/" + "a" * 60_000,
        ):
            self.assertEqual(self.ask(path)[0], 404, path)

    def test_queries(self):
        """a query has each of its fields once, and no others"""
        self.serve(example("harbour"))
        good = "route=RING&day=2024-04-02"
        self.assertEqual(self.ask(f"/timetable?{good}")[0], 200)
        for query in (
            "", "stop", "stop=HAR&stop=HAR", "stop=HAR&stop=MAR", "stop=HAR&limit=1", "=HAR", "stop=HAR&", "&", "Stop=HAR", "stop=%ff",
            "stop=HAR%09x", "stop=HAR%0aboard", "stop=HAR&" * 5_000 + "stop=HAR", "st%6fp=HAR%0a",
        ):
            self.assertEqual(self.ask(f"/board?{query}")[0], 400, query)
        for query in (
            "route=RING", "day=2024-04-02", f"{good}&day=2024-04-02", f"{good}&direction=0", f"{good}%0a", "route=RING%09&day=2024-04-02",
            *(f"route=RING&day={day}" for day in ("", "2024-04-31", "@0", "0001-01-01", "tomorrow")),
        ):
            self.assertEqual(self.ask(f"/timetable?{query}")[0], 400, query)
        self.assertEqual(self.ask("/names?x=1")[0], 400)
        for stop in ("", "HAR-9", "har", "HAR?", " HAR", "HAR\r", "\0", "S" * 60_000, "'; ls", "$(ls)", "../HAR", "-h", "\u00e6"):
            self.assertEqual(self.told("/board", 404, stop=stop)["error"], "The feed has no such stop.")
        self.assertEqual(self.told("/timetable", 404, route="R9", day="2024-04-02")["error"], "The feed has no such route.")
        self.assertEqual(self.ask("/board?stop=" + "S" * 70_000)[0], 414)
        self.assertEqual(len(self.told("/board", stop="HAR")["departures"]), 10)

    def test_nothing_is_opened(self):
        """whatever is asked, no file is opened and no process is started"""
        source = self.serve(example("harbour"))
        self.told("/names")
        number = source.opened.feed._process.number
        with mock.patch("builtins.open", side_effect=AssertionError), mock.patch("subprocess.Popen", side_effect=AssertionError):
            for path in (
                "/", "/page.js", "/none", "/names", "/board?stop=HAR", "/board?stop=/etc/passwd", "/board?stop=--zone%3D/etc/passwd",
                "/timetable?route=RING&day=2024-04-02", "/timetable?route=|ls&day=2024-04-02", "/../../etc/passwd",
            ):
                self.assertIn(self.ask(path)[0], (200, 404))
        self.assertEqual(source.opened.feed._process.number, number)

    def test_no_request(self):
        """what is no request, or comes slowly, harms no one else"""
        self.serve(example("harbour"))
        with mock.patch.object(server.Handler, "timeout", 0.5):
            with socket.create_connection(("127.0.0.1", self.port), timeout=30) as slow:
                slow.sendall(b"GET /board?stop=H")
                self.assertEqual(len(self.told("/board", stop="HAR")["departures"]), 10)
                self.assertEqual(slow.recv(100), b"")
        many = b"GET / HTTP/1.0\r\n" + b"x: y\r\n" * 200
        for text in (b"GET\r\n\r\n", b"GET / x y\r\n\r\n", b"GET / HTTP/9.9\r\n\r\n", b"\xff\r\n\r\n", many):
            with socket.create_connection(("127.0.0.1", self.port), timeout=30) as rude, rude.makefile("rb") as told:
                rude.sendall(text)
                self.assertTrue(told.read().endswith(b'{"error": "This cannot be asked for."}\n'), text)
        with socket.create_connection(("127.0.0.1", self.port), timeout=30) as gone:
            gone.sendall(b"GET /page.js HTTP/1.0\r\n\r\n")
        self.assertEqual(len(self.told("/board", stop="HAR")["departures"]), 10)


class Faults(Served):
    def test_errors(self):
        """a feed with errors is told with its errors, and shown once they are mended"""
        folder = self.path("f1")
        shutil.copytree(example("f1"), folder)
        stops = read(os.path.join(folder, "stops.txt")).decode()
        put(os.path.join(folder, "stops.txt"), stops.replace("13.4", "x"))
        report = dezhampul.check(folder)
        self.assertGreater(report.errors, 0)
        source = self.serve(folder, UTC, at(1711958400))
        for path in ("/names", "/board?stop=S1", "/timetable?route=R1&day=2024-04-01"):
            told = self.told(path, 503)
            self.assertEqual(told["error"], "The feed has errors. Nothing can be shown until they are mended.")
            error = next(problem for problem in report.problems if problem.code.startswith("E"))
            self.assertEqual(told["problems"][0], f"{error.file}, row {error.row}, {error.column}: {error.text}")
            self.assertLessEqual(len(told["problems"]), server.ERRORS)
        self.assertEqual(self.ask("/")[0], 200)
        put(os.path.join(folder, "stops.txt"), stops)
        self.told("/board", 503, stop="S1")
        source.again = 0
        self.assertEqual(len(self.told("/board", stop="S1")["departures"]), 1)

    def test_no_feed(self):
        """a folder without the files of a feed is told with those that are missing"""
        self.serve(self.room, UTC)
        self.assertEqual(self.told("/names", 503)["problems"][0], "agency.txt: file missing")
        self.assertEqual(self.errors.getvalue(), f"server: no file of a feed is in {self.room}\n")

    def test_once_in_a_while(self):
        """a feed that cannot be opened is not opened again for each request"""
        source = self.serve(self.path("none"))
        with mock.patch.object(server, "Opened", wraps=server.Opened) as opened:
            for count in (1, 1, 1):
                self.assertEqual(self.told("/names", 503)["error"], LOST)
                self.assertEqual(opened.call_count, count)
            self.assertGreater(source.again, time.monotonic() + server.PAUSE - 5)
            source.again = 0
            self.told("/names", 503)
            self.assertEqual(opened.call_count, 2)
        self.assertNotIn("none", json.dumps(self.told("/names", 503)))
        self.assertEqual(self.errors.getvalue(), f"server: {self.path('none')} is not there\n" * 2)

    def test_killed(self):
        """if the process dies, another answers at once, but not one after another"""
        source = self.serve(example("harbour"))
        first = self.told("/board", stop="HAR")
        for _ in range(2):
            source.again = 0
            os.kill(source.opened.feed._process.number, signal.SIGKILL)
            told = self.told("/board", stop="HAR")
            self.assertEqual(told["departures"], first["departures"])
            self.assertGreater(told["read"], first["read"])
        os.kill(source.opened.feed._process.number, signal.SIGKILL)
        for _ in range(2):
            self.assertEqual(self.told("/board", 503, stop="HAR")["error"], LOST)
        self.assertEqual(self.ask("/")[0], 200)
        source.again = 0
        self.assertEqual(self.told("/board", stop="HAR")["departures"], first["departures"])

    def test_killed_in_an_answer(self):
        """also if it dies while its answer is awaited"""
        source = self.serve(example("harbour"))
        wanted, told = self.told("/board", stop="HAR")["departures"], []
        source.again, number = 0, source.opened.feed._process.number
        os.kill(number, signal.SIGSTOP)
        thread = threading.Thread(target=lambda: told.append(self.told("/board", stop="HAR")["departures"]))
        thread.start()
        time.sleep(0.2)
        os.kill(number, signal.SIGKILL)
        thread.join(20)
        self.assertEqual(told, [wanted])

    def test_clients(self):
        """clients at the same time have their own answers"""
        self.serve(example("harbour"))
        wanted = {stop: self.told("/board", stop=stop) for stop in stops_of("harbour")}
        wrong = []

        def poll(stop):
            for _ in range(40):
                if self.told("/board", stop=stop) != wanted[stop]:
                    wrong.append(stop)

        threads = [threading.Thread(target=poll, args=(stop,)) for stop in wanted]
        for thread in threads:
            thread.start()
        for thread in threads:
            thread.join()
        self.assertEqual(wrong, [])
