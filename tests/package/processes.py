"""Processes that die, hang or answer nonsense; threads; feeds that cannot be opened or are closed."""
import dataclasses
import gc
import os
import pickle
import signal
import subprocess
import sys
import threading
import time
from datetime import date
from itertools import islice
from unittest import mock

import dezhampul
from dezhampul.process import Process
from made import BROKEN, PACKAGE, UTC, ZONE, Case, answer, example, make_feed, make_long_feed, put, text_of_board

DAY, NEXT_DAY = date(2024, 4, 1), date(2024, 4, 2)
LINE = "@1711958400/T1/28800/1/20240401\t2024-04-01 08:00:00+00:00\tS1\t10\t\ts\n"
SHEET = "== R1 - 20240401\ntrip\tT1\nS1\t08:00:00\n"


def is_running(number):
    try:
        os.kill(number, 0)
    except ProcessLookupError:
        return False
    return True


def is_frozen(kind):
    return dataclasses.is_dataclass(kind) and kind.__dataclass_params__.frozen


class Broken(Case):
    def f1(self, **how):
        feed = dezhampul.Feed(example("f1"), zone=UTC, **how)
        self.addCleanup(feed.close)
        return feed

    def board(self, feed):
        return list(feed.board("S1", DAY, NEXT_DAY))

    def want_broken(self, ask, *parts):
        with self.assertRaises(dezhampul.BrokenProcess) as raised:
            ask()
        for part in parts:
            self.assertIn(part, str(raised.exception))

    def test_killed_while_idle(self):
        """a program that was killed is told once, and then another answers"""
        feed = self.f1()
        for _ in range(3):
            self.assertEqual(text_of_board(self.board(feed)), LINE)
            os.kill(feed._process.number, signal.SIGKILL)
            self.want_broken(lambda: self.board(feed), "signal 9")

    def test_killed_in_an_answer(self):
        """a program that is killed while its answer is awaited"""
        feed, told = self.f1(), []
        number = feed._process.number
        os.kill(number, signal.SIGSTOP)
        thread = threading.Thread(target=lambda: told.append(self.assertRaises(dezhampul.BrokenProcess, self.board, feed)))
        thread.start()
        time.sleep(0.1)
        os.kill(number, signal.SIGKILL)
        thread.join(10)
        self.assertEqual(told, [None])
        self.assertEqual(text_of_board(self.board(feed)), LINE)

    def test_killed_in_a_board(self):
        """a program that is killed in the middle of a long board: what came is right, and the rest is opened after its last key"""
        folder = make_long_feed(self.path("long"))
        with dezhampul.Feed(folder, zone=UTC) as feed:
            departures, got = feed.board("S1", DAY, NEXT_DAY), []
            got += islice(departures, 1500)
            os.kill(feed._process.number, signal.SIGKILL)
            self.want_broken(lambda: got.extend(departures), "signal 9")
            self.assertEqual(len(got), 2000)
            got += feed.board("S1", DAY, NEXT_DAY, after=got[-1].key)
        text = answer("board", folder, "--zone", UTC, "--stop", "S1", "--from", "20240401", "--until", "20240402")
        self.assertEqual(text_of_board(got), text)

    def test_half_an_answer(self):
        """half an answer of a program that dies is none"""
        for end in ("os.kill(os.getpid(), signal.SIGKILL)", "sys.exit('gtfs: output failed')", "sys.exit(0)"):
            self.stand_in(f"lines.readline()\ntell({LINE!r}.encode() + b'@17')\n{end}")
            feed = self.f1()
            self.want_broken(lambda: self.board(feed), "gtfs ended with ")

    def test_nonsense(self):
        """answers that are none"""
        wrong = [
            b"\xff\n\n", b"x\n\n", LINE.encode() * 2000 + b"\n", LINE.encode() + b"\n" + LINE.encode() + b"\n", b"\n\n", b"!! a\tb\n\n",
            *(LINE.replace(old, new).encode() + b"\n" for old, new in (
                ("\ts", "\tx"), ("\ts", "\ts\t"), ("@", ""), ("/1/", "/x/"), ("0401\t", "0431\t"), ("+00:00", ""), ("08:00:00", "08:61:00"),
                ("/T1/28800/1", "/1"), ("20240401\t", "020240401\t"),
            )),
        ]
        for text in wrong:
            self.stand_in(f"for line in lines:\n    tell({text!r})")
            feed = self.f1(time_limit=10)
            self.want_broken(lambda: self.board(feed))
        for text in (SHEET[3:], SHEET.replace("trip", "trap"), SHEET.replace(" - ", " 2 "), SHEET.replace("8:00:00", "8:00"), SHEET[:17],
                     SHEET.replace("\tT1", "\tT1\tT2"), SHEET.replace("0401", "04")):
            self.stand_in(f"for line in lines:\n    tell({text!r}.encode() + b'\\n')")
            feed = self.f1(time_limit=10)
            self.want_broken(lambda: list(feed.timetable("R1", DAY)), "no sheet")

    def test_not_asked_for(self):
        """a program that tells more than it was asked for"""
        self.stand_in(f"for line in lines:\n    tell({LINE!r}.encode() + b'\\n')\n    time.sleep(0.1)\n    tell(b'more')")
        feed = self.f1()
        self.assertEqual(len(self.board(feed)), 1)
        time.sleep(0.3)
        self.want_broken(lambda: self.board(feed), "not asked for")

    def test_no_serve(self):
        """programs that answer nothing, or something else, when a feed is opened"""
        for text in ("", "print('hello\\n\\n')", "print()", "import sys; sys.exit(9)"):
            self.stand_in(text, begin="")
            self.want_broken(self.f1)
        self.stand_in("import sys; sys.exit('no such word')", begin="")
        with self.refused(dezhampul.Refused, 1, "no such word"):
            self.f1()
        put(self.path("text"), "no program", 0o755)
        self.use(self.path("text"))
        self.want_broken(self.f1, "cannot be started")

    def test_reports_of_nonsense(self):
        """reports that are none, and statuses that do not fit them"""
        problem, advice = "W01 stops.txt:2 - short row", "A03 stops.txt\tS3\tno trip stops here"
        for text in (
            "", "errors 0 warnings 0", "E07\nerrors 1 warnings 0\n", "errors x warnings 0\n", "errors 1 warnings 0\n", "\xff\n",
            f"{problem}\t\nerrors 0 warnings 1\n", f'{problem}\t"\nerrors 0 warnings 1\n', f'{problem}\t""x\nerrors 0 warnings 1\n',
            f"{advice}\nerrors 0 warnings 0\n", f"{advice}\nerrors 0 warnings 0 advice 2\n", "errors 0 warnings 0 advice 1\n",
            "A03 stops.txt\tS3\nerrors 0 warnings 0 advice 1\n", f"{advice}\t1\nerrors 0 warnings 0 advice 1\n",
        ):
            self.stand_in(f"import sys\nsys.stdout.buffer.write({text!r}.encode('latin-1'))", begin="")
            self.want_broken(lambda: dezhampul.check(example("f1")))
            self.want_broken(lambda: dezhampul.merge(example("f1"), example("f1"), self.path("out")))
        self.stand_in("import os\nos.kill(os.getpid(), 9)", begin="")
        self.want_broken(lambda: dezhampul.check(example("f1")), "signal 9")

    def test_time_limit(self):
        """nothing hangs: not an answer, half of one, one line after another, a line that nobody takes, an opening, a check or a merge"""
        hangs = ["time.sleep(60)", "lines.readline()\ntell(b'@17')\ntime.sleep(60)",
                 "lines.readline()\nos.close(1)\ntime.sleep(60)",
                 "lines.readline()\nwhile True:\n    tell(b'x\\n')\n    time.sleep(0.01)"]
        for text in hangs:
            self.stand_in(text)
            feed = self.f1(time_limit=0.4)
            begun = time.monotonic()
            self.want_broken(lambda: self.board(feed))
            self.assertLess(time.monotonic() - begun, 5)
        self.stand_in("time.sleep(60)")
        feed = self.f1(time_limit=0.4)
        self.want_broken(lambda: list(feed.board("S" * 500_000, DAY, NEXT_DAY)), "within 0.4 seconds")
        self.stand_in("import time\ntime.sleep(60)", begin="")
        self.want_broken(lambda: self.f1(time_limit=0.2), "within 0.2 seconds")
        self.want_broken(lambda: dezhampul.check(example("f1"), time_limit=0.2), "within 0.2 seconds")
        self.want_broken(lambda: dezhampul.merge(example("f1"), example("f1"), self.path("o"), time_limit=0.2), "within 0.2 seconds")

    def test_interrupted(self):
        """after an interruption no answer is another's"""
        # (a shell that runs the tests in the background has them ignore it)
        held = signal.signal(signal.SIGINT, signal.default_int_handler)
        self.addCleanup(signal.signal, signal.SIGINT, held)
        feed = self.f1(time_limit=20)
        number = feed._process.number
        os.kill(number, signal.SIGSTOP)
        timer = threading.Timer(0.2, lambda: signal.pthread_kill(threading.main_thread().ident, signal.SIGINT))
        timer.start()
        self.assertRaises(KeyboardInterrupt, self.board, feed)
        timer.join()
        self.assertFalse(is_running(number))
        self.assertEqual(text_of_board(self.board(feed)), LINE)

    def test_error_output(self):
        """an error output of a mebibyte for each answer blocks nothing"""
        self.stand_in(f"for line in lines:\n    err.write('x' * (1 << 20))\n    err.flush()\n    tell({LINE!r}.encode() + b'\\n')")
        feed = self.f1(time_limit=10)
        for _ in range(3):
            self.assertEqual(len(self.board(feed)), 1)

    def test_large_answer(self):
        """an answer of 100,000 lines, in pieces and as a whole"""
        for step in (1 << 20, 1000):
            rows = "S1\\t08:00:00\\n"
            self.stand_in(
                f"text = ('== R1 - 20240401\\ntrip\\tT1\\n' + '{rows}' * 100_000 + '\\n').encode()\n"
                f"lines.readline()\nfor at in range(0, len(text), {step}):\n    tell(text[at:at + {step}])\nlines.readline()"
            )
            sheet, = self.f1(time_limit=30).timetable("R1", DAY)
            self.assertEqual(len(sheet.stops), 100_000)

    def test_out_of_memory(self):
        """where memory runs out, what was given before is right"""
        for text, ask in ((LINE, lambda feed: feed.board("S1", DAY, NEXT_DAY)), (SHEET, lambda feed: feed.timetable("R1", DAY))):
            for count in (0, 1):
                self.stand_in(f"for line in lines:\n    tell({text * count!r}.encode() + b'!! out of memory\\n\\n')")
                feed, got = self.f1(), []
                with self.refused(dezhampul.OutOfMemory, 4, "out of memory"):
                    for each in ask(feed):
                        got.append(each)
                self.assertEqual(len(got), count)
        self.stand_in("import sys\nprint('gtfs: out of memory', file=sys.stderr)\nsys.exit(4)", begin="")
        for ask in (self.f1, lambda: dezhampul.check(example("f1")), lambda: dezhampul.merge("a", "b", "c")):
            with self.refused(dezhampul.OutOfMemory, 4, "out of memory"):
                ask()


class Opened(Case):
    def test_threads(self):
        """threads take turns with one process, and each has its own answers"""
        wanted, wrong = {}, []
        with mock.patch("dezhampul.feed.Process", wraps=Process) as started, dezhampul.Feed(example("harbour"), zone=ZONE) as feed:
            stops = ["HAR", "HAR-1", "HAR-2", "MAR"]
            for stop in stops:
                wanted[stop] = list(feed.board(stop, date(2024, 3, 30), date(2024, 4, 14)))
            def ask(stop):
                for _ in range(150):
                    if list(feed.board(stop, date(2024, 3, 30), date(2024, 4, 14))) != wanted[stop]:
                        wrong.append(stop)
            threads = [threading.Thread(target=ask, args=(stop,)) for stop in stops]
            for thread in threads:
                thread.start()
            for thread in threads:
                thread.join()
        self.assertEqual(wrong, [])
        self.assertTrue(all(wanted.values()))
        self.assertEqual(started.call_count, 1)

    def test_errors(self):
        """a feed with errors is not opened, and its report is there, also where it names no zone"""
        report = dezhampul.check(example("broken"))
        with self.refused(dezhampul.HasErrors, 1, BROKEN, f"{example('broken')} has errors") as raised:
            dezhampul.Feed(example("broken"), zone=ZONE)
        self.assertEqual(raised.exception.report, report)
        folder = make_feed(self.path("none"), agency="agency_name,agency_url\nMetro,http://m.example\n")
        text = f"{folder} has 1 error: agency.txt, row 1, agency_timezone: column missing"
        with self.refused(dezhampul.HasErrors, 1, text, f"{folder} has errors") as raised:
            dezhampul.Feed(folder)
        self.assertEqual(raised.exception.report, dezhampul.check(folder))

    def test_not_there(self):
        """folders and zone files that are not there or are none"""
        for how in ({}, {"zone": ZONE}):
            with self.refused(dezhampul.DeviceFault, 3, f"{self.path('none')} is not there"):
                dezhampul.Feed(self.path("none"), **how)
        folder = make_feed(self.path("pipe"))
        os.remove(os.path.join(folder, "agency.txt"))
        os.mkfifo(os.path.join(folder, "agency.txt"))
        with self.refused(dezhampul.DeviceFault, 3, f"{folder} cannot be read"):
            dezhampul.Feed(folder)
        stops = os.path.join(example("f1"), "stops.txt")
        with self.refused(dezhampul.DeviceFault, 3, f"{stops} is no zone file"):
            dezhampul.Feed(example("f1"), zone=stops)
        for how in ({}, {"zone": ZONE}):
            with self.refused(dezhampul.DeviceFault, 3, f"{stops} is a file, not a folder: unzip it first", f"{stops} cannot be read"):
                dezhampul.Feed(stops, **how)
        for zone, how in (("Europe/Rome", "is not there"), (self.room, "cannot be read")):
            text = f"{zone} is no file: give the path of a zone file, such as /usr/share/zoneinfo/Europe/Rome"
            with self.refused(dezhampul.DeviceFault, 3, text, f"{zone} {how}"):
                dezhampul.Feed(example("f1"), zone=zone)

    def test_no_feed(self):
        """a folder without any file of a feed, which may be in one of the folders below"""
        folder = self.path("zip")
        os.makedirs(os.path.join(folder, "empty"))
        put(os.path.join(folder, "readme.txt"), "")
        for name, text in ((None, ""), ("one", "; is it in {}/one?"), ("two", "")):
            if name:
                make_feed(os.path.join(folder, name))
            for ask in (lambda: dezhampul.Feed(folder), lambda: dezhampul.Feed(folder, zone=UTC),
                        lambda: dezhampul.merge(example("f1"), folder, self.path("out"))):
                with self.refused(dezhampul.HasErrors, 1, f"no file of a feed is in {folder}{text.format(folder)}", f"{folder} has errors"):
                    ask()

    def test_changed(self):
        """a program that starts again reads the folder anew, which may have errors by then"""
        folder = make_feed(self.path("f1"))
        with dezhampul.Feed(folder, zone=UTC) as feed:
            put(os.path.join(folder, "routes.txt"), "")
            self.assertEqual(len(list(feed.board("S1", DAY, NEXT_DAY))), 1)
            os.kill(feed._process.number, signal.SIGKILL)
            self.assertRaises(dezhampul.BrokenProcess, lambda: list(feed.board("S1", DAY, NEXT_DAY)))
            self.assertRaises(dezhampul.HasErrors, lambda: list(feed.board("S1", DAY, NEXT_DAY)))
            self.assertRaises(dezhampul.HasErrors, lambda: list(feed.board("S1", DAY, NEXT_DAY)))

    def test_zones(self):
        """the zone is that of agency.txt among the system's, and no name leads out of their folder"""
        os.makedirs(self.path("zones/Europe"))
        os.symlink(ZONE, self.path("zones/Europe/Copenhagen"))
        os.symlink(ZONE, self.path("zone"))
        with mock.patch("dezhampul.zones.zone_folders", return_value=[self.path("other"), self.path("zones")]):
            with dezhampul.Feed(example("harbour")) as feed:
                self.assertEqual(len(list(feed.board("HAR", DAY, NEXT_DAY))), 3)
            with self.assertRaisesRegex(dezhampul.NoZone, "no zone file for UTC in .*zones: install tzdata, or name a zone file"):
                dezhampul.Feed(example("f1"))
            with mock.patch("dezhampul.zones.zone_folders", return_value=[]):
                with self.assertRaisesRegex(dezhampul.NoZone, "^Python knows no folder of zone files to look for UTC in: set PYTHONTZPATH"):
                    dezhampul.Feed(example("f1"))
            for name in (
                "../zone", "./Europe/Copenhagen", f"{self.path('zone')}", "Europe/../Europe/Copenhagen", "Europe", "Europe//Copenhagen",
            ):
                folder = make_feed(self.path(f"f{len(os.listdir(self.room))}"),
                                   agency=f"agency_name,agency_url,agency_timezone\nM,http://m.example,{name}\n")
                self.assertRaises(dezhampul.NoZone, dezhampul.Feed, folder)
        ran = subprocess.run(
            [sys.executable, "-c", f"import dezhampul; print(dezhampul.Feed({example('harbour')!r}).zone)"], stdout=subprocess.PIPE,
            env={**os.environ, "PYTHONPATH": PACKAGE, "PYTHONTZPATH": self.path("zones")}, timeout=60)
        self.assertEqual(ran.stdout.decode(), f"{self.path('zones/Europe/Copenhagen')}\n")

    def test_agencies(self):
        """agency.txt may have marks, quotes, blank rows and other columns"""
        os.makedirs(self.path("zones"))
        os.symlink(UTC, self.path("zones/UTC"))
        with mock.patch("dezhampul.zones.zone_folders", return_value=[self.path("zones")]):
            for number, text in enumerate((
                '\ufeffagency_name,agency_url, agency_timezone \r\n\r\n , ,\r\n"M\n,x",http://m.example, UTC \r\n',
                '\ufeff\ufeff"agency_timezone",agency_name,agency_url\n"UTC",M,http://m.example\n',
                "agency_timezone,agency_name,agency_url\rUTC,M,http://m.example",
            )):
                with dezhampul.Feed(make_feed(self.path(str(number)), agency=text)) as feed:
                    self.assertEqual(len(list(feed.board("S1", DAY, NEXT_DAY))), 1)

    def test_closed(self):
        """a feed that is closed has no process and refuses all requests"""
        with dezhampul.Feed(example("f1"), zone=UTC) as feed:
            number = feed._process.number
            begun = feed.board("S1", DAY, NEXT_DAY)
        self.assertFalse(is_running(number))
        feed.close()
        for ask in (lambda: list(begun), lambda: list(feed.board("S1", DAY, NEXT_DAY)), lambda: list(feed.timetable("R1", DAY)),
                    lambda: list(feed.next("S1", 1))):
            with self.assertRaisesRegex(ValueError, "the feed is closed"):
                ask()

    def test_ended(self):
        """a process ends with its feed, with an exception, and with the interpreter"""
        feed = dezhampul.Feed(example("f1"), zone=UTC)
        number = feed._process.number
        del feed
        gc.collect()
        self.assertFalse(is_running(number))
        code = f"import dezhampul\nfeed = dezhampul.Feed({example('f1')!r}, zone={UTC!r})\nprint(feed._process.number, flush=True)\n"
        for end in ("", "raise SystemExit(3)", "1 / 0", "held = [feed]; held.append(held)"):
            ran = subprocess.run([sys.executable, "-W", "error", "-c", code + end], env={**os.environ, "PYTHONPATH": PACKAGE},
                                 stdout=subprocess.PIPE, stderr=subprocess.PIPE, timeout=60)
            self.assertFalse(is_running(int(ran.stdout)), end)
            self.assertEqual(ran.stderr == b"", end != "1 / 0", ran.stderr)

    def test_no_program(self):
        """where there is no program, that is said"""
        self.use(self.path("none"))
        for ask in (lambda: dezhampul.Feed(example("f1"), zone=UTC), lambda: dezhampul.check(example("f1"))):
            with self.assertRaisesRegex(dezhampul.NoProgram, "GTFS names no program"):
                ask()
        self.use("")
        with mock.patch.dict(os.environ, {"PATH": self.room}):
            with self.assertRaisesRegex(dezhampul.NoProgram, "set .GTFS"):
                dezhampul.check(example("f1"))
            os.symlink(self.path("x"), self.path("gtfs"))
            put(self.path("x"), "#!/bin/sh\necho errors 0 warnings 7\n", 0o755)
            self.assertEqual(dezhampul.check(example("f1")).warnings, 7)

    def test_names(self):
        """each public name has a docstring, all values are frozen, and exceptions can be sent to other processes"""
        for name in dezhampul.__all__:
            if name != "__version__":
                self.assertTrue(getattr(dezhampul, name).__doc__, name)
        for name in ("board", "next", "timetable", "close", "zone", "now"):
            self.assertTrue(getattr(dezhampul.Feed, name).__doc__, name)
        frozen = {name for name in dezhampul.__all__ if is_frozen(getattr(dezhampul, name))}
        self.assertEqual(frozen, {"Advice", "Departure", "Merged", "Names", "Problem", "Renamed", "Report", "Route", "Sheet", "Stop"})
        with self.assertRaises(AttributeError):
            dezhampul.check(example("f1")).errors = 1
        again = pickle.loads(pickle.dumps(dezhampul.UnknownStop(1, "unknown stop", "no stop")))
        self.assertEqual((type(again), again.status, again.message, str(again)), (dezhampul.UnknownStop, 1, "unknown stop", "no stop"))
