"""Checks and merges."""
import os
import pickle
from datetime import date, datetime
from itertools import permutations

import dezhampul
from made import BROKEN, FEEDS, ZONE, Case, answer, example, gtfs, make_feed, put

COUNTS = ["agency", "stop", "route", "service", "trip"]


def line_of(problem):
    column = "-" if problem.column is None else problem.column
    return f'{problem.code} {problem.file}:{problem.row} {column} {problem.text}\t"{problem.value}"'


def text_of_report(report, is_advised=False):
    """The text of a report."""
    lines = [*map(line_of, report.problems), *("\t".join((f"{each.code} {each.file}", each.subject, each.text)) for each in report.advice)]
    counts = f"errors {report.errors} warnings {report.warnings}"
    return "".join(f"{line}\n" for line in [*lines, counts + (f" advice {len(report.advice)}" if is_advised else "")])


def text_of_merge(merged):
    """The text of a merge."""
    lines = ["\t".join((each.side, each.kind, each.old, each.new)) for each in merged.renamed]
    lines += [f"joined {kind} {merged.joined[kind]}" for kind in COUNTS]
    lines += [] if merged.near is None else [f"near stop {merged.near}"]
    return "".join(f"{line}\n" for line in lines)


class Checks(Case):
    def test_examples(self):
        """the reports on all examples are the program's"""
        for name in (*FEEDS, "broken"):
            self.assertEqual(text_of_report(dezhampul.check(example(name))), gtfs("check", example(name), "--values")[1])
            self.assertEqual(dezhampul.check(example(name)).advice, ())

    def test_by_hand(self):
        """a report has its counts and its problems"""
        report = dezhampul.check(example("broken"))
        self.assertEqual((report.errors, report.warnings, len(report.problems)), (6, 2, 8))
        self.assertEqual(report.problems[1], dezhampul.Problem("E07", "stops.txt", 4, "stop_lat", "value unreadable", "55,4102"))
        self.assertEqual(report.problems[7], dezhampul.Problem("W03", "calender_dates.txt", 0, None, "file not kept", ""))
        self.assertEqual([str(problem) for problem in report.problems[1::6]],
                         ["stops.txt, row 4, stop_lat: value unreadable", "calender_dates.txt: file not kept"])
        self.assertEqual(str(dezhampul.Problem("W01", "stops.txt", 2, None, "short row")), "stops.txt, row 2: short row")

    def test_values(self):
        """values have quotes, blanks and line ends of other kinds, and are cut if they are long"""
        values = ['"', '5" 6', '""', "x" * 60, "x" * 61, "\u2028", "5\u00852", " , "]
        quoted = ['"' + value.replace('"', '""') + '"' for value in values]
        rows = "".join(f"S{at},Mill,52.5,{text}\n" for at, text in enumerate(quoted, 1))
        folder = make_feed(self.path("odd"), stops=f"stop_id,stop_name,stop_lat,stop_lon\n{rows}S9,Mi\tll,52.5,13.4\n")
        told = [problem.value for problem in dezhampul.check(folder).problems]
        self.assertEqual(told, [*values[:4], "x" * 57 + "...", *values[5:7], ",", "Mi ll"])

    def test_advice(self):
        """advice on feeds without errors, with a day and without"""
        for name in (*FEEDS, "broken"):
            for words, how in (([], {}), (["--day", "20240411"], {"day": date(2024, 4, 11)}),
                               (["--day=99981231"], {"day": date(9998, 12, 31)})):
                report = dezhampul.check(example(name), advise=True, **how)
                text = gtfs("check", "--advise", "--values", *words, example(name))[1]
                self.assertEqual(text_of_report(report, name != "broken"), text)
        self.assertEqual(report.advice, ())
        report = dezhampul.check(example("careless"), advise=True, day=date(2024, 12, 9))
        self.assertEqual(report.advice[0], dezhampul.Advice("A02", "agency.txt", "HC", "address without http"))
        self.assertEqual(report.advice[-1], dezhampul.Advice("A23", "calendar.txt", "20241213", "fewer than seven days left"))
        self.assertEqual((report.errors, report.warnings, report.problems, len(report.advice)), (0, 0, (), 12))
        hash(report)

    def test_empty_subject(self):
        """advice on an agency without an id"""
        folder = make_feed(self.path("odd"), agency="agency_name,agency_url,agency_timezone\nMetro,m.example,UTC\n")
        report = dezhampul.check(folder, advise=True)
        self.assertEqual(report.advice[0], dezhampul.Advice("A02", "agency.txt", "", "address without http"))

    def test_refused_days(self):
        """days that are none, and a day without advice"""
        for day in (date(1899, 12, 31), date(9999, 1, 1), date(1, 1, 1)):
            with self.refused(dezhampul.Refused, 2, "bad value of --day"):
                dezhampul.check(example("f1"), advise=True, day=day)
        with self.refused(dezhampul.Refused, 2, "--day needs --advise"):
            dezhampul.check(example("f1"), day=date(2024, 4, 1))
        for day in ("20240401", datetime(2024, 4, 1)):
            self.assertRaises(TypeError, dezhampul.check, example("f1"), advise=True, day=day)

    def test_odd_names(self):
        """names of files and columns that are not kept may have spaces, colons, dashes and nothing at all"""
        columns = ["-", "a b", "a:1 - column not kept", "stop_id2", "\u00e6"]
        folder = make_feed(self.path("odd"), stops=",".join(["stop_id,stop_name,stop_lat,stop_lon", *columns, '""']) + "\n")
        for name in ("a b.txt", "a:0 - file not kept", "W04 stops.txt:1 x column not kept"):
            put(os.path.join(folder, name), "")
        status, text, _ = gtfs("check", "--values", folder)
        report = dezhampul.check(folder)
        self.assertEqual(text_of_report(report), text)
        self.assertEqual(sorted(each.file for each in report.problems if each.code == "W03"),
                         ["W04 stops.txt:1 x column not kept", "a b.txt", "a:0 - file not kept"])
        named = [each.column for each in report.problems if each.code == "W04"]
        self.assertTrue(set(columns) <= set(named), named)
        self.assertEqual(report.errors > 0, status == 1)

    def test_faults(self):
        """a folder that is not there, and one that is none"""
        with self.refused(dezhampul.DeviceFault, 3, f"{self.path('none')} is not there"):
            dezhampul.check(self.path("none"))
        path = os.path.join(example("f1"), "stops.txt")
        with self.refused(dezhampul.DeviceFault, 3, f"{path} is a file, not a folder: unzip it first", f"{path} cannot be read"):
            dezhampul.check(path)
        with self.refused(dezhampul.Refused, 2, "bad words"):
            dezhampul.check(b"\xff")
        self.assertRaises(ValueError, dezhampul.check, "a\0b")


class Merges(Case):
    def test_examples(self):
        """merges are the program's, also with near stops and with a cutoff"""
        for number, (words, how) in enumerate([
            ([], {}), (["--near", "100"], {"near": 100}), (["--cutoff", "20240601"], {"cutoff": date(2024, 6, 1)}),
            (["--near=0", "--cutoff=20240601"], {"near": 0, "cutoff": date(2024, 6, 1)}),
        ]):
            text = answer("merge", example("ferry"), example("tram"), self.path(f"{number}a"), *words)
            merged = dezhampul.merge(example("ferry"), example("tram"), self.path(f"{number}b"), **how)
            self.assertEqual(text_of_merge(merged), text)
            self.assertEqual(sorted(os.listdir(self.path(f"{number}a"))), sorted(os.listdir(self.path(f"{number}b"))))
        self.assertEqual(merged.renamed[0].side, "B")
        self.assertEqual(dezhampul.check(self.path("0b")), dezhampul.Report(0, 0, ()))

    def test_pairs(self):
        """so are the merges of all examples of a zone with each other"""
        pairs = list(permutations((feed for feed, zone in FEEDS.items() if zone == ZONE), 2))
        for first, second in pairs:
            text = answer("merge", example(first), example(second), self.path(f"{first}-{second}"))
            merged = dezhampul.merge(example(first), example(second), self.path("out"))
            self.assertEqual(text_of_merge(merged), text)
        self.assertEqual(len(pairs), 12)

    def test_by_hand(self):
        """a merge has what was renamed, and counts"""
        merged = dezhampul.merge(example("ferry"), example("tram"), self.path("out"), near=100)
        self.assertEqual(merged, dezhampul.Merged(
            renamed=(dezhampul.Renamed("B", "route", "1", "1_merged_1"), dezhampul.Renamed("B", "trip", "T1", "T1_merged_1")),
            joined={"agency": 1, "stop": 2, "route": 1, "service": 1, "trip": 2}, near=1))
        hash(merged)

    def test_faults(self):
        """a merge is refused with the report of the feed that has errors, and for other reasons"""
        for feeds in ((example("broken"), example("f1")), (example("f1"), example("broken")), (example("broken"),) * 2):
            with self.refused(dezhampul.HasErrors, 1, BROKEN, f"{example('broken')} has errors") as raised:
                dezhampul.merge(*feeds, self.path("out"))
            self.assertEqual(raised.exception.report, dezhampul.check(example("broken")))
            again = pickle.loads(pickle.dumps(raised.exception))
            self.assertEqual((again.report, again.message, str(again)), (raised.exception.report, raised.exception.message, BROKEN))
        with self.refused(dezhampul.Refused, 1, "zones differ"):
            dezhampul.merge(example("f1"), example("ferry"), self.path("out"))
        with self.refused(dezhampul.Refused, 2, "bad value of --near"):
            dezhampul.merge(example("f1"), example("f1"), self.path("out"), near=2**31)
        with self.refused(dezhampul.DeviceFault, 3, f"{self.path('none')} is not there"):
            dezhampul.merge(example("f1"), self.path("none"), self.path("out"))
        path = os.path.join(example("f1"), "stops.txt")
        for feeds in ((path, example("f1")), (example("f1"), path)):
            with self.refused(dezhampul.DeviceFault, 3, f"{path} is a file, not a folder: unzip it first", f"{path} cannot be read"):
                dezhampul.merge(*feeds, self.path("out"))
        self.assertEqual(os.listdir(self.room), [])
