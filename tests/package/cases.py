"""The feeds of tests/cases/: what the package gives of each, beside the program's own text."""
import importlib.machinery
import importlib.util
import os
from datetime import date

import dezhampul
from made import ZONE, Case, answer, compact, gtfs, put, text_of_board, text_of_sheet
from program import ROOT
from reports import text_of_report

# Most of these feeds run on the first of April alone.
BEGIN, DAY, END, LIMIT = date(2024, 3, 25), date(2024, 4, 1), date(2024, 4, 15), 10


def run_cases():
    """The script that runs the cases, which knows their files, as a module."""
    loader = importlib.machinery.SourceFileLoader("run_cases", os.path.join(ROOT, "tests", "run-cases"))
    module = importlib.util.module_from_spec(importlib.util.spec_from_loader(loader.name, loader))
    loader.exec_module(module)
    return module


def feeds():
    """The files of each feed, with the name of the first case that has it."""
    script, found = run_cases(), {}
    for case in script.cases_below(script.CASES):
        folders = {}
        for path, held in case.files.items():
            folders.setdefault(os.path.dirname(path), {})[os.path.basename(path)] = held
        for folder, files in folders.items():
            if "agency.txt" in files:
                found.setdefault(tuple(sorted(files.items())), f"{case.name}/{folder}")
    return found.items()


class Feeds(Case):
    def test_cases(self):
        """the feeds of tests/cases/ have the reports, boards and timetables of the program, or are refused as it does"""
        counts = {"fine": 0, "refused": 0}
        for number, (files, name) in enumerate(feeds()):
            folder = self.path(str(number))
            os.mkdir(folder)
            for file, held in files:
                with open(os.path.join(folder, file), "wb") as written:
                    written.write(held)
            with self.subTest(name):
                status, text, _ = gtfs("check", "--values", folder)
                want, outcome = (self.want_refused, "refused") if status else (self.want_answers, "fine")
                want(folder, text)
                counts[outcome] += 1
        self.assertGreater(min(counts.values()), 50)

    def want_refused(self, folder, report):
        with self.assertRaises(dezhampul.HasErrors) as raised:
            dezhampul.Feed(folder, zone=ZONE)
        self.assertEqual(text_of_report(raised.exception.report), report)

    def want_answers(self, folder, report):
        self.assertEqual(text_of_report(dezhampul.check(folder)), report)
        names, span = dezhampul.names(folder), (compact(BEGIN), compact(END))
        stops = [stop for stop in names.stops.values() if stop.location_type in ("", "0", "1")]
        put(self.path("requests"), "".join("\t".join((stop.stop_id, *span, str(LIMIT))) + "\n" for stop in stops))
        with dezhampul.Feed(folder, zone=ZONE) as feed:
            boards = [f"== {stop.stop_id} {' '.join(span)}\n" + text_of_board(feed.board(stop.stop_id, BEGIN, END, limit=LIMIT))
                      for stop in stops]
            self.assertEqual("".join(boards), answer("boards", folder, "--zone", ZONE, "--requests", self.path("requests")))
            for route in names.routes:
                text = answer("timetable", folder, f"--route={route}", "--date", compact(DAY))
                self.assertEqual("".join(map(text_of_sheet, feed.timetable(route, DAY))), text)
