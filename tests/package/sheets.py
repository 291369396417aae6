"""Timetables."""
from datetime import date, datetime, timedelta, timezone

import dezhampul
from made import FEEDS, ROUTES, UTC, ZONE, Case, answer, compact, example, make_feed, make_long_feed, text_of_sheet

DAYS = [date(2024, 3, 30), date(2024, 4, 1), date(2024, 4, 2), date(2024, 6, 28), date(9999, 12, 31)]


def timetable(feed, route, day, *words):
    """The text of the program."""
    return answer("timetable", feed, f"--route={route}", "--date", compact(day), *words)


class Sheets(Case):
    def test_by_hand(self):
        """a sheet has its route, direction, day, stops, trips and times"""
        with dezhampul.Feed(example("harbour"), zone=ZONE) as feed:
            sheet, = feed.timetable("RING", date(2024, 4, 2), 0)
            night, _ = feed.timetable("NIGHT", date(2024, 4, 1))
        hour, minute = timedelta(hours=1), timedelta(minutes=1)
        self.assertEqual(sheet, dezhampul.Sheet(
            route="RING", direction=0, date=date(2024, 4, 2), stops=("MAR", "HAR-1", "PIE", "LIG"), trips=("ring-early",),
            times=((7 * hour,), (7 * hour + 10 * minute,), (None,), (7 * hour + 20 * minute,))))
        self.assertEqual(night.direction, None)

    def test_examples(self):
        """timetables of all routes of the examples are the program's, with filled times and without"""
        count = 0
        for name, zone in FEEDS.items():
            for words in ([], ["--interpolate"]):
                with dezhampul.Feed(example(name), zone=zone, interpolate=bool(words)) as feed:
                    for route, day in ((route, day) for route in ROUTES[name] for day in DAYS):
                        for direction in (None, 0, 1):
                            more = [] if direction is None else ["--direction", str(direction)]
                            sheets = list(feed.timetable(route, day, direction))
                            self.assertEqual("".join(map(text_of_sheet, sheets)), timetable(example(name), route, day, *words, *more))
                            count += len(sheets)
        self.assertGreater(count, 20)

    def test_many_columns(self):
        """a sheet of 100,000 runs"""
        folder = make_long_feed(self.path("long"))
        with dezhampul.Feed(folder, zone=UTC) as feed:
            sheet, = feed.timetable("R1", date(2024, 4, 1))
        self.assertEqual((len(sheet.trips), sheet.times[0][-1]), (100_000, timedelta(seconds=99_999)))
        self.assertEqual(text_of_sheet(sheet), timetable(folder, "R1", date(2024, 4, 1)))

    def test_odd_ids(self):
        """ids of routes, stops and trips that look like headings and fields"""
        folder = make_feed(
            self.path("odd"),
            routes="route_id,route_short_name,route_type\n== R - 20240401,10,3\n",
            trips="route_id,service_id,trip_id\n== R - 20240401,C1,== T 0 20240401\n== R - 20240401,C1,trip\n",
            stops="stop_id,stop_name,stop_lat,stop_lon\n== S 0 20240401,Mill,1,2\ntrip,Lake,1,2\n",
            stop_times="trip_id,arrival_time,departure_time,stop_id,stop_sequence\n"
            "== T 0 20240401,08:00:00,08:00:00,== S 0 20240401,1\n== T 0 20240401,08:10:00,08:10:00,trip,2\n"
            "trip,08:00:00,08:00:00,trip,1\ntrip,08:10:00,08:10:00,== S 0 20240401,2\n",
        )
        with dezhampul.Feed(folder, zone=UTC) as feed:
            sheets = list(feed.timetable("== R - 20240401", date(2024, 4, 1)))
        self.assertEqual([sheet.trips for sheet in sheets], [("== T 0 20240401",), ("trip",)])
        self.assertEqual("".join(map(text_of_sheet, sheets)), timetable(folder, "== R - 20240401", date(2024, 4, 1)))

    def test_refusals(self):
        """an unknown route, days and directions that are none"""
        with dezhampul.Feed(example("f1"), zone=UTC) as feed:
            for route in ("R9", "", "S1"):
                text = f"the feed has no route {route!r}; routes are asked for by route_id"
                with self.refused(dezhampul.UnknownRoute, 1, text, "unknown route"):
                    list(feed.timetable(route, date(2024, 4, 1)))
            with self.refused(dezhampul.Refused, 2, "bad request"):
                list(feed.timetable("R1", date(1899, 12, 31)))
            self.assertRaises(ValueError, feed.timetable, "R1", date(2024, 4, 1), 2)
            self.assertRaises(ValueError, feed.timetable, "R\t1", date(2024, 4, 1))
            self.assertRaises(TypeError, feed.timetable, "R1", datetime(2024, 4, 1, tzinfo=timezone.utc))
            self.assertEqual(list(feed.timetable("R1", date(2024, 4, 2))), [])
