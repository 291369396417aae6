"""Boards, and the next departures."""
import os
import shutil
import tracemalloc
from datetime import date, datetime, timedelta, timezone
from itertools import islice
from unittest import mock

import dezhampul
from made import (
    BEGIN, END, FEEDS, HAS_ZONES, UTC, ZONE, Case, answer, at, compact, example, make_feed, make_long_feed, put, stops_of, text_of_board,
)

DAY, NEXT_DAY = date(2024, 4, 1), date(2024, 4, 2)
ODD = "a/b \"c\" 'd'/1/2/20240401 =="


def board(feed, zone, stop, begin, end, *words):
    """The text of the program."""
    return answer("board", feed, "--zone", zone, f"--stop={stop}", "--from", begin, "--until", end, *words)


class Boards(Case):
    def test_by_hand(self):
        """a departure has each part of its line"""
        with dezhampul.Feed(example("harbour"), zone=ZONE, interpolate=True) as feed:
            night, = feed.board("HAR-1", at(1712013000), at(1712013001))
            pier, = feed.board("PIE", NEXT_DAY, date(2024, 4, 3))
            shuttle, = feed.board("HAR-2", NEXT_DAY, date(2024, 4, 3), limit=1)
        two = timezone(timedelta(hours=2))
        self.assertEqual(night, dezhampul.Departure(
            key="@1712013000/night/90000/2/20240401", time=datetime(2024, 4, 2, 1, 10, tzinfo=two), stop_id="HAR-1", route="Night Line",
            headsign="", trip_id="night", run=90000, sequence=2, service_day=date(2024, 4, 1), exact=True, filled=False))
        self.assertEqual(night.time.utcoffset(), timedelta(hours=2))
        self.assertEqual((pier.exact, pier.filled, pier.headsign), (True, True, "Lighthouse"))
        self.assertEqual((shuttle.exact, shuttle.filled, shuttle.run), (False, False, 21600))

    def test_examples(self):
        """boards of all stops of the examples are the program's, with filled times and without"""
        count = 0
        for name, zone in FEEDS.items():
            for words in ([], ["--interpolate"]):
                with dezhampul.Feed(example(name), zone=zone, interpolate=bool(words)) as feed:
                    for stop in stops_of(name):
                        text = board(example(name), zone, stop, compact(BEGIN), compact(END), *words)
                        found = list(feed.board(stop, BEGIN, END))
                        self.assertEqual(text_of_board(found), text)
                        self.assertEqual([each.key for each in found], [line.split("\t")[0] for line in text.splitlines()])
                        count += len(found)
        self.assertGreater(count, 1000)

    def test_pages(self):
        """limits and keys make pages that join to the whole"""
        with dezhampul.Feed(example("harbour"), zone=ZONE) as feed:
            whole = list(feed.board("HAR", BEGIN, END))
            for size in (1, 7, 50):
                pages, key = [], None
                while len(pages) < len(whole):
                    page = list(feed.board("HAR", BEGIN, END, limit=size, after=key))
                    self.assertEqual(page, whole[len(pages):len(pages) + size])
                    pages, key = pages + page, page[-1].key
                self.assertEqual(list(feed.board("HAR", BEGIN, END, limit=size, after=key)), [])
            self.assertEqual(list(feed.board("HAR", BEGIN, END, limit=0)), [])

    def test_ends(self):
        """a departure at the beginning is on a board, one at the end is not, and parts of seconds count"""
        part = timedelta(microseconds=1)
        with dezhampul.Feed(example("f1"), zone=UTC) as feed:
            left = at(1711958400)
            for begin, end, count in (
                (left, left + part, 1), (left - part, left, 0), (left - part, left + part, 1), (left + part, left + timedelta(days=1), 0),
                (left.astimezone(timezone(timedelta(hours=-7))), NEXT_DAY, 1), (DAY, left + part, 1),
            ):
                self.assertEqual(len(list(feed.board("S1", begin, end))), count, (begin, end))

    def test_many(self):
        """100,000 departures are the program's, and are never all in memory; an iterator that is given up leaves the feed usable"""
        folder = make_long_feed(self.path("long"))
        text = board(folder, UTC, "S1", "20240401", "20240403")
        self.assertEqual(text.count("\n"), 100_000)
        with dezhampul.Feed(folder, zone=UTC) as feed:
            begin, end = DAY, date(2024, 4, 3)
            self.assertEqual(text_of_board(feed.board("S1", begin, end)), text)
            tracemalloc.start()
            count = sum(1 for _ in feed.board("S1", begin, end, limit=30_000))
            most = tracemalloc.get_traced_memory()[1]
            tracemalloc.stop()
            self.assertEqual(count, 30_000)
            self.assertLess(most, 3_000_000)
            for taken in (0, 1, 999, 1000, 1001):
                departures = feed.board("S1", begin, end)
                first = list(islice(departures, taken))
                self.assertEqual(text_of_board(feed.board("S1", begin, end, limit=2)), "".join(text.splitlines(True)[:2]))
                departures.close()
                self.assertEqual(text_of_board(first), "".join(text.splitlines(True)[:taken]))
            for size in (999, 1000, 1001, 2000):
                self.assertEqual(len(list(feed.board("S1", begin, end, limit=size))), size)
            pairs = zip(feed.board("S1", begin, end), feed.board("S1", begin, end))
            self.assertTrue(all(one == other for one, other in islice(pairs, 2500)))

    def test_next(self):
        """the next departures are those of a board without an end, also over days on which nothing runs"""
        with dezhampul.Feed(example("harbour"), zone=ZONE) as feed, mock.patch("dezhampul.feed.datetime", wraps=datetime) as clock:
            for now in (1712033400, 1712033400.5, 1711000000, 1713300000):
                clock.now.return_value = at(now)
                for count in (0, 1, 10, 40):
                    text = board(example("harbour"), ZONE, "HAR", f"@{-int(-now // 1)}", "99981231", "--limit", str(count))
                    self.assertEqual(text_of_board(feed.next("HAR", count)), text)
            text = board(example("harbour"), ZONE, "HAR", "@1713300000", "99981231")
            self.assertEqual(text_of_board(feed.next("HAR")), text)
        self.assertEqual(list(dezhampul.Feed(example("harbour"), zone=ZONE).next("HAR", count=10)), [], "the feed ended in 2024")

    @HAS_ZONES
    def test_now(self):
        """the time at the stops has the offsets that the program's times have, also where clocks change"""
        with dezhampul.Feed(example("harbour"), zone=ZONE) as feed, mock.patch("dezhampul.feed.datetime", wraps=datetime) as clock:
            for now, text in ((1711846799.5, "2024-03-31T01:59:59.500000+01:00"), (1711846800, "2024-03-31T03:00:00+02:00")):
                clock.now.return_value = at(now)
                self.assertEqual(feed.now().isoformat(), text)
            times = [departure.time for departure in feed.board("HAR", BEGIN, END)]
            self.assertEqual(len({time.utcoffset() for time in times}), 2)
            self.assertEqual([time.astimezone(feed.now().tzinfo).isoformat() for time in times], [time.isoformat() for time in times])
        with dezhampul.Feed(example("f1"), zone=UTC) as feed:
            self.assertLess(abs(datetime.now(timezone.utc) - feed.now()), timedelta(seconds=30))

    @HAS_ZONES
    def test_lost_zone(self):
        """a zone file that is not there any more is told, and one that was read is read no more"""
        shutil.copy(ZONE, self.path("zone"))
        with dezhampul.Feed(example("harbour"), zone=self.path("zone")) as feed:
            os.remove(self.path("zone"))
            with self.refused(dezhampul.DeviceFault, 3, f"{self.path('zone')} cannot be read"):
                feed.now()
            shutil.copy(ZONE, self.path("zone"))
            first = feed.now()
            os.remove(self.path("zone"))
            self.assertLessEqual(first, feed.now())

    def test_no_zones(self):
        """without zoneinfo there is no time at the stops"""
        with dezhampul.Feed(example("harbour"), zone=ZONE) as feed, mock.patch("dezhampul.zones.sys", version_info=(3, 8)):
            with self.assertRaisesRegex(NotImplementedError, "Python 3.9 or later"):
                feed.now()

    def test_odd_ids(self):
        """ids have spaces, slashes and quotes at any place; the tabs and the blanks at their ends in the files are no part of them"""
        stop, quoted = ODD, ODD.replace('"', '""')
        folder = make_feed(
            self.path("odd"),
            stops=f'stop_id,stop_name,stop_lat,stop_lon\n"\t{quoted} \t",Mill,1,2\nS2,Lake,1,2\n',
            trips=f'route_id,service_id,trip_id\nR1,C1," {quoted}\t"\nR1,C1,"/"\nR1,C1,"\u00e6\u2028\u0085x"\n',
            stop_times="trip_id,arrival_time,departure_time,stop_id,stop_sequence\n" + "".join(
                f'"{trip}",08:00:00,08:00:00,"{quoted}",1\n"{trip}",08:10:00,08:10:00,S2,2\n'
                for trip in (quoted, "/", "\u00e6\u2028\u0085x")),
        )
        with dezhampul.Feed(folder, zone=UTC) as feed:
            found = list(feed.board(stop, DAY, NEXT_DAY))
            self.assertEqual([each.trip_id for each in found], ["/", ODD, "\u00e6\u2028\u0085x"])
            self.assertEqual({each.stop_id for each in found}, {ODD})
            self.assertEqual(text_of_board(found), board(folder, UTC, stop, "20240401", "20240402"))
            for place, each in enumerate(found, 1):
                self.assertEqual(list(feed.board(stop, DAY, NEXT_DAY, after=each.key)), found[place:])

    def test_refusals(self):
        """what the program refuses is raised with its words and the status of its command, and a stop with its id"""
        with dezhampul.Feed(example("f1"), zone=UTC) as feed:
            for stop in ("S9", "", " S1", "s1", "S1\r", "\ufeffS1"):
                with self.refused(dezhampul.UnknownStop, 1, f"the feed has no stop {stop!r}", "unknown stop"):
                    next(feed.board(stop, DAY, NEXT_DAY))
            with self.refused(dezhampul.UnknownStop, 1, f"the feed has no stop '{'S' * 200}'", "unknown stop"):
                list(feed.next("S" * 10_000))
            with self.refused(dezhampul.Refused, 2, "until lies before from"):
                list(feed.board("S1", NEXT_DAY, DAY))
            for begin, key in ((date(1899, 12, 31), None), (date(9999, 1, 1), None), (DAY, "@0"), (DAY, "x")):
                with self.refused(dezhampul.Refused, 2, "bad request"):
                    list(feed.board("S1", begin, NEXT_DAY, after=key))
            with self.refused(dezhampul.Refused, 2, "line too long"):
                list(feed.board("S" * 1_048_577, DAY, NEXT_DAY))
            self.assertEqual(len(list(feed.board("S1", DAY, NEXT_DAY))), 1)

    def test_wrong_values(self):
        """what cannot be asked for is refused at once, and nothing is sent"""
        with dezhampul.Feed(example("f1"), zone=UTC) as feed, mock.patch.object(feed, "_ask") as asked:
            for stop in ("S1\t", "\nS1", "S1\tS2", "\ud800"):
                self.assertRaises(ValueError, feed.board, stop, DAY, NEXT_DAY)
                self.assertRaises(ValueError, feed.board, "S1", DAY, NEXT_DAY, after=stop)
                self.assertRaises(ValueError, feed.next, stop)
            self.assertRaises(ValueError, feed.board, "S1", datetime(2024, 4, 1), NEXT_DAY)
            self.assertRaises(ValueError, feed.board, "S1", DAY, NEXT_DAY, limit=-1)
            self.assertRaises(TypeError, feed.board, "S1", "20240401", NEXT_DAY)
            self.assertRaises(TypeError, feed.board, b"S1", DAY, NEXT_DAY)
            asked.assert_not_called()

    def test_headsigns(self):
        """texts are UTF-8, with what other programs take for the end of a line"""
        text = "\u00c6r\u00f8 \u2028\u0085 \U0001f6a2"
        folder = make_feed(self.path("text"), trips=f"route_id,service_id,trip_id,trip_headsign\nR1,C1,T1,{text}\n")
        with dezhampul.Feed(folder, zone=UTC) as feed:
            self.assertEqual([each.headsign for each in feed.board("S1", DAY, NEXT_DAY)], [text])

    def test_paths(self):
        """folders and zone files may be paths of all kinds, also such as begin with a dash"""
        make_feed(self.path("-f"))
        put(self.path("--zone"), "")
        os.remove(self.path("--zone"))
        os.symlink(UTC, self.path("--zone"))
        held = os.getcwd()
        os.chdir(self.room)
        try:
            for folder, zone in (("-f", "--zone"), (b"-f", b"--zone"), (os.fsencode(self.path("-f")), self.path("--zone"))):
                with dezhampul.Feed(folder, zone=zone) as feed:
                    self.assertEqual(len(list(feed.board("S1", DAY, NEXT_DAY))), 1)
        finally:
            os.chdir(held)
