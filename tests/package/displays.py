"""The display of examples/python: its rows, days and platforms, and how it is kept up to date."""
import contextlib
import io
import os
import re
import signal
import subprocess
import sys
from datetime import date, datetime
from unittest import mock

import dezhampul
from made import HAS_ZONES, PACKAGE, UTC, ZONE, Case, answer, at, example, load, make_feed
from program import ROOT

SCRIPT = os.path.join(ROOT, "examples", "python", "display.py")
display = load(SCRIPT)

# Easter Monday 2024-04-01 at 22:00 in Copenhagen.
NOW = 1712001600
HOUR = 3600
ENDED = "No more departures: the feed may have ended."


def run(*words):
    """What the script says for these words, and its status."""
    ran = subprocess.run([sys.executable, "-W", "error", SCRIPT, *words], env={**os.environ, "PYTHONPATH": PACKAGE},
                         stdin=subprocess.DEVNULL, stdout=subprocess.PIPE, stderr=subprocess.PIPE, timeout=60)
    return ran.returncode, ran.stdout.decode(), ran.stderr.decode()


def cells_of(line, today):
    """The cells that a line of the program is to be shown as, at a station of the harbour."""
    _, clock, stop, route, headsign, mark = line.split("\t")
    day = datetime.fromisoformat(clock).date()
    about = "" if mark == "s" else "~"
    return [*([] if day == today else [f"{day:%a %d %b}"]), about + clock[11:16], route, f"platform {stop[-1]}", *filter(None, [headsign])]


@HAS_ZONES
class Displays(Case):
    @contextlib.contextmanager
    def opened(self, folder, zone, now):
        """A feed at an instant, with its stops."""
        with mock.patch("dezhampul.feed.datetime", wraps=datetime) as clock, dezhampul.Feed(folder, zone=zone) as feed:
            clock.now.return_value = at(now)
            yield feed, dezhampul.names(folder).stops

    def lines(self, stop, folder=example("harbour"), zone=ZONE, now=NOW):
        """The lines of a display at an instant."""
        with self.opened(folder, zone, now) as (feed, stops):
            return display.lines(feed, stops, stop, None)

    def test_rows(self):
        """rows are those of the program, each with its day unless that is today"""
        for now, today in ((NOW, date(2024, 4, 1)), (NOW + 2 * HOUR, date(2024, 4, 2)), (NOW + 40 * HOUR, date(2024, 4, 3))):
            text = answer("board", example("harbour"), "--zone", ZONE, "--stop=HAR", f"--from=@{now}", "--until=99981231", "--limit=10")
            wanted = [cells_of(line, today) for line in text.splitlines()]
            self.assertEqual([re.split("  +", line.strip()) for line in self.lines("HAR", now=now)], wanted)

    def test_columns(self):
        """cells stand below one another, platforms are told at a station, and columns without any text are left out"""
        self.assertEqual(self.lines("HAR", now=NOW + 2 * HOUR)[::9], [
            "             01:10  Night Line  platform 1", "Wed 03 Apr  ~06:00  1           platform 2  University"])
        self.assertEqual(self.lines("HAR", now=NOW + 40 * HOUR)[7], "Thu 04 Apr   07:41  1  platform 2  University and trains")
        self.assertEqual(self.lines("HAR-1", now=NOW)[:2], ["Tue 02 Apr   01:10  Night Line", "Tue 02 Apr   07:10  1           Lighthouse"])
        stops = ("stop_id,stop_name,stop_lat,stop_lon,location_type,parent_station,platform_code\nS,Hill,1,2,1,,\nS1,Hill South,1,2,,S,\n"
                 "S2,Lake,1,2,,,9\n")
        folder = make_feed(self.path("f1"), stops=stops)
        self.assertEqual(self.lines("S", folder, UTC, now=1711958400), [" 08:00  10  Hill South"])
        self.assertEqual(self.lines("S1", folder, UTC, now=1711958400), [" 08:00  10"])

    def test_script(self):
        """two hours from a moment on, and what is said where nothing departs, an id is unknown or the folder is none"""
        words = example("harbour"), "HAR", "--zone", ZONE
        rows = "~06:50  1  platform 2  University\n 07:10  1  platform 1  Lighthouse\n 07:41  1  platform 2  University and trains\n"
        self.assertEqual(run(*words, "--at=2024-04-02T06:50:00+02:00"), (0, rows, ""))
        self.assertEqual(run(*words, "--at=2024-04-02T03:00:00+02:00"), (0, "Nothing departs in these two hours.\n", ""))
        self.assertEqual(run(*words), (0, f"{ENDED}\n", ""))
        self.assertEqual(run(words[0], "HAR-9", *words[2:]), (1, "", "display: the feed has no stop 'HAR-9'\n"))
        self.assertEqual(run(self.path("none"), *words[1:]), (1, "", f"display: {self.path('none')} is not there\n"))

    def test_refresh(self):
        """it is shown anew each minute below a clock, and after the program was killed once it is started again"""
        out, err = io.StringIO(), io.StringIO()
        with self.opened(example("harbour"), ZONE, NOW) as (feed, stops), mock.patch.object(display, "time") as time:
            steps = iter([lambda: os.kill(feed._process.number, signal.SIGKILL), lambda: None])
            time.sleep.side_effect = lambda seconds: next(steps, self.interrupt)()
            with contextlib.redirect_stdout(out), contextlib.redirect_stderr(err), self.assertRaises(KeyboardInterrupt):
                display.refresh(feed, stops, "HAR")
            shown = "\033[H\033[J22:00\n" + "".join(f"{line}\n" for line in display.lines(feed, stops, "HAR", None))
        self.assertEqual((out.getvalue(), err.getvalue()), (shown * 2, "display: gtfs ended with signal 9\n"))
        self.assertEqual([call.args for call in time.sleep.call_args_list], [(60,)] * 3)

    def interrupt(self):
        raise KeyboardInterrupt
