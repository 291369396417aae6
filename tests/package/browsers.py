"""The display in a browser: what the script is called with, and what a browser shows, beside the program's text."""
import contextlib
import json
import os
import re
import shutil
import signal
import socket
import subprocess
import sys
from datetime import date, timedelta
from glob import glob
from html.parser import HTMLParser
from unittest import mock
from urllib.parse import urlencode

from made import BROKEN, HAS_ZONES, PACKAGE, UTC, ZONE, Case, answer, at, example, make_feed
from program import ROOT, read
from served import NOW, SCRIPT, Served, board, server

BROWSER = next(filter(None, map(shutil.which, ("chromium", "chromium-browser", "google-chrome", "google-chrome-stable"))), None)
PIPES = {"stdin": subprocess.DEVNULL, "stdout": subprocess.PIPE, "stderr": subprocess.PIPE}
VOID = {"meta", "link", "input", "br", "img", "hr"}
ODD = "<script>document.title='bad'</script><img src=x onerror=\"document.title='bad'\"> & 'one'"
PLATFORMS = {"HAR-1": "1", "HAR-2": "2"}
# What numbers the rows of a board in the order in which they were made.
NUMBERING = b"""
let count = 0;
setInterval(() => {
  for (const row of document.querySelectorAll("#departures tbody tr:not(.day)")) row.dataset.number ??= ++count;
}, 100);
"""

# What tells how wide frames are, and what stands in them.
WIDTHS = b"""
setInterval(() => {
  const pages = [...document.querySelectorAll("iframe")].map((frame) => frame.contentDocument.documentElement);
  document.getElementById("widths").textContent = pages.map((page) => `${page.clientWidth} ${page.scrollWidth}`).join("\\n");
}, 100);
"""

NAMES = {"HAR": "Old Harbour", "HAR-1": "Old Harbour, platform 1", "HAR-2": "Old Harbour, platform 2", "LIG": "Lighthouse",
         "MAR": "Fish Market", "PIE": "Pier Seven", "UNI": "University"}


def start(*words):
    """Starts the script; it hears interrupts, which a shell's background commands do not."""
    command = [sys.executable, "-W", "error", SCRIPT, *words]
    return subprocess.Popen(command, env={**os.environ, "PYTHONPATH": PACKAGE}, preexec_fn=hear_interrupts, **PIPES)


def hear_interrupts():
    signal.signal(signal.SIGINT, signal.SIG_DFL)


@contextlib.contextmanager
def running(*words):
    """The process of the script and its port, until the end of the block."""
    with start(*words, "--port", "0") as process:
        try:
            yield process, int(re.fullmatch(r"http://[0-9.]+:(\d+)/\n", process.stdout.readline().decode())[1])
        finally:
            process.kill()


def listens(address, port):
    try:
        socket.create_connection((address, port), timeout=10).close()
    except ConnectionRefusedError:
        return False
    return True


@HAS_ZONES
class Scripts(Case):
    def test_loopback(self):
        """it listens on the loopback alone, unless it is told otherwise"""
        words = example("harbour"), "--zone", ZONE
        with running(*words) as (_, port):
            # (all addresses from 127.0.0.1 to 127.255.255.254 are this computer's)
            self.assertEqual([listens("127.0.0.1", port), listens("127.0.0.2", port)], [True, False])
        with running(*words, "--host", "0.0.0.0") as (_, port):
            self.assertEqual([listens("127.0.0.1", port), listens("127.0.0.2", port)], [True, True])

    def test_ends(self):
        """it ends without a word when it is interrupted; that a feed has errors it says at its start"""
        errors = f"server: {BROKEN}\n".encode()
        for feed, told in ((example("harbour"), b""), (example("broken"), errors)):
            with running(feed, "--zone", ZONE) as (process, port):
                process.send_signal(signal.SIGINT)
                self.assertEqual((process.wait(20), process.stdout.read(), process.stderr.read()), (0, b"", told))
                self.assertFalse(listens("127.0.0.1", port))

    def test_refused(self):
        """calls that cannot be served are refused with a line"""
        with contextlib.closing(socket.create_server(("127.0.0.1", 0))) as taken:
            port = str(taken.getsockname()[1])
            for words, status, line in (
                ([self.path("none")], 1, f"server: {self.path('none')} is not there\n"),
                ([example("f1"), "--zone", "Europe/Rome"], 1, "a zone file, such as /usr/share/zoneinfo/Europe/Rome\n"),
                ([example("f1"), "--zone", UTC, "--port", port], 1, f"server: port {port} is in use: try --port {int(port) + 1}\n"),
                ([example("f1"), "--zone", UTC, "--now", "2024-04-02T06:50:00"], 2, ".py: error: --now has no offset from UTC\n"),
                ([example("f1"), "--zone", UTC, "--now", "now"], 2, "invalid fromisoformat value: 'now'\n"),
            ):
                with start(*words) as process:
                    out, err = process.communicate(timeout=30)
                self.assertEqual((process.returncode, out), (status, b""))
                self.assertTrue(err.decode().endswith(line), err)


class Shown(HTMLParser):
    """What a page shows: the text of each element with an id, the rows of its tables with their numbers, and the styles of its routes."""

    def __init__(self, text):
        super().__init__()
        self.texts, self.rows, self.numbers, self.captions, self.kinds, self.open = {}, [], [], [], [], []
        self.styles = set()
        self.feed(text)

    def handle_starttag(self, tag, attributes):
        self.kinds.append(tag)
        if tag not in VOID:
            self.open.append((tag, dict(attributes).get("id")))
        if ("class", "route") in attributes:
            self.styles.add(dict(attributes)["style"])
        if tag == "tr":
            self.rows.append([])
            self.numbers += [int(number) for name, number in attributes if name == "data-number"]
        elif tag in ("td", "th"):
            self.rows[-1].append("")
        elif tag == "caption":
            self.captions.append("")

    def handle_endtag(self, tag):
        while tag not in VOID and self.open.pop()[0] != tag:
            pass

    def handle_data(self, data):
        data = data.replace("\u00a0", " ")
        tags = [tag for tag, _ in self.open]
        for id in filter(None, (id for _, id in self.open)):
            self.texts[id] = self.texts.get(id, "") + data
        if "td" in tags or "th" in tags:
            self.rows[-1][-1] += data
        elif "caption" in tags:
            self.captions[-1] += data


def in_words(day):
    return f"{day:%A} {day.day} {day:%B %Y}"


def rows_of(text, now):
    """The rows that a board of the program has to be shown as."""
    rows, last, begun = [], now.date(), int(now.timestamp())
    for line in text.splitlines():
        key, clock, stop, route, headsign, mark = line.split("\t")
        day = date.fromisoformat(clock[:10])
        if day != last:
            rows.append([in_words(day)])
        last, minutes = day, (int(key[1:].split("/")[0]) - begun) // 60
        wait = f"{minutes} min" if minutes < 60 else f"{minutes // 60} h {minutes % 60} min"
        about = "" if mark == "s" else "about "
        rows.append([about + clock[11:16], route, headsign, PLATFORMS.get(stop, ""), wait if minutes else "now"])
    return rows


def blocks_of(text, names):
    """The rows that a timetable of the program has to be shown as, in blocks of ten trips."""
    rows = []
    for sheet in re.split("^== .*\n", text, flags=re.M)[1:]:
        trips, *stops = [line.split("\t") for line in sheet.splitlines()]
        for begin in range(1, len(trips), 10):
            rows.append(["Stop", *(f"trip {trip}" for trip in trips[begin:begin + 10])])
            rows += [[names[stop], *(time[:-3] or "–" for time in times[begin - 1:begin + 9])] for stop, *times in stops]
    return rows


def start_browser(room, seconds, what, url):
    """Starts a browser, for which some seconds pass on the page of an address."""
    words = f"--headless --no-sandbox --disable-gpu --virtual-time-budget={seconds}000".split()
    return subprocess.Popen([BROWSER, *words, f"--user-data-dir={room}", what, url], **PIPES)


@contextlib.contextmanager
def browsing(room, seconds, *urls):
    """The pages of some addresses."""
    ran = [start_browser(f"{room}/{number}", seconds, "--dump-dom", url) for number, url in enumerate(urls)]
    try:
        yield [Shown(process.communicate(timeout=60)[0].decode()) for process in ran]
    finally:
        for process in ran:
            process.kill()
            process.communicate()


class Browsers(Served):
    def setUp(self):
        super().setUp()
        if not BROWSER:
            self.skipTest("there is no chromium")

    def browse(self, *views, seconds=4):
        """What a browser shows of the views with these fields."""
        with browsing(self.room, seconds, *(f"http://127.0.0.1:{self.port}/#{urlencode(fields)}" for fields in views)) as pages:
            return pages

    def test_views(self):
        """both views of the harbour show what the program prints"""
        self.serve(example("harbour"))
        shown, timetable, unknown = self.browse({"stop": "HAR"}, {"route": "RING", "day": "2024-04-02"}, {"stop": "HAR-9"})
        text = board(example("harbour"), ZONE, "HAR", NOW)
        self.assertEqual([[cell.replace(",", "") for cell in row] for row in shown.rows[1:]], rows_of(text, NOW))
        self.assertEqual((shown.texts["board-title"], shown.texts["clock"]), ("Old Harbour", "06:50"))
        self.assertEqual(shown.rows[0], ["Time", "Route", "To", "Platform", "Leaves in"])
        self.assertEqual(shown.styles, {"background-color: rgb(0, 85, 164); color: rgb(255, 255, 255);"})
        text = answer("timetable", example("harbour"), "--route=RING", "--date=20240402")
        self.assertEqual(timetable.rows[1:], blocks_of(text, NAMES))
        self.assertEqual(timetable.texts["timetable-title"], "1 Harbour Ring")
        self.assertEqual(timetable.texts["timetable-day"].replace(",", ""), in_words(date(2024, 4, 2)))
        self.assertEqual(unknown.texts["words"], "The feed has no such stop.")
        self.assertEqual(len(unknown.rows), 1)

    def test_refreshed(self):
        """a board is asked for again and again, and rows that stay on it are not made anew"""
        source, minutes = self.serve(example("harbour"), now=NOW - timedelta(minutes=10)), timedelta(minutes=10)
        ask = source.ask

        def ask_later(question, fields):
            source.now += minutes if question is server.board else timedelta()
            return ask(question, fields)

        kind, script = server.FILES["/page.js"]
        with mock.patch.dict(server.FILES, {"/page.js": (kind, script + NUMBERING)}), mock.patch.object(source, "ask", ask_later):
            shown, = self.browse({"stop": "HAR"}, seconds=50)
        self.assertEqual(source.now, NOW + 2 * minutes)
        text = board(example("harbour"), ZONE, "HAR", source.now)
        self.assertEqual([[cell.replace(",", "") for cell in row] for row in shown.rows[1:]], rows_of(text, source.now))
        # (the first one has left by then, and another has come)
        self.assertEqual(shown.numbers, [*range(2, 12)])

    def test_phone(self):
        """on a phone no view is wider than the screen, also with long names"""
        self.serve(self.odd_feed("W" * 60), UTC, at(1711998000))
        views = [{"stop": "S1"}, {"route": "R1", "day": "2024-04-01"}, {"timetable": ""}, {"stop": "none"}]
        frames = "".join(f'<iframe width="360" height="640" src="/#{urlencode(view)}"></iframe>' for view in views)
        page = f'<!doctype html><script src="/widths.js"></script><p id="widths"></p>{frames}'
        files = {"/widths": ("text/html", page.encode()), "/widths.js": ("text/javascript", WIDTHS)}
        with mock.patch.dict(server.FILES, files), mock.patch.dict(server.HEADERS, {"Content-Security-Policy": "default-src 'self'"}):
            with browsing(self.room, 4, f"http://127.0.0.1:{self.port}/widths") as (shown,):
                widths = [line.split() for line in shown.texts["widths"].splitlines()]
        self.assertEqual([width for width, _ in widths], [whole for _, whole in widths])
        self.assertEqual(len(widths), len(views))
        self.assertTrue(all(300 < int(width) <= 360 for width, _ in widths), widths)

    def test_printed(self):
        """a tall sheet is printed on pages that end between its blocks"""
        stops, day = range(1, 27), {"route": "R1", "day": "2024-04-01"}
        folder = make_feed(
            self.path("tall"), stops="stop_id,stop_name,stop_lat,stop_lon\n" + "".join(f"S{stop},Lake {stop},1,2\n" for stop in stops),
            frequencies="trip_id,start_time,end_time,headway_secs,exact_times\nT1,08:00:00,21:00:00,1800,1\n",
            stop_times="trip_id,arrival_time,departure_time,stop_id,stop_sequence\n"
            + "".join(f"T1,08:{stop:02}:00,08:{stop:02}:00,S{stop},{stop}\n" for stop in stops))
        self.serve(folder, UTC)
        url, path = f"http://127.0.0.1:{self.port}/#{urlencode(day)}", self.path("printed.pdf")
        with start_browser(self.path("browser"), 4, f"--print-to-pdf={path}", url) as process:
            try:
                process.communicate(timeout=60)
            finally:
                process.kill()
        # (each of the three fills more than half a page, and all together fill less than two)
        self.assertEqual(len(re.findall(rb"/Type /Page\b", read(path))), 3)

    def odd_feed(self, name=ODD):
        """A feed with a name that looks like HTML, in which one of three stops has no times, and a trip runs 26 times."""
        cell = '"' + name.replace('"', '""') + '"'
        return make_feed(
            self.path("odd"), stops=f"stop_id,stop_name,stop_lat,stop_lon\nS1,{cell},1,2\nS2,Lake,1,2\nS3,Hill,1,2\n",
            routes=f"route_id,route_short_name,route_type,route_color\nR1,{cell},3,00FF00\n",
            trips=f"route_id,service_id,trip_id,trip_headsign\nR1,C1,T1,{cell}\n",
            frequencies="trip_id,start_time,end_time,headway_secs,exact_times\nT1,20:00:00,33:00:00,1800,1\n",
            stop_times="trip_id,arrival_time,departure_time,stop_id,stop_sequence\n"
            "T1,08:00:00,08:00:00,S1,1\nT1,,,S2,2\nT1,08:10:00,08:10:00,S3,3\n")

    def test_odd_texts(self):
        """names that look like HTML are shown as they are, and a tall sheet in blocks, with notes on its times"""
        folder = self.odd_feed()
        self.serve(folder, UTC, at(1711998000))
        shown, timetable = self.browse({"stop": "S1"}, {"route": "R1", "day": "2024-04-01"})
        self.assertEqual((shown.texts["board-title"], shown.rows[1][1:3]), (ODD, [ODD, ODD]))
        text = answer("timetable", folder, "--route=R1", "--date=20240401")
        self.assertEqual(timetable.rows[1:], blocks_of(text, {"S1": ODD, "S2": "Lake", "S3": "Hill"}))
        self.assertEqual(timetable.captions[1:], [f"{ODD} to Hill ({part} of 3)" for part in (1, 2, 3)])
        self.assertIn("24:00 on are after midnight", timetable.texts["notes"])
        self.assertIn("– The timetable gives no time", timetable.texts["notes"])
        for page in shown, timetable:
            self.assertEqual(page.styles, {"background-color: rgb(0, 255, 0); color: rgb(0, 0, 0);"})
            self.assertEqual((page.kinds.count("script"), page.kinds.count("img")), (1, 0))

    def test_filled(self):
        """times that were filled in are shown as about"""
        folder, now = self.odd_feed(), at(1711998000)
        self.serve(folder, UTC, now, interpolate=True)
        shown, = self.browse({"stop": "S2"})
        text = board(folder, UTC, "S2", now, "--interpolate")
        self.assertEqual([[cell.replace(",", "") for cell in row] for row in shown.rows[1:]], rows_of(text, now))
        self.assertEqual({row[0][:6] for row in shown.rows[1:] if len(row) == 5}, {"about "})

    def test_ended(self):
        """where nothing departs, it is said that the feed may have ended"""
        self.serve(example("harbour"), now=None)
        shown, = self.browse({"stop": "HAR"})
        self.assertEqual(shown.texts["words"], "Nothing departs here within a week. The feed may have ended.")

    def test_errors(self):
        """a feed with errors is told in words"""
        self.serve(example("broken"))
        shown, = self.browse({"stop": "S1"})
        self.assertEqual(shown.texts["words"], "The feed has errors. Nothing can be shown until they are mended.")
        self.assertEqual(shown.texts["lines"].count("\n"), server.ERRORS - 1)
        self.assertIn("stops.txt, row 4, stop_lat: value unreadable", shown.texts["lines"])


class Pages(Case):
    def test_labels(self):
        """each field has a label, each table a caption, and each heading of a table says what it is for"""
        folder = os.path.dirname(SCRIPT)
        text, script = (read(os.path.join(folder, name)).decode() for name in ("page.html", "page.js"))
        self.assertEqual(set(re.findall('<(?:input|select) id="(.*?)"', text)), set(re.findall('<label for="(.*?)"', text)))
        self.assertEqual(text.count("<table"), text.count("<caption"))
        self.assertEqual(text.count("<th "), text.count('<th scope="col"'))
        self.assertEqual(script.count('element("th", {'), len(re.findall(r'element\("th", \{ scope: "(?:row|col|rowgroup)"', script)))
        self.assertNotRegex(script, "innerHTML|outerHTML|insertAdjacentHTML|document.write|eval")

    def test_search(self):
        """a search finds stops by their names, by parts of these, and by their ids"""
        node = shutil.which("node")
        if not node:
            self.skipTest("there is no node")
        script = read(os.path.join(os.path.dirname(SCRIPT), "page.js")).decode()
        function = re.search(r"^function fitting\(.*?^}$", script, flags=re.M | re.S)[0]
        labels = [("Old Harbour", "HAR"), ("Old Harbour, platform 1", "HAR-1"), ("Lake", "a1"), ("Lakeside", "A1"), ("a1b", "Har"),
                  ("b2", "x")]
        wanted = {
            " old harbour": ["HAR"], "HARBOUR": ["HAR", "HAR-1"], "platform": ["HAR-1"], "HAR": ["HAR"], " Har ": ["Har"],
            "har-1": ["HAR-1"], "a1": ["a1"], "A1": ["A1"], "B2": ["x"], "lake": ["a1"], "ake": ["a1", "A1"], "X": ["x"], "1b": ["Har"],
            "none": [], "-1": [],
        }
        call = f"{function} const labels = new Map({json.dumps(labels)});"
        call += f"console.log(JSON.stringify({json.dumps(list(wanted))}.map((text) => fitting(labels, text))));"
        ran = subprocess.run([node, "--eval", call], timeout=60, **PIPES)
        self.assertEqual(json.loads(ran.stdout or "0"), list(wanted.values()), ran.stderr)

    def test_pictures(self):
        """the pictures that the pages of the documentation show are small"""
        pictures = glob(os.path.join(ROOT, "docs", "pictures", "*"))
        for path in pictures:
            data = read(path)
            self.assertTrue(data.startswith(b"\x89PNG\r\n") and len(data) < 40_000, path)
        self.assertEqual(len(pictures), 2)
