"""What the tests of the display in a browser share: its script as a module, a server of it, and the program's text of its boards."""
import contextlib
import http.client
import io
import json
import os
import threading
from datetime import datetime, timedelta, timezone
from http.server import ThreadingHTTPServer
from urllib.parse import urlencode

from made import HAS_ZONES, ZONE, Case, answer, load
from program import ROOT

SCRIPT = os.path.join(ROOT, "examples", "web", "server.py")

# Tuesday 2024-04-02 at 06:50 in Copenhagen.
NOW = datetime(2024, 4, 2, 6, 50, tzinfo=timezone(timedelta(hours=2)))
WEEK = timedelta(days=7)


server = load(SCRIPT)


def board(feed, zone, stop, now, *words):
    """The program's text of a board as long as the page's."""
    begin, until = (str(int(moment.timestamp())) for moment in (now, now + WEEK))
    return answer("board", feed, "--zone", zone, f"--stop={stop}", "--from", f"@{begin}", "--until", f"@{until}", "--limit", "10", *words)


@HAS_ZONES
class Served(Case):
    """A test with a server of its own in this process, and what that tells on its error output."""

    def setUp(self):
        super().setUp()
        self.errors = io.StringIO()
        redirected = contextlib.redirect_stderr(self.errors)
        redirected.__enter__()
        self.addCleanup(redirected.__exit__, None, None, None)

    def serve(self, folder, zone=ZONE, now=NOW, **how):
        """Serves a feed, and gives the source."""
        source = server.Source(folder, now, zone=zone, **how)
        handler = type("Handler", (server.Handler,), {"source": source})
        served = ThreadingHTTPServer(("127.0.0.1", 0), handler)
        served.daemon_threads = False
        thread = threading.Thread(target=served.serve_forever, kwargs={"poll_interval": 0.02})
        thread.start()
        self.port = served.server_port
        # (the last is done first)
        self.addCleanup(lambda: source.opened and source.opened.feed.close())
        self.addCleanup(served.server_close)
        self.addCleanup(thread.join)
        self.addCleanup(served.shutdown)
        return source

    def ask(self, path, method="GET", body=None):
        """The status, the headers and the body of what a request gets."""
        with contextlib.closing(http.client.HTTPConnection("127.0.0.1", self.port, timeout=30)) as connection:
            connection.request(method, path, body)
            told = connection.getresponse()
            return told.status, told.headers, told.read()

    def told(self, path, wanted=200, **fields):
        """The answer to a question, which has to have this status."""
        status, headers, body = self.ask(f"{path}?{urlencode(fields)}" if fields else path)
        self.assertEqual((status, headers["Content-Type"]), (wanted, "application/json; charset=utf-8"), body)
        return json.loads(body)
