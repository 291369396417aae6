"""What the scripts share that talk with `gtfs serve`: pipes to the program, and requests over a small feed with their answers."""
import os
import select
import subprocess
import time

from program import LIMIT, PROGRAM, ROOT, shortened, want

# The feed of all requests here, and its zone.
WORDS = ["examples/harbour", "--zone", "examples/central-europe"]

# The most bytes of a line, without its end.
LONGEST = 1_048_576

BAD, TOO_LONG = b"!! bad request\n", b"!! line too long\n"
OUT_OF_MEMORY = b"!! out of memory\n"

# A request that is asked again and again, with what a board prints for it.
LINE = b"board\tHAR-2\t20240402\t20240403\t1"
TEXT = b"@1712030400/shuttle/21600/1/20240402\t2024-04-02 06:00:00+02:00\tHAR-2\t1\tUniversity\tf\n"

# One request of each kind, with its answer. (The stop PIE has no time of its own.)
EXCHANGES = [
    (LINE, TEXT),
    (
        b"board\tHAR\t@1712033400\t@1712037600",
        b"@1712033400/shuttle/24600/1/20240402\t2024-04-02 06:50:00+02:00\tHAR-2\t1\tUniversity\tf\n"
        b"@1712034600/ring-early/25200/2/20240402\t2024-04-02 07:10:00+02:00\tHAR-1\t1\tLighthouse\ts\n"
        b"@1712036490/ring-back/27000/2/20240402\t2024-04-02 07:41:30+02:00\tHAR-2\t1\tUniversity and trains\ts\n",
    ),
    (
        b"board\tHAR\t@1712033400\t@1712037600\t\t@1712034600/ring-early/25200/2/20240402",
        b"@1712036490/ring-back/27000/2/20240402\t2024-04-02 07:41:30+02:00\tHAR-2\t1\tUniversity and trains\ts\n",
    ),
    (b"board\tPIE\t20240402\t20240403\t\t", b""),
    (
        b"timetable\tRING\t20240402\t0",
        b"== RING 0 20240402\ntrip\tring-early\nMAR\t07:00:00\nHAR-1\t07:10:00\nPIE\t-\nLIG\t07:20:00\n",
    ),
    (b"timetable\tRING\t20240401\t", b"== RING 0 20240401\ntrip\tring-late\nMAR\t10:00:00\nHAR-1\t10:10:00\nLIG\t10:20:00\n"),
    (b"timetable\tNIGHT\t99991231", b""),
    (b"board\tRING\t20240402\t20240403", b"!! unknown stop\n"),
    (b"board\t\t20240402\t20240401", b"!! unknown stop\n"),
    (b"timetable\tHAR\t20240402", b"!! unknown route\n"),
    (b"timetable\t\t20240402", b"!! unknown route\n"),
    (b"board\tHAR\t20240402\t20240401", b"!! until lies before from\n"),
    (b"boards\tHAR\t20240402\t20240403", BAD),
    (b"check", BAD),
    (b"board\tHAR\t20240402", BAD),
    (b"board\tHAR\t20240402\t20240403\t\t\t", BAD),
    (b"board\tRING\t20240402\t20240230", BAD),
    (b"board\tHAR\t20240402\t20240403\tx", BAD),
    (b"board\tHAR\t20240402\t20240403\t\t@0", BAD),
    (b"timetable\tRING", BAD),
    (b"timetable\tHAR\t@1712033400", BAD),
    (b"timetable\tRING\t20240402\t2", BAD),
    (b"timetable\tRING\t20240402\t\t", BAD),
]


class Tried:
    """The program that is tried."""

    path = PROGRAM


def put_together(texts):
    """What goes out for answers with these texts."""
    return b"".join(text + b"\n" for text in texts)


def serve(held, words=WORDS, status=0, err=b"", out=None, **how):
    """What a run gives for the bytes of an input, which ends as is wanted. Without bytes `how` has its input."""
    given = {"stdout": subprocess.PIPE, "stderr": subprocess.PIPE, **({} if held is None else {"input": held}), **how}
    ran = subprocess.run([Tried.path, "serve", *words], cwd=ROOT, timeout=LIMIT, **given)
    shown = f"serve {' '.join(words)} of {shortened(held)}"
    want((ran.returncode, ran.stderr) == (status, err), f"{shown}: status {ran.returncode}, err {ran.stderr}")
    if out is not None:
        want(ran.stdout == out, f"{shown}: {shortened(ran.stdout)} and not {shortened(out)}")
    return ran.stdout


class Talk:
    """A run of the program, to which bytes are sent and whose answers are taken as they come."""

    def __init__(self, words=WORDS, **how):
        given = {"stdin": subprocess.PIPE, "stdout": subprocess.PIPE, "stderr": subprocess.PIPE, **how}
        self.process = subprocess.Popen([Tried.path, "serve", *words], cwd=ROOT, bufsize=0, **given)
        self.held = b""

    def __enter__(self):
        return self

    def __exit__(self, *_):
        for pipe in (self.process.stdin, self.process.stdout, self.process.stderr):
            if pipe:
                pipe.close()
        self.process.kill()
        self.process.wait()

    def send(self, held):
        while held:
            held = held[self.process.stdin.write(held):]

    def read(self, seconds):
        """Takes what comes within some seconds, and tells whether anything did."""
        is_there, _, _ = select.select([self.process.stdout], [], [], seconds)
        came = os.read(self.process.stdout.fileno(), 65_536) if is_there else b""
        self.held += came
        return came != b""

    def answer(self):
        """The text of the next answer."""
        until = time.monotonic() + LIMIT
        while not (self.held.startswith(b"\n") or b"\n\n" in self.held):
            want(self.read(until - time.monotonic()), f"no whole answer: {shortened(self.held)}")
        at = 0 if self.held.startswith(b"\n") else self.held.index(b"\n\n") + 1
        text, self.held = self.held[:at], self.held[at + 1:]
        return text

    def want_answer(self, line, text):
        got = self.answer()
        want(got == text, f"{shortened(line)}: {shortened(got)} and not {shortened(text)}")

    def want_silence(self, after):
        """Wants nothing to be told for a while."""
        want(not self.held and not self.read(0.02), f"after {shortened(after)}: {shortened(self.held)}")

    def want_end(self, status=0, err=b""):
        """Wants the run to have ended, or to end now, with nothing more told."""
        ended = self.process.wait(LIMIT)
        left = self.held + self.process.stdout.read() if self.process.stdout and not self.process.stdout.closed else b""
        told = self.process.stderr.read()
        want((ended, left, told) == (status, b"", err), f"status {ended}, err {told}, and {shortened(left)} is left")

    def close(self):
        """Ends the input, and wants the run to end."""
        self.process.stdin.close()
        self.want_end()
