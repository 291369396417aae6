"""What the scripts share that run the program on the disk: a small feed in a folder of its own, and how a run has to end."""
import os
import resource
import shutil
import subprocess
import tempfile

from program import LIMIT, PROGRAM, SMALL, shortened, want

# The second user, who may read what all may read.
NOBODY = 65_534

# The most memory of a run, in MiB, so that one which would read without an end does not take that of the machine.
MEMORY = 4_096

BOARD = "board f1 --zone z1 --stop S1 --from 20240401 --until 20240402".split()
LINE = b"@1711958400/T1/28800/1/20240401\t2024-04-01 08:00:00+00:00\tS1\t10\t\ts\n"
BOARDS = "boards f1 --zone z1 --requests requests".split()
LISTED = b"== S2 20240401 20240402\n== S1 20240401 20240402\n" + LINE
CHECK = "check f1".split()
REPORT = b"errors 0 warnings 0\n"
TIMETABLE = "timetable f1 --route R1 --date 20240401".split()
SHEET = b"== R1 - 20240401\ntrip\tT1\nS1\t08:00:00\nS2\t08:10:00\n"
MERGE = "merge f1 f1 out".split()
COUNTS = b"joined agency 1\njoined stop 3\njoined route 1\njoined service 1\njoined trip 1\n"

# What asks for these lines, and what is refused in its second line.
REQUESTS = b"S2\t20240401\t20240402\nS1\t20240401\t20240402\n"
REFUSED = REQUESTS.replace(b"S1", b"S9")

# What each command prints.
ANSWERS = [(BOARD, LINE), (BOARDS, LISTED), (CHECK, REPORT), (TIMETABLE, SHEET), (MERGE, COUNTS)]

# What each refuses, with the status and the line.
REFUSALS = [
    ("board f1 --zone z1 --stop S9 --from 20240401 --until 20240402".split(), 1, b"gtfs: unknown stop\n"),
    ("board f1 --zone z1 --stop S1 --from 20240402 --until 20240401".split(), 2, b"gtfs: until lies before from\n"),
    ("boards f1 --zone z1 --requests none".split(), 3, b"gtfs: none is not there\n"),
    ("boards f1 --zone z1 --requests refused".split(), 1, b"gtfs: unknown stop in line 2\n"),
    ("check none".split(), 3, b"gtfs: none is not there\n"),
    ("timetable f1 --route R9 --date 20240401".split(), 1, b"gtfs: unknown route\n"),
    ("merge none f1 out".split(), 3, b"gtfs: none is not there\n"),
    ("merge f1 f1 z1".split(), 3, b"gtfs: z1 cannot be written\n"),
]


class Skipped(Exception):
    """A test that cannot be made here, and why."""


def in_room(test):
    """The test, handed a folder with a copy of the small feed and with files of requests, which all may read."""

    def run():
        with tempfile.TemporaryDirectory() as above:
            room = os.path.join(above, "room")
            shutil.copytree(SMALL, room)
            put(path_in(room, "requests"), REQUESTS)
            put(path_in(room, "refused"), REFUSED)
            for folder in (above, room):
                os.chmod(folder, 0o755)
            try:
                return test(room)
            except Skipped as why:
                return f"SKIPPED: {test.__name__}: {why}"

    run.__name__ = test.__name__
    return run


def run(room, words, program=PROGRAM, memory=MEMORY, preexec_fn=None, timeout=LIMIT, **how):
    """Runs the program in an address space of so many MiB, and for so many seconds at most."""

    def begin():
        resource.setrlimit(resource.RLIMIT_AS, (memory << 20, memory << 20))
        if preexec_fn:
            preexec_fn()

    how = {"stdin": subprocess.DEVNULL, "stdout": subprocess.PIPE, "stderr": subprocess.PIPE, **how}
    return subprocess.run([program, *words], cwd=room, timeout=timeout, preexec_fn=begin, **how)


def want_end(ran, words, status, out, err):
    """Wants a run to have ended so. What went to an output or error output that is no pipe is not known."""
    ended = (ran.returncode, ran.stdout, ran.stderr)
    wanted = (status, out if ran.stdout is not None else None, err if ran.stderr is not None else None)
    if ended != wanted:
        want(False, f"{shortened(words)}: {shortened(ended)} and not {shortened(wanted)}")


def want_unread(ran, words, path):
    want_end(ran, words, 3, b"", b"gtfs: %s cannot be read\n" % os.fsencode(path))


def path_in(room, *names):
    return os.path.join(room, *names)


def put(path, held):
    with open(path, "wb") as file:
        file.write(held)


def stranger(room):
    """A copy of the program, and how to run it as a user who may read only what all may."""
    copy = path_in(room, "program")
    shutil.copy(PROGRAM, copy)
    os.chmod(copy, 0o755)
    if os.geteuid() != 0:
        return {"program": copy}
    how = {"user": NOBODY, "group": NOBODY, "extra_groups": []}
    try:
        ran = run(room, CHECK, program=copy, **how)
    except OSError as fault:
        raise Skipped(f"root may read all, and no program can be run as another user: {fault}") from None
    want_end(ran, CHECK, 0, REPORT, b"")
    return {"program": copy, **how}


def limited(size):
    """How to run the program where no file may grow past this size."""
    # (so that a write past it is refused, and does not end the program, Python's way with that signal is kept)
    return {"restore_signals": False, "preexec_fn": lambda: resource.setrlimit(resource.RLIMIT_FSIZE, (size, size))}
