"""What the program gives for its words: the output, the line on the error output, the status and the files written."""
import io
import os
from dataclasses import dataclass, field

import boards
import merging
import serving
import timetables
from advice import advise
from asked_values import direction_of, key_of, moment_of, service_day_of
from content import content_of
from filling import interpolated
from problems import errors_in, passes, problems
from reports import report
from requested import Unanswered, board_asked, instant_in, numbered_lines, text_of
from tables import NotThere, Unreadable, read_tables
from values import Form, Range, plain, read_count, read_date
from words import Help, NotUtf8, Refused, Version, read_words
from zones import NoZone, Odd, read_zone

# The most bytes in the name of a file, and in a path, on the file systems that this is run on.
LONGEST_NAME, LONGEST_PATH = 255, 4_095

# A text that is there and is not fixed.
SOME = object()

# How a run ends that is not fixed: with any status and texts that go together.
UNKNOWN = object()


@dataclass
class Outcome:
    """How a run of the program ends.

    `cause` says what kept it from an answer, a path by its name in the usage. `written` has the files that a merge leaves in its
    folder, and `merged` the two feeds as they were, the names of their ids, and the cutoff or none. `requests` has what a file of
    requests asks for.
    """

    status: int
    out: object = ""
    err: object = ""
    cause: str = ""
    written: dict = field(default_factory=dict)
    merged: tuple = ()
    requests: list = field(default_factory=list)


class Ended(Exception):
    """The command cannot be done: a status, and a line on the error output, about the path of a name if it is about one."""

    def __init__(self, status, line, name="", path=""):
        super().__init__(line)
        told = f"{path} {line}" if name else line
        self.outcome = Outcome(status, err=f"gtfs: {plain(told)}\n", cause=f"{name} {line}" if name else line)


def value(given, name, reader):
    """The value of an option, none where it is not given."""
    if name not in given:
        return None
    try:
        return reader(given[name])
    except (Form, Range):
        raise Ended(2, f"bad value of --{name}") from None


# ---- folders and files


def dataset(folder, name="DIR"):
    try:
        return read_tables(folder)
    except NotThere:
        raise Ended(3, "is not there", name, folder) from None
    except Unreadable:
        raise Ended(3, "cannot be read", name, folder) from None


def feed(folder, name="DIR"):
    tables = dataset(folder, name)
    if not passes(tables):
        raise Ended(1, "has errors", name, folder)
    return content_of(tables)


def timed_feed(given):
    """The feed, with its times filled in where the words ask for that."""
    content = feed(given["DIR"])
    return interpolated(content) if "interpolate" in given else content


def bytes_of(path, name):
    """The bytes of a file that the words name."""
    try:
        with open(path, "rb") as file:
            return file.read()
    except FileNotFoundError:
        # (an empty path, and one that ends in a slash, name no file)
        ending = "is not there" if path.rpartition("/")[2] else "cannot be read"
        raise Ended(3, ending, name, path) from None
    except OSError:
        raise Ended(3, "cannot be read", name, path) from None


def zone_of(path):
    try:
        return read_zone(bytes_of(path, "FILE"))
    except NoZone:
        raise Ended(3, "is no zone file", "FILE", path) from None


def lines_of_requests(path):
    """The lines of a file of requests, each with its number."""
    try:
        return numbered_lines(text_of(bytes_of(path, "REQUESTS")))
    except UnicodeDecodeError:
        raise Ended(3, "cannot be read", "REQUESTS", path) from None


def can_be_written(folder):
    """Whether the nine files can be written into a folder, whose missing levels are made."""
    if len(os.fsencode(folder)) > LONGEST_PATH:
        return False
    if not folder or any(len(os.fsencode(level)) > LONGEST_NAME for level in folder.split("/")):
        return False
    while not os.path.lexists(folder):
        folder = os.path.dirname(folder) or "."
    return os.path.isdir(folder)


# ---- the commands


def check(given):
    if "day" in given and "advise" not in given:
        raise Ended(2, "--day needs --advise")
    day = value(given, "day", service_day_of)
    tables = dataset(given["DIR"])
    found = problems(tables)
    has_errors = errors_in(found) > 0
    advised = advise(content_of(tables), day) if "advise" in given and not has_errors else None
    return Outcome(1 if has_errors else 0, report(tables, found, advised, "values" in given, "summary" in given))


def board(given):
    begin, end = value(given, "from", moment_of), value(given, "until", moment_of)
    limit, after = value(given, "limit", read_count), value(given, "after", key_of)
    content = timed_feed(given)
    zone = zone_of(given["zone"])
    if given["stop"] not in content.stops:
        raise Ended(1, "unknown stop")
    begin, end = (instant_in(zone, at) for at in (begin, end))
    if end < begin:
        raise Ended(2, "until lies before from")
    return Outcome(0, boards.board(content, zone, given["stop"], begin, end, limit, after))


def many_boards(given):
    content = timed_feed(given)
    zone = zone_of(given["zone"])
    wanted = []
    for number, line in lines_of_requests(given["requests"]):
        try:
            wanted.append(board_asked(content, zone, line.split("\t")))
        except Unanswered as fault:
            raise Ended(fault.status, f"{fault.why} in line {number}") from None
    texts = [request.heading() + boards.board(content, zone, *asked) for request, asked in wanted]
    return Outcome(0, "".join(texts), requests=[request for request, _ in wanted])


def timetable(given):
    date, direction = value(given, "date", read_date), value(given, "direction", direction_of)
    content = timed_feed(given)
    if given["route"] not in content.routes:
        raise Ended(1, "unknown route")
    return Outcome(0, timetables.timetable(content, given["route"], direction, date))


def merge(given):
    near, cutoff = value(given, "near", read_count), value(given, "cutoff", service_day_of)
    a = feed(given["A"], "A")
    b = feed(given["B"], "B")
    try:
        merged, names = merging.merge(a, b, near, cutoff)
    except merging.ZonesDiffer:
        raise Ended(1, "zones differ") from None
    if not can_be_written(given["OUT"]):
        raise Ended(3, "cannot be written", "OUT", given["OUT"])
    written = {given["OUT"]: merging.written_files(merged)}
    return Outcome(0, merging.report(names), written=written, merged=(a, b, names, cutoff))


def heard(input):
    """The lines of the standard input, none where it is closed."""
    try:
        if input is None:
            raise OSError
        yield from serving.lines_of(input)
    except OSError:
        raise Ended(3, "input cannot be read") from None


def tell(output, text):
    """Writes an answer to an output without a buffer, which may take a part a call."""
    held = text.encode()
    try:
        while held:
            taken = output.write(held)
            if not taken:
                raise OSError
            held = held[taken:]
    except OSError:
        raise Ended(3, "output failed") from None


def serve(given, input, output):
    """Tells the answer to each line of the input before it reads the next one."""
    content = timed_feed(given)
    zone = zone_of(given["zone"])
    for line in heard(input):
        tell(output, serving.answer(content, zone, line))
    return Outcome(0)


RUNS = {"check": check, "board": board, "boards": many_boards, "timetable": timetable, "merge": merge}


def ending(words, input, output):
    """How the program ends with these words behind its name. Answers to lines of the input go to the output, all else is handed back."""
    try:
        command, given = read_words(words)
        return serve(given, input, output) if command == "serve" else RUNS[command](given)
    except Help:
        return Outcome(0, out=SOME, cause="help")
    except Version:
        return Outcome(0, out="gtfs 1.1.0\n", cause="version")
    except Refused:
        return Outcome(2, err=SOME, cause="refused words")
    except NotUtf8:
        return Ended(2, "bad words").outcome
    except Odd:
        return UNKNOWN
    except Ended as ended:
        return ended.outcome


def outcome(words, held=b""):
    """What the program gives for the words and the bytes of its input, in the folder where this runs. It changes nothing there."""
    output = io.BytesIO()
    ended = ending(words, io.BytesIO(held), output)
    if output.getvalue():
        ended.out = output.getvalue().decode()
    return ended
