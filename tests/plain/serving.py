"""Requests that are answered line by line: boards and timetables of one feed."""
import boards
import timetables
from asked_values import direction_of
from requested import Unanswered, board_asked
from values import Form, Range, read_date

# The most bytes of a line, without its end.
LONGEST = 1_048_576


def lines_of(input):
    """The lines of an input that are not empty, each as soon as it is there and without its end. The last one need not be ended."""
    while line := input.readline():
        if line.endswith(b"\n"):
            line = line.removesuffix(b"\n").removesuffix(b"\r")
        if line:
            yield line


def fields_of(line):
    """The fields of a line of bytes."""
    if len(line) > LONGEST:
        raise Unanswered(2, "line too long")
    try:
        return line.decode("utf-8").split("\t")
    except UnicodeDecodeError:
        raise Unanswered(2, "bad request") from None


def timetable_asked(content, fields):
    """What `timetables.timetable` is handed for a line with these fields."""
    try:
        if not 2 <= len(fields) <= 3:
            raise Form
        route, date, direction = (*fields, "")[:3]
        date, direction = read_date(date), direction_of(direction) if direction else None
    except (Form, Range):
        raise Unanswered(2, "bad request") from None
    if route not in content.routes:
        raise Unanswered(1, "unknown route")
    return route, direction, date


def text_asked(content, zone, line):
    """The text that a line asks for."""
    command, *fields = fields_of(line)
    if command == "board":
        _, asked = board_asked(content, zone, fields)
        return boards.board(content, zone, *asked)
    if command == "timetable":
        return timetables.timetable(content, *timetable_asked(content, fields))
    raise Unanswered(2, "bad request")


def answer(content, zone, line):
    """The answer to a line: the text that it asks for or what is told in its place, and an empty line."""
    try:
        return text_asked(content, zone, line) + "\n"
    except Unanswered as fault:
        return f"!! {fault.why}\n\n"


def answers_in(held):
    """The texts of answers, without the empty lines behind them."""
    texts, lines = [], []
    for line in held.splitlines(keepends=True):
        if line == b"\n":
            texts.append(b"".join(lines))
            lines = []
        else:
            lines.append(line)
    return texts


def words_of(line):
    """The words of a call that prints the text of a line that was answered, without the folder and the zone."""
    command, *fields = line.decode("utf-8").split("\t")
    names = {"board": ["stop", "from", "until", "limit", "after"], "timetable": ["route", "date", "direction"]}[command]
    return [command, *(f"--{name}={text}" for name, text in zip(names, fields) if text)]
