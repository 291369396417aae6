"""Requests: lines that ask for a board each, and files of them."""
from dataclasses import dataclass

from asked_values import key_of, moment_of
from tables import MARK
from values import Form, Range, read_count


class Unanswered(Exception):
    """A request without an answer: what is told of it, and the status of a run that ends with it."""

    def __init__(self, status, why):
        super().__init__(why)
        self.status = status
        self.why = why


@dataclass
class Request:
    """The texts of a line, none where a limit or a key is empty or not there."""

    stop: str
    begin: str
    end: str
    limit: str = None
    after: str = None

    def heading(self):
        return f"== {self.stop} {self.begin} {self.end}\n"

    def words(self):
        """The words that ask `board` for the same."""
        words = [f"--stop={self.stop}", f"--from={self.begin}", f"--until={self.end}"]
        words += [f"--limit={self.limit}"] if self.limit else []
        return words + ([f"--after={self.after}"] if self.after else [])


def text_of(held):
    """The text of a file's bytes, without the byte order marks at its beginning."""
    while held.startswith(MARK):
        held = held[len(MARK):]
    return held.decode("utf-8")


def numbered_lines(text):
    """The lines that are not empty, each with its number. The last one need not be ended."""
    *ended, last = text.split("\n")
    lines = [line.removesuffix("\r") for line in ended] + [last]
    return [(number, line) for number, line in enumerate(lines, 1) if line]


def request_of(fields):
    """The request of a line with these fields."""
    if not 3 <= len(fields) <= 5:
        raise Form
    return Request(*fields[:3], *(text or None for text in fields[3:]))


def board_asked(content, zone, fields):
    """The request of a line with these fields, and what `boards.board` is handed for it."""
    try:
        request = request_of(fields)
        begin, end = moment_of(request.begin), moment_of(request.end)
        limit = None if request.limit is None else read_count(request.limit)
        after = None if request.after is None else key_of(request.after)
    except (Form, Range):
        raise Unanswered(2, "bad request") from None
    if request.stop not in content.stops:
        raise Unanswered(1, "unknown stop")
    begin, end = instant_in(zone, begin), instant_in(zone, end)
    if end < begin:
        raise Unanswered(2, "until lies before from")
    return request, (request.stop, begin, end, limit, after)


def instant_in(zone, moment):
    return moment if isinstance(moment, int) else zone.origin(moment)
