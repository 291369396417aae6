"""The values of options and of requests, as texts have them."""
import re

import boards
from values import FIRST_SERVICE_DAY, LAST_SERVICE_DAY, Form, Range, read_date, shaped


def instant_of(text):
    """Seconds since 1970-01-01T00:00:00Z, as a key has them."""
    found = shaped("-?(0|[1-9][0-9]*)", text)[0]
    if found == "-0":
        raise Form
    if len(found.lstrip("-")) > 12:
        raise Range
    return int(found)


def number_of(text, greatest):
    """A number of a key, without leading zeros."""
    digits = shaped("0|[1-9][0-9]*", text)[0]
    number = int(digits) if len(digits) <= 10 else greatest + 1
    if number > greatest:
        raise Range
    return number


def service_day_of(text):
    date = read_date(text)
    if not FIRST_SERVICE_DAY <= date <= LAST_SERVICE_DAY:
        raise Range
    return date


def moment_of(text):
    """An instant as a number, or a service day."""
    return instant_of(text[1:]) if text.startswith("@") else service_day_of(text)


def key_of(text):
    """The key of a departure. Its trip id may hold slashes."""
    found = re.fullmatch("@([^/]*)/(.*)/([^/]*)/([^/]*)/([^/]*)", text, re.DOTALL)
    if not found:
        raise Form
    instant, trip, run, sequence, date = found.groups()
    start, place = number_of(run, 3_599_999), number_of(sequence, 2_147_483_647)
    return boards.Key(instant_of(instant), trip, start, place, read_date(date))


def direction_of(text):
    if text not in ("0", "1"):
        raise Form
    return int(text)
