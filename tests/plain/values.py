"""The values of fields: how a text of each kind is read, and the one text that each value is written as.

A time is seconds, a date a `datetime.date`, a colour 24 bits, a coordinate units of 10^-9 degree.
"""
import datetime
import re

GREATEST_COUNT = 2_147_483_647
FIRST_SERVICE_DAY = datetime.date(1900, 1, 1)
LAST_SERVICE_DAY = datetime.date(9998, 12, 31)

CONTROL = re.compile("[\x00-\x1f\x7f]")
BLANKS = "".join(map(chr, range(33))) + "\x7f"


class Form(Exception):
    """The text does not look like a value of its kind."""


class Range(Exception):
    """It does, and lies outside the limits."""


def cut(text):
    """The text without the blanks at both its ends."""
    return text.strip(BLANKS)


def plain(text):
    """The text with a space in place of each control character."""
    return CONTROL.sub(" ", text)


def shaped(pattern, text):
    found = re.fullmatch(pattern, text, re.ASCII)
    if not found:
        raise Form
    return found


def read_id(text):
    if CONTROL.search(text):
        raise Form
    return text


def read_count(text, least=0):
    digits = shaped("[0-9]+", text)[0].lstrip("0")
    # (Python makes no number of some thousand digits)
    number = int(digits or "0") if len(digits) <= 10 else GREATEST_COUNT + 1
    if not least <= number <= GREATEST_COUNT:
        raise Range
    return number


def read_positive(text):
    return read_count(text, 1)


def read_time(text):
    hours, minutes, seconds = shaped("([0-9]{1,3}):([0-5][0-9]):([0-5][0-9])", text).groups()
    return int(hours) * 3600 + int(minutes) * 60 + int(seconds)


def read_date(text):
    shaped("[0-9]{8}", text)
    try:
        date = datetime.date(int(text[:4]), int(text[4:6]), int(text[6:]))
    except ValueError:
        raise Range from None
    if date.year < 1900:
        raise Range
    return date


def read_colour(text):
    return int(shaped("[0-9a-fA-F]{6}", text)[0], 16)


def read_coordinate(text, limit):
    sign, whole, point = shaped(r"([+-]?)([0-9]*)(?:\.([0-9]*))?", text).groups()
    fraction = point or ""
    if not whole + fraction:
        raise Form
    units = int(whole + fraction) * 10**9 // 10 ** len(fraction)
    if units > limit * 10**9:
        raise Range
    return -units if sign == "-" else units


READERS = {
    "id": read_id,
    "text": plain,
    "count": read_count,
    "positive": read_positive,
    "time": read_time,
    "date": read_date,
    "colour": read_colour,
    "latitude": lambda text: read_coordinate(text, 90),
    "longitude": lambda text: read_coordinate(text, 180),
}


def read(column, text):
    """The value of a text that is not empty."""
    if column.kind != "choice":
        return READERS[column.kind](text)
    number = read_count(text)
    if number not in column.choices:
        raise Range
    return number


def time_text(seconds):
    return f"{seconds // 3600:02}:{seconds // 60 % 60:02}:{seconds % 60:02}"


def date_text(date):
    return f"{date.year:04}{date.month:02}{date.day:02}"


def coordinate_text(units):
    whole, fraction = divmod(abs(units), 10**9)
    text = f"{whole}.{fraction:09}".rstrip("0").rstrip(".")
    return "-" + text if units < 0 else text


WRITERS = {
    "time": time_text,
    "date": date_text,
    "colour": lambda bits: f"{bits:06X}",
    "latitude": coordinate_text,
    "longitude": coordinate_text,
}


def written(column, value):
    """The text of a value, the empty one where there is none."""
    return "" if value is None else WRITERS.get(column.kind, str)(value)
