"""Rows of a feed's files."""
import csv
import itertools
import os
from typing import Iterator, List

from .paths import Path

# What the program takes for blanks at the ends of a value.
_BLANKS = "".join(map(chr, range(33))) + "\x7f"


def rows_of(feed: Path, name: str, *columns: str) -> Iterator[List[str]]:
    """The values of some columns in each row of a file. A column that is not there is empty, and rows without any value are left out.

    Raises `OSError`, `csv.Error`, and `UnicodeDecodeError`, which is a `ValueError`.
    """
    path = os.path.join(os.fsdecode(feed), name)
    # (a named pipe would keep `open` waiting)
    if not os.path.isfile(path):
        raise FileNotFoundError(path)
    with open(path, encoding="utf-8", newline="") as file:
        lines = itertools.chain([file.readline().lstrip("\ufeff")], file)
        # (before Python 3.11 csv reads no NUL, which is a blank as all controls are; an empty line is no record)
        rows = csv.reader(line.replace("\0", " ") for line in lines)
        records = ([field.strip(_BLANKS) for field in record] for record in rows if record)
        header: List[str] = next(records, [])
        places = [header.index(column) if column in header else len(header) for column in columns]
        for record in records:
            if any(record):
                yield [record[place] if place < len(record) else "" for place in places]
