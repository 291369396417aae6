"""The tables of a folder: the records of the nine kept files, and the other names."""
import os
from dataclasses import dataclass, field

from columns import FILES, NEEDED
from values import Form, Range, cut, read

MARK = b"\xef\xbb\xbf"


class NotThere(Exception):
    """No entry has the name of the folder."""


class Unreadable(Exception):
    """The folder or one of its kept files cannot be read."""


def records_of(text):
    """The records of a text of comma-separated values, RFC 4180: a record ends at LF, CR or CRLF, empty lines are none.

    A quote opens a quoted field only at its beginning. What follows the closing quote is taken as it stands.
    """
    records, record, chars = [], [], []
    state = "record"
    for char in text:
        if state == "quoted":
            if char == '"':
                state = "quote"
            else:
                chars.append(char)
        elif char == '"' and state == "quote":
            chars.append(char)
            state = "quoted"
        elif char in "\r\n":
            if state != "record":
                records.append(record + ["".join(chars)])
            record, chars, state = [], [], "record"
        elif char == ",":
            record.append("".join(chars))
            chars, state = [], "field"
        elif char == '"' and state in ("record", "field"):
            state = "quoted"
        else:
            chars.append(char)
            state = "inside"
    if state != "record":
        records.append(record + ["".join(chars)])
    return records


@dataclass
class Row:
    """A row of a file: its number, how many fields it has, and the cut text of each kept column, empty without one."""

    number: int
    length: int
    columns: dict
    texts: dict

    def __post_init__(self):
        self.values, self.faults = {}, {}
        for name, text in self.texts.items():
            if text:
                try:
                    self.values[name] = read(self.columns[name], text)
                except (Form, Range) as fault:
                    self.faults[name] = type(fault)

    def is_empty(self, name):
        return not self.texts[name]

    def value(self, name):
        """The value, where it is readable."""
        return self.values.get(name)

    def meaning(self, name):
        """The value, an empty one by its meaning; none where it has none or is not readable."""
        column = self.columns[name]
        if self.is_empty(name) and column.empty:
            return read(column, column.empty)
        return self.values.get(name)

    def key(self, names, parts_may_be_empty=False):
        """The values of these columns, or none where one of them is not readable."""
        if any(name in self.faults for name in names):
            return None
        if not parts_may_be_empty and any(self.is_empty(name) for name in names):
            return None
        return tuple(self.value(name) for name in names)


@dataclass
class Table:
    """A kept file: absent, not UTF-8, or its records, each field cut."""

    name: str
    state: str
    records: list = field(default_factory=list)

    def __post_init__(self):
        self.records = [[cut(text) for text in record] for record in self.records]
        self.header = self.records[0] if self.records else []
        columns = {column.name: column for column in FILES[self.name]}
        places = {name: self.header.index(name) for name in columns if name in self.header}
        self.rows = []
        for number, record in enumerate(self.records[1:], 2):
            if any(record):
                found = {name: record[at] for name, at in places.items() if at < len(record)}
                self.rows.append(Row(number, len(record), columns, {name: found.get(name, "") for name in columns}))

    def counts_as_absent(self):
        return self.state == "absent" or (self.state == "read" and not self.records and self.name not in NEEDED)


def table_of(name, held):
    if held is None:
        return Table(name, "absent")
    while held.startswith(MARK):
        held = held[len(MARK):]
    try:
        return Table(name, "read", records_of(held.decode("utf-8")))
    except UnicodeDecodeError:
        return Table(name, "not UTF-8")


def entries(folder):
    """The names of a folder, in the order of their bytes."""
    if not folder:
        raise NotThere
    try:
        return sorted(name.decode("utf-8") for name in os.listdir(os.fsencode(folder)))
    except FileNotFoundError:
        raise NotThere from None
    except (OSError, UnicodeDecodeError):
        raise Unreadable from None


@dataclass
class Tables:
    """The tables of a dataset, by the names of their files, and the other names of its folder."""

    files: dict
    others: list


def read_tables(folder):
    names = entries(folder)
    files = {}
    for name in FILES:
        held = None
        if name in names:
            try:
                with open(os.path.join(folder, name), "rb") as file:
                    held = file.read()
            except OSError:
                raise Unreadable from None
        files[name] = table_of(name, held)
    return Tables(files, [name for name in names if name not in FILES])
