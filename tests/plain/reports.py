"""The report of a check: a line for each problem and for each advice, with what the options add to it, and the counts."""
import advice
from problems import TEXTS, errors_in
from values import plain

# A longer value is told by its beginning.
LONGEST_VALUE, BEGINNING = 60, 57


def value_of(tables, name, number, column):
    """The text of a column in a row, empty where there is none."""
    rows = tables.files[name].rows if name in tables.files else []
    return next((row.texts.get(column, "") for row in rows if row.number == number), "")


def shown(value):
    """A value as a line has it."""
    value = plain(value)
    return f'"{value[:BEGINNING]}..."' if len(value) > LONGEST_VALUE else f'"{value}"'


def problem_lines(tables, found, with_values):
    """The lines of problems, each with what it is counted by in a summary."""
    for name, number, code, column in found:
        line = f"{code} {plain(name)}:{number} {plain(column) or '-'} {TEXTS[code]}"
        if with_values:
            line += "\t" + shown(value_of(tables, name, number, column))
        yield line, (code, name, column)


def advice_lines(advised):
    """The same of advice."""
    for code, name, subject in advised:
        yield f"{code} {name}\t{subject}\t{advice.TEXTS[code]}", (code, name)


def summary(lines):
    """The first line of each kind, where it stood, with how many there are of its kind."""
    lines = list(lines)
    kinds = [kind for _, kind in lines]
    return [f"{line}\t{kinds.count(kind)}" for at, (line, kind) in enumerate(lines) if kind not in kinds[:at]]


def report(tables, found, advised=None, with_values=False, with_summary=False):
    """The text of a report on these problems. `advised` is None where no advice is told."""
    lines = [*problem_lines(tables, found, with_values), *advice_lines(advised or [])]
    texts = summary(lines) if with_summary else [line for line, _ in lines]
    errors = errors_in(found)
    counts = f"errors {errors} warnings {len(found) - errors}"
    if advised is not None:
        counts += f" advice {len(advised)}"
    return "".join(f"{line}\n" for line in [*texts, counts])
