"""What is wrong with the folder or the zone file that the program refused, in words."""
import os
from typing import TYPE_CHECKING, List

from .faults import DeviceFault, HasErrors

if TYPE_CHECKING:
    from .reports import Report

# The files of a feed that the program keeps.
_FILES = {
    "agency.txt", "calendar.txt", "calendar_dates.txt", "frequencies.txt", "routes.txt", "stop_times.txt", "stops.txt", "transfers.txt",
    "trips.txt",
}


def text_of_file(path: str) -> str:
    """What is said of a path that leads to a file and not to a folder. It is empty for all others."""
    return f"{path} is a file, not a folder: unzip it first" if os.path.isfile(path) else ""


def explained(fault: Exception, *feeds: str, zone: str = "") -> Exception:
    """The fault, whose text says more where a feed is a file and no folder, or where the zone is no file."""
    told = fault.message if isinstance(fault, DeviceFault) else ""
    for feed in feeds:
        if told == f"{feed} cannot be read":
            return DeviceFault(3, told, text_of_file(feed))
    if told in (f"{zone} is not there", f"{zone} cannot be read") and not os.path.isfile(zone):
        return DeviceFault(3, told, f"{zone} is no file: give the path of a zone file, such as /usr/share/zoneinfo/Europe/Rome")
    return fault


def errors_of(folder: str, message: str, report: "Report") -> HasErrors:
    """The exception for a feed with errors. Its text tells the first of them, or that the folder has no file of a feed."""
    return HasErrors(1, message, report, _text_of_report(folder, report) if _has_feed(folder) else _text_of_none(folder))


def _text_of_report(folder: str, report: "Report") -> str:
    first = next((problem for problem in report.problems if problem.code.startswith("E")), None)
    count = "1 error" if report.errors == 1 else f"{report.errors} errors, the first"
    return f"{folder} has {count}: {first}" if first else ""


def _text_of_none(folder: str) -> str:
    below = [path for path in (os.path.join(folder, name) for name in _names_in(folder)) if _has_feed(path)]
    return f"no file of a feed is in {folder}" + (f"; is it in {below[0]}?" if len(below) == 1 else "")


def _has_feed(folder: str) -> bool:
    """Whether a folder has some file of a feed."""
    return not _FILES.isdisjoint(_names_in(folder))


def _names_in(folder: str) -> List[str]:
    """The names of what is in a folder, and none where it cannot be listed."""
    try:
        return os.listdir(folder)
    except OSError:
        return []
