"""The zone file of a feed: by its agency_timezone, among the zone files of the system."""
import csv
import os
import re
import sys
from datetime import tzinfo
from typing import Sequence

from .faults import DeviceFault, NoZone
from .paths import Path
from .tables import rows_of

_USUAL = ("/usr/share/zoneinfo", "/usr/lib/zoneinfo", "/usr/share/lib/zoneinfo", "/etc/zoneinfo")

# The names of zones. Others, as `../x`, could lead out of the folder.
_NAME = re.compile(r"[A-Za-z0-9_+-]+(/[A-Za-z0-9_+-]+)*")


def zone_folders() -> Sequence[str]:
    """The folders that have zone files, as Python's zoneinfo knows them. `PYTHONTZPATH` names others."""
    if sys.version_info >= (3, 9):
        import zoneinfo
        return zoneinfo.TZPATH
    named = os.environ.get("PYTHONTZPATH")
    return _USUAL if named is None else [folder for folder in named.split(os.pathsep) if os.path.isabs(folder)]


def agency_timezone(feed: Path) -> str:
    """The `agency_timezone` of the first agency of a feed. Raises `NoZone` where agency.txt tells none."""
    try:
        zone, = next(rows_of(feed, "agency.txt", "agency_timezone"), [""])
    except (OSError, ValueError, csv.Error):
        zone = ""
    if not zone:
        raise NoZone(f"{os.path.join(os.fsdecode(feed), 'agency.txt')} tells no agency_timezone: name a zone file")
    return zone


def zone_file(feed: Path) -> str:
    """The path of the zone file for a feed. Raises `NoZone`."""
    name, folders = agency_timezone(feed), zone_folders()
    if not folders:
        raise NoZone(f"Python knows no folder of zone files to look for {name} in: set PYTHONTZPATH, or name a zone file")
    if _NAME.fullmatch(name):
        for folder in folders:
            path = os.path.join(folder, name)
            if os.path.isfile(path):
                return path
    raise NoZone(f"there is no zone file for {name} in {', '.join(folders)}: install tzdata, or name a zone file")


def zone_of(path: str) -> tzinfo:
    """The zone of a zone file. Raises `DeviceFault` where it cannot be read, and `NotImplementedError` before Python 3.9."""
    if sys.version_info >= (3, 9):
        import zoneinfo
        try:
            with open(path, "rb") as file:
                return zoneinfo.ZoneInfo.from_file(file, key=path)
        except (OSError, ValueError):
            raise DeviceFault(3, f"{path} cannot be read") from None
    raise NotImplementedError("Python 3.8 has no zoneinfo: for the time at the stops use Python 3.9 or later")
