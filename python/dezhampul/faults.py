"""What is raised where the program gives no answer."""
from typing import TYPE_CHECKING, Dict, Tuple, Type

if TYPE_CHECKING:
    from .reports import Report


class Refused(Exception):
    """The program refused what it was asked for.

    `status` is the exit status of the command, or for a request the one with which the command of its name would have ended: 1 to 4.
    `message` is the reason in the program's words, as `until lies before from`. The text of the exception is the same, or says more.
    """

    def __init__(self, status: int, message: str, text: str = "") -> None:
        super().__init__(status, message, text)
        self.status = status
        self.message = message
        self._text = text or message

    def __str__(self) -> str:
        return self._text


class UnknownStop(Refused):
    """The feed has no stop with this `stop_id`. The status is 1."""


class UnknownRoute(Refused):
    """The feed has no route with this `route_id`. The status is 1."""


class HasErrors(Refused):
    """The feed has errors, so it has no boards, timetables and merges. The status is 1, and `report` is that of `check`."""

    def __init__(self, status: int, message: str, report: "Report", text: str = "") -> None:
        super().__init__(status, message, text)
        self.args = (status, message, report, text)
        self.report = report


class DeviceFault(Refused):
    """A file or a folder could not be read or written, or is not there. The status is 3."""


class OutOfMemory(Refused):
    """The program was refused memory. The status is 4. What was given before is right, and not all."""


class BrokenProcess(Exception):
    """The program died, gave no answer within the time limit, or gave one that is none.

    A `Feed` stays usable: its next request starts the program again, which reads the folder anew.
    """


class NoProgram(LookupError):
    """There is no program `gtfs`: not where `$GTFS` says, nor in the package, nor on the path."""


class NoZone(LookupError):
    """No zone file was found for the `agency_timezone` of a feed. Name one: `zone="path"`."""


# The exceptions about an id that the feed has not, and what they say of it.
_BY_MESSAGE: Dict[str, Tuple[Type[Refused], str]] = {
    "unknown stop": (UnknownStop, "the feed has no stop {!r}"),
    "unknown route": (UnknownRoute, "the feed has no route {!r}; routes are asked for by route_id"),
}
_BY_STATUS: Dict[int, Type[Refused]] = {3: DeviceFault, 4: OutOfMemory}


def refusal(status: int, message: str, name: str = "") -> Refused:
    """The exception for a status from 1 to 4 and the reason that the program gave, about the id that was asked for."""
    if message in _BY_MESSAGE:
        kind, text = _BY_MESSAGE[message]
        return kind(status, message, text.format(name[:200]))
    return _BY_STATUS.get(status, Refused)(status, message)


def is_about_errors(fault: Exception) -> bool:
    """Whether a feed was refused since it has errors, which are in a report then."""
    return isinstance(fault, Refused) and fault.status == 1 and fault.message.endswith(" has errors")
