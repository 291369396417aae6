"""The program `gtfs`: where it is, and how it is called."""
import os
import shutil
import subprocess
from dataclasses import dataclass
from typing import Dict, List, Optional

from .faults import BrokenProcess, NoProgram, refusal

# What the wheel has beside the package: the program, and the line of settings with which the C library serves it best.
BUNDLED = os.path.join(os.path.dirname(os.path.abspath(__file__)), "bin", "gtfs")
_SETTINGS = os.path.join(os.path.dirname(BUNDLED), "tunables")

_SAYS = "gtfs: "


@dataclass(frozen=True)
class Ended:
    """A run of the program: its status, negative where a signal ended it, and what it printed."""

    status: int
    output: bytes
    told: bytes


def find_program() -> str:
    """The path of the program: the one that `$GTFS` names, the one of the wheel, or the first on the path. Raises `NoProgram`."""
    named = os.environ.get("GTFS")
    if named:
        found = shutil.which(named)
        if not found:
            raise NoProgram(f"$GTFS names no program: {named}")
        return found
    found = BUNDLED if os.access(BUNDLED, os.X_OK) else shutil.which("gtfs")
    if not found:
        raise NoProgram("there is no program gtfs in the package and on the path: set $GTFS")
    return found


def environment(program: str, command: Optional[str]) -> Dict[str, str]:
    """The environment for a command of a program. Settings of the caller count, and a merge goes without."""
    held = dict(os.environ)
    if program == BUNDLED and command != "merge" and "GLIBC_TUNABLES" not in held:
        try:
            with open(_SETTINGS, encoding="ascii") as file:
                held["GLIBC_TUNABLES"] = file.read().strip()
        except OSError:
            pass
    return held


def start(words: List[str], stdin: int) -> "subprocess.Popen[bytes]":
    """Starts the program, with pipes from its outputs. Raises `NoProgram`, and `BrokenProcess` where the system does not start it."""
    program = find_program()
    try:
        return subprocess.Popen(
            [program, *words], bufsize=0, env=environment(program, words[0]), stdin=stdin, stdout=subprocess.PIPE, stderr=subprocess.PIPE
        )
    except OSError as fault:
        raise BrokenProcess(f"{program} cannot be started: {fault.strerror}") from fault


def run(words: List[str], time_limit: Optional[float]) -> Ended:
    """Runs the program to its end, for as many seconds as the time limit has. Raises what `start` raises, and `BrokenProcess`."""
    process = start(words, subprocess.DEVNULL)
    with process:
        try:
            output, told = process.communicate(timeout=time_limit)
        except subprocess.TimeoutExpired:
            raise BrokenProcess(f"gtfs {words[0]} did not end within {time_limit} seconds") from None
        finally:
            process.kill()
    return Ended(process.returncode, output, told)


def reason(told: bytes) -> str:
    """What an error output says, without the name of the program."""
    text = told.decode(errors="replace").rstrip("\n")
    return text[len(_SAYS):] if text.startswith(_SAYS) else text


def fault_of(status: int, told: bytes) -> Exception:
    """The exception for a run that ended without what it was started for."""
    if status in (1, 2, 3, 4) and told:
        return refusal(status, reason(told))
    return BrokenProcess(died(status, told))


def died(status: int, told: bytes) -> str:
    """How a process ended, in words."""
    how = f"signal {-status}" if status < 0 else f"status {status}"
    return ": ".join(filter(None, (f"gtfs ended with {how}", reason(told))))


def version() -> str:
    """The line of `gtfs --version`. Raises what `run` raises, and `BrokenProcess` with the error line of a program that fails."""
    ended = run(["--version"], 60)
    line = ended.output.decode(errors="replace").strip()
    if ended.status:
        raise BrokenProcess(died(ended.status, ended.told))
    if not line:
        raise BrokenProcess("gtfs told no version")
    return line
