"""`python -m dezhampul` tells the versions of the package and of the program that it found. `gtfs` is the command of the wheel."""
import os
import sys

from .faults import BrokenProcess, NoProgram
from .program import BUNDLED, environment, find_program, version
from .version import VERSION


def gtfs() -> None:
    """Becomes the program of the wheel, with the words of this call."""
    words = sys.argv[1:]
    try:
        os.execve(BUNDLED, ["gtfs", *words], environment(BUNDLED, words[0] if words else None))
    except OSError as fault:
        sys.exit(f"gtfs: {BUNDLED} cannot be started: {fault.strerror}")


def main() -> None:
    """Prints a line of the package and one of the program. Where there is no program or it fails, it says so and ends with status 1."""
    print(f"dezhampul {VERSION}")
    try:
        print(f"{version()} ({find_program()})")
    except (NoProgram, BrokenProcess) as fault:
        sys.exit(f"dezhampul: {fault}")


if __name__ == "__main__":
    main()
