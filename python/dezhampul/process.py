"""A process that answers lines, `gtfs serve`: each line is sent, and its answer read to the empty line that ends it."""
import os
import select
import subprocess
import time
import weakref
from typing import Dict, List, Optional, Tuple

from .faults import BrokenProcess
from .program import died, fault_of, start

# As much of the error output as is kept, in bytes, and as much as is read at once.
_KEPT = 1 << 16
_PIECE = 1 << 18


def _end(process: "subprocess.Popen[bytes]") -> None:
    """Ends a process. It only reads, so nothing is lost."""
    for pipe in (process.stdin, process.stdout, process.stderr):
        if pipe:
            pipe.close()
    process.kill()
    process.wait()


class _Deadline:
    """The time that is left for an answer."""

    def __init__(self, seconds: Optional[float]) -> None:
        self.seconds = seconds
        self._end = None if seconds is None else time.monotonic() + seconds

    def milliseconds(self) -> Optional[float]:
        """What is left, for `poll`: none where there is no limit. Raises `BrokenProcess` where nothing is left."""
        if self._end is None:
            return None
        left = self._end - time.monotonic()
        if left <= 0:
            raise BrokenProcess(f"gtfs gave no answer within {self.seconds} seconds")
        return left * 1000


class Process:
    """A run of the program. One line at a time is asked; after a fault the run is over. `time_limit` is in seconds, for each answer."""

    def __init__(self, words: List[str], time_limit: Optional[float]) -> None:
        self._time_limit = time_limit
        self._told = b""
        self._process = start(words, subprocess.PIPE)
        self._finalizer = weakref.finalize(self, _end, self._process)
        self._stdin, self._stdout, self._stderr = (
            pipe.fileno() for pipe in (self._process.stdin, self._process.stdout, self._process.stderr) if pipe
        )
        for pipe in (self._stdin, self._stdout, self._stderr):
            os.set_blocking(pipe, False)

    @property
    def number(self) -> int:
        """The number that the system gave to the process."""
        return self._process.pid

    def end(self) -> None:
        """Ends the process. It may have ended before."""
        self._finalizer()

    def open(self) -> None:
        """Waits until the feed was read. Raises what the program says against it, as `Refused`, and `BrokenProcess`."""
        try:
            answer = self._exchange("\topen\n".encode())
        except EOFError:
            status, told = self._ending()
            raise fault_of(status, told) from None
        except BaseException:
            self.end()
            raise
        if answer != ["!! bad request"]:
            self.end()
            raise BrokenProcess(f"gtfs does not answer as gtfs serve does: {answer[:1]}")

    def ask(self, line: str) -> List[str]:
        """The lines of the answer. Raises `BrokenProcess`, and `ValueError` for a text that has no UTF-8."""
        asked = f"{line}\n".encode()
        try:
            self._want_silence()
            return self._exchange(asked)
        except EOFError:
            raise BrokenProcess(died(*self._ending())) from None
        except BaseException:
            # (What was asked is not answered yet, so the next answer would be another's.)
            self.end()
            raise

    def _want_silence(self) -> None:
        """Raises where a process that was not asked has told something, or has ended."""
        poll = select.poll()
        poll.register(self._stdout, select.POLLIN)
        if poll.poll(0):
            if not self._read(self._stdout):
                raise EOFError
            raise BrokenProcess("gtfs told something that it was not asked for")

    def _exchange(self, asked: bytes) -> List[str]:
        """Sends a line and reads its answer, whichever of the pipes is ready. Raises `EOFError` where the output ends before."""
        deadline, left, answer = _Deadline(self._time_limit), memoryview(asked), bytearray()
        poll = select.poll()
        for pipe, event in ((self._stdin, select.POLLOUT), (self._stdout, select.POLLIN), (self._stderr, select.POLLIN)):
            poll.register(pipe, event)
        while True:
            ready: Dict[int, int] = dict(poll.poll(deadline.milliseconds()))
            if self._stderr in ready and not self._hear():
                poll.unregister(self._stderr)
            if self._stdin in ready:
                left = left[self._write(left):]
                if not left:
                    poll.unregister(self._stdin)
            if self._stdout in ready:
                piece = self._read(self._stdout)
                if not piece:
                    raise EOFError
                answer += piece
                if answer.endswith(b"\n\n") or answer == b"\n":
                    return _lines(answer)

    def _write(self, left: memoryview) -> int:
        """How many bytes the process took. Whether it is gone tells its output."""
        try:
            return os.write(self._stdin, left)
        except BrokenPipeError:
            return len(left)

    def _read(self, pipe: int) -> bytes:
        return os.read(pipe, _PIECE)

    def _hear(self) -> bool:
        """Keeps what the error output tells, so that it never fills, and says whether it goes on."""
        piece = self._read(self._stderr)
        self._told = (self._told + piece)[-_KEPT:]
        return piece != b""

    def _ending(self) -> Tuple[int, bytes]:
        """The status of a process whose output has ended, and what it told."""
        try:
            status = self._process.wait(self._time_limit)
            while self._hear():
                pass
            return status, self._told
        except (subprocess.TimeoutExpired, BlockingIOError):
            self._process.kill()
            return self._process.wait(), self._told
        finally:
            self.end()


def _lines(answer: bytearray) -> List[str]:
    """The lines of an answer, which ends with an empty one. No other may be empty."""
    try:
        lines = answer.decode().split("\n")[:-2]
    except UnicodeDecodeError:
        raise BrokenProcess("gtfs gave an answer that is not UTF-8") from None
    if "" in lines:
        raise BrokenProcess("gtfs gave more than one answer")
    return lines
