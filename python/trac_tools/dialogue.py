"""A session of `trac walk` over a program: its replies, with a bound on memory. And how a process is given a file that
has no place on a disk."""
from __future__ import annotations

import contextlib
import os
import resource
import subprocess
from collections.abc import Callable, Iterator

from trac_tools.tool import Fault, begin, write


class NoMemory(Exception):
    """There was no memory. The session is of no use any more."""


def bound(memory: int) -> None:
    """Bounds the memory of the process that is begun. (Nobody but root may raise a bound that there is.)"""
    with contextlib.suppress(OSError):
        most = resource.getrlimit(resource.RLIMIT_AS)[1]
        least = memory if most == resource.RLIM_INFINITY else min(memory, most)
        resource.setrlimit(resource.RLIMIT_AS, (least, most))


class Debugger:
    """A session of a debugger over a tape, begun by a command without FILE. What it takes of memory is bounded."""

    def __init__(self, command: list[str], memory: int, tape: bytes | bytearray) -> None:
        with passed_on(tape) as (file, give):
            # (what it says of itself, such as of an option that is wrong, the run beside it says too)
            self.process = begin(command + [file.name], stdin=subprocess.PIPE, stdout=subprocess.PIPE,
                                 stderr=subprocess.DEVNULL, preexec_fn=lambda: bound(memory), pass_fds=[file.number])
            file.close()
            give()
        # replies that are read and not taken
        self.replies = b""

    def read(self) -> bytes:
        """Some more bytes of its replies."""
        part = os.read(self.process.stdout.fileno(), 1 << 20)
        if not part:
            status = self.process.wait()
            if status == 5:
                raise NoMemory
            raise Fault("the debugger ended early, with status {}".format(status), max(status, 1))
        return part

    def line(self) -> str:
        """The next line of its replies."""
        while b"\n" not in self.replies:
            self.replies += self.read()
        line, self.replies = self.replies.split(b"\n", 1)
        return line.decode("utf-8", "surrogateescape")

    def give(self, commands: str) -> None:
        """Writes commands, so few that they are taken at once."""
        try:
            self.process.stdin.write(commands.encode())
            self.process.stdin.flush()
        except (OSError, ValueError):
            pass

    def end(self) -> None:
        """Ends the session, and what it holds of replies."""
        self.process.kill()
        self.process.stdout.close()
        try:
            self.process.stdin.close()
        except OSError:
            pass
        self.process.wait()
        self.replies = b""


class Passed:
    """A file without a place, which a process that is begun finds by its name."""

    def __init__(self, number: int) -> None:
        self.number, self.name, self.is_open = number, "/dev/fd/{}".format(number), True

    def close(self) -> None:
        """Leaves it to the process."""
        if self.is_open:
            os.close(self.number)
        self.is_open = False


@contextlib.contextmanager
def passed_on(tape: bytes | bytearray) -> Iterator[tuple[Passed, Callable[[], None]]]:
    """A file that has a tape for one process, and what gives it the tape. Nothing is kept on a disk."""
    reads, writes = os.pipe()
    file = Passed(reads)

    def give() -> None:
        """Gives it all, and waits for a process that reads, if it is long. (If that has ended, its status says why.)"""
        with contextlib.suppress(Fault):
            write(tape, writes)
        os.close(writes)

    try:
        yield file, give
    finally:
        file.close()


def bytes_of(text: str) -> bytes:
    """The bytes of a text as the debugger shows it."""
    front, *rest = text.encode("utf-8", "surrogateescape").split(b"\\x")
    return front + b"".join(bytes((int(part[:2], 16),)) + part[2:] for part in rest)
