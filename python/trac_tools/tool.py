"""What the tools have in common: how they begin and end, where programs stand, what they read and write, and how they
show a name."""
from __future__ import annotations

import argparse
import contextlib
import errno
import fcntl
import os
import re
import select
import signal
import subprocess
import sys
import threading
from collections.abc import Callable, Sequence

# What is for those alone that look at types: no tool takes the time for it.
TYPE_CHECKING = False
if TYPE_CHECKING:
    from typing import IO, Any, NoReturn

    class Process(subprocess.Popen[bytes]):
        """A process that was begun. Those of its streams that are used are pipes."""

        stdin: IO[bytes]
        stdout: IO[bytes]
        stderr: IO[bytes]
else:
    Process = subprocess.Popen

# The most bytes of FILE that the programs take.
TAPE = 33_554_432
# What the system says where there is too little of something for now.
SCARCE = (errno.ENOMEM, errno.EAGAIN, errno.EMFILE, errno.ENFILE)
# How the debugger shows each byte of a text.
SIGNS = [chr(byte) if 32 <= byte <= 126 and chr(byte) not in "\\[]" else "\\x{:02x}".format(byte)
         for byte in range(256)]
# Signs that nobody sees, though Python would print some: they have no shape and make no room, turn the direction of
# others, or end a line. The list also stands in crates/trac_person_lines/src/unseen.rt, web/unseen.js and
# node/names.js: tests/test_unseen.py compares them.
UNSEEN = re.compile(
    "["
    "\u00ad\u034f\u061c\u115f-\u1160\u17b4-\u17b5\u180b-\u180f\u200b-\u200f\u2028-\u202e\u2060-\u206f"
    "\u3164\ufeff\uffa0\ufff0-\ufffb\U0001bca0-\U0001bca3\U0001d173-\U0001d17a\U000e0000-\U000e0fff"
    "]"
)
# The processes that were begun, of which none goes on when the tool ends.
begun: list[Process] = []


class Place:
    """Where this is: how the launcher was called, its file and folder, and the folder of the programs."""

    called = launcher = folder = programs = ""


def start(words: list[str]) -> None:
    """Takes what the launcher says of itself."""
    Place.called, Place.launcher, Place.programs = words
    Place.launcher = os.path.realpath(Place.launcher)
    Place.folder = os.path.dirname(Place.launcher)


def program(name: str) -> str:
    """Where a program stands."""
    return os.path.join(Place.programs, name)


def found(name: str, checkout: str, installed: str) -> str:
    """A file or folder: of a checkout, or as it is installed."""
    is_checkout = os.path.exists(os.path.join(Place.folder, "crates.txt"))
    place = os.path.join(Place.folder, *((checkout,) if is_checkout else ("..", installed)))
    if not os.access(place, os.R_OK):
        raise Fault("{} is missing: looked for {}".format(name, shown(place)), 70)
    return place


class Fault(Exception):
    """Why a tool does not go on, in words if there is anything to say, and its exit status."""

    def __init__(self, words: str, status: int = 1) -> None:
        super().__init__(words)
        self.status = status


class Stopped(BaseException):
    """A signal has come that ends the tool."""

    def __init__(self, number: int) -> None:
        super().__init__(number)
        self.number = number


def shown(text: str | bytes | bytearray) -> str:
    """Bytes, or a name or word of the command line, as the debugger shows a text."""
    return "".join(map(SIGNS.__getitem__, text if isinstance(text, (bytes, bytearray)) else os.fsencode(text)))


def printable(words: str) -> str:
    """Words with shown names in them: what a terminal might obey, or would not show, is shown as the debugger does."""
    return "".join(sign if " " <= sign <= "~" or sign == "\n" else shown(sign.encode("utf-8", "surrogateescape"))
                   for sign in words)


def is_seen(sign: str) -> bool:
    """Whether a sign is seen by who reads it. (Blanks but the usual one, and what Python does not know, count as not
    seen.)"""
    return sign.isprintable() and not UNSEEN.match(sign)


def legible(words: str) -> str:
    """The same for what a reader is to copy, or sees in a page: letters of all scripts stand as themselves."""
    return "".join(sign if is_seen(sign) else shown(sign.encode("utf-8", "surrogateescape")) for sign in words)


def ready(reads: list[int], writes: list[int], seconds: float | None = None) -> tuple[list[int], list[int]]:
    """Which of these streams can be read, and which written: once one can be, or after so many seconds. (Other than
    select, poll takes a number of any size.)"""
    poll = select.poll()
    for stream in reads:
        poll.register(stream, select.POLLIN)
    for stream in writes:
        poll.register(stream, select.POLLOUT)
    found = {stream for stream, _ in poll.poll(None if seconds is None else 1000 * seconds)}
    return [it for it in reads if it in found], [it for it in writes if it in found]


def is_opened(stream: int, way: int) -> bool:
    """Whether a stream was opened to be read (os.O_RDONLY) or written (os.O_WRONLY); a terminal, too, may be so in one
    way alone."""
    return fcntl.fcntl(stream, fcntl.F_GETFL) & (os.O_WRONLY | os.O_RDWR) in (way, os.O_RDWR)


def write(text: str | bytes | bytearray, to: int = 1) -> None:
    """Writes a whole text or bytes, also where a stream takes a part at a time. Where it takes no more, that is a fault
    of status 7: in no words, if only the reader is gone."""
    left = memoryview(text.encode("utf-8", "surrogateescape") if isinstance(text, str) else text)
    while left:
        try:
            left = left[os.write(to, left):]
        except BlockingIOError:
            ready([], [to])
        except BrokenPipeError:
            raise Fault("", 7)
        except OSError as fault:
            raise Fault("the output cannot be written: {}".format(fault.strerror), 7)


def tell(words: str, end: str = "\n") -> None:
    """Writes words to standard error. If they cannot be written there, there is nobody to say so to."""
    with contextlib.suppress(Fault):
        write(printable(words) + end, 2)


def begin(command: list[str], **how: Any) -> Process:
    """Begins a process, which ends with the tool."""
    try:
        process = Process(command, **how)
    except subprocess.SubprocessError:
        # (what is done there before the program begins fails only where it has no memory)
        raise MemoryError
    begun.append(process)
    return process


def beside(does: Callable[..., None], *words: object) -> threading.Thread:
    """Does something in a thread of its own, which ends with the tool."""
    thread = threading.Thread(target=does, args=words, daemon=True)
    try:
        thread.start()
    except RuntimeError:
        # (so Python says that the system has no thread to give)
        raise OSError(errno.EAGAIN, os.strerror(errno.EAGAIN))
    return thread


class Words(argparse.ArgumentParser):
    """A command line, of which no word reaches the terminal as it is."""

    # (nobody gives it a namespace)
    def parse_args(self, args: Sequence[str] | None = None,  # type: ignore[override]
                   namespace: argparse.Namespace | None = None) -> argparse.Namespace:
        chosen, others = self.parse_known_args(args, namespace)
        if others:
            self.error("unrecognized arguments: {}".format(" ".join(map(shown, others))))
        return chosen

    def error(self, message: str) -> NoReturn:
        tell("{}{}: error: {}".format(self.format_usage(), self.prog, message))
        raise Fault("", 2)

    def exit(self, status: int = 0, message: str | None = None) -> NoReturn:
        raise Fault(message or "", status)

    def _print_message(self, message: str, file: IO[str] | None = None) -> None:
        write(message, 2 if file is not None and file is sys.stderr else 1)


class Parser(argparse.ArgumentParser):
    """The same for a tool of who changes the code, which ends as Python does."""

    def _print_message(self, message: str, file: IO[str] | None = None) -> None:
        super()._print_message(printable(message), file)


def hold_streams() -> None:
    """Has each standard stream that is closed be one of which each use fails: else the next file would take its
    place. (It is the name of a folder alone: a device could be opened anew, as /dev/stdin.)"""
    for number in range(3):
        try:
            os.fstat(number)
        except OSError:
            place = os.open("/", os.O_PATH)
            if place != number:
                os.dup2(place, number)
                os.close(place)
    # (who asks for a line at a terminal wants one)
    sys.stderr = sys.stderr or open(os.devnull, "w")


def stop(number: int, _: object) -> None:
    """Takes a signal."""
    signal.signal(number, signal.SIG_IGN)
    raise Stopped(number)


def take_signals() -> None:
    """Has signals end the tool in its own way, but for those that whoever began it wants passed over. (Else one that
    comes at a prompt, as Ctrl-\\ does, would leave the terminal as the line editor has it.)"""
    for number in (signal.SIGINT, signal.SIGTERM, signal.SIGHUP, signal.SIGQUIT):
        if signal.getsignal(number) != signal.SIG_IGN:
            signal.signal(number, stop)


def status_of(name: str, main: Callable[[], int | None]) -> int:
    """Does what a tool does; returns its exit status."""
    try:
        return main() or 0
    except Fault as fault:
        if str(fault):
            tell("{}: {}".format(name, fault))
        return fault.status
    except MemoryError:
        tell("{}: there is no memory".format(name))
        return 5
    except OSError as fault:
        tell("{}: {}".format(name, fault.strerror or fault))
        return 5 if fault.errno in SCARCE else 70


def end(status: int) -> None:
    """Ends the tool, and what it has begun, with an exit status, or by the signal of which this is the negative."""
    for process in begun:
        if process.poll() is None:
            process.kill()
    if status < 0:
        with contextlib.suppress(OSError):
            signal.signal(-status, signal.SIG_DFL)
        os.kill(os.getpid(), -status)
    # (what Python would do at its end could fail anew, as a stream that is full)
    os._exit(status)


def run(name: str, main: Callable[[], int | None]) -> None:
    """Runs a tool from its beginning to its end. A signal may come at any moment of that."""
    status: int | None = None
    while True:
        try:
            if status is None:
                hold_streams()
                take_signals()
                status = status_of(name, main)
            end(status)
        except Stopped as stopped:
            status = -stopped.number


def read_file(name: str) -> bytes:
    """The bytes of FILE, which may be no file but a pipe."""
    try:
        with open(name, "rb") as file:
            tape = file.read(TAPE + 1)
    except OSError as fault:
        raise Fault("{}: {}".format(shown(name), fault.strerror), 6)
    except ValueError:
        raise Fault("{}: no name of a file".format(shown(name)), 6)
    if len(tape) > TAPE:
        raise Fault("{}: more than {:,} bytes".format(shown(name), TAPE), 4)
    return tape


class ShowVersion(argparse.Action):
    """An option that shows the version of the processor and ends the tool, whatever else the command line has."""

    def __init__(self, **more: Any) -> None:
        super().__init__(nargs=0, **more)

    def __call__(self, parser: argparse.ArgumentParser, *_: object) -> None:
        said = subprocess.run([program("trac"), "--version"], stdin=subprocess.DEVNULL, stdout=subprocess.PIPE)
        if said.returncode != 0:
            raise Fault("{} --version ended with status {}".format(shown(program("trac")), said.returncode), 70)
        write(said.stdout.decode("utf-8", "replace"))
        parser.exit()
