"""What the tests of tests/ share: a test with a name, its checks, of which each that fails is told, and runs of
programs.

A test is a `unittest.TestCase`, so `python3 -m unittest` runs it too; tests/run is the runner."""
from __future__ import annotations

import os
import pathlib
import selectors
import shlex
import subprocess
import sys
import tempfile
import unittest
from collections.abc import Callable, Iterable, Sequence
from types import FrameType
from typing import IO, Any, NamedTuple, Union

from support.differing import Place, difference

TOP = pathlib.Path(__file__).resolve().parent.parent.parent
TESTS = TOP / "tests"
# The stored programs with what is wanted of them, and the examples.
DATA, EXAMPLES = TESTS / "data", TOP / "programs" / "examples"
TRAC, WALK = TOP / "out" / "trac", TOP / "out" / "trac-walk"
# So many seconds a program may be silent, where a machine has no more to do than it has processors.
SILENCE = 60
# How many differences of a test are shown whole; how much is kept of what a program prints.
SHOWN, KEPT = 3, 1 << 26

# A word of a command, and a method that is a test.
Word = Union[str, bytes, pathlib.Path]
Method = Callable[..., None]


class Ran(NamedTuple):
    """What a run printed, what it wrote to standard error, its status, and the command."""

    output: bytes
    error: bytes
    status: int
    command: str


class Process(subprocess.Popen[bytes]):
    """A process. Those of its streams that are used are pipes."""

    stdin: IO[bytes]
    stdout: IO[bytes]
    stderr: IO[bytes]


class Silent(AssertionError):
    """A program said nothing for too long."""


def near(path: str | os.PathLike[str]) -> str:
    """A path from the top of the repository, where it is in that."""
    path = os.fspath(path)
    return os.path.relpath(path, TOP) if path.startswith(os.fspath(TOP) + "/") else path


def command_of(words: Iterable[Word]) -> str:
    """A command as one would type it at the top."""
    return " ".join(shlex.quote(near(os.fsdecode(word))) for word in words)


def ran(words: Sequence[Word], given: bytes | pathlib.Path = b"", piece: int | None = None,
        folder: str | os.PathLike[str] = TOP, **more: Any) -> Ran:
    """Runs a command to its end. What it is given is a file, or bytes in one; or, in pieces of so many bytes, a
    pipe."""
    words = [os.fspath(word) for word in words]
    with tempfile.TemporaryFile() as file:
        source: int | IO[bytes] = subprocess.PIPE if piece else file
        if isinstance(given, pathlib.Path):
            given = given.read_bytes()
        if not piece:
            file.write(given)
            file.seek(0)
        process = subprocess.Popen(words, stdin=source, stdout=subprocess.PIPE, stderr=subprocess.PIPE, cwd=folder,
                                   **more)
        with process:
            try:
                output, error = exchanged(process, given, piece or 0)
            except Silent as fault:
                process.kill()
                raise Silent("{}: {}".format(command_of(words), fault)) from None
            except BaseException:
                process.kill()
                raise
        return Ran(output, error, process.returncode, command_of(words))


def patience(seconds: float = SILENCE) -> float:
    """How many seconds a program may be silent now; or take, that may take so many where the machine has no more to
    do."""
    return seconds * max(1, os.getloadavg()[0] / len(os.sched_getaffinity(0)))


def exchanged(process: subprocess.Popen[bytes], given: bytes, piece: int) -> list[bytes]:
    """Gives a process its input in pieces, if it is to have it so, and takes what it writes; it must not be silent
    for long."""
    written, at = {stream: bytearray() for stream in (process.stdout, process.stderr) if stream}, 0
    with selectors.DefaultSelector() as ready:
        for stream in written:
            ready.register(stream, selectors.EVENT_READ, stream)
        if process.stdin:
            os.set_blocking(process.stdin.fileno(), False)
            ready.register(process.stdin, selectors.EVENT_WRITE, process.stdin)
        while ready.get_map():
            seconds = patience()
            events = ready.select(seconds)
            if not events:
                raise Silent("it was silent for {:.0f} seconds, and was ended".format(seconds))
            for key, _ in events:
                stream = key.data
                if stream is process.stdin:
                    at += put(stream, given[at:at + piece])
                    is_done = at >= len(given)
                else:
                    part = os.read(key.fd, 1 << 16)
                    written[stream] += part[:max(KEPT - len(written[stream]), 0)]
                    is_done = not part
                if is_done:
                    ready.unregister(stream)
                    stream.close()
    try:
        process.wait(patience())
    except subprocess.TimeoutExpired:
        raise Silent("it closed its streams, and did not end") from None
    return [bytes(text) for text in written.values()]


def put(stream: IO[bytes], piece: bytes) -> int:
    """Writes a piece; how many bytes are done with: all, where nobody reads any more."""
    try:
        return os.write(stream.fileno(), piece)
    except BrokenPipeError:
        return 1 << 62


class Case(unittest.TestCase):
    """A test. Its name is that of its suite, which is its module's if the class says nothing else, and after a dot
    its own."""

    suite: str | None = None
    # about how many seconds it takes, if these are many: the longest begin first
    seconds: float = 0
    # the browser that it takes, if any: it is begun once for many tests
    browser = ""
    # whether it takes the programs
    takes_programs = True

    def __init__(self, method: str = "runTest") -> None:
        super().__init__(method)
        self.held, self.failed, self.cut = 0, 0, 0
        self.faults: list[str] = []
        self.told: set[str] = set()

    @property
    def name(self) -> str:
        """Its name."""
        suite = self.suite or type(self).__module__.rsplit(".", 1)[-1].replace("test_", "", 1)
        method = getattr(type(self), self._testMethodName, None)
        own_name: str = getattr(method, "own_name", worded(self._testMethodName))
        return suite + "." + own_name

    def __str__(self) -> str:
        return self.name

    def tearDown(self) -> None:
        if self.cut:
            self.faults.append("{} more differences".format(self.cut))
        if self.faults:
            self.fail("\n".join(self.faults))

    def well(self) -> None:
        """Counts a check that held."""
        self.held += 1

    def bad(self, what: str, lines: Sequence[str] = ()) -> None:
        """Keeps what failed. The same difference is shown once."""
        what = "{} [{}:{}]".format(what, *self.where())
        text = "\n".join(lines)
        self.failed += 1
        if text and text in self.told:
            self.faults.append(what + ": the same difference")
        elif len(self.told) >= SHOWN and text:
            self.cut += 1
        else:
            self.faults.append("\n".join([what, text]) if text else what)
            if text:
                self.told.add(text)

    def where(self) -> tuple[str, int]:
        """The file and line of the test that is under way."""
        frame: FrameType | None = sys._getframe()
        found = near(sys.modules[type(self).__module__].__file__ or ""), 1
        while frame:
            file = os.path.basename(frame.f_code.co_filename)
            if file.startswith("test_"):
                found = near(os.path.realpath(frame.f_code.co_filename)), frame.f_lineno
            frame = frame.f_back
        return found

    def holds(self, what: str, holds: object) -> bool:
        """A check of anything."""
        if holds:
            self.well()
        else:
            self.bad("does not hold: " + what)
        return bool(holds)

    def same(self, what: str, got: str | bytes, wanted: str | bytes, place: Place | None = None,
             given: str = "given") -> None:
        """A check of a text: it is what was wanted, which stands there."""
        if got == wanted:
            self.well()
        else:
            got, wanted = (it.encode() if isinstance(it, str) else it for it in (got, wanted))
            self.bad(what, difference(wanted, got, place or Place(*self.where(), is_whole=True), given))

    def ends(self, what: str, run: Ran, output: bytes = b"", status: int = 0, error: bytes = b"",
             place: Place | None = None) -> None:
        """Checks of a run: how it ended, what it printed, and what it wrote to standard error."""
        what = "{}: {}".format(what, run.command) if what else run.command
        self.status(what, run, status)
        self.same(what, run.output, output, place, "printed")
        self.same(what + ": standard error", run.error, error, None, "written to standard error")

    def status(self, what: str, run: Ran, status: int) -> None:
        """A check of how a run ended."""
        if run.status == status:
            self.well()
        else:
            said = run.error[-300:].decode("utf-8", "replace")
            self.bad("{}: status {}, and not {}, with {!r} on standard error".format(what, run.status, status, said))


def worded(method: str) -> str:
    """The name of a method in the name of its test."""
    return method.replace("test_", "", 1).replace("_", "-")


def each(names: Iterable[str]) -> Callable[[Method], Method]:
    """Makes of a method that does something with a name a test of each of these names; it follows the method's own
    name, unless that is `test`."""

    def keep(method: Method) -> Method:
        setattr(method, "names", list(names))
        return method

    return keep


def tests(kind: type[Case]) -> type[Case]:
    """Gives a class of tests those that `each` asked for."""
    for name, method in list(vars(kind).items()):
        for it in getattr(method, "names", ()):
            def test(self: Case, method: Method = method, it: str = it) -> None:
                method(self, it)

            own_name = it if name == "test" else worded(name) + "-" + it
            setattr(test, "own_name", own_name)
            setattr(kind, "test_" + own_name, test)
        if hasattr(method, "names"):
            delattr(kind, name)
    return kind


def stems(folder: str | os.PathLike[str], ending: str = ".trac") -> list[str]:
    """The names of the files of a folder that have this ending, without it."""
    return sorted(file.name[:-len(ending)] for file in pathlib.Path(folder).iterdir() if file.name.endswith(ending))


def words_in(file: pathlib.Path) -> list[str]:
    """The words of a file, or none where it is not there."""
    return file.read_text(encoding="utf-8").split() if file.exists() else []


def bytes_in(file: pathlib.Path, default: bytes = b"") -> bytes:
    """What is in a file, or this where it is not there."""
    return file.read_bytes() if file.exists() else default


def lined(lines: Iterable[str]) -> bytes:
    """Lines, each with its end."""
    return "".join(line + "\n" for line in lines).encode()


def scratch(test: unittest.TestCase) -> pathlib.Path:
    """A folder that goes when the test ends."""
    folder = tempfile.TemporaryDirectory(prefix="trac-test-")
    test.addCleanup(folder.cleanup)
    return pathlib.Path(folder.name)
