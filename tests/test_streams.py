"""The tools, by streams that are closed, full, folders or taken in parts, by names that a terminal would obey, and by
signals at any moment: they end with a status of docs/running.md, never with a traceback, say nothing but printable
text, and leave nothing in the folder for temporary files."""
from __future__ import annotations

import contextlib
import fcntl
import itertools
import os
import pathlib
import pty
import random
import re
import resource
import select
import shutil
import signal
import subprocess
import sys
import tempfile
import time
from collections.abc import Sequence
from typing import Any

from support.cases import TOP, Case, Process, Word, each, patience, scratch, tests
from support.terminals import at_terminal, ending_of
from support.unseen import SIGNS

HELLO = b"#(ps,(Hello, world.\n))'"
# The documented statuses; a signal that ended it is no status.
STATUSES = {0, 1, 2, 3, 4, 5, 6, 7, 8, 70}
# What is tried: its words, of which FILE stands for a program.
TOOLS = {"run": ["trac", "run"], "debug": ["trac", "debug", "FILE"], "walk": ["trac", "walk", "FILE"],
         "lint": ["trac", "lint", "FILE"], "play": ["trac", "play", "FILE"], "page": ["trac", "page", "FILE"],
         "course": ["trac", "course"], "lesson": ["trac", "course", "1"],
         "check": ["trac", "course", "check", "1.1", "FILE"], "play-help": ["trac", "play", "--help"],
         "page-version": ["trac", "page", "--version"], "help": ["trac", "--help"], "version": ["trac", "--version"],
         "run-help": ["trac", "run", "--help"], "walk-help": ["trac", "walk", "--help"],
         "lint-help": ["trac", "lint", "--help"], "course-help": ["trac", "course", "--help"]}
# Which are written in Python.
PYTHON = ("play", "page", "course")
IN_PYTHON = [name for name, words in TOOLS.items() if words[1] in PYTHON]
# What a tool is given to print something: on standard input, and as FILE, if that is to be another program. Each but
# trac lint then ends with 0, or if it is to check an exercise, with 1.
INPUTS = {"run": HELLO, "walk": b"s 3\np\nq\n", "debug": b"s 3\np\nq\n"}
FILES = {"lint": b"#(ps,Hello, world)'"}
# Which read standard input.
READ = [words for words in TOOLS.values()
        if words[1] in INPUTS and words[-1] != "--help" or words[1:] == ["play", "FILE"]]
# Bytes that a terminal obeys, turns around or does not show: escape sequences, bells, controls of one byte and all in
# UTF-8, and signs that nobody sees.
C1 = "".join(map(chr, range(0x80, 0xa0)))
MARKS = "".join(SIGNS)
HOSTILE = (b"\x1b[31m", b"\x1b]52;c;aGk=\x07", b"\x07", b"\x08\x08", b"\r", b"\n", C1.encode(), b"\x9b", b"\xff\xfe",
           b"\x7f", MARKS.encode(), b"\\x41[b]", "\u00e9".encode())
# The number by which Linux is told the size of a pipe (Python has its name from 3.10 on).
PIPE_SIZE = 1031


def command(words: Sequence[str], file: Word, folder: pathlib.Path = TOP) -> list[Word]:
    """The words of a command line."""
    return [folder / words[0], *(file if word == "FILE" else word for word in words[1:])]


def said(words: list[Word], redirections: str, **more: Any) -> subprocess.CompletedProcess[bytes]:
    """How a command ended that a shell begins with these redirections, and what it said."""
    line = 'exec "$@" ' + redirections
    return subprocess.run(["bash", "-c", line, "-", *words], stderr=subprocess.PIPE, timeout=patience(60), **more)


# How each standard stream may be; the first is as usual. (Standard error is not looked at where it is elsewhere.)
STREAMS = (('<"$INPUT"', "<&-", "0>/dev/null", "<."), (">/dev/null", ">&-", ">/dev/full", "1</dev/null"),
           ("", "2>&-", "2>/dev/full"))
USUAL = tuple(ways[0] for ways in STREAMS)
# How they may be too, each alone and all together: an input without end and without a line's, and folders.
RARE = (("</dev/full", *USUAL[1:]), (USUAL[0], "1<.", USUAL[2]), (*USUAL[:2], "2<."), ("</dev/full", "1<.", "2<."))
# The statuses of tools that read an input without end, where it is too long for them.
ENDLESS = {"run": {4}, "play": {4}, "debug": {8}, "walk": {3}}


def documented(words: list[str], streams: Sequence[str]) -> set[int]:
    """The statuses that a tool may end with where its streams are so."""
    reads, writes = (it == usual for it, usual in zip(streams[:2], USUAL))
    if words[1] == "lint":
        return {1 if words[-1] == "FILE" else 0} if writes else {2}
    # (of two faults it meets either first)
    unread = ENDLESS[words[1]] if streams[0] == RARE[0][0] and words in READ else {6}
    faults = (unread if words in READ and not reads else set()) | (set() if writes else {7})
    return faults or {1 if words[2:3] == ["check"] else 0}


def ways_of(words: list[str]) -> list[tuple[str, ...]]:
    """How the streams of a tool are tried."""
    return [*itertools.product(*STREAMS), *RARE]


def in_parts(words: Sequence[str], file: Word, pause: float, given: str | pathlib.Path = os.devnull,
             **more: Any) -> tuple[bytes, bytes, int]:
    """All that a tool writes to a pipe that takes a part at a time and does not wait, and how it ended."""
    ours, theirs = os.pipe()
    fcntl.fcntl(theirs, PIPE_SIZE, 4096)
    os.set_blocking(theirs, False)
    with open(given, "rb") as source:
        tool = Process(command(words, file), stdin=source, stdout=theirs, stderr=subprocess.PIPE, **more)
    os.close(theirs)
    parts: list[bytes] = []
    while not parts or parts[-1]:
        time.sleep(pause)
        if not select.select([ours], [], [], patience())[0]:
            tool.kill()
        parts.append(os.read(ours, 4096))
    os.close(ours)
    _, errors = tool.communicate(timeout=patience())
    return b"".join(parts), errors, tool.returncode


# A tool with much to write, by its standard input and FILE: a form that is printed or shown many times, many doubts.
MUCH = b"#(ds,F,(%s))'" % (b"y" * 10000) + 30 * b"#(ps,##(cl,F))'"
MUCH_SAID = {"run": (MUCH, b""), "walk": (b"s 99\n" + 30 * b"f F\n", MUCH),
             "debug": (b"s 999999999\n" + 9 * b"p\n", MUCH), "lint": (b"", 900 * b"#(ps,Hello, world)'\n")}


# What may stand in a text that is shown to a person: of lines that an editor reads, letters of all scripts too.
PRINTABLE, LEGIBLE = re.compile(r"[ -~\n]*"), re.compile(r"[ -~\n\u00e9]*")


# Where a word may stand in a command line.
WORDED = [line.split() for line in """
    trac page WORD
    trac page --step WORD x
    trac page x WORD
    trac page --WORD x
    trac page --input WORD FILE
    trac page --decimals WORD FILE
    trac page --to WORD FILE
    trac play --WORD
    trac play x WORD
    trac course WORD
    trac course 1.WORD
    trac course hint WORD
    trac course check 1.1 WORD
    trac course --WORD
    install --remove WORD
    install WORD x
    install -WORD
    build WORD
    check WORD
    check -k WORD
    check -k WORD -WORD
    check --edits WORD
    trac WORD
    trac walkWORD
    trac --WORD
    trac run WORD
    trac run --budget WORD
    trac run --decimals=WORD
    trac run --memory=WORD
    trac debug FILE WORD
    trac debug -WORD
    trac help WORD
    trac walk -WORD
    trac walk FILE WORD
    trac walk --keep=WORD FILE
    trac walk x --WORD
    trac lint --WORD
    trac lint --steps WORD FILE
    trac lint -WORD FILE
    trac lint --input WORD FILE
""".strip().split("\n")]


def commanded(words: list[str]) -> str:
    """Which command a word is tried with: its name, or that of the script."""
    return words[1] if words[0] == "trac" and words[1].isalpha() and words[1].islower() else words[0]


def seen_until(pid: int, terminal: int, seconds: float, seen: list[bytes]) -> int | None:
    """Takes what is seen at a pseudo-terminal for so long, or until the process at it has ended; returns how it
    ended, if it has."""
    end = time.monotonic() + seconds
    while time.monotonic() < end:
        if select.select([terminal], [], [], 0.02)[0]:
            try:
                seen.append(os.read(terminal, 65536))
            except OSError:
                time.sleep(0.02)
        ended, status = os.waitpid(pid, os.WNOHANG)
        if ended:
            # (the last of what it wrote may still be in the terminal)
            while select.select([terminal], [], [], 0.05)[0]:
                try:
                    seen.append(os.read(terminal, 65536))
                except OSError:
                    break
            return os.waitstatus_to_exitcode(status)
    return None


def at_work(process: int) -> str | None:
    """The program that a process has begun, once that has taken a tenth of a second of a processor; else none."""
    with contextlib.suppress(OSError):
        with open("/proc/{0}/task/{0}/children".format(process)) as file:
            begun = file.read().split()
        for it in begun:
            name, fields = state_of(it)
            if name.endswith("(trac") and int(fields[11]) >= 10:
                return it
    return None


def state_of(process: int | str) -> tuple[str, list[str]]:
    """What the system says of a process: its name, and fields, of which the first is Z or X where it has ended."""
    try:
        with open("/proc/{}/stat".format(process)) as file:
            name, _, fields = file.read().rpartition(") ")
        return name, fields.split()
    except OSError:
        return "", ["X"]


# A Python in the place of python3, which meets a fault where it begins a tool.
FAULTY = """#!/bin/sh
exec {} -ISB -c '
import runpy, sys

class Finder:
    def find_spec(self, name, *_):
        if name == "argparse":
            raise {}

sys.meta_path.insert(0, Finder())
sys.argv[:2] = []
runpy.run_path(sys.argv[0], run_name="__main__")
' "$@"
"""

# A Python in the place of python3 that says that it is of another version.
OLDER = """#!/bin/sh
exec {} -ISB -c '
import runpy, sys

sys.version_info = (3, 7, 16)
sys.argv[:2] = []
runpy.run_path(sys.argv[0], run_name="__main__")
' "$@"
"""


def keys_seen(keys: bytes, room: pathlib.Path) -> tuple[bytes, int]:
    """What a walk shows at a pseudo-terminal where these keys are pressed at its first prompt, and then `q` on a
    line alone; and how it ends."""
    pid, terminal = pty.fork()
    if pid == 0:
        os.chdir(room)
        os.environ.update(TERM="dumb", VISUAL="touch edited; true", EDITOR="touch edited; true")
        os.execv(TOP / "trac", ("trac", "walk", TOP / "programs" / "examples" / "first.trac"))
    seen, steps = b"", [keys, b"\x15", b"q\n"]
    while True:
        if not select.select([terminal], [], [], 1 if b"> " in seen else 60)[0]:
            if not steps:
                break
            os.write(terminal, steps.pop(0))
            continue
        try:
            data = os.read(terminal, 4096)
        except OSError:
            break
        if not data:
            break
        seen += data
    return seen, ending_of(pid, terminal)


# Keys that a line editor of a shell would obey.
KEYS = {"edit": b"touch ran\x18\x05", "list": b"p \t\t\x1b?", "expand": b"$(touch ran)\x1b\x05", "glob": b"*\x18*\x1bg",
        "search": b"\x12A\x18\\"}
# Tools that say something of names, and those that take a while.
OF_NAMES = {**{name: TOOLS[name] for name in ("play", "page", "check", "debug", "walk", "lint")},
            "lint-input": ["trac", "lint", "--input", "FILE", "FILE"]}
SLOW = (TOOLS["play"], TOOLS["page"], ["trac", "course", "check", "5.1", "FILE"], TOOLS["walk"])
SIGNALS = "SIGTERM", "SIGHUP", "SIGINT", "SIGQUIT"
# Where the system gives less than a tool would take: of memory, though nobody may raise that bound, and no thread. And
# where whoever begins it leaves it more open files than select takes.
BOUNDS = (("ulimit -v 900000", TOOLS["check"], 1), ("ulimit -v 900000", TOOLS["play"], 0),
          ("ulimit -v 900000", TOOLS["page"], 0), ("ulimit -s 4000000; ulimit -v 2000000", TOOLS["play"], 5),
          ('ulimit -n 4096; for it in {3..1100}; do eval "exec $it</dev/null"; done', TOOLS["check"], 1))
# Less memory than Python begins with: it would end in its own words, or never.
NARROW = "ulimit -v 9000", "ulimit -v 13500", "ulimit -d 4000"
# By each fault as Python begins, the status of the tool.
FAULTS = {"MemoryError": 5, "ImportError": 70, "SystemError": 70}


# How a terminal may stand for a stream that cannot be used so, and the statuses of tools then.
ONE_WAY = {"0>/dev/tty": {"run": 6, "walk": 6, "debug": 6, "play": 6},
           "1</dev/tty": {"run": 7, "walk": 7, "debug": 7, "play": 7, "course": 7, "check": 7, "help": 7, "lint": 2}}
# A program that prints nothing before it asks.
ASKS = b"#(ps,#(rs))'"


@tests
class Streams(Case):
    """Each tool, by each of them."""

    seconds = 3

    def setUp(self) -> None:
        """The files: of each tool its standard input and its FILE."""
        self.room = scratch(self)
        state = os.environ.get("XDG_STATE_HOME", "")
        os.environ["XDG_STATE_HOME"] = os.fspath(self.room / "state")
        self.addCleanup(os.environ.__setitem__, "XDG_STATE_HOME", state)
        self.file = self.room / "hello.trac"
        self.file.write_bytes(HELLO)
        for tool in {words[1] for words in TOOLS.values()}:
            (self.room / ("input-" + tool)).write_bytes(INPUTS.get(tool, b""))
            (self.room / ("file-" + tool)).write_bytes(FILES.get(tool, HELLO))

    def printed(self, words: Sequence[str]) -> bytes:
        """What a tool prints."""
        return subprocess.run(command(words, self.file), stdin=subprocess.DEVNULL, stdout=subprocess.PIPE,
                              check=False, timeout=patience()).stdout

    def ended(self, words: Sequence[Word], **more: Any) -> subprocess.CompletedProcess[bytes]:
        """How a command ended that has no input, and what it said."""
        return subprocess.run(words, stdin=subprocess.DEVNULL, capture_output=True, timeout=patience(), check=False,
                              **more)

    @each(TOOLS)
    def test(self, name: str) -> None:
        """A tool with its streams in each way."""
        words = TOOLS[name]
        environment = {**os.environ, "INPUT": os.fspath(self.room / ("input-" + words[1]))}
        for streams in ways_of(words):
            ended = said(command(words, self.room / ("file-" + words[1])), " ".join(streams), cwd=self.room,
                         env=environment)
            what = "{} {}".format(" ".join(words), " ".join(streams))
            wanted = documented(words, streams)
            self.holds("{}: status {}, and not {}".format(what, wanted, ended.returncode), ended.returncode in wanted)
            # (the status 1 of these two is said on standard output)
            lines = 0 if wanted <= {0, 1} or streams[2] else 1
            self.holds("{}: {} lines, and not {}".format(what, lines, ended.stderr),
                       re.fullmatch(b"([ -~]+\n){%d}" % lines, ended.stderr)
                       and b"Traceback" not in ended.stderr and b"Python" not in ended.stderr)

    @each(("page", "lesson"))
    def test_parts(self, name: str) -> None:
        """What a tool writes is whole, also to a pipe that does not wait, and where PYTHONUNBUFFERED is set."""
        words = TOOLS[name]
        whole = self.printed(words)
        environments: tuple[dict[str, Any], ...] = {}, {"env": {**os.environ, "PYTHONUNBUFFERED": "1"}}
        for more in environments:
            printed, errors, status = in_parts(words, self.file, 0.002, **more)
            self.holds("{}: {} bytes of {}, status {}, {}".format(words, len(printed), len(whole), status, errors),
                       printed == whole and status == 0)

    @each(MUCH_SAID)
    def test_fronts(self, name: str) -> None:
        """What a proved program writes to a pipe that does not wait is whole, or a beginning: then it says that the
        output cannot be written."""
        words, file, source = TOOLS[name], self.room / "much", self.room / "given"
        given, program = MUCH_SAID[name]
        file.write_bytes(program)
        source.write_bytes(given)
        with open(source, "rb") as it:
            whole = subprocess.run(command(words, file), stdin=it, stdout=subprocess.PIPE, check=False,
                                   timeout=patience())
        is_lint = name == "lint"
        self.holds("{} bytes, status {}".format(len(whole.stdout), whole.returncode),
                   len(whole.stdout) > 50000 and whole.returncode == is_lint)
        for pause in 0, 0.02:
            printed, errors, status = in_parts(words, file, pause, source)
            is_right = printed == whole.stdout and (status, errors) == (is_lint, b"")
            is_front = whole.stdout.startswith(printed) and status == (2 if is_lint else 7)
            self.holds("{}: {} bytes, status {}, {}".format(words, len(printed), status, errors),
                       is_right or is_front and errors.count(b"\n") == 1)

    def test_limits_of_files(self) -> None:
        """Where a file may have so many blocks of 1,024 bytes, a page is whole or the status is 7."""
        words = TOOLS["page"]
        whole = self.printed(words)
        most = len(whole) // 1024
        bound = 'ulimit -f "$1"; shift; place=$1; shift; exec "$@" >"$place"'
        for blocks in sorted({1, 40, most - 1, most, most + 1, *range(0, most + 2, most // 38)}):
            place = self.room / "bounded"
            environment = {**os.environ, "PYTHONUNBUFFERED": "1"} if blocks % 2 else os.environ
            tool = self.ended(["bash", "-c", bound, "-", str(blocks), place, *command(words, self.file)],
                              env=environment)
            kept = place.read_bytes()
            is_whole = len(whole) <= 1024 * blocks
            self.holds("under ulimit -f {}: {} bytes, {}".format(blocks, len(kept), tool),
                       kept == whole and tool.returncode == 0 if is_whole else tool.returncode == 7)

    @each(TOOLS)
    def test_no_room(self, name: str) -> None:
        """A tool whose output is a file that takes nothing."""
        words, place = TOOLS[name], self.room / "none"
        source, file = (self.room / (front + words[1]) for front in ("input-", "file-"))
        line = 'ulimit -f 0; source=$1 place=$2; shift 2; exec "$@" <"$source" >"$place"'
        ended = self.ended(["bash", "-c", line, "-", source, place, *command(words, file)])
        self.holds("under ulimit -f 0: {}".format(ended), ended.returncode in documented(words, (USUAL[0], "full"))
                   and re.fullmatch(rb"[ -~]+\n", ended.stderr) and place.stat().st_size == 0)

    @each(TOOLS)
    def test_unread(self, name: str) -> None:
        """A tool whose output nobody reads."""
        words = TOOLS[name]
        source, file = (self.room / (front + words[1]) for front in ("input-", "file-"))
        ours, theirs = os.pipe()
        os.close(ours)
        with open(source, "rb") as given:
            ended = subprocess.run(command(words, file), stdin=given, stdout=theirs, stderr=subprocess.PIPE,
                                   timeout=patience(60), check=False)
        os.close(theirs)
        self.holds("where nobody reads: {}".format(ended), ended.returncode in documented(words, (USUAL[0], "unread"))
                   and re.fullmatch(rb"([ -~]+\n)?", ended.stderr))

    @each(OF_NAMES)
    def test_names(self, name: str) -> None:
        """What a tool says of a name, of a file that is there and of one that is not, has no byte but printable
        text."""
        words = OF_NAMES[name]
        for hostile in HOSTILE:
            place = os.path.join(os.fsencode(self.room), b"names", hostile.replace(b"/", b""))
            os.makedirs(os.path.dirname(place), exist_ok=True)
            with open(place, "wb") as out:
                # (trac lint names a file that it doubts)
                out.write(HELLO + b"#(pr)'")
            for path in place, place + b".none":
                self.check_name(words, self.ended(command(words, path), env={**os.environ, "PYTHONUTF8": "1"}))

    def check_name(self, words: list[str], ended: subprocess.CompletedProcess[bytes]) -> None:
        """What a tool said."""
        errors, text = (told.decode("utf-8", "replace") for told in (ended.stderr, ended.stdout))
        # (a page has the name as its title)
        wanted = LEGIBLE if words[1] == "lint" else PRINTABLE
        self.holds("it is printable: {}".format(ended), PRINTABLE.fullmatch(errors) and (
            words[1] == "page" or wanted.fullmatch(text)))
        self.holds("it is no fault: {}".format(ended),
                   ended.returncode in STATUSES and "Traceback" not in text + errors)
        hostile_page = words[1] == "page" and re.search("[\x00-\x08\x0b-\x1f\x7f" + C1 + MARKS + "]", text)
        self.holds("no page has such bytes: {}".format(ended.args), not hostile_page)

    @each(sorted(set(map(commanded, WORDED))))
    def test_words(self, name: str) -> None:
        """What a tool says of a word."""
        for words in [words for words in WORDED if commanded(words) == name]:
            is_proved = words[0] == "trac" and words[1] not in PYTHON
            for word in HOSTILE if is_proved else HOSTILE[:7:2] + HOSTILE[-3:]:
                whole = [os.fsencode(part).replace(b"WORD", word.replace(b"/", b""))
                         for part in command(words, self.file)]
                ended = self.ended(whole, cwd=self.room)
                text = ended.stderr + (b"" if ended.stdout.startswith(b"<!DOCTYPE") else ended.stdout)
                self.holds("{}: {}".format(whole, text), not re.search(rb"[^ -~\n]", text) and b"Traceback" not in text)
                self.holds("{}: status {}".format(whole, ended.returncode), ended.returncode in STATUSES)

    @each(SIGNALS)
    def test_signal(self, name: str) -> None:
        """A signal after a random time ends a tool at a pseudo-terminal, and nothing is left behind."""
        self.file.write_bytes(b"#(ds,L,(#(cl,L)))'#(ps,<#(rs)>)#(cl,L)'")
        chance = random.Random(83)
        for words in SLOW:
            for _ in range(3):
                self.check_signal(words, signal.Signals[name], chance.uniform(0.02, 0.8), chance.choice((b"", b"x'\n")))

    def check_signal(self, words: list[str], number: signal.Signals, after: float, typed: bytes) -> None:
        """A signal after so many seconds."""
        room = tempfile.mkdtemp(dir=self.room)
        pid, terminal = pty.fork()
        if pid == 0:
            os.environ.update(TMPDIR=room, TERM="dumb")
            signal.signal(number, signal.SIG_DFL)
            # (of what a signal ends no core is kept)
            resource.setrlimit(resource.RLIMIT_CORE, (0, 0))
            line = 'exec "$@" >/dev/null' if words[1] == "page" else 'exec "$@"'
            os.execvp("bash", ("bash", "-c", line, "-", *command(words, self.file)))
        os.write(terminal, typed)
        seen: list[bytes] = []
        status = seen_until(pid, terminal, after, seen)
        # (a Ctrl-C while Python begins is passed over; and bash, which begins it, passes over each Ctrl-\\)
        turns = 40 if number in (signal.SIGINT, signal.SIGQUIT) else 1
        for _ in range(turns):
            if status is None:
                os.kill(pid, number)
                status = seen_until(pid, terminal, 20 / turns, seen)
        if status is None:
            os.kill(pid, signal.SIGKILL)
            os.waitpid(pid, 0)
        os.close(terminal)
        what = "{} after {:.2f} s of {}".format(number.name, after, " ".join(words))
        # (it may have ended before)
        self.holds("{}: status {}".format(what, status), status in {-number, 128 + number} | STATUSES)
        text = b"".join(seen)
        self.holds("{}: {}".format(what, text), b"Traceback" not in text and b"KeyboardInterrupt" not in text)
        self.holds("{}: it leaves {}".format(what, os.listdir(room)), os.listdir(room) == [])

    @each(TOOLS)
    def test_folder_for_temporary_files(self, name: str) -> None:
        """One that is not there, or cannot be written, is of no use and does no harm."""
        words = command(TOOLS[name], self.file)
        wanted = self.ended(words)
        for place in "/nowhere", "/proc":
            ended = self.ended(words, env={**os.environ, "TMPDIR": place})
            self.holds("TMPDIR={}: {}".format(place, ended),
                       (ended.returncode, ended.stdout) == (wanted.returncode, wanted.stdout))

    @each("{}-{}".format(name, "read" if way[0] == "0" else "written") for way, wanted in ONE_WAY.items()
          for name in wanted)
    def test_terminals_of_one_way(self, case: str) -> None:
        """Where a terminal stands for a stream and was not opened so, that is a fault as of any stream."""
        name, deed = case.rsplit("-", 1)
        way = next(way for way in ONE_WAY if (way[0] == "0") == (deed == "read"))
        file = self.room / "asks.trac"
        file.write_bytes(FILES.get(name, ASKS))
        # (a run reads what it is to print; a debugger prints no prompt)
        given = {"run": b"A'", "debug": b"p\n"}.get(name, b"")
        source = self.room / "given"
        source.write_bytes(given)
        line = 'exec "$@" ' + ('<"$SOURCE" ' if given and deed == "written" else "") + way
        seen, status = at_terminal(["/bin/bash", "-c", line, "-", *command(TOOLS[name], file)], [],
                                   SOURCE=os.fspath(source))
        self.holds("{} {}: status {}, {}".format(name, way, status, seen), status == ONE_WAY[way][name])
        self.holds("one line says it: " + seen, re.fullmatch("([ -~]+\n)+", seen) and "Traceback" not in seen)

    def test_closed_input_as_file(self) -> None:
        """Where FILE is a standard input that is closed, it cannot be read."""
        rows = [words for words in TOOLS.values() if words[-1] == "FILE"]
        for words in [*rows, ["trac", "page", "--input", "FILE", os.fspath(self.file)]]:
            for name in "/dev/stdin", "/dev/fd/0":
                ended = said(command(words, name), "<&- >/dev/null")
                # (a walk says first which FILE that is)
                self.holds("{} of {}: {}".format(words, name, ended),
                           ended.returncode == (2 if words[1] == "lint" else 6)
                           and ended.stderr.count(b"\n") == (2 if words[1] == "walk" else 1))

    def test_interrupted_check(self) -> None:
        """A check of a program that says nothing and hardly ends is ended by Ctrl-C, and so is the program."""
        # (of each 1,000 of its steps some 200 copy 1 MB: all that a check takes would last for minutes)
        self.file.write_bytes(b"#(ds,D,(%s))'#(ds,L,(#(ds,E,##(cl,D))#(cl,L)))'#(cl,L)'" % (b"y" * 1000000))
        words: list[Word] = ["env", "--default-signal=INT", TOP / "trac", "course", "check", "5.1", self.file]
        with subprocess.Popen(words, stdout=subprocess.DEVNULL, stderr=subprocess.PIPE) as tool:
            end, runs = time.monotonic() + patience(30), None
            while not runs and time.monotonic() < end:
                time.sleep(0.02)
                runs = at_work(tool.pid)
            self.holds("a check runs the program", runs)
            tool.send_signal(signal.SIGINT)
            errors = tool.communicate(timeout=patience())[1]
        self.holds("it ends with status {}, {}".format(tool.returncode, errors),
                   (tool.returncode, errors) == (-signal.SIGINT, b""))
        end = time.monotonic() + patience()
        while runs and state_of(runs)[1][0] not in "XZ" and time.monotonic() < end:
            time.sleep(0.02)
        self.holds("the program ends too", runs and state_of(runs)[1][0] in "XZ")

    def test_check_through_a_pipe(self) -> None:
        """A check takes a program that comes through a pipe once."""
        pipe = self.room / "pipe"
        os.mkfifo(pipe)
        with subprocess.Popen([TOP / "trac", "course", "check", "3.1", pipe], stdout=subprocess.PIPE) as tool:
            pipe.write_bytes(b"#(ds,address,(Hello, world))'")
            text = tool.communicate(timeout=patience())[0]
        self.holds("status {}: {}".format(tool.returncode, text), tool.returncode == 1 and b"is printed" in text)

    def test_bounds_of_the_system(self) -> None:
        as_all: list[Word] = []
        if os.geteuid() == 0 and shutil.which("setpriv"):
            as_all = ["setpriv", "--bounding-set=-sys_resource"]
        for bounds, words, wanted in BOUNDS:
            ended = self.ended(["bash", "-c", bounds + ' && exec "$@"', "-", *as_all, *command(words, self.file)])
            self.holds("{}: {}".format(bounds, ended), ended.returncode == wanted and b"Traceback" not in ended.stderr)

    @each(IN_PYTHON)
    def test_narrow(self, name: str) -> None:
        """Where the system gives less memory than Python begins with, nothing but that is said."""
        words = TOOLS[name]
        told = "trac: there is no memory for trac {}\n".format(words[1]).encode()
        for bound in NARROW:
            ended = self.ended(["bash", "-c", bound + ' && exec "$@"', "-", *command(words, self.file)])
            self.holds("{}: {}".format(bound, ended), (ended.returncode, ended.stderr) == (5, told))

    def test_narrow_walk(self) -> None:
        """A walk at a terminal goes on without Python there."""
        words: list[Word] = ["/bin/bash", "-c", NARROW[0] + ' && exec "$@"', "-", *command(TOOLS["walk"], self.file)]
        seen, status = at_terminal(words, ["s 3\n", "q\n"])
        self.holds("{}: {}".format(status, ascii(seen)), status == 0 and "0> " in seen and "3> " in seen)

    @each(IN_PYTHON)
    def test_beginnings(self, name: str) -> None:
        """Where Python finds no memory for what the tool needs, or does not have it, nothing but that is said."""
        python = self.room / "python3"
        for fault, wanted in FAULTS.items():
            python.write_text(FAULTY.format(sys.executable, fault), encoding="utf-8")
            python.chmod(0o755)
            ended = self.ended(command(TOOLS[name], self.file),
                               env={**os.environ, "PATH": "{}:{}".format(self.room, os.environ["PATH"])})
            self.holds("{}: {}".format(fault, ended),
                       ended.returncode == wanted and ended.stderr.count(b"\n") == 1)

    @each(IN_PYTHON)
    def test_older_python(self, name: str) -> None:
        """Where Python is too old for the tools, nothing but that is said."""
        python = self.room / "python3"
        python.write_text(OLDER.format(sys.executable), encoding="utf-8")
        python.chmod(0o755)
        ended = self.ended(command(TOOLS[name], self.file),
                           env={**os.environ, "PATH": "{}:{}".format(self.room, os.environ["PATH"])})
        self.holds("{}".format(ended), ended.returncode == 70 and ended.stdout == b""
                   and re.fullmatch(rb"trac [a-z]+: it takes Python 3\.8 or later\n", ended.stderr))

    @each(KEYS)
    def test_keys(self, name: str) -> None:
        """No key at the prompt of a walk runs a command, lists files, or ends the walk."""
        place = self.room / "here"
        place.mkdir()
        (place / "a-file-that-is-here").touch()
        seen, status = keys_seen(KEYS[name], place)
        self.holds("a walk begins, and ends with {}: {}".format(status, seen), b"0> " in seen and status == 0)
        self.holds("a command was run: {}".format(os.listdir(place)), os.listdir(place) == ["a-file-that-is-here"])
        self.holds("files are listed: {}".format(seen), b"a-file-that-is-here" not in seen)


class FirstStarts(Case):
    """Of a copy of the checkout: first starts in hostile surroundings, and programs that were damaged."""

    suite = "first-starts"

    def setUp(self) -> None:
        self.room = scratch(self)
        self.folder = self.room / "a\\b\nc \x1b[1m"
        self.folder.mkdir()
        for name in "crates", "release", "python", "tools":
            (self.folder / name).symlink_to(TOP / name)
        for name in "crates.txt", "trac":
            shutil.copy(TOP / name, self.folder)
        self.file = self.folder / "hello.trac"
        self.file.write_bytes(HELLO)
        self.made = self.folder / "out" / "trac"

    def begin(self, words: list[str], given: bytes, **environment: str) -> subprocess.CompletedProcess[bytes]:
        """How a command of the copy ended."""
        return subprocess.run(command(words, self.file, self.folder), input=given, capture_output=True, check=False,
                              timeout=patience(), env={**os.environ, "PATH": "/usr/bin:/bin", **environment})

    def runs(self, what: str, **environment: str) -> None:
        """A start, which says nothing but printable text."""
        ended = self.begin(["trac", "run"], HELLO, **environment)
        self.holds("{}: {}".format(what, ended), (ended.returncode, ended.stdout) == (0, b"Hello, world.\n"))
        self.holds("{}: {}".format(what, ended.stderr), not re.search(rb"[^ -~\n]", ended.stderr))

    def test_options_of_the_unpackers(self) -> None:
        self.runs("they are of no use", XZ_DEFAULTS="--format=lzma", XZ_OPT="--nothing", TAR_OPTIONS="--nothing")

    def test_no_folder_that_others_may_write(self) -> None:
        """A folder in which a program is unpacked is nobody else's, whatever the umask."""
        stand_in = self.room / "stand-in"
        stand_in.mkdir()
        (stand_in / "tar").write_text('#!/bin/sh\nstat -c %a . >"${0%/*}/mode"\nexec /bin/tar "$@"\n', "ascii")
        (stand_in / "tar").chmod(0o755)
        before = os.umask(0)
        try:
            self.runs("a umask of 0", PATH="{}:/usr/bin:/bin".format(stand_in))
        finally:
            os.umask(before)
        self.same("the folder's mode", (stand_in / "mode").read_text("ascii"), "700\n")
        there = [self.made.parent, *self.made.parent.iterdir()]
        open_to_all = [place.name for place in there if place.stat().st_mode & 0o022]
        self.holds("others may write {} of {}".format(open_to_all, len(there)), len(there) == 4 and not open_to_all)

    def test_umask_and_options_of_the_shell(self) -> None:
        """Whatever the umask, all may read the programs; and no option that SHELLOPTS sets is of use."""
        before = os.umask(0o077)
        try:
            self.runs("a umask of 077, and options", SHELLOPTS="noglob:noclobber:posix")
        finally:
            os.umask(before)
        wanted = {self.made.parent: 0o755, self.made: 0o755, self.made.with_name("trac-walk"): 0o755,
                  self.made.with_name("made.txt"): 0o644}
        modes = {place: place.stat().st_mode & 0o777 for place in wanted}
        self.holds("their modes: {}".format(modes), modes == wanted)
        self.runs("a later start", SHELLOPTS="noglob")

    def test_damaged_programs(self) -> None:
        self.runs("a first start")
        for damage in b"echo damaged\n", b"", b"\x7fELF":
            self.made.write_bytes(damage)
            self.runs("a program that is {!r}".format(damage))

    def test_folder_of_a_hostile_name(self) -> None:
        for words in TOOLS["lint"], TOOLS["play"], ["trac", "page", "--step", "5", "FILE"]:
            ended = self.begin(words, b"")
            self.holds("{}: {}".format(words, ended.stderr), ended.returncode == 0)
