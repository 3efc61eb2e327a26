"""Plays a program that asks: the program comes from FILE, and the answers from the terminal.

    trac play [--budget N] [--journal N] [--decimals BITS] [--memory SIZE] FILE

`trac run` runs it. What it is given is FILE, and then of each answer what the program reads. That is what `trac walk`
says, which goes through the program beside it and is fed each answer once: that the program waits, and for what; or
that it has ended, where the processor would read a text that FILE does not have, by itself and not by a call of the
program. (Only a line that is too long for a command of the walk has it go through the program anew. What `i` feeds ends
with a line end, so it cannot be fed in parts.)
"""
from __future__ import annotations

import argparse
import contextlib
import os
import re
import socket
import sys
import threading
from subprocess import PIPE

from trac_tools import lines
from trac_tools.dialogue import Debugger, NoMemory, bytes_of
from trac_tools.tool import (Fault, Process, ShowVersion, Words, begin, beside, is_opened, program, read_file, ready,
                             shown, tell, write)

# The most memory that the walk may take, where --memory does not say it. The system bounds it too: then with some
# room for the program itself, and for what the heap of the C library cannot use again.
MEMORY, ROOM = 1_073_741_824, 67_108_864
# A word of --memory, how many bytes each unit counts, and what it may say.
SIZE, UNITS = re.compile(r"\+?([0-9]{1,40})([KMG]?)", re.A | re.I), {"": 1, "K": 1 << 10, "M": 1 << 20, "G": 1 << 30}
LEAST, MOST = 1 << 20, 1 << 40
# The walk may keep steps of so many bytes of its memory: a fourth, as by itself it keeps 256 MiB.
KEPT = 4
# How many steps the idle program has before its read, from where nothing is to be done.
IDLE = 8
# How many steps the walk keeps: it forgets half of them at a time. So far it goes at once where it may pass the end of
# FILE, and so far elsewhere.
JOURNAL = 16_384
NEAR, FAR = JOURNAL // 2, 10_000_000
# The longest line that it takes.
COMMAND = 4_096
# What may stand after the last text of FILE, and is no text.
BLANKS = b" \t\r\n"
PROMPT, GOES_ON = "> ", ".. "
# What the walk says: where it stands; and of the state on one screen that the idle program waits, which is the meta
# character, and how much is not read. What stands after that is cut where there is much to count.
STANDS = re.compile("([0-9]+)  (.*)")
IDLE_LINES = ["begun   #(ps,", "begun   #(rs", "text    #(ps,#(rs[|]))"]
META = re.compile("forms .*, meta (.*), trace (?:on|off)")
COUNTS = re.compile("step +[0-9]+, back to [0-9]+; ([0-9]+) byte")
LOADED = "nothing is left: the idle program is loaded"
NOT_YET = "that was not printed up to here"
FORGOTTEN = "steps before "
REFUSED = "there is no memory for this"


class Place:
    """Where an input leads to."""

    def __init__(self, kind: str, read: int = 0, call: str = "", meta: bytes = b"'") -> None:
        # "waits" for more input, "ended", "stops" by itself, or "unknown"
        self.kind = kind
        # how many bytes are read by then, by which call it waits, and at which byte a text ends
        self.read, self.call, self.meta = read, call, meta


class Walk:
    """A walk through the program with all input so far: where it stands, what comes next there, and what is said."""

    def __init__(self, words: list[str], memory: str | None, tape: bytes) -> None:
        self.memory, allowed = bounds(memory)
        self.command = [program("trac-walk"), "--journal", str(JOURNAL), *allowed, *words]
        self.fed = bytearray(tape)
        self.at, self.next, self.read, self.meta = 0, "", 0, b"'"
        self.screen: list[str] = []
        self.debugger = Debugger(self.command, self.memory, self.fed)

    def move(self, command: str) -> str | None:
        """Carries out a command; returns what is said beside where the walk stands then; none where it is refused. (For
        want of memory that is a fault: the program may go on.)"""
        self.debugger.give(command + "\np\n")
        lines = [self.debugger.line()]
        while not (counts := COUNTS.match(lines[-1])):
            lines.append(self.debugger.line())
        meta = META.fullmatch(lines[-2])
        assert meta
        self.read, self.meta = len(self.fed) - int(counts[1]), bytes_of(meta[1])
        stands = [(place, where) for place, line in enumerate(lines) for where in [STANDS.match(line)] if where]
        if REFUSED in lines:
            raise NoMemory
        if not stands:
            return None
        place, where = stands[0]
        self.at, self.next, self.screen = int(where[1]), where[2], lines[place + 1:]
        return "\n".join(line for line in lines[:place] if not line.startswith(FORGOTTEN))

    def said(self, command: str) -> str:
        """The same of a command that is never refused."""
        said = self.move(command)
        assert said is not None
        return said

    def call(self) -> str:
        """The name of the call that comes next."""
        found = re.match(r"##?\((\w*)", self.next)
        assert found
        return found[1].lower()

    def feed(self, text: bytes) -> bool:
        """Feeds more input; whether it is taken. What is no line, is too long for a command, or for which this walk has
        no memory left, begins another walk, which goes as far."""
        self.fed += text
        command = 'i "{}"'.format("".join(map(quoted, text[:-1])))
        with contextlib.suppress(NoMemory):
            if text.endswith(b"\n") and len(command) <= COMMAND:
                return self.move(command) is not None
        self.debugger.end()
        self.debugger = Debugger(self.command, self.memory, self.fed)
        return not self.move("g {}".format(self.at))

    def is_idle(self) -> bool:
        """Whether the read that comes next is that of the idle program itself. The same state may be one before a call
        in tail position; but so few steps before it nothing was to be done. (Or the walk does not go back so far: from
        where it began, or where it keeps fewer steps.)"""
        if self.next != "#(rs)" or self.screen[:3] != IDLE_LINES:
            return False
        at = self.at
        self.move("b {}".format(IDLE))
        is_idle = self.at > at - IDLE or self.next == LOADED
        self.move("g {}".format(at))
        return is_idle

    def has_printed(self, count: int) -> bool:
        """Whether the program has printed more than so many bytes up to here. (Where there is no memory to look, nobody
        waits for them.)"""
        at = self.at
        try:
            said = self.said("w #{}".format(count + 1))
            if self.at != at:
                self.move("g {}".format(at))
        except NoMemory:
            return False
        return NOT_YET not in said


def bounds(memory: str | None) -> tuple[int, list[str]]:
    """What the system may give a walk of memory, and its own options for that, by the word of --memory, if there is
    one. (That `trac run` does not understand it is for that to say.)"""
    memory = memory or ""
    parts = SIZE.fullmatch(memory)
    size = int(parts[1]) * UNITS[parts[2].upper()] if parts else 0
    if not LEAST <= size <= MOST:
        return MEMORY, []
    return size + ROOM, ["--memory", memory, "--keep", str(max(size // KEPT // UNITS["M"], 1))]


def quoted(byte: int) -> str:
    """A byte of a line as the walk takes it in quotes."""
    return chr(byte) if 32 <= byte <= 126 and byte not in b'"\\' else "\\x{:02x}".format(byte)


class Look:
    """Looks where an input leads to, beside what runs. It goes on from where the input before has led to."""

    def __init__(self, words: list[str], memory: str | None, tape: bytes) -> None:
        self.size, self.walk = len(tape), Walk(words, memory, tape)
        self.place: Place | None = None
        self.thread: threading.Thread | None = None
        self.stopped = False
        self.told, self.tells = os.pipe()

    def start(self, text: bytes) -> None:
        """Begins to look, with more input, if there is any."""
        self.place = None
        self.thread = beside(self.look, text)

    def look(self, text: bytes) -> None:
        """Finds the place, and says that it is found."""
        try:
            self.place = self.find() if not text or self.walk.feed(text) else Place("stops")
        except NoMemory:
            self.place = Place("unknown")
        except (Fault, OSError, ValueError):
            self.place = Place("stops" if self.stopped else "unknown")
        finally:
            os.write(self.tells, b".")

    def found(self) -> Place:
        """The place that was found."""
        os.read(self.told, 1)
        if self.thread:
            self.thread.join()
        assert self.place
        return self.place

    def end(self) -> None:
        """Ends it, whether it has found the place or not."""
        self.stopped = True
        self.walk.debugger.process.kill()
        if self.thread:
            self.thread.join()
        self.walk.debugger.end()

    def find(self) -> Place:
        """The place where the input leads to."""
        walk = self.walk
        while True:
            at, read = walk.at, walk.read
            may_pass = bool(self.unread(self.size))
            said = walk.move("s {}".format(NEAR if may_pass else FAR))
            if may_pass and walk.read > read and self.has_passed(at):
                return Place("ended", walk.read)
            if said and "waits for input" in said:
                call = "idle" if walk.is_idle() else walk.call()
                return Place("ended" if call == "idle" and self.is_over() else "waits", walk.read, call, walk.meta)
            if said:
                return Place("stops")

    def unread(self, start: int) -> bytes | bytearray:
        """What is not read of the input from here on, if that is more than blanks."""
        return self.walk.fed[max(self.walk.read, start):].strip(BLANKS)

    def is_over(self) -> bool:
        """Whether all texts of FILE are read."""
        return not self.walk.fed[self.walk.read:self.size].strip(BLANKS)

    def has_passed(self, first: int) -> bool:
        """Whether the idle program has read since this step, or is to read, when all texts of FILE were read; if so,
        goes back to the first time."""
        walk, end, passed = self.walk, self.walk.at, None
        while "not met" not in walk.said("r rs") and walk.at >= first:
            if walk.is_idle() and self.is_over():
                passed = walk.at
        walk.move("g {}".format(end if passed is None else passed))
        return passed is not None


class Screen:
    """What the program has printed, and the lines that are typed."""

    def __init__(self) -> None:
        self.printed, self.line = 0, b""
        self.is_told = False

    def show(self, data: bytes) -> None:
        """Prints what the program has printed."""
        self.printed += len(data)
        self.line = (self.line + data).rpartition(b"\n")[2][-4096:]
        write(data)

    def prompt(self, goes_on: bool) -> str:
        """What stands before an answer: the line that the program has begun, so that the line editor knows where it
        stands, and a sign that the program waits."""
        try:
            # (as the line editor is given it, which gives the terminal the same bytes)
            line = self.line.decode(sys.stdout.encoding)
        except UnicodeDecodeError:
            line = ""
        columns = os.get_terminal_size(1).columns or 80
        line = line[len(line) // columns * columns:] if line.isprintable() else ""
        return ("\r" if line else "") + line + (GOES_ON if goes_on else PROMPT)

    def ask(self, goes_on: bool) -> bytes:
        """A line that is typed, or none where the lines have ended."""
        prompt = GOES_ON if goes_on else PROMPT
        if os.isatty(1):
            prompt = self.prompt(goes_on)
            if prompt[0] == "\r":
                write("\r")
        line = lines.ask(prompt.lstrip("\r"))
        self.line = b""
        return line

    def tell_end(self, meta: bytes) -> None:
        """Says once that a text goes on."""
        if not self.is_told:
            tell("trac play: this text goes on until {} is typed".format(shown(meta)))
        self.is_told = True


class Play:
    """A program that runs, and is given what is typed."""

    def __init__(self, words: list[str], memory: str | None, tape: bytes) -> None:
        self.tape = tape
        widths = words[words.index("--decimals"):][:2] if "--decimals" in words else []
        self.run = begin([program("trac"), "run", *words], stdin=PIPE, stdout=PIPE, stderr=PIPE)
        self.to: int | None = self.run.stdin.fileno()
        self.out = self.run.stdout.fileno()
        os.set_blocking(self.to, False)
        # how much of the input it is given, and what of that is on its way
        self.given, self.sending = 0, memoryview(b"")
        self.screen, self.look = Screen(), Look(widths, memory, tape)

    def give(self, end: int) -> None:
        """Gives it the input up to here."""
        if end > self.given:
            self.sending = memoryview(bytes(self.sending) + self.look.walk.fed[self.given:end])
            self.given = end

    def close(self) -> None:
        """Ends its input, once all is given."""
        while self.sending and self.copy():
            pass
        self.run.stdin.close()
        self.to = None

    def copy(self, told: int | None = None) -> bool:
        """Shows some more of what it prints, and gives it some more of what is to be given, or waits until a look has
        found its place. Returns whether it has not ended."""
        sends = [self.to] if self.sending and self.to is not None else []
        come, free = ready([self.out] + ([told] if told is not None else []), sends)
        if self.out in come:
            data = os.read(self.out, 65536)
            self.screen.show(data)
            return bool(data)
        if free:
            try:
                self.sending = self.sending[os.write(free[0], self.sending):]
            except BrokenPipeError:
                self.sending = memoryview(b"")
        return True

    def follow(self, text: bytes = b"") -> Place | None:
        """Goes on, with more input if there is any, until it waits for input or has ended; returns the place where the
        input leads to, or none where it has ended."""
        self.look.start(text)
        while self.look.place is None:
            if not self.copy(self.look.told):
                return None
        place = self.look.found()
        if place.kind not in ("waits", "ended"):
            self.give(len(self.look.walk.fed))
            return place
        self.give(place.read)
        while self.is_behind():
            if not self.copy():
                return None
        return place

    def is_behind(self) -> bool:
        """Whether it has not printed all that it prints up to the place that was found."""
        return bool(self.sending or ready([self.out], [], 0)[0]
                    or self.look.walk.has_printed(self.screen.printed))

    def play(self) -> int:
        """Plays it to its end; returns its exit status."""
        self.give(len(self.tape))
        place = self.follow()
        while place and place.kind == "waits":
            place = self.answer(place)
        if place and place.kind != "stops":
            # (also where it is not known whether it waits: then it says by itself how it ends)
            self.close()
        while self.copy():
            pass
        status = tell_ending(self.run)
        if status == 0 and place and place.kind == "unknown":
            raise Fault("there is too little memory to see where the program waits; cat FILE - | trac run runs it", 5)
        return status

    def answer(self, place: Place) -> Place | None:
        """Gives the program that waits what it waits for; returns where that leads to."""
        if place.call == "idle":
            # the last text of FILE: the end of FILE ends it
            return self.follow(place.meta)
        fed = self.look.walk.fed
        line = self.screen.ask(bool(self.look.unread(0)))
        if not line:
            self.give(len(fed))
            self.close()
            return Place("stops")
        start, asked = len(fed), place.call
        after = self.follow(line)
        if asked == "rs" and after and after.kind == "waits" and after.call == "rs" and self.look.unread(start):
            self.screen.tell_end(after.meta)
        return after

    def end(self) -> None:
        """Ends it at once."""
        self.run.kill()
        self.look.end()


def tell_ending(runs: Process) -> int:
    """Says what the processor has said of its end, after all that the program printed; returns its exit status."""
    tell(runs.stderr.read().decode("utf-8", "surrogateescape"), "")
    return runs.wait()


def pass_on(words: list[str], tape: bytes) -> int:
    """Runs it on FILE and then standard input; returns its exit status."""
    ours, theirs = socket.socketpair()
    runs = begin([program("trac"), "run", *words], stdin=theirs, stdout=PIPE, stderr=PIPE)

    def feed() -> None:
        data = tape
        try:
            while data:
                write(data, ours.fileno())
                # (a terminal that cannot be read may be waited for all the same)
                if is_opened(0, os.O_RDONLY):
                    ready([0], [])
                data = os.read(0, 65536)
        except Fault:
            pass
        except OSError:
            # (a socket that is closed with something unread has the other end's reads fail, after what was written)
            theirs.send(b".")
        ours.close()

    beside(feed)
    printed = b" "
    while printed:
        printed = os.read(runs.stdout.fileno(), 65536)
        write(printed)
    return tell_ending(runs)


def options(given: list[str]) -> argparse.Namespace:
    """The command line."""
    words = Words(
        prog="trac play",
        description="Plays a program that asks: the program comes from FILE, and the answers from the terminal.",
        epilog="An answer ends with ' (or what cm chose) and Enter. Where standard input is no terminal, it is read "
        "after FILE.",
        allow_abbrev=False,
    )
    words.add_argument("file", metavar="FILE", help="the program")
    words.add_argument("--budget", metavar="N", help="how many steps the run may take, as of trac run")
    words.add_argument("--journal", metavar="N", help="write output after N steps at the latest, as of trac run")
    words.add_argument("--decimals", metavar="BITS", help="how wide numbers are: 64 or 128 bits, as of trac run")
    words.add_argument("--memory", metavar="SIZE",
                       help="the most memory for the run, as of trac run, and for the walk beside it")
    words.add_argument("-V", "--version", action=ShowVersion, help="show the version of the processor")
    return words.parse_args(given)


def main(given: list[str]) -> int:
    """Plays, and returns the exit status."""
    chosen = options(given)
    words = [word for name in ("budget", "journal", "decimals", "memory") if getattr(chosen, name) is not None
             for word in ("--" + name, getattr(chosen, name))]
    tape = read_file(chosen.file)
    if not os.isatty(0) or not is_opened(0, os.O_RDONLY):
        return pass_on(words, tape)
    with lines.History("play"):
        play = Play(words, chosen.memory, tape)
        try:
            return play.play()
        finally:
            play.end()
