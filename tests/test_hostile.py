"""Hostile texts: programs that are large, nested deep, made to grow or without end, each with both widths of numbers,
as a file and through a pipe. What each prints follows from the rules."""
from __future__ import annotations

import os
import pathlib
import re
import tempfile
import threading

from support.cases import TRAC, WALK, Case, Ran, Word, command_of, each, ran, scratch, tests
from support.peaks import measured

WIDTHS = "64", "128"
PASSED = b"trac: limit passed\n"
DOUBLES = b"#(ds,D,##(cl,D)##(cl,D))"
# By its name a text, what it prints, and its status.
TEXTS = {
    # protected texts: without a match all the rest is one, and with one the outermost parentheses go
    "parentheses-that-nothing-closes": (b"(" * 1_000_000 + b"'", b"", 0),
    "pairs-of-parentheses": (b"(" * 1_000_000 + b")" * 1_000_000 + b"'", b"(" * 999_999 + b")" * 999_999, 0),
    # a form that is made twice as long by each turn of a loop without end
    "form-that-doubles-itself": (b"#(ds,E,(" + DOUBLES + b"#(cl,E)))'#(ds,D,x)#(cl,E)'", b"", 4),
    # the limit on output binds one step: a run prints 20 MiB in steps of 4
    "output-of-20-mib": (b"#(ds,D,x)'" + (DOUBLES + b"'") * 22 + b"#(ps,##(cl,D))'" * 5, b"x" * (20 << 20), 0),
    # numerals of any length are compared exactly
    "numerals-of-1000-digits": (b"#(gr,1" + b"0" * 1000 + b"," + b"9" * 1000 + b",y,n)'", b"y", 0),
}
# Of a text without end no step reads anything before its meta character comes, so it fills the tape: 8,192 reads of
# 4,096 bytes give the 33,554,432 that a tape may have, and the next read is one too many. So of a file, which is left
# where the last read ended, just so many bytes are read. A pipe may give fewer at a time, and then the last read may
# be as short as one byte. Of a FILE no more is read than one byte after the most.
TAPE, READ = 33_554_432, 33_558_528
ENDLESS = 40_000_000
# How many MiB a program may take, and how many more for itself and what the heap of the C library cannot use again.
ALLOWED, MORE = 64, 16
MEBIBYTE = 1024
# Loops without end, which take memory in each turn: how often the form D, of 8 bytes, is doubled before; a turn; and
# how a walk ends that meets this.
NAMED = b"#(ds,##(cl,D)##(cl,N),)#(ds,N,#(ad,##(cl,N),1))"
GROWING = {
    "names-of-8-mib": (20, NAMED, 0),
    "names-of-1-mib": (17, NAMED, 0),
    "names-of-2-kib": (8, NAMED, 0),
    "text-that-doubles": (20, DOUBLES, 0),
    # each block with a form of 64 KiB
    "blocks": (13, b"#(ds,F,##(cl,D))#(sb,B,F)", 0),
}
# New names without end, of 1 KiB each, whose forms are deleted again: all of them would take 90 MB, but those are
# forgotten that no step needs which is kept.
DELETED = (b"#(ds,L,(#(ds,##(cl,D)##(cl,N),x)#(dd,##(cl,D)##(cl,N))#(ds,N,#(ad,##(cl,N),1))#(cl,L)))'"
           b"#(ds,N,0)#(cl,L)'")


def doubled(count: int) -> bytes:
    """The form D of the bytes 12345678, made twice as long so many times."""
    return b"#(ds,D,12345678)'" + (DOUBLES + b"'") * count


def growing(count: int, turn: bytes) -> bytes:
    """A loop without end of this turn."""
    return b"#(ps,begun)'" + doubled(count) + b"#(ds,L,(" + turn + b"#(cl,L)))'#(ds,N,0)#(cl,L)'"


def kilobytes(name: str) -> int:
    """What the system says of its memory."""
    found = re.search(r"^{}: +(\d+) kB$".format(name), pathlib.Path("/proc/meminfo").read_text("ascii"), re.M)
    return int(found[1]) if found else 0


def fed(pipe: int) -> None:
    """Writes a text without end to a pipe, in pieces, and closes that."""
    for at in range(0, ENDLESS, 4001):
        os.write(pipe, bytes(min(4001, ENDLESS - at)))
    os.close(pipe)


@tests
class Hostile(Case):
    """Each of them."""

    seconds = 5

    @each(TEXTS)
    def test(self, name: str) -> None:
        self.prints(*TEXTS[name], 4001)

    def prints(self, text: bytes, output: bytes, status: int, piece: int) -> None:
        """A run ends so with both widths, and also where its input comes in pieces of so many bytes."""
        for width in WIDTHS:
            for size in None, piece:
                self.ends("a run", ran([TRAC, "run", "--decimals", width], text, size), output, status,
                          PASSED if status == 4 else b"")

    def test_each_byte_as_the_meta_character(self) -> None:
        """It is set by a neutral call that reads it, which is not scanned again, and ends the next text."""
        for byte in range(256):
            it, text = bytes([byte]), b"xy" if bytes([byte]) in b"01" else b"01"
            self.prints(b"#(cm,##(rc))'" + it + text + it, text, 0, 1)

    def reads(self, what: str, run: Ran, count: int, least: int, most: int) -> None:
        """A run passed a limit, and read so many bytes."""
        self.ends(what, run, b"", 4, PASSED)
        self.holds("{}: it read {} bytes, which are {} to {}".format(what, count, least, most), least <= count <= most)

    def through_a_pipe(self, words: list[Word], redirection: str, given: bytes = b"") -> tuple[Ran, int]:
        """How a command ended that a shell begins so, with a pipe in place of PIPE that gives a text without end; and
        how many bytes of that it has read."""
        ours, theirs = os.pipe()
        feeder = threading.Thread(target=fed, args=(theirs,))
        feeder.start()
        run = ran(["bash", "-c", 'exec "$@" ' + redirection.replace("PIPE", str(ours)), "-", *words], given,
                  pass_fds=[ours])
        left = sum(map(len, iter(lambda: os.read(ours, 1 << 16), b"")))
        feeder.join()
        os.close(ours)
        return run, ENDLESS - left

    @each(WIDTHS)
    def test_text_without_end(self, width: str) -> None:
        words: list[Word] = [TRAC, "run", "--decimals", width]
        self.ends("all zeros", ran(["bash", "-c", 'exec "$@" </dev/zero', "-", *words]), b"", 4, PASSED)
        with tempfile.TemporaryFile() as file:
            file.truncate(ENDLESS)
            run = ran(["bash", "-c", 'exec "$@" <&{}'.format(file.fileno()), "-", *words], pass_fds=[file.fileno()])
            self.reads("in a file", run, os.lseek(file.fileno(), 0, os.SEEK_CUR), READ, READ)
        self.reads("in pieces", *self.through_a_pipe(words, "<&PIPE"), TAPE + 1, READ)

    def test_file_without_end(self) -> None:
        words: list[Word] = [TRAC, "debug", "/dev/fd/3"]
        self.reads("a FILE", *self.through_a_pipe(words, "3<&PIPE", b"AB'"), TAPE + 1, TAPE + 1)

    def within(self, what: str, words: list[Word], given: bytes, status: int, most: int) -> Ran:
        """These words end so, and hold no more than so many KiB."""
        file = scratch(self) / "peak"
        run = ran(measured(words, file), given)._replace(command=command_of(words))
        self.status("{}: {}".format(what, run.command), run, status)
        peak = int(file.read_text("ascii"))
        self.holds("{}: it took {} KiB, and may take {}".format(what, peak, most), peak <= most)
        return run

    def runs_out(self, count: int, turn: bytes, options: list[Word], most: int) -> None:
        """A run of such a loop finds no memory any more. What its steps printed before is written."""
        run = self.within("a run", [TRAC, "run", *options], growing(count, turn), 5, most)
        self.same("a run: standard error", run.error, b"trac: no memory\n")
        self.same("a run", run.output, b"begun", None, "printed")

    @each(GROWING)
    def test_memory(self, name: str) -> None:
        """Programs that take memory without end keep within what --memory allows."""
        count, turn, status = GROWING[name]
        options: list[Word] = ["--memory", "{}M".format(ALLOWED)]
        most = (ALLOWED + MORE) * MEBIBYTE
        self.runs_out(count, turn, options, most)
        file = scratch(self) / "program"
        file.write_bytes(growing(count, turn))
        walk = self.within("a walk", [WALK, *options, file], b"s 100000000\ns\nb 5\ns 5\np\nq\n", status, most)
        refused = walk.output.count(b"there is no memory for this")
        self.holds("the walk refuses two moves, and not {}, and goes on".format(refused), status or refused == 2)
        lint = self.within("a look through it", [WALK, "--lint", *options, file], b"", 2, most)
        self.holds("it is said why: {!r}".format(lint.error),
                   lint.error.endswith(b"stopped, there is no memory to go on\n"))

    def test_names_that_are_deleted(self) -> None:
        text = doubled(7) + DELETED
        file = scratch(self) / "program"
        file.write_bytes(text)
        most, memory = (16 + MORE) * MEBIBYTE, ["--memory", "16M"]
        self.within("a run", [TRAC, "run", *memory, "--budget", "6000000"], text, 3, most)
        self.within("a look through it", [WALK, "--lint", *memory, "--keep", "1", "--steps", "6000000", file], b"", 0,
                    most)
        walk = self.within("a walk", [WALK, *memory, "--keep", "1", "--journal", "10", file],
                           b"s 6000000\nb 5\ns 5\nf N\nq\n", 0, most)
        count = re.sub(rb"\D", b"", walk.output.splitlines()[-1])
        self.holds("the walk made more than 70,000 names: {!r}".format(count), int(count or b"0") > 70_000)

    def test_memory_without_the_option(self) -> None:
        """It is 2 GiB, or half of the machine's memory if that is less."""
        most = min(kilobytes("MemTotal") // 2, 2048 * MEBIBYTE) + MORE * MEBIBYTE
        if kilobytes("MemAvailable") <= most:
            self.skipTest("so much memory is not free as a run may take without --memory")
        self.runs_out(20, NAMED, [], most)
