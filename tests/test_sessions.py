"""Sessions of the debugger, and what they print.

Each NAME.trac of tests/data/sessions is the FILE of one session, NAME.in its standard input, and NAME.options, where
it is there, has further words of its command line. Standard output must be NAME.out, the exit status that of
NAME.status, and standard error NAME.err (0, and null, where there is none). Each is run twice: with the commands as a
file, and byte by byte through a pipe. Each not-understood/NAME.in takes a step, and has an empty line, a third line
that is not understood, and one after it."""
import os
import pathlib
from collections.abc import Sequence

from support.cases import (DATA, TRAC, Case, Place, Word, bytes_in, each, lined, near, ran, scratch, stems, tests,
                           words_in)
from support.pages import walks_of

HERE = DATA / "sessions"
# What sessions over `AB'` reply to some commands, all of which they take.
REPLIES = (
    (b"s 0", b"forward 0\n"),
    (b"s 007", b"forward 7\n"),
    (b"s 000000007", b"forward 7\n"),
    (b"s 3\r", b"forward 3\n"),
    (b"s 3\r\n", b"forward 3\n"),
    (b"s 999999999", b"forward 19 Ended\n"),
    (b"b 0", b"back 0\n"),
    (b"b 1", b"back 0 AtStart\n"),
    (b"u rs 0", b"until 0 NotMet\n"),
    (b"u rs 20", b"until 7\n"),
    (b"u RS 20", b"until 19 Ended\n"),
    (b"r rs", b"return 0 AtStart\n"),
    (b"r a\rb", b"return 0 AtStart\n"),
    (b"c", b"commit []\n"),
    (b"\r", b""),
    (b"\n\r\n\ns 1\nq\nx", b"forward 1\n"),
    (b"\r\n\ns 007\r\n\nb 1\r", b"forward 7\nback 1\n"),
    (b"s 19\nc 8\nb 99\nc\n", b"forward 19\ncommit [AB]\nback 8 AtStart\ncommit []\n"),
    (b"s 19\nc 009\nb 9\nc 999999999\ns 1\nc 0\n",
     b"forward 19\ncommit []\nback 9\ncommit []\nforward 1\ncommit [AB]\n"),
)
# Lines that are not understood.
NOT_UNDERSTOOD = (b"s 1234567890", b"s 0000000007", b"s  1", b"s 1 ", b" s 1", b"s\t1", b"S 1", b"s", b"s ", b"s -1",
                  b"s +1", b"s 1x", b"b", b"u 5", b"u a b 5", b"u  5", b"r", b"r ", b"c c", b"p ", b"x", b"\xff")
# So many bytes a tape may have at most.
MOST = 33554432


def refusal(line: int) -> bytes:
    """What is said of a line that is not understood."""
    return b"trac: line %d: not understood\n" % line


@tests
class Sessions(Case):
    """Sessions of trac debug."""

    def setUp(self) -> None:
        self.room = scratch(self)
        self.file = self.room / "AB"
        self.file.write_bytes(b"AB'")

    def both_ways(self, name: str, words: Sequence[Word], commands: pathlib.Path, wanted: pathlib.Path) -> None:
        """Runs a session with its commands as a file and byte by byte."""
        status = int((words_in(wanted.with_suffix(".status")) or ["0"])[0])
        for piece in None, 1:
            run = ran([TRAC, "debug", *words], commands.read_bytes(), piece)
            self.ends(name + (", in pieces" if piece else ""), run, bytes_in(wanted.with_suffix(".out")), status,
                      bytes_in(wanted.with_suffix(".err")), Place(near(wanted.with_suffix(".out"))))

    @each(stems(HERE))
    def test(self, name: str) -> None:
        file = HERE / (name + ".trac")
        self.both_ways(name, [*words_in(file.with_suffix(".options")), file], file.with_suffix(".in"), file)

    @each(stems(HERE / "not-understood", ".in"))
    def test_not_understood(self, name: str) -> None:
        folder = HERE / "not-understood"
        self.both_ways(name, [folder.with_suffix(".trac")], folder / (name + ".in"), folder / "each")

    def replies(self, commands: bytes, output: bytes, status: int = 0, error: bytes = b"") -> None:
        """What a session over `AB'` with these commands writes, and how it ends, with both widths."""
        widths: tuple[list[str], ...] = [], ["--decimals", "64"]
        for options in widths:
            run = ran([TRAC, "debug", *options, self.file], commands)
            self.ends("the commands {}".format(commands), run, output, status, error)

    def test_replies_to_short_lists_of_commands(self) -> None:
        for commands, output in REPLIES:
            self.replies(commands, output)

    def test_lines_that_are_not_understood(self) -> None:
        for line in NOT_UNDERSTOOD:
            self.replies(line, b"", 8, refusal(1))
        self.replies(b"\n\r\ns 1\r\nx\n", b"forward 1\n", 8, refusal(4))

    def test_longest_line_with_each_of_its_ends(self) -> None:
        """The longest line, and one that is a byte longer, whole and in pieces."""
        for end in b"", b"\n", b"\r", b"\r\n":
            for letters, output, status, error in (4094, b"return 0 AtStart\n", 0, b""), (4095, b"", 8, refusal(1)):
                for piece in None, 1000:
                    run = ran([TRAC, "debug", self.file], b"r " + b"a" * letters + end, piece)
                    self.ends("a line of {} letters and {}".format(letters, end), run, output, status, error)

    def test_most_lines(self) -> None:
        """The line after the most is one too many, whatever it holds."""
        spent = 3, b"trac: budget spent\n"
        for count, last, (status, error) in ((1048576, b"", (0, b"")), (1048575, b"x", (8, refusal(1048576))),
                                             (1048576, b"q", spent), (1048576, b"\n", spent)):
            run = ran([TRAC, "debug", self.file], b"\n" * count + last, 65536)
            self.ends("{} empty lines and {}".format(count, last), run, b"", status, error)

    def test_walks_of_the_page(self) -> None:
        """The walks that docs/debugger.md shows: of the lines of each, those with `>` are typed, and the others are
        replies."""
        page = "docs/debugger.md"
        walks = walks_of(page, "./trac debug ")
        self.holds(page + " has walks", walks)
        for number, walk in enumerate(walks, 1):
            run = ran([TRAC, "debug", *walk.words], lined(walk.typed))
            self.ends("walk {} of {}".format(number, page), run, lined(walk.replies), place=Place(page, walk.places))
            self.holds("walk {} of {}: it has replies".format(number, page), len(walk.replies) >= 15)

    def test_no_file(self) -> None:
        run = ran([TRAC, "debug", self.room / "none"])
        self.status("no FILE", run, 6)
        self.same("no FILE: standard error", run.error, b"trac: read fault\n")

    def test_long_files(self) -> None:
        """A FILE that is longer than a tape, the longest, and one without end."""
        (self.room / "long").write_bytes(bytes(MOST + 1))
        self.ends("a long FILE", ran([TRAC, "debug", self.room / "long"], b"s 1\n", 9), b"", 4, b"trac: limit passed\n")
        (self.room / "longest").write_bytes(bytes(MOST))
        run = ran([TRAC, "debug", self.room / "longest"], b"s 1\n", 9)
        self.status("the longest FILE", run, 0)
        self.same("the longest FILE: its reply", run.output, b"forward 1\n")
        self.status("a FILE without end", ran([TRAC, "debug", pathlib.Path("/dev/zero")], b"s 1\n", 9), 4)

    def test_closed_streams(self) -> None:
        """Standard input that is closed is not the FILE, which the system opens in its place; and the reply to a
        command is written nowhere."""
        file = HERE / "not-understood.trac"
        run = ran([TRAC, "debug", file], preexec_fn=lambda: os.close(0))
        self.status("no standard input", run, 6)
        self.same("no standard input: standard error", run.error, b"trac: read fault\n")
        run = ran([TRAC, "debug", file], b"s 1\n", 9, preexec_fn=lambda: os.close(1))
        self.status("no standard output", run, 7)
        self.same("no standard output: standard error", run.error, b"trac: write fault\n")
