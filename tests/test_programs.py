"""Whole programs, and what they print: each NAME.trac of tests/data/programs is the standard input of a run, and after
it NAME.in, where there is one; so is each of programs/examples/ that has an output beside it.

Standard output must be NAME.out, the exit status that of NAME.status (0 where there is none), and standard error the
line that docs/running.md has for that status. Each is run with numbers of 128 bits, which are the default, and of 64
bits: then it must print NAME.64, where there is one. And each is run twice: with the input as a file, and byte by
byte through a pipe."""
import pathlib

from support.cases import DATA, EXAMPLES, TRAC, Case, Place, bytes_in, each, near, ran, stems, tests, words_in

# The line on standard error for each exit status.
ENDINGS = {0: b"", 3: b"trac: budget spent\n", 4: b"trac: limit passed\n", 5: b"trac: no memory\n",
           6: b"trac: read fault\n", 7: b"trac: write fault\n"}
# Bytes that scanning takes away.
TAKEN = b"\t\n\r'(),"


def run_both_ways(test: Case, file: pathlib.Path) -> None:
    """Runs a program with both widths, its input as a file and in pieces: of single bytes, or larger where these
    would take long."""
    tape = file.read_bytes() + bytes_in(file.with_suffix(".in"))
    status = int((words_in(file.with_suffix(".status")) or ["0"])[0])
    wide, narrow = file.with_suffix(".out"), file.with_suffix(".64")
    if not wide.exists():
        test.bad("there is no {}, with what it prints".format(near(wide)))
        return
    ways: list[tuple[list[str], pathlib.Path]]
    ways = [([], wide), (["--decimals", "64"], narrow if narrow.exists() else wide)]
    for options, wanted in ways:
        output, place = wanted.read_bytes(), Place(near(wanted))
        for piece in None, len(tape) // 2000 + 1:
            run = ran([TRAC, "run", *options], tape, piece)
            what = "{}{}".format(near(file), ", in pieces" if piece else "")
            test.ends(what, run, output, status, ENDINGS[status], place)


def strays(folder: pathlib.Path, endings: set[str]) -> list[str]:
    """The files of a folder that have these endings and belong to no program."""
    files = [file for file in sorted(folder.iterdir()) if file.suffix in endings]
    return [near(file) for file in files if not file.with_suffix(".trac").exists()]


@tests
class Programs(Case):
    """The programs of tests/data/programs."""

    @each(stems(DATA / "programs"))
    def test(self, name: str) -> None:
        run_both_ways(self, DATA / "programs" / (name + ".trac"))

    def test_no_file_without_a_program(self) -> None:
        left = strays(DATA / "programs", {".out", ".64", ".status", ".in"})
        self.holds("each file belongs to a program: {}".format(left), not left)

    def test_single_bytes(self) -> None:
        """Each single byte, as all of the input: it prints itself, but for those that scanning takes away."""
        for byte in range(256):
            text = bytes([byte])
            self.ends("the single byte {}".format(byte), ran([TRAC, "run"], text), b"" if text in TAKEN else text)


@tests
class Examples(Case):
    """The examples that have an output beside them."""

    suite = "examples"

    @each(name for name in stems(EXAMPLES) if (EXAMPLES / (name + ".out")).exists())
    def test(self, name: str) -> None:
        run_both_ways(self, EXAMPLES / (name + ".trac"))

    def test_no_file_without_a_program(self) -> None:
        left = strays(EXAMPLES, {".out", ".64", ".status", ".in"})
        self.holds("each output belongs to a program: {}".format(left), not left)
