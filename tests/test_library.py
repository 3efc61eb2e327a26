"""The programs of programs/library/, and what they print: NAME.trac, and after it NAME.in where there is one, as in
test_programs.

Each has its page, NAME.md, and what it prints, NAME.out, and no file is left over. Each is looked through with what
it reads: its doubts, without the numbers of their steps, must be those of NAME.lint, or none. In each NAME.walk, the
lines after `> ` are typed in a walk through the program, and the others are its replies: five of them follow a byte
of the output back to the text of the program."""
import pathlib
import re

from support.cases import TOP, WALK, Case, Place, bytes_in, each, near, ran, stems, tests
from test_programs import run_both_ways, strays

HERE = TOP / "programs" / "library"
STEP = re.compile(rb" \(step [0-9]+\)$", re.M)


@tests
class Library(Case):
    """The library, each program with all that belongs to it."""

    @each(stems(HERE))
    def test(self, name: str) -> None:
        file = HERE / (name + ".trac")
        run_both_ways(self, file)
        for it in "trac", "md", "out":
            file_of = HERE / "{}.{}".format(name, it)
            self.holds("{} is there".format(near(file_of)), bytes_in(file_of))
        self.check_page(name)
        self.check_doubts(file)
        if file.with_suffix(".walk").exists():
            self.check_walk(file, file.with_suffix(".walk"))

    def check_page(self, name: str) -> None:
        """Its page is short, and the list has it."""
        count = len(bytes_in(HERE / (name + ".md")).split())
        self.holds("{}.md has at most 150 words, and not {}".format(name, count), count <= 150)
        page, listed = "({}.md)".format(name), (HERE / "README.md").read_text(encoding="utf-8")
        self.holds("programs/library/README.md links its page, {}".format(page), page in listed)

    def check_doubts(self, file: pathlib.Path) -> None:
        """What trac lint says of it."""
        given = file.with_suffix(".in")
        words = ["--input", given.name] if given.exists() else []
        run = ran([TOP / "trac", "lint", *words, file.name], folder=HERE)
        self.same("trac lint {}".format(" ".join([*words, file.name])), STEP.sub(b"", run.output + run.error),
                  bytes_in(file.with_suffix(".lint")), Place(near(file.with_suffix(".lint"))), "said by trac lint")

    def check_walk(self, file: pathlib.Path, walk: pathlib.Path) -> None:
        """A walk through it."""
        lines = walk.read_bytes().splitlines(keepends=True)
        typed = b"".join(line[2:] for line in lines if line.startswith(b"> "))
        kept = [number for number, line in enumerate(lines, 1) if not line.startswith(b"> ")]
        run = ran([WALK, file.name], typed, folder=HERE)
        wanted = b"".join(lines[number - 1] for number in kept)
        self.same("its walk", run.output + run.error, wanted, Place(near(walk), kept), "replied")
        self.holds("its walk comes to a line of the program", re.search(rb"reads it: line [0-9]*, column", wanted))

    def test_files(self) -> None:
        """Its files belong to its programs, five or more are walks, and its list is short."""
        endings = {".trac", ".md", ".in", ".out", ".64", ".lint", ".walk"}
        left = [near(file) for file in sorted(HERE.iterdir()) if file.suffix not in endings]
        self.holds("the kind of each file is known: {}".format(left), not left)
        left = [it for it in strays(HERE, endings) if it != "programs/library/README.md"]
        self.holds("each file belongs to a program: {}".format(left), not left)
        self.holds("five walks at least", len(stems(HERE, ".walk")) >= 5)
        count = len((HERE / "README.md").read_text(encoding="utf-8").split())
        self.holds("README.md has at most 250 words, and not {}".format(count), count <= 250)
