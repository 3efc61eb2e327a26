"""What trac-lint says of programs, byte for byte.

Each NAME.trac of tests/data/lint is a program, worked by hand, and NAME.out what must be said of it, without the
numbers of steps; NAME.options has further words of the command line. known.out has the doubts of all of
programs/examples/ and tests/data/programs, each judged true by hand. Of 500 random programs the model says what must
be said. mistakes/ has ten programs with one silent mistake each, which stands at the line and column in NAME.place: of
nine the line must be named. parentheses/ has programs with one parenthesis missing, or one too many, whose place must
be named. unseen/ has mistakes of each kind of which share/man/trac-lint.1 says that they are not seen. Then hostile
programs, endless ones, and statuses."""
from __future__ import annotations

import os
import re

from model import doubts
from model.random_doubts import Author
from support.cases import DATA, EXAMPLES, WALK, Case, Place, Ran, Word, each, near, ran, scratch, stems, tests, words_in

HERE = DATA / "lint"
LINT: list[Word] = [WALK, "--lint"]
COUNT, SEED, STEPS = 500, 60, 3000
STEP = re.compile(rb" \(step [0-9]+\)$", re.M)
UNKNOWN = b": no primitive is named "
# What may stand before a doubtful call: signs of more bytes than one, bytes of none, line ends of each kind.
FRONTS = {
    "two-bytes": "\u00e9 \u00e8\n\u00fc".encode(), "more-bytes": "\u20ac\n\U0001f600\u0301".encode(),
    "no-text": b"\xff\xc3\n\x80", "nul": b"a\0\0b\n\0", "cr-lf": b"a\r\n\r\nb\r\n", "cr": b"a\rb\r\r",
    "tabs": b"\ta\n\t \t", "nothing": b"", "unseen": "\u00ad\u202e\n\ufeff\u2028".encode(),
}
# A program with a doubt.
PR = b"#(pr)'"


class Linter(Case):
    """A test that looks for doubts."""

    suite = "lint"

    def setUp(self) -> None:
        self.room = scratch(self)

    def lint(self, program: bytes, *words: Word) -> Ran:
        """What is said of a program, which is a file named `it`."""
        (self.room / "it").write_bytes(program)
        return ran([*LINT, *words, "it"], folder=self.room)

    def says(self, what: str, run: Ran, output: bytes, status: int = 1, error: bytes = b"",
             place: Place | None = None) -> None:
        """Checks of what is said, without the numbers of steps."""
        self.ends(what, run._replace(output=STEP.sub(b"", run.output)), output, status, error, place)

    def was(self, what: str, run: Ran, status: int, error: bytes = b"") -> None:
        """Checks of how a search ended, and that standard error has this alone."""
        self.status(what, run, status)
        self.same(what + ": standard error", run.error, error)


@tests
class Stored(Linter):
    """The stored programs."""

    @each(stems(HERE))
    def test(self, name: str) -> None:
        wanted = HERE / (name + ".out")
        run = ran([*LINT, *words_in(HERE / (name + ".options")), name + ".trac"], folder=HERE)
        self.says(name, run, wanted.read_bytes(), 1 if wanted.stat().st_size else 0, place=Place(near(wanted)))

    def test_known(self) -> None:
        """All other programs."""
        folders = EXAMPLES, DATA / "programs"
        files = [near(file) for folder in folders for file in sorted(folder.glob("*.trac"))]
        run = ran([*LINT, *files])
        self.same("programs/examples/ and tests/data/programs", STEP.sub(b"", run.output),
                  (HERE / "known.out").read_bytes(), Place("tests/data/lint/known.out"), "said of them")
        self.same("what is said of how they end", re.sub(rb" [0-9]+ steps, where", b" N steps, where", run.error),
                  (HERE / "known.err").read_bytes(), Place("tests/data/lint/known.err"), "said of them")

    def test_mistakes(self) -> None:
        """The line of a mistake is named."""
        lines, places = [], []
        for name in stems(HERE / "mistakes"):
            place = (HERE / "mistakes" / (name + ".place")).read_text().strip()
            said = ran([*LINT, name + ".trac"], folder=HERE / "mistakes").output.decode("latin-1")
            front = "^{}.trac:".format(re.escape(name))
            if not re.search(front + place.split(":")[0] + ":", said, re.M):
                lines.append(name)
            if not re.search(front + place + ":", said, re.M):
                places.append(name)
        self.holds("of ten mistakes nine lines are named, and not those of {}".format(lines), len(lines) <= 1)
        self.holds("of ten mistakes eight are named to the column, and not {}".format(places), len(places) <= 2)
        self.holds("there are ten", len(stems(HERE / "mistakes")) == 10)

    @each(stems(HERE / "parentheses"))
    def test_parentheses(self, name: str) -> None:
        """The doubt or its note names the place of a parenthesis that is missing or one too many."""
        place = (HERE / "parentheses" / (name + ".place")).read_text().strip()
        run = ran([*LINT, name + ".trac"], folder=HERE / "parentheses")
        said, front = run.output.decode("latin-1"), "{}.trac:{}: ".format(name, place)
        self.holds("{}: {} is named, and not only\n{}".format(name, place, said),
                   any(line.startswith(front) for line in said.splitlines()))

    @each(stems(HERE / "unseen"))
    def test_unseen(self, name: str) -> None:
        """What the manual page says is not seen."""
        self.ends(name + ", not seen", ran([*LINT, name + ".trac"], folder=HERE / "unseen"))


class Random(Linter):
    """Random programs, each second with more to read: what is said is what the model says."""

    seconds = 8

    def test_random(self) -> None:
        author, folder = Author(SEED), self.room
        more = author.program() + b"'" + author.program()
        (folder / "input").write_bytes(more)
        wanted: list[list[bytes]] = [[], []]
        options: tuple[list[str], ...] = [], ["--input", "input"]
        for number in range(COUNT):
            program, file = author.program(), folder / "{}.trac".format(number)
            file.write_bytes(program)
            wanted[number % 2] += doubts.spots(file.name, program, "input", more if number % 2 else b"", STEPS)
        for reads, words in enumerate(options):
            files = ["{}.trac".format(number) for number in range(reads, COUNT, 2)]
            run = ran([*LINT, "--steps", str(STEPS), *words, *files], folder=folder)
            what = "random programs" + (" that read more" if reads else "")
            self.same(what, run.output, b"".join(wanted[reads]), None, "said")


class Hostile(Linter):
    """Hostile programs, and what was read long before."""

    def test_number_of_the_step(self) -> None:
        self.ends("a line has it", self.lint(b"#(pr,a)'"), b"it:1:3: no primitive is named pr (step 13)\n", 1)

    def test_many_doubts(self) -> None:
        """1,000 places are told, and how many more."""
        run = self.lint(b"#(a)" * 262144 + b"'")
        lines = run.output.split(b"\n")
        self.was("1 MiB of doubts", run, 1)
        self.same("each has its place", lines[999], b"it:1:3999: no primitive is named a (step 3007)")
        self.same("1,000 places, and how many more", b"\n".join(lines[1000:]), b".. and 261144 more places\n")
        run = self.lint(b"#(a)" * 1001 + b"'")
        self.same("one more place", b"\n".join(run.output.split(b"\n")[1000:]), b".. and 1 more place\n")

    def test_doubts_that_are_met_twice(self) -> None:
        run = self.lint(b"#(ds,L,(" + b"#(a)" * 1003 + b"))'#(cl,L)#(cl,L)'")
        self.was("1,003 doubts, each met twice", run, 1)
        self.same("each place is counted once", b"\n".join(STEP.sub(b"", run.output).split(b"\n")[999:]),
                  b"it:1:4007: no primitive is named a\n.. and 3 more places\n")

    def test_long_name(self) -> None:
        self.ends("it is cut", self.lint(b"#(" + b"n" * 1048576 + b")'"),
                  b"it:1:3" + UNKNOWN + b"n" * 30 + b".. (step 1048585)\n", 1)

    def test_binary_name(self) -> None:
        self.ends("its bytes are shown", self.lint(b"#(" + bytes(range(128, 256)) + b"\0)'"),
                  b"it:1:3" + UNKNOWN + rb"\x80\x81\x82\x83\x84\x85\x86.. (step 138)" + b"\n", 1)

    def test_many_commas(self) -> None:
        self.ends("the first argument that is not used is told", self.lint(b"#(ps" + b"," * 1048000 + b")'"),
                  b"it:1:3: argument 2 of ps is not used: (an empty text) (step 1048011)\n", 1)

    def test_many_parentheses(self) -> None:
        run = self.lint(b"(" * 1048576 + b"'")
        self.was("1 MiB of parentheses", run, 1)
        self.same("one is never closed", run.output.split(b"\n")[0], b"it:1:1: ( is never closed (step 8)")

    def test_place_that_was_read_long_before(self) -> None:
        """1,100,000 plain bytes take as many steps, of which 1,048,576 are kept at most."""
        run = self.lint(b"#(ds,A,(#(opa)))'\n" + b"x" * 1100000 + b"'\n#(cl,A)'\n")
        self.says("its place is known", run, b"it:1:11" + UNKNOWN + b"opa\n")

    def test_place_before_much_was_printed(self) -> None:
        """17 MiB are printed, of which 16 are kept at most."""
        program = b"#(ds,A,(#(opa)))'\n#(ds,P,(" + b"x" * 1048576 + b"))'\n" + b"#(ps,##(cl,P))'\n" * 17 + b"#(cl,A)'\n"
        self.says("its place is known", self.lint(program), b"it:1:11" + UNKNOWN + b"opa\n")

    def test_place_before_a_long_loop(self) -> None:
        """The loop takes 3,000,000 steps."""
        program = (b"#(ds,A,(#(opa)))'\n#(ds,L,(#(eq,N,0,,(#(cl,L,#(su,N,1))))))'#(ss,L,N)'#(cl,L,80000)'\n"
                   b"#(cl,A)#(cl,L,y)'")
        run = self.lint(program, "--steps", "4000000")
        self.same("of what a loop comes after, and of the loop", STEP.sub(b"", run.output),
                  b"it:1:11" + UNKNOWN + b"opa\nit:3:15: argument 1 of su has no number, and counts as 0: y\n")


@tests
class Places(Linter):
    """Where a doubtful call stands: its line, and its column by bytes, whatever stands before it."""

    seconds = 2

    def places(self, program: bytes) -> None:
        """The search and a walk name the place of each call of `pr` in a program, in the order of the text."""
        starts = [at.start() for at in re.finditer(b"pr[,)]", program)]
        places = [(1 + program.count(b"\n", 0, at), at - program.rfind(b"\n", 0, at)) for at in starts]
        self.says("lint", self.lint(program), b"".join(b"it:%d:%d" % place + UNKNOWN + b"pr\n" for place in places))
        walk = ran([WALK, "it"], b"d\n" * len(places), folder=self.room)
        found = re.findall(rb"^no primitive is named pr: line (\d+), column (\d+)$", walk.output, re.M)
        self.same("walk: the places", repr([tuple(map(int, it)) for it in found]), repr(places))

    @each(FRONTS)
    def test_place_after(self, name: str) -> None:
        front = FRONTS[name]
        self.places(front + b"#(pr)'")
        self.places(front + b"'" + front + b"'\n" + front + b"#(ps,x" + front + b"#(pr,a))'" + front + b"#(pr)'\r\n")
        # a call that a form has, and one that a call makes of it
        self.places(front + b"#(ds,A,(" + front + b"#(pr,X)))'" + front + b"#(ss,A,X)'#(cl,A," + front + b")'")

    def test_place_after_a_long_program(self) -> None:
        """After 300,000 bytes of lines of all kinds."""
        self.places((b"".join(FRONTS.values()) + b"'\r\n") * 5000 + b"\0#(pr)'")


class Loops(Linter):
    """Loops, of which each place is told once."""

    def test_loop_of_many_doubts(self) -> None:
        program = (b"#(ds,A,(#(opa)))'\n#(ds,B,(#(opb)))'\n"
                   b"#(ds,L,(#(gr,N,5000,(#(cl,A)),(#(cl,B)))#(eq,N,1,,(#(cl,L,#(su,N,1))))))'#(ss,L,N)'#(cl,L,9000)'")
        self.says("both are told", self.lint(program), b"it:1:11" + UNKNOWN + b"opa\nit:2:11" + UNKNOWN + b"opb\n")

    def test_loop_whose_doubts_have_other_words(self) -> None:
        """The second doubt comes after 10,000 rounds, and the first has other words in each."""
        self.says("each place is told once",
                  self.lint(b"#(ds,L,(#(cl,XN)\n#(gr,N,10000,(#(opb)))#(cl,L,#(ad,N,1))))'#(ss,L,N)'#(cl,L,1)'"),
                  b"it:1:14: no form is named X1\nit:2:17" + UNKNOWN + b"opb\n", 1,
                  b"trac lint: it: stopped after 10000000 steps; --steps allows more\n")

    def test_text_that_grows(self) -> None:
        """Each round appends to an argument, which names a call once the rounds are over."""
        run = self.lint(b"#(ds,L,(#(eq,N,0,,(#(cl,L,#(su,N,1),AZ)#(cl,A)))))'#(ss,L,N,A)'#(cl,L,200,q)'")
        self.says("its place is told once", run, b"it:1:75: no form is named q" + b"Z" * 29 + b"..\n")

    def bounded(self, program: bytes) -> Ran:
        """What is said of a program with 1,000,000 KiB of memory."""
        (self.room / "it").write_bytes(program)
        return ran(["bash", "-c", 'ulimit -v 1000000; exec "$@"', "-", *LINT, "it"], folder=self.room)

    def test_loop_without_end(self) -> None:
        run = self.bounded(b"#(ds,L,(#(x)#(cl,L)))'#(cl,L)'")
        self.was("a loop without end", run, 1, b"trac lint: it: stopped after 10000000 steps; --steps allows more\n")
        self.same("its doubt is told once", STEP.sub(b"", run.output), b"it:1:11" + UNKNOWN + b"x\n")

    def test_recursion_without_end(self) -> None:
        run = self.bounded(b"#(ds,L,(#(x)#(cl,L)#(y)))'#(cl,L)'")
        self.same("its doubt is told once", STEP.sub(b"", run.output), b"it:1:11" + UNKNOWN + b"x\n")

    def test_limit(self) -> None:
        """2 marks of the idle program's ps, and one of each function that is begun, are 1,048,576 at most; 8 steps
        come before."""
        self.was("functions that pass a limit", self.lint(b"#(" * 1048575 + b"'"), 0,
                 b"trac lint: it: stopped after 1048582 steps, where a limit is passed: "
                 b"too much text, or too many arguments, forms or blocks\n")


class Words(Linter):
    """Command lines, files and endings."""

    def test_name_of_two_lines(self) -> None:
        name = "a line\nanother\x1b"
        (self.room / name).write_bytes(PR)
        self.ends("it is shown as one", ran([*LINT, name], folder=self.room),
                  b"a line\\x0aanother\\x1b:1:3: no primitive is named pr (step 11)\n", 1)
        self.ends("two lines of a file that is not there", ran([*LINT, "no\nfile"], folder=self.room), b"", 2,
                  b"trac lint: no\\x0afile: it cannot be read\n")

    def test_name_with_signs_that_are_not_seen(self) -> None:
        """They are shown as `trac debug` shows them; letters of all scripts stand as themselves."""
        (self.room / "\u00e9\u034f\u115f\u3164\u17b4").write_bytes(PR)
        self.ends("each is shown", ran([*LINT, "\u00e9\u034f\u115f\u3164\u17b4"], folder=self.room),
                  b"\xc3\xa9\\xcd\\x8f\\xe1\\x85\\x9f\\xe3\\x85\\xa4\\xe1\\x9e\\xb4:1:3: "
                  b"no primitive is named pr (step 11)\n", 1)

    def test_file_that_is_not_there(self) -> None:
        """The next one is looked through."""
        (self.room / "it").write_bytes(PR)
        run = ran([*LINT, "none", "it"], folder=self.room)
        self.status("a file that is not there", run, 2)
        self.same("it is named", run.error, b"trac lint: none: it cannot be read\n")
        self.same("the next one", run.output, b"it:1:3: no primitive is named pr (step 11)\n")
        run = self.lint(PR, "--input", "none")
        self.was("input that is not there", run, 2, b"trac lint: none: it cannot be read\n")

    def test_words_that_are_not_understood(self) -> None:
        lines: tuple[list[str], ...] = ["--fast", "it"], []
        for words in lines:
            (self.room / "it").write_bytes(PR)
            run = ran([*LINT, *words], folder=self.room)
            self.status("the words {}".format(words), run, 2)
            self.same("nothing is printed", run.output, b"")

    def test_full_disk(self) -> None:
        """No other program is looked through after it."""
        for name in "it", "another":
            (self.room / name).write_bytes(PR)
        for words, said in ((["it", "another"], b"it: the output"), (["--help"], b"the output"),
                            (["--version"], b"the output")):
            run = ran(["bash", "-c", 'exec "$@" >/dev/full', "-", *LINT, *words], folder=self.room)
            self.was("a full disk and {}".format(words), run, 2, b"trac lint: " + said + b" cannot be written\n")

    def test_empty_name(self) -> None:
        said = b"trac lint: '': it cannot be read\n"
        self.was("input of an empty name", self.lint(PR, "--input", ""), 2, said)
        self.was("a file of an empty name", ran([*LINT, ""], folder=self.room), 2, said)

    def test_few_steps(self) -> None:
        for steps, said in ("1", b"1 step"), ("2", b"2 steps"):
            wanted = b"trac lint: it: stopped after " + said + b"; --steps allows more\n"
            self.was("few steps", self.lint(PR, "--steps", steps), 0, wanted)

    def test_name_that_is_no_utf_8(self) -> None:
        """The tip says how to name it."""
        name = os.fsencode(self.room) + b"/\xff"
        with open(name, "wb") as file:
            file.write(PR)
        run = ran([*LINT, b"\xff"], folder=self.room)
        self.status("a name that is not UTF-8", run, 2)
        self.same("nothing is printed", run.output, b"")
        self.holds("the tip says how to name it", b"trac lint /dev/fd/3 3< FILE" in run.error)
        run = ran([b"bash", b"-c", b'exec "$@" 3<"$0"', b"\xff", *LINT, "/dev/fd/3"], folder=self.room)
        self.was("a file whose name is not UTF-8, opened by the shell", run, 1)
