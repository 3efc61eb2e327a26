"""The course: each command of a lesson prints what the lesson says, each solution solves its exercise and each wrong
one is refused, lessons and exercises keep to their words, and `trac course` says what it should. And what parts a text
of it has, which `trac course` and the page show."""
import os
import re
import shlex
import shutil
import sys
from collections.abc import Iterable, Iterator, Sequence
from typing import Any

from support.cases import EXAMPLES, TOP, TRAC, WALK, Case, Place, Word, each, ran, scratch, tests

sys.path.insert(0, str(TOP / "python"))
from trac_tools import markdown  # noqa: E402

COURSE, LAUNCHER = TOP / "programs" / "course", TOP / "trac"
FIRST = EXAMPLES / "first.trac"
# How many words a lesson may have, with its programs, and an exercise or a hint.
LESSON_WORDS, EXERCISE_WORDS = 400, 60
# The programs that trac lint doubts, on purpose, and the solutions that it doubts for some input: a line of one word,
# a word that is not in a table.
DOUBTED = {"01/silent", "02/comma", "02/unmatched", "03/list", "04/word", "10/wrong", "09/3/solution", "10/2/solution"}
BLOCK = re.compile(r"^```(\w+) ?(\S*)\n(.*?)^```$", re.M | re.S)
LESSONS = sorted(name for name in os.listdir(COURSE) if name.isdigit())


def exercises_of(lesson: str) -> list[str]:
    """The folders of a lesson's exercises."""
    return [os.path.join(lesson, name) for name in sorted(os.listdir(COURSE / lesson)) if name.isdigit()]


# The folders of all exercises, by their numbers.
EXERCISES = {"{}.{}".format(*map(int, name.split("/"))): name for lesson in LESSONS for name in exercises_of(lesson)}
# Words of trac course, a part of what it says, and its status.
SAYS: tuple[tuple[list[str], str, int], ...] = (
    ([], "3. Forms\n    3.1 An address\n", 0),
    (["3"], "\n3. Forms\n\n`ds` keeps a text under a name.", 0),
    (["03"], "exercise 3.1 An address", 0),
    (["hint", "3.1"], "with one `ps` in the parentheses", 0),
    (["solution", "3.1"], "#(ds,address,", 0),
    (["--help"], "check N.K FILE", 0),
    (["--version"], "trac ", 0),
    (["0"], "there is no lesson 0: they are 1 to 10", 2),
    (["11"], "there is no lesson 11: they are 1 to 10", 2),
    (["3.9"], "there is no exercise 3.9: lesson 3 has 3.1, 3.2, 3.3", 2),
    (["hint", "3"], "3 is no exercise: name one as 3.1", 2),
    (["check", "3.1"], "usage: ", 2),
    (["lesson"], "usage: ", 2),
    (["check", "3.1", "/nowhere/x.trac"], "/nowhere/x.trac: No such file", 6),
)
# Programs for exercise 5.1, and what a check says of each.
CHECKED = (
    ("#(ds,down,(#(cl,down)))'", "5.1, run 1 of 2: it has not ended within 10,000,000 steps"),
    ("#(ds,down,(#(ps,x)#(cl,down)))'", "5.1, run 1 of 2: it prints more than 65,536 bytes"),
    ("#(ds,down,(#(cl,down)#(cl,down)#(ds,x,#(cl,x)#(cl,x))))#(ds,x,12345678)'", "5.1, run 1 of 2: it "),
    ("", "  is printed\n    (nothing)\n"),
    ("#(ds,down,(#(ps,3 2 1 stop)))'", "  they differ from line 1, character 7 on\n"),
    ("#(ds,down,(#(ps,(a\x07\x1b[1m\n\xe9))))'", "    a\\x07\\x1b[1m\n    \xe9\n"),
    ("#(ds,down,(#(eq,N,0,(#(ps,(go\n\n))),(#(ps,N )#(cl,down,#(su,N,1))))))#(ss,down,N)'", "5.1 is solved"),
)
# Texts, and their parts: of each its kind, with the name or the mark if it has one, and its lines.
TEXTS: tuple[tuple[str, list[tuple[str, list[str]]]], ...] = (
    ("", []),
    ("# A title\n\nWords of\ntwo lines.\n", [("heading", ["A title"]), ("p", ["Words of", "two lines."])]),
    ("## A title\nWords.", [("heading", ["A title"]), ("p", ["Words."])]),
    ("Words:\n\n1. one\n   goes on\n2. two\n\n- three\nfour",
     [("p", ["Words:"]), ("ol 1. ", ["one", "goes on"]), ("ol 2. ", ["two"]), ("ul - ", ["three", "four"])]),
    ("Words:\n```trac a.trac\n#(ps,a)'\n\n- b\n# c\n```\nMore.\n```console\n$ x\n```",
     [("p", ["Words:"]), ("trac a.trac", ["#(ps,a)'", "", "- b", "# c"]), ("p", ["More."]), ("console", ["$ x"])]),
)
# Words, and their pieces.
SPANS: tuple[tuple[str, list[tuple[str, str]]], ...] = (
    ("", []), ("plain", [("", "plain")]), ("`a *b* c`", [("code", "a *b* c")]),
    ("a *b* **c d** e", [("", "a "), ("em", "b"), ("", " "), ("strong", "c d"), ("", " e")]),
    ("see [the page](a/b.md).", [("", "see "), ("", "the page"), ("", ".")]),
)


def read(*parts: str) -> str:
    """The text of a file of the course."""
    return COURSE.joinpath(*parts).read_text(encoding="utf-8")


def called(words: Sequence[Word], given: str = "", **more: Any) -> tuple[str, int]:
    """What a command says, both streams together, and its status."""
    run = ran(["bash", "-c", 'exec "$@" 2>&1', "-", *words], given.encode(), **more)
    return run.output.decode("utf-8", "replace"), run.status


def courses(*words: Word, **more: Any) -> tuple[str, int]:
    """What trac course says, and its status."""
    return called([LAUNCHER, "course", *words], **more)


def commands(block: str, first: int) -> Iterator[tuple[str, str, str, list[int]]]:
    """The commands of a block, each with what is typed, what it prints, and the lines of the lesson where that
    stands; the block begins at this line."""
    number = first
    for part in re.split(r"^(?=\$ )", block, flags=re.M):
        command, *lines = part.splitlines(keepends=True) or [""]
        if command.startswith("$ "):
            typed = "".join(line[2:] for line in lines if line.startswith("> "))
            kept = [at for at, line in enumerate(lines) if not line.startswith("> ")]
            yield command[2:].rstrip("\n"), typed, "".join(lines[at] for at in kept), [number + 1 + at for at in kept]
        number += part.count("\n")


@tests
class Course(Case):
    """Lessons, exercises, and the command."""

    @each(LESSONS)
    def test_lesson(self, name: str) -> None:
        """A lesson: its words, its programs, and its commands."""
        text = read(name, "lesson.md")
        size = len(text.split())
        self.holds("it has at most {} words, and not {}".format(LESSON_WORDS, size), size <= LESSON_WORDS)
        self.holds("it begins with its title", re.match(r"# {}\. \S".format(int(name)), text))
        blocks = list(BLOCK.finditer(text))
        self.holds("each block is understood", text.count("```") == 2 * len(blocks))
        shown = {block[2] for block in blocks if block[1] == "trac"}
        there = {file for file in os.listdir(COURSE / name) if file.endswith(".trac")}
        self.holds("it shows {}, and {} are there".format(sorted(shown), sorted(there)), shown == there)
        consoles = " ".join(block[3] for block in blocks if block[1] == "console")
        for block in blocks:
            self.check_block(name, block, text.count("\n", 0, block.start(3)) + 1, consoles)
        self.check_lint(name, sorted(there))
        self.check_exercises_of(name)

    def check_block(self, name: str, block: re.Match[str], line: int, consoles: str) -> None:
        """A block: a program, which is as its file and is run, or a console, whose commands print what it says."""
        kind, file, text = block.groups()
        if kind == "trac":
            wanted = read(name, file) if (COURSE / name / file).exists() else ""
            path = "programs/course/{}/{}".format(name, file)
            self.same("{} is as the lesson shows it".format(file), text, wanted, Place(path), "shown")
            self.holds("the lesson runs {}".format(file), path in consoles)
            return
        self.holds("a block is a program or a console", kind == "console" and not file)
        for command, typed, wanted, lines in commands(text, line):
            said, _ = called(["bash", "-c", command], typed)
            place = Place("programs/course/{}/lesson.md".format(name), lines or line)
            self.same(command, said.rstrip("\n"), wanted.rstrip("\n"), place, "printed")

    def check_lint(self, folder: str, files: Iterable[str]) -> None:
        """What trac lint says of the programs of a lesson, or of a solution on its inputs."""
        inputs = sorted(file for file in (COURSE / folder).iterdir() if file.suffix == ".in")
        words: list[list[Word]] = [["--input", file] for file in inputs] or [[]]
        for file in files:
            file = os.path.join(folder, file)
            said = [called([WALK, "--lint", "--steps", "100000", *given, COURSE / file]) for given in words]
            is_doubted = any(status for _, status in said)
            self.holds("trac lint says of {}: {}".format(file, said), is_doubted == (file[:-5] in DOUBTED))

    def check_exercises_of(self, name: str) -> None:
        """A lesson has two or three exercises, and README.md lists it."""
        there = [os.path.basename(folder) for folder in exercises_of(name)]
        self.holds("it has two or three exercises", there in (["1", "2"], ["1", "2", "3"]))
        title = read(name, "lesson.md").split("\n")[0].split(". ")[1]
        line = "{}. [{}]({}/lesson.md)".format(int(name), title, name)
        self.holds("README.md of the course lists it", line in read("README.md"))

    @each(EXERCISES)
    def test_exercise(self, number: str) -> None:
        """An exercise: its words, what must be printed, its solution and its wrong solution."""
        name = EXERCISES[number]
        text, folder = read(name, "exercise.md"), COURSE / name
        self.holds("it begins with its title", text.startswith("# {} ".format(number)))
        for file in "exercise.md", "hint.md":
            self.holds("the words of {}/{}".format(name, file), 1 < len(read(name, file).split()) <= EXERCISE_WORDS)
        files = set(os.listdir(folder))
        runs = sum(1 for file in files if file.endswith(".out"))
        outputs, inputs = ({"{}.{}".format(at + 1, ending) for at in range(runs)} for ending in ("out", "in"))
        self.holds("its runs are numbered", runs and outputs <= files)
        self.holds("it has these files: {}".format(sorted(files)), files - outputs - inputs <= {
            "exercise.md", "hint.md", "solution.trac", "wrong.trac", "start.trac"})
        self.holds("it says where it begins", ("start.trac" in text) == ("start.trac" in files))
        for file in sorted(files & {"wrong.trac", "start.trac"}):
            said, status = courses("check", number, folder / file)
            self.holds("{} is refused: {}".format(file, said), status == 1 and "must be printed" in said)
        said, status = courses("check", number, folder / "solution.trac")
        self.holds("its solution solves it:\n" + said, status == 0 and "{} is solved".format(number) in said)
        said, status = courses(number)
        self.holds("it is shown with its runs: " + said, status == 0 and said.count("must be printed") == runs)
        self.check_lint(name, ["solution.trac"])

    def test_parts_of_texts(self) -> None:
        for text, wanted in TEXTS:
            found = [(" ".join(filter(None, (it.kind, it.name, it.mark))), it.lines) for it in markdown.parts(text)]
            self.same("the parts of {!r}".format(text), "\n".join(map(str, found)), "\n".join(map(str, wanted)))
        for text, pieces in SPANS:
            found_pieces = [tuple(it) for it in markdown.spans(text)]
            self.same("the pieces of {!r}".format(text), "\n".join(map(str, found_pieces)), "\n".join(map(str, pieces)))

    def test_number_of_lessons(self) -> None:
        self.holds("there are ten lessons", LESSONS == ["{:02}".format(number + 1) for number in range(10)])

    def test_words_of_documents(self) -> None:
        """docs/porting.md has at most 900 words, and the forms to copy in docs/programs.md 500."""
        count = len((TOP / "docs" / "porting.md").read_text(encoding="utf-8").split())
        self.holds("docs/porting.md has at most 900 words, and not {}".format(count), count <= 900)
        text = (TOP / "docs" / "programs.md").read_text(encoding="utf-8")
        count = len(text.split("\n## Forms to copy\n")[1].split("\n## ")[0].split())
        self.holds("the forms to copy have at most 500 words, and not {}".format(count), count <= 500)

    def test_what_the_command_says(self) -> None:
        for words, part, status in SAYS:
            said, ended = courses(*words)
            what = "trac course {}: {!r}, status {}".format(" ".join(words), said[:200], ended)
            self.holds(what, part in said and ended == status)

    def test_what_a_check_says(self) -> None:
        file = scratch(self) / "try.trac"
        for program, part in CHECKED:
            file.write_text(program, encoding="utf-8")
            said, status = courses("check", "5.1", file)
            self.holds("a check of {!r} says {!r}, and not {!r}".format(program, said[:300], part),
                       part in said and status == (0 if "solved" in part else 1))

    def test_file_without_its_last_line_end(self) -> None:
        file = scratch(self) / "line.trac"
        file.write_text(read("08/1/solution.trac").rstrip("\n"), encoding="utf-8")
        self.holds("it may lack that", courses("check", "8.1", file)[1] == 0)

    def test_widths(self) -> None:
        for width in 50, 200:
            said, _ = courses("6", env={**os.environ, "COLUMNS": str(width)})
            lines = [line for line in said.splitlines() if not line.startswith("    ") and str(LAUNCHER) not in line]
            self.holds("a lesson fits {} columns".format(width), max(map(len, lines)) <= min(width, 100))

    def test_from_elsewhere(self) -> None:
        """A lesson names programs and files that are there."""
        said, _ = courses("1", folder="/")
        lines = [line[6:] for line in said.splitlines() if line.startswith("    $ ")]
        words = sorted({word for line in lines for word in shlex.split(line) if "/" in word})
        left = [word for word in words if not os.path.exists(os.path.join("/", word))]
        self.holds("of {} all are there, and not only those that are not {}".format(words, left), words and not left)

    def test_from_a_folder_that_is_gone(self) -> None:
        """A lesson is shown also where the folder was taken away that it is asked for in."""
        gone = 'mkdir gone && cd gone && rmdir ../gone && exec "$0" course 1'
        said, status = called(["bash", "-c", gone, str(LAUNCHER)], folder=scratch(self))
        self.holds("to its end: {!r}".format(said[-80:]), status == 0 and said[-40:] == courses("1")[0][-40:])

    def test_lesson_of_somebody(self) -> None:
        """A lesson may have no exercises, bytes that are no text, and long input; no lesson makes no course."""
        top = scratch(self)
        trac, course = top / "bin" / "trac", top / "share" / "trac" / "course"
        for place in trac.parent, top / "lib" / "trac", course:
            place.mkdir(parents=True)
        shutil.copy(LAUNCHER, trac)
        for program in TRAC, WALK:
            os.symlink(program, top / "lib" / "trac" / program.name)
        os.symlink(TOP / "python" / "trac_tools", course.parent / "trac_tools")
        said, status = called([trac, "course"])
        self.holds("no lesson: {!r}, {}".format(said, status), status == 70 and said.count("\n") == 1)
        (course / "01").mkdir()
        (course / "01" / "lesson.md").write_bytes(b"# 1. Stra\xdfe\n")
        self.same("no exercise", "{} {}".format(*called([trac, "course", "1"])), "\n1. Stra\\xdfe\n\n 0")
        (course / "01" / "1").mkdir()
        (course / "01" / "1" / "exercise.md").write_bytes(b"# 1.1 Ma\xdfe\n")
        (course / "01" / "1" / "solution.trac").write_bytes(b"\xdf\r\n'")
        said, status = called([trac, "course"])
        self.holds("an exercise: {!r}, {}".format(said, status), status == 0 and "\n    1.1 Ma\\xdfe\n" in said)
        self.ends("a solution, as it is", ran([trac, "course", "solution", "1.1"]), b"\xdf\r\n'")
        (course / "01" / "1" / "1.in").write_bytes(b"x" * 200000 + b"'\n")
        (course / "01" / "1" / "1.out").write_bytes(b"x\n")
        said, status = called([trac, "course", "check", "1.1", FIRST])
        self.holds("a check: {!r}, {}".format(said[:200], status), status == 1 and "prints more than" in said)

    def test_who_reads_no_more(self) -> None:
        said, status = called(["bash", "-o", "pipefail", "-c", shlex.quote(str(LAUNCHER)) + " course 1 | head -c 1"])
        self.holds("gets no message: {!r}".format(said), said == "\n")

    def test_doubts_in_a_check(self) -> None:
        """A check shows the first doubt of trac lint."""
        wrong, room = COURSE / "10" / "1" / "wrong.trac", scratch(self)
        said, status = courses("check", "10.1", wrong)
        doubt = ran([WALK, "--lint", "--input", COURSE / "10" / "1" / "1.in", wrong]).output.decode().split("\n")[0]
        part = "  trac lint says\n    {}\n".format(doubt)
        self.holds("a check says the first doubt: {!r}".format(said), status == 1 and doubt and part in said)
        twice = room / "twice.trac"
        twice.write_text("#(pr,a)#(pr,b)'#(cl,c)'", encoding="utf-8")
        said, status = courses("check", "10.1", twice)
        self.holds("and no other: {!r}".format(said), said.count("no primitive is named pr") == 1)
        said, status = courses("check", "10.1", COURSE / "10" / "1" / "solution.trac")
        self.holds("a right solution is not doubted: " + said, status == 0 and "trac lint" not in said)

    def test_own_name(self) -> None:
        """It says how to go on by the name that it was called by; on PATH that is the word alone."""
        beside = ran(["./trac", "course"]).output.decode().splitlines()[-1]
        self.same("beside", beside, "./trac course 1 shows the first lesson, ./trac course 1.1 its first exercise")
        path = {**os.environ, "PATH": "{}:{}".format(TOP, os.environ["PATH"])}
        on_path = called(["trac", "course"], env=path)[0].splitlines()[-1]
        self.same("on PATH", on_path, "trac course 1 shows the first lesson, trac course 1.1 its first exercise")
