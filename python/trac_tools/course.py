"""Shows a course in TRAC at the terminal, and checks its exercises.

    trac course                    lists the lessons and their exercises
    trac course N                  shows lesson N
    trac course N.K                shows exercise N.K; so `hint N.K` and `solution N.K`
    trac course check N.K FILE     runs FILE on each given input, and says what differs

The lessons and exercises are the files of programs/course/, whose README.md says how they are kept; installed, of
share/trac/course/.
"""
from __future__ import annotations

import argparse
import os
import re
import shutil
import subprocess
import textwrap
import time

from trac_tools import judging, markdown
from trac_tools.dialogue import bound, passed_on
from trac_tools.tool import (Fault, Place, Process, ShowVersion, Words, begin, beside, found, is_seen, legible,
                             printable, program, read_file, ready, shown, write)

TYPE_CHECKING = False
if TYPE_CHECKING:
    from typing import Any

# How many bytes of memory a checked program may take.
MEMORY = 1_073_741_824
# The file that is a process's standard input.
OWN_INPUT = "/dev/fd/0"
# How many lines of a text a check shows, and how wide they are at most; how wide a line of a lesson is.
LINES, LONGEST, WIDTH = 24, 160, 100
WORDS = """\
N                 show lesson N
N.K               show exercise N.K
hint N.K          show a hint for it
solution N.K      show a solution
check N.K FILE    run FILE on each given input, and say what differs
"""


def own_name() -> str:
    """This command as it was called."""
    called = os.path.basename(Place.called)
    on_path = is_on_path(called)
    return (called if on_path else shown(Place.called)) + (" course" if called != "trac-course" else "")


def say(text: str = "") -> None:
    """Prints a line."""
    write(text + "\n")


class Course:
    """The lessons in a folder."""

    def __init__(self) -> None:
        self.folder = os.path.normpath(found("the course", "programs/course", "share/trac/course"))
        self.lessons = sorted(int(name) for name in os.listdir(self.folder) if re.fullmatch("[0-9]{2}", name))
        if not self.lessons:
            raise Fault("the course has no lessons: looked in {}".format(shown(self.folder)), 70)

    def file(self, *parts: str) -> str:
        """The path of a file."""
        return os.path.join(self.folder, *parts)

    def text(self, *parts: str) -> str:
        """The text of a file. (Who adds a lesson may write bytes that are no text.)"""
        with open(self.file(*parts), encoding="utf-8", errors="backslashreplace") as file:
            return file.read()

    def title(self, *parts: str) -> str:
        """The title of a lesson or an exercise."""
        return self.text(*parts).split("\n", 1)[0].lstrip("# ").rstrip()

    def lesson(self, word: str) -> str:
        """The folder of a lesson."""
        if not re.fullmatch("[0-9]{1,3}", word) or int(word) not in self.lessons:
            raise Fault("there is no lesson {}: they are 1 to {}".format(shown(word), self.lessons[-1]), 2)
        return "{:02}".format(int(word))

    def exercises(self, lesson: str) -> list[str]:
        """The folders of a lesson's exercises."""
        names = (name for name in os.listdir(self.file(lesson)) if name.isdigit())
        return [os.path.join(lesson, name) for name in sorted(names, key=int)]

    def exercise(self, word: str) -> str:
        """The folder of an exercise."""
        parts = re.fullmatch(r"([0-9]{1,3})\.([0-9]{1,3})", word)
        if not parts:
            raise Fault("{} is no exercise: name one as 3.1".format(shown(word)), 2)
        lesson = self.lesson(parts[1])
        folder = os.path.join(lesson, str(int(parts[2])))
        if folder not in self.exercises(lesson):
            there = ", ".join(map(number_of, self.exercises(lesson)))
            raise Fault("there is no exercise {}: lesson {} has {}".format(word, int(lesson), there), 2)
        return folder

    def runs(self, exercise: str) -> list[tuple[bytes, bytes]]:
        """For each given input: what stands after the program, and what must be printed."""
        found: list[tuple[bytes, bytes]] = []
        while os.path.exists(self.file(exercise, "{}.out".format(len(found) + 1))):
            name = self.file(exercise, str(len(found) + 1))
            with open(name + ".out", "rb") as file:
                wanted = file.read()
            given = b""
            if os.path.exists(name + ".in"):
                with open(name + ".in", "rb") as file:
                    given = file.read()
            found.append((given, wanted))
        return found

    def next_of(self, exercise: str) -> str | None:
        """The exercise after this one, or the next lesson, if there is one."""
        lesson = exercise[:2]
        later = self.exercises(lesson)
        later = later[later.index(exercise) + 1:]
        after = [number for number in self.lessons if number > int(lesson)]
        return number_of(later[0]) if later else str(after[0]) if after else None


def is_on_path(name: str) -> bool:
    """Whether a command of this name is the launcher."""
    found = shutil.which(name)
    return found is not None and os.path.realpath(found) == Place.launcher


def here() -> str:
    """The folder that the command was given in; empty if that is gone."""
    try:
        return os.getcwd()
    except OSError:
        return ""


def number_of(exercise: str) -> str:
    """An exercise as a user names it."""
    lesson, number = os.path.split(exercise)
    return "{}.{}".format(int(lesson), number)


class Page:
    """Lays a text in Markdown out for the terminal."""

    def __init__(self, course: Course) -> None:
        self.course = course
        self.is_terminal = os.isatty(1)
        self.width = min(shutil.get_terminal_size((80, 24)).columns, WIDTH)

    def bold(self, text: str) -> str:
        """A text in bold, if that can be shown."""
        return "\x1b[1m{}\x1b[0m".format(text) if self.is_terminal else text

    def command(self, line: str) -> str:
        """A line of a block, with its files and programs as they are found from here."""
        if os.path.join(here(), "programs", "course") == self.course.folder and os.path.exists("trac"):
            return line
        on_path = is_on_path("trac")
        line = re.sub(r"(?<![^\s`])\./trac\b", lambda _: "trac" if on_path else legible(Place.launcher), line)
        return re.sub(r"(?<![\w/.])programs/(course|library)/", lambda it: self.folder(it[1]) + "/", line)

    def folder(self, name: str) -> str:
        """A folder that stands where the course does, by its shorter path."""
        path = os.path.join(os.path.dirname(self.course.folder), name)
        return legible(min(os.path.relpath(path), path, key=len) if here() else path)

    def inline(self, text: str) -> str:
        """A text without its marks, and with no place to break within a piece of code."""
        shown = {"code": lambda code: self.command("`{}`".format(code)).replace(" ", "\0"), "strong": self.bold}
        return "".join(shown.get(span.kind, str)(span.text) for span in markdown.spans(text))

    def wrapped(self, text: str, first: str = "", rest: str = "") -> str:
        """A paragraph in lines."""
        return textwrap.fill(self.inline(text), self.width, initial_indent=first, subsequent_indent=rest,
                             break_long_words=False, break_on_hyphens=False).replace("\0", " ")

    def show(self, text: str) -> None:
        """Prints a text."""
        was_item = False
        for part in markdown.parts(text):
            if not (was_item and part.is_item):
                say()
            was_item = part.is_item
            if part.kind == "heading":
                say(self.bold(part.words))
            elif part.kind in ("p", "ol", "ul"):
                say(self.wrapped(part.words, part.mark, " " * len(part.mark)))
            else:
                for line in part.lines:
                    say("    " + (self.command(line) if part.kind == "console" else line))


def line_of(line: str) -> str:
    """A line of a check: signs in place of what shows nothing, and no longer than a line may be."""
    line = "".join(sign if is_seen(sign) else sign.encode("unicode_escape").decode() for sign in line[:LONGEST + 1])
    return "    " + (line if len(line) <= LONGEST else line[:LONGEST - 2] + "..")


def indented(data: bytes) -> str:
    """Bytes as lines of a check, no more than so many."""
    text = data.decode("utf-8", "backslashreplace").rstrip("\n")
    lines = text.split("\n")
    more = ["    .. and {} more lines".format(len(lines) - LINES)] if len(lines) > LINES else []
    return "\n".join([line_of(line) for line in lines[:LINES]] + more) if text else "    (nothing)"


def show_list(course: Course) -> None:
    """Prints what there is."""
    for lesson in map("{:02}".format, course.lessons):
        say(course.title(lesson, "lesson.md"))
        for exercise in course.exercises(lesson):
            say("    " + course.title(exercise, "exercise.md"))
    say("\n{0} 1 shows the first lesson, {0} 1.1 its first exercise".format(own_name()))


def show_lesson(course: Course, lesson: str) -> None:
    """Prints a lesson, and its exercises."""
    Page(course).show(course.text(lesson, "lesson.md"))
    say()
    exercises = course.exercises(lesson)
    for exercise in exercises:
        say("exercise " + course.title(exercise, "exercise.md"))
    if exercises:
        say("{} {} shows the first of them".format(own_name(), number_of(exercises[0])))


def show_exercise(course: Course, exercise: str) -> None:
    """Prints an exercise, and its inputs."""
    number = number_of(exercise)
    Page(course).show(course.text(exercise, "exercise.md"))
    say()
    if os.path.exists(course.file(exercise, "start.trac")):
        say("start.trac is {}".format(legible(course.file(exercise, "start.trac"))))
    for at, (given, wanted) in enumerate(course.runs(exercise), 1):
        say("run {}".format(at))
        show_run(given, wanted)
    say("\n{0} check {1} FILE checks your program, {0} hint {1} gives a hint".format(own_name(), number))


def show_run(given: bytes, wanted: bytes) -> None:
    """Prints an input, if there is one, and what must be printed."""
    if given:
        say("  the input after the program\n" + indented(given))
    say("  must be printed\n" + indented(wanted))


def exchange(process: Process, tape: bytes, most: int, seconds: float) -> tuple[bytes, bool]:
    """Gives a process its input, and takes what it prints, so many bytes at most and for so long; returns that, and
    whether it has ended by itself."""
    to, out = process.stdin.fileno(), process.stdout.fileno()
    os.set_blocking(to, False)
    left, printed, end = memoryview(tape), b"", time.monotonic() + seconds
    while len(printed) <= most:
        if not left and not process.stdin.closed:
            process.stdin.close()
        come, free = ready([out], [to] if left else [], max(end - time.monotonic(), 0))
        if free:
            try:
                left = left[os.write(to, left):]
            except BrokenPipeError:
                left = left[len(left):]
        if out in come:
            part = os.read(out, most + 1 - len(printed))
            if not part:
                return printed, True
            printed += part
        if not come and not free:
            break
    return printed, False


def tried(command: list[str], tape: bytes, most: int, **how: Any) -> tuple[bytes, int | None]:
    """What a command prints that is given a tape, and its status, which is none where it has printed too much or took
    too long."""
    process = begin(command, stdin=subprocess.PIPE, stdout=subprocess.PIPE, stderr=subprocess.DEVNULL, **how)
    printed, has_ended = exchange(process, tape, most, judging.SECONDS)
    if not has_ended:
        process.kill()
    process.stdout.close()
    status = process.wait()
    return printed, status if has_ended else None


def run_program(tape: bytes) -> tuple[bytes, str | None]:
    """What a program prints, and what is wrong with its end, if that is."""
    printed, status = tried([program("trac"), "run", "--budget", str(judging.STEPS)], tape, judging.PRINTED,
                            preexec_fn=lambda: bound(MEMORY))
    if len(printed) > judging.PRINTED:
        return printed, judging.WHY["long"]
    if status is None:
        return printed, judging.WHY["late"]
    if status and str(status) not in judging.WHY:
        raise Fault("trac run ended with status {}".format(status), max(status, 1))
    return printed, judging.WHY.get(str(status))


def first_doubt(name: str, tape: bytes, given: bytes) -> str | None:
    """What trac lint says first of a program with this input, if it has a doubt."""
    with passed_on(given) as (after, give):
        # (the input of an exercise that somebody adds may be longer than a pipe takes at once)
        beside(give)
        said, status = tried([program("trac-walk"), "--lint", "--input", after.name, OWN_INPUT], tape, judging.PRINTED,
                             pass_fds=[after.number])
    lines = said.decode("utf-8", "backslashreplace").splitlines()
    if status != 1 or not lines:
        return None
    return printable(lines[0].replace(after.name, "the input", 1).replace(OWN_INPUT, shown(name)))


def difference(printed: bytes, wanted: bytes) -> str:
    """Where two texts begin to differ."""
    front = os.path.commonprefix([text.rstrip(b"\n").decode("utf-8", "replace") for text in (printed, wanted)])
    line, column = front.count("\n") + 1, len(front) - front.rfind("\n")
    return judging.WHERE.replace("LINE", str(line)).replace("COLUMN", str(column))


def check(course: Course, exercise: str, name: str) -> int:
    """Runs a file on each given input, and says what differs; returns the exit status."""
    number = number_of(exercise)
    tape = read_file(name)
    # (as editors leave a file: else the input would go on in its last line)
    front = tape + (b"" if tape.endswith(b"\n") else b"\n")
    runs = course.runs(exercise)
    for at, (given, wanted) in enumerate(runs, 1):
        printed, fault = run_program(front + given)
        what = "{}, run {} of {}: ".format(number, at, len(runs))
        if not fault and printed.rstrip(b"\n") == wanted.rstrip(b"\n"):
            say(what + "right")
            continue
        say(what + (fault or judging.WHY["other"]))
        show_run(given, wanted)
        say("  is printed\n" + indented(printed))
        if not fault and printed and wanted:
            say("  " + difference(printed, wanted))
        doubt = first_doubt(name, tape, given)
        if doubt:
            say("  trac lint says\n    " + doubt)
        say("{} hint {} gives a hint".format(own_name(), number))
        return 1
    after = course.next_of(exercise)
    say("{} is solved{}".format(number, "; {} {} goes on".format(own_name(), after) if after else ""))
    return 0


def options(given: list[str]) -> tuple[Words, argparse.Namespace]:
    """The command line."""
    words = Words(
        prog="trac course",
        usage="trac course [--help] [--version] [N | N.K | hint N.K | solution N.K | check N.K FILE]",
        description="Shows a course in TRAC T-64, and checks its exercises. With no word it lists the lessons.",
        epilog="words:\n" + textwrap.indent(WORDS, "  "),
        formatter_class=argparse.RawDescriptionHelpFormatter,
        allow_abbrev=False,
    )
    words.add_argument("words", metavar="WORD", nargs="*", help=argparse.SUPPRESS)
    words.add_argument("-V", "--version", action=ShowVersion, help="show the version of the processor")
    return words, words.parse_args(given)


def main(given: list[str]) -> int:
    """Does what the command line says; returns the exit status."""
    parser, chosen = options(given)
    words = chosen.words
    course = Course()
    if not words:
        show_list(course)
    elif len(words) == 1 and words[0].isdigit():
        show_lesson(course, course.lesson(words[0]))
    elif len(words) == 1 and re.fullmatch(r"[0-9]+\.[0-9]+", words[0]):
        show_exercise(course, course.exercise(words[0]))
    elif len(words) == 2 and words[0] == "hint":
        Page(course).show(course.text(course.exercise(words[1]), "hint.md"))
    elif len(words) == 2 and words[0] == "solution":
        write(read_file(course.file(course.exercise(words[1]), "solution.trac")))
    elif len(words) == 3 and words[0] == "check":
        return check(course, course.exercise(words[1]), words[2])
    else:
        parser.error("not understood: " + " ".join(map(shown, words)))
    return 0
