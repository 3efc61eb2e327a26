"""trac play: what a person at a pseudo-terminal sees of programs that ask, when it ends, and what it reads elsewhere.

Each row is a program, what is typed at each prompt, and what is seen, with the prompts."""
from __future__ import annotations

import os
import pty
import re
import select
import shutil
import subprocess
import time
from collections.abc import Iterable, Sequence

from support.cases import TESTS, TOP, Case, Process, Word, each, patience, ran, scratch, tests
from support.peaks import measured
from support.terminals import at_terminal

TRAC = TOP / "trac"
PLAY: list[Word] = [TRAC, "play"]
GOES_ON = "trac play: this text goes on until ' is typed\n"
NAME = b"#(ps,(Name? ))#(ps,(Hello, )#(rs)(.\n))'\n"
LOOP = b"#(ds,L,(#(ps,(? ))#(eq,##(rs),(\n)q,(#(ps,bye)),(#(cl,L)))))'#(cl,L)'\n"

COUNT = b"#(ds,L,(%s#(eq,N,%d,,(#(cl,L,#(ad,N,1))))))'#(ss,L,N)'#(cl,L,1)"

# What is tried, a program, options, lines to be typed, what is seen, and the status.
ROWS: tuple[tuple[str, bytes, list[str], list[str], str | None, int], ...] = (
    ("a program that asks nothing", b"#(ps,hello)'\n", [], [], "hello", 0),
    ("an empty file", b"", [], [], "", 0),
    ("a last text without its end", b"#(ps,hello)", [], [], "hello", 0),
    ("a last text without its end, which asks", b"#(ps,(Name? ))#(ps,<#(rs)>)", [], ["Ann'"], "Name? > Ann'\n<Ann>", 0),
    ("it halts", b"#(ps,a)#(hl)'", [], [], "a", 0),
    ("it halts after an answer", b"#(ps,(go? )#(rs))#(hl)'", [], ["a'"], "> a'\ngo? a", 0),
    ("a last text without its end, which reads a character", b"#(ps,<##(rc)>)", [], ["x'"], "> x'\n<x>", 0),
    ("a question", b"#(ps,(Name? ))#(ps,(Hello, )#(rs)(.\n))'\n", [], ["Ann'"], "Name? > Ann'\nHello, Ann.\n", 0),
    ("what is typed after the end", b"#(ps,(Name? ))#(ps,<#(rs)>)'\n", [], ["Ann' #(ps,boo)'"],
     "Name? > Ann' #(ps,boo)'\n<Ann>", 0),
    ("an answer of two lines", b"#(ps,(Name? ))#(ps,<#(rs)>)'\n", [], ["Ann", "Lee'"],
     "Name? > Ann\n" + GOES_ON + ".. Lee'\n<AnnLee>", 0),
    ("that is said once", b"#(ps,<#(rs)>)#(ps,<#(rs)>)'", [], ["A", "", "B'", "C", "D'"],
     "> A\n" + GOES_ON + ".. \n.. B'\n<AB>\r<AB>> C\n.. D'\n<CD>", 0),
    ("two answers in a line", b"#(ps,<#(rs)>)#(ps,<#(rs)>)'", [], ["A'B'"], "> A'B'\n<A><B>", 0),
    ("a program that reads a program", b"#(rs)'\n", [], ["#(ad,2,3)'"], "> #(ad,2,3)'\n5", 0),
    ("a loop", LOOP, [], ["x'", "y'", "q'"], "? > x'\n? > y'\n? > q'\nbye", 0),
    ("the end of the input", LOOP, [], ["x'", "\x04"], "? > x'\n? > \n? ", 0),
    ("the end of the input ends a text", b"#(ps,(Name? ))#(ps,<#(rs)>)'\n", [], ["Ann", "\x04"],
     "Name? > Ann\n" + GOES_ON + ".. \n<Ann>", 0),
    ("names in large letters", b"#(ps,(n? ))#(PS,<#(RS)>)'\n", [], ["A'"], "n? > A'\n<A>", 0),
    ("another meta character", b"#(cm,!)'#(ps,(n? ))#(ps,<#(rs)>)!\n", [], ["it's!"], "n? > it's!\n<it's>", 0),
    ("a character", b"#(ps,(c? ))#(ps,<#(rc)>)'", [], ["xyz'#(ps,boo)'"], "c? > xyz'#(ps,boo)'\n<x>", 0),
    ("characters, then a text", b"#(ps,<#(rc)#(rc)><#(rs)>)'", [], ["xyz'"], "> xyz'\n<xy><z>", 0),
    ("a long line before a question", b"#(ps,(%s? ))#(ps,<#(rs)>)'" % (b"x" * 100), [], ["A'"],
     "x" * 100 + "? \r" + "x" * 20 + "? > A'\n<A>", 0),
    ("bytes that are no letters", b"#(ps,(\x1b[1m? ))#(ps,<#(rs)>)'", [], ["\u00e9'"], "\x1b[1m? > \u00e9'\n<\u00e9>",
     0),
    ("a question after much output", COUNT % (b"#(ps,N( ))", 3000) + b"#(ps,(\n))#(ps,<#(rs)>)'", [], ["A'"],
     " ".join(map(str, range(1, 3001))) + " \n> A'\n<A>", 0),
    ("much is computed before a question", COUNT % (b"", 200000) + b"#(ps,<#(rs)>)'", [], ["A'"],
     "> A'\n<A>", 0),
    ("a budget that is spent", b"#(ds,L,(#(cl,L)))#(cl,L)'", ["--budget", "1000"], [], "trac: budget spent\n", 3),
    ("memory that is refused", b"#(ds,L,(#(ds,D,##(cl,D)##(cl,D))#(cl,L)))'#(ds,D,x)#(ps,begun( ))#(cl,L)'",
     ["--memory", "8M"], [],
     "begun trac: no memory\n", 5),
    ("numbers of 64 bits", b"#(ps,#(ad,9223372036854775807,#(rs),Z))'", ["--decimals", "64"], ["1'"], "> 1'\nZ", 0),
    ("an option that trac run refuses", b"A'", ["--budget", "x"], [], None, 2),
    ("one that both refuse", b"A'", ["--decimals", "65"], [], "error: invalid value '65' for '--decimals <BITS>'\n"
     "  [possible values: 64, 128]\n\nFor more information, try '--help'.\n", 2),
    ("a size that is refused", b"A'", ["--memory", "9" * 30 + "G"], [], "error: invalid value '" + "9" * 30 + "G' for "
     "'--memory <SIZE>': it is not in 1M..=1024G\n\nFor more information, try '--help'.\n", 2),
    ("a unit that is no letter", b"A'", ["--memory", "64\u212a"], [], "error: invalid value '64\\xe2\\x84\\xaa' for "
     "'--memory <SIZE>': it is not in 1M..=1024G\n\nFor more information, try '--help'.\n", 2),
    ("a million steps before a question",
     COUNT % (b"#(ps,.)", 30000) + b"#(ps,(\nname? ))#(ps,(hello )##(rs))'", [],
     ["Ann'"], "." * 30000 + "\nname? > Ann'\nhello Ann", 0),
    ("ten million steps before each",
     b"#(ds,L,(#(eq,N,300000,,(#(cl,L,#(ad,N,1))))))'#(ss,L,N)'#(cl,L,1)#(ps,<#(rs)>)"
     b"#(cl,L,1)#(ps,<#(rs)>)'", [], ["A'", "B'"], "> A'\n<A>\r<A>> B'\n<B>", 0),
    ("many texts, and much that is printed", 8000 * b"(abcdefghijklmnopqrstuvwxyz)'" + b"#(ps,(\n))#(ps,<#(rs)>)'", [],
     ["A'"],
     8000 * "abcdefghijklmnopqrstuvwxyz" + "\n> A'\n<A>", 0),
    ("a text after the last of two answers in a line", b"#(ps,(n? ))#(ps,<#(rs)>)#(ps,<#(rs)>)'", [],
     ["A'B'#(ps,boo)'"],
     "n? > A'B'#(ps,boo)'\n<A><B>", 0),
    ("characters, and then what is not run", b"#(ps,<#(rc)#(rc)>)'", [], ["xy#(ps,boo)'#(ps,boo)'"],
     "> xy#(ps,boo)'#(ps,boo)'\n<xy>", 0),
    ("a long line", b"#(ps,(n? ))#(ps,#(rs))#(ps,(\n))#(ps,<#(rs)>)'", [], ["x" * 5000 + "'", "B'"], None, 0),
    ("a meta character that a terminal would obey", b"#(cm,##(rc))'\x1b#(ps,<#(rs)>)\x1b", [], ["A", "\x04"],
     "> A\ntrac play: this text goes on until \\x1b is typed\n.. \n<A>", 0),
    ("quotes and backslashes", b"#(ps,<##(rs)>)'", [],
     ['\\ "a" \\n\\x41\\\'"'], """> \\ "a" \\n\\x41\\'"\n<\\ "a" \\n\\x41\\>""", 0),
    ("history of the line editor", b"#(ps,<#(rs)>)#(ps,<#(rs)>)'", [], ["AB'", "\x1b[A\x02\x02C"],
     "> AB'\n<AB>\r<AB>> ", 0),
)


def without_prompts(seen: str, wanted: str | None) -> str:
    """What is seen, without that a line which is there already is shown again, with its prompt."""
    return seen if wanted is None or "\r" in wanted else re.sub(r"(?m)(^|\n)([^\n\r]*)\r\2", r"\1\2", seen)


def hyphened(text: str) -> str:
    """What is tried, as the name of a test."""
    return re.sub("[ ,]+", "-", text)


# What takes a walk that begins anew for each answer a minute or more.
MANY = {
    "silent-second": (COUNT % (b"", 900000) + b"#(ps,<#(rs)>)'", ["A'"], "> A'\n<A>"),
    "1000-answers": (LOOP, ["x'"] * 1000 + ["q'"], "? > x'\n" * 1000 + "? > q'\nbye"),
}
# A form of 64 KiB.
LONG = b"#(ds,D,x)'" + 16 * b"#(ds,D,##(cl,D)##(cl,D))'"
# What takes memory: its program, lines to be typed, what is seen, and the status.
SIZES: dict[str, tuple[bytes, list[str], str, int]] = {
    # each of the states has a form of its own
    "3000-states": (LONG + COUNT % (b"#(ds,F,##(cl,D))", 3000) + b"#(ps,<#(rs)>)'", ["A'"], "> A'\n<A>", 0),
    "forms-without-end": (LONG + b"#(ps,begun( ))#(ds,L,(#(ds,##(cl,N),##(cl,D))#(ds,N,#(ad,##(cl,N),1))#(cl,L)))"
                          b"#(ds,N,0)#(cl,L)'", [], "begun trac: no memory\n", 5),
    # (the walk beside the run waited for ever, for there was no room in it for the first answer)
    "form-of-1-mb-and-answers": (b"#(ds,D,(" + b"x" * 1000000 + b"))'" + b"#(ps,<#(rs)>(\n))" * 2 + b"#(ps,<#(rs)>)'",
                                 ["A'", "B'", "C'"], "> A'\n<A>\n> B'\n<B>\n> C'\n<C>", 0),
}
# Programs and answers from a pipe, with options.
FROM_A_PIPE: tuple[tuple[bytes, bytes, list[str]], ...] = (
    (NAME, b"Ann'#(ps,more)'", []), (LOOP, b"x'y'q'", []), (b"#(ps,a)", b"", []), (b"(", b"a)'", ["--journal", "1"]),
    (b"#(ds,L,(#(cl,L)))#(cl,L)'", b"", ["--budget=1000"]),
)
# The locales, and how each writes letters.
LOCALES = {"C": "utf-8", "C.UTF-8": "utf-8", "nn_NN": "utf-8", "en_US.ISO-8859-1": "latin-1"}


@tests
class Playing(Case):
    """trac play."""

    seconds = 2

    def setUp(self) -> None:
        self.room = scratch(self)
        self.file = self.room / "program.trac"

    def seen(self, words: Sequence[Word], lines: Iterable[str]) -> tuple[str, int]:
        """What is seen of a command at a pseudo-terminal where each line is typed at a prompt, and its status. (A
        Ctrl-D stands alone.)"""
        typed = [line if line == "\x04" else line + "\n" for line in lines]
        return at_terminal(words, typed, XDG_STATE_HOME=os.fspath(self.room / "state"))

    @each(hyphened(row[0]) for row in ROWS)
    def test(self, name: str) -> None:
        """A row at a pseudo-terminal."""
        _, program, options, lines, wanted, status = next(row for row in ROWS if hyphened(row[0]) == name)
        self.file.write_bytes(program)
        seen, ended = self.seen([*PLAY, *options, self.file], lines)
        seen = without_prompts(seen, wanted)
        if name == "history-of-the-line-editor":
            self.holds("the line is brought back: " + ascii(seen), "<ACB>" in seen)
        elif wanted is not None:
            self.same("at a terminal", seen, wanted, None, "seen")
        self.holds("it ends with {}, and not {}".format(status, ended), ended == status)

    def test_input_from_a_pipe(self) -> None:
        """Where standard input is no terminal, it is read after FILE."""
        for program, answers, options in FROM_A_PIPE:
            self.file.write_bytes(program)
            mine = ran([*PLAY, *options, self.file], answers, len(answers) + 1)
            wanted = ran([TRAC, "run", *options], program + answers)
            self.ends("{} and {}".format(program, answers), mine, wanted.output, wanted.status, wanted.error)

    def test_end_while_the_input_is_open(self) -> None:
        self.file.write_bytes(b"#(ps,#(rs))#(hl)'")
        with Process([*PLAY, self.file], stdin=subprocess.PIPE, stdout=subprocess.PIPE) as play:
            play.stdin.write(b"A'")
            play.stdin.flush()
            status = play.wait(patience())
            self.holds("it halts, with status 0, and not {}".format(status), status == 0)
            self.same("it halts", play.stdout.read(), b"A", None, "printed")

    def test_command_lines(self) -> None:
        self.file.write_bytes(b"a'")
        lines: list[tuple[list[Word], int]]
        lines = [([], 2), ([self.file, "--fast"], 2), ([self.room / "none"], 6), ([self.room], 6), (["--version"], 0)]
        for words, status in lines:
            run = ran([*PLAY, *words])
            self.status("trac play {}".format(words), run, status)
            self.holds("trac play {} prints: {!r}".format(words, run.output), bool(run.output) == (status == 0))

    def test_input_that_cannot_be_read(self) -> None:
        self.file.write_bytes(b"#(ps,<)'#(ps,#(rs)>)'")
        for way in "<&-", "<.", "0>/dev/null":
            run = ran(["bash", "-c", 'exec "$@" ' + way, "-", *PLAY, self.file])
            self.ends("standard input " + way, run, b"<", 6, b"trac: read fault\n")

    @each(LOCALES)
    def test_letters(self, locale: str) -> None:
        """Letters that are asked and typed are the same in every locale, also where the line editor knows none."""
        encoding, place = LOCALES[locale], []
        if encoding == "latin-1":
            if not shutil.which("localedef"):
                self.skipTest("there is no localedef")
            ran(["localedef", "-i", "en_US", "-f", "ISO-8859-1", self.room / locale])
            if not (self.room / locale).exists():
                self.skipTest("localedef makes no " + locale)
            place = ["LOCPATH={}".format(self.room)]
        for question, answer in ("n\u00e4me", "\u00e9\u00a7"), ("\u2192", "\u00e9"):
            self.file.write_bytes("#(ps,({}? ))#(ps,<##(rs)>)'".format(question).encode())
            seen, status = at_terminal([shutil.which("env") or "", "LC_ALL=" + locale, *place, *PLAY, self.file],
                                       [(answer + "'\n").encode(encoding)], XDG_STATE_HOME=str(self.room / "state"))
            wanted = "<{}>".format(answer.encode(encoding).decode("utf-8", "replace"))
            self.holds("{}: {}, status {}".format(ascii(wanted), ascii(seen), status),
                       status == 0 and seen.endswith(wanted))

    @each(("terminal", "terminal-that-does-not-wait"))
    def test_output_elsewhere(self, name: str) -> None:
        """At a terminal with standard output elsewhere, that has what the program prints alone; the prompts are on
        standard error. So it is where the terminal was left so that a read does not wait."""
        self.file.write_bytes(NAME[:-2] + b"#(ps,<#(rs)>)'\n")
        waits = name == "terminal"
        terminal, line = pty.openpty()
        os.set_blocking(line, waits)
        play = Process([*PLAY, self.file], stdin=line, stdout=subprocess.PIPE, stderr=subprocess.PIPE,
                       env={**os.environ, "XDG_STATE_HOME": os.fspath(self.room / "state")})
        for answer in b"Ann'\n", b"Lee'\n":
            seen = b""
            while not seen.endswith(b"> "):
                is_told = select.select([play.stderr], [], [], patience())[0]
                part = os.read(play.stderr.fileno(), 99) if is_told else b""
                if not part:
                    break
                seen += part
            # (by then it reads)
            time.sleep(0 if waits else 0.5)
            os.write(terminal, answer)
        printed, _ = play.communicate(timeout=patience())
        self.same("standard output", printed, b"Name? Hello, Ann.\n<Lee>", None, "printed")
        self.holds("it ends with 0, and not {}".format(play.returncode), play.returncode == 0)

    @each(MANY)
    def test_many(self, name: str) -> None:
        """Each step of the run is looked at once, and each answer."""
        program, typed, wanted = MANY[name]
        self.file.write_bytes(program)
        seen, status = self.seen([*PLAY, self.file], typed)
        self.same("at a terminal", without_prompts(seen, wanted), wanted, None, "seen")
        self.holds("it ends with 0, and not {}".format(status), status == 0)

    def test_much_before_a_question(self) -> None:
        """4 MB before a question: neither trac play nor this test goes over all that was printed for each part that
        comes."""
        text = "abcdefg\n" * 500000
        self.file.write_bytes(b"#(ps,(" + text.encode() + b"))#(ps,<#(rs)>)'")
        before = sum(os.times()[:4])
        seen, status = self.seen([*PLAY, self.file], ["A'"])
        seconds = sum(os.times()[:4]) - before
        self.same("at a terminal", seen, text + "> A'\n<A>", None, "seen")
        self.holds("it ends with 0, and not {}".format(status), status == 0)
        self.holds("it takes {:.1f} s of a processor".format(seconds), seconds < 6)

    @each(SIZES)
    def test_memory(self, name: str) -> None:
        """By --memory 16M neither the run nor the walk beside it takes more, but for 16 MiB for the program itself;
        nor does Python."""
        program, typed, wanted, status = SIZES[name]
        self.file.write_bytes(program)
        peak = self.room / "peak"
        seen, ended = self.seen(measured([*PLAY, "--memory", "16M", self.file], peak), typed)
        self.same("at a terminal", seen, wanted, None, "seen")
        self.holds("it ends with {}, and not {}".format(status, ended), ended == status)
        held = int(peak.read_text("ascii"))
        self.holds("it held {} KiB".format(held), held <= 32768)

    @each(("at-a-prompt", "at-work", "by-quit-at-a-prompt", "by-quit-at-work"))
    def test_interrupted(self, where: str) -> None:
        """Ctrl-C ends it at a prompt, and while the program is at work, and so does Ctrl-\\; the terminal is as
        before."""
        self.file.write_bytes(b"#(ds,L,(#(cl,L)))'#(ps,<#(rs)>)#(cl,L)'")
        words = ["--quit"] if where.startswith("by-quit") else []
        words += ["--line", "x'"] if where.endswith("at-work") else []
        # (what a script begins in the background takes no interrupt, unless env says so)
        front: list[Word] = ["env", "--default-signal=INT", TESTS / "support" / "interrupted"]
        state = {"XDG_STATE_HOME": os.fspath(self.room / "state")}
        self.ends(where, ran([*front, *words, *PLAY, self.file], env={**os.environ, **state}))
