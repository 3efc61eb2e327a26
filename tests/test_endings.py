"""The programs as a user calls them: what each command line and each ending that a shell can make prints, on both
streams, and the exit status. The command lines of tests/data/texts, NAME.words, show the whole text beside them: help
on standard output, as NAME.out, or why a line is not understood on standard error, as NAME.err."""
from __future__ import annotations

import os
import pathlib
import pty
import re
import subprocess
from collections.abc import Sequence

from support.cases import DATA, EXAMPLES, TOP, TRAC, Case, Place, Ran, Word, bytes_in, each, near, ran, scratch, tests
from support.terminals import ending_of

LAUNCHER = TOP / "trac"
TEXTS = DATA / "texts"
FIRST = EXAMPLES / "first.trac"
COMMANDS = "run", "play", "walk", "debug", "lint", "lsp", "dap", "page", "course"
# Texts, and what a run of them prints.
PRINTED = (
    (FIRST.read_bytes(), b"Hello, world.\n"), (b"AB'", b"AB"), (b"", b""), (b"a#b##c'", b"a#b##c"),
    (b"#(ad,3,#(ml,2,5)) #(dv,7,0,undefined)'", b"13 undefined"),
    (b"#(ds,F,abc)#(ss,F,b)#(pf,F)#(cl,F,b)'", b"<^>a<1>cabc"),
)
# Commands that there are not, each with the one that was meant.
NEAR = (("walk", "wlak wak walk\x1b"), ("lint", "lynt linter"), ("lsp", "lps ls lisp Lsp"), ("dap", "adp dpa"),
        ("play", "paly plai"), ("page", "pages"), ("course", "coruse cours"), ("debug", "debgu bug"),
        ("run", "rnu ru Run"))
# Lines on standard error.
SPENT, LIMIT, MEMORY = b"trac: budget spent\n", b"trac: limit passed\n", b"trac: no memory\n"
READ, WRITE = b"trac: read fault\n", b"trac: write fault\n"
AT_A_TERMINAL = b"trac: reading from the terminal: ' and Enter end a text, Ctrl-D ends the input\n"
# What is said where the name of a file is given to `run`, and where a FILE or an option of `debug` is no such thing.
NO_REDIRECTION = "to run the program in FILE, put < before its name: trac run < FILE"
OF_RUN = "--budget is an option of trac run; here the commands say how far to go"
WITH_HYPHEN = "a FILE whose name begins with - is written so: trac debug "
TIPS = (
    ("--budget 5 F", "--budget", OF_RUN), ("--budget", "--budget", OF_RUN), ("--budget=5", "--budget", OF_RUN),
    ("--journal 9 --budget 5", "--budget", OF_RUN),
    ("-file", "-f", WITH_HYPHEN + "./-file"), ("--journal 9 -file", "-f", WITH_HYPHEN + "./-file"),
    ("-1.trac", "-1", WITH_HYPHEN + "./-1.trac"), ("--fast", "--fast", WITH_HYPHEN + "./--fast"),
    ("--jornal 9 F", "--jornal", "a similar argument exists: '--journal'"),
)
# Values that options do not take, and some that they do.
NO_BUDGETS = "0", "1000000000001", "x", "", "-1", "9" * 26
NO_WIDTHS = "0", "32", "65", "127", "256", "064", "-64", "x", "64.0", " 64", "12", "1280", "+65", "++64"
WIDTHS = "[possible values: 64, 128]"
NO_SIZES = ("0", "1023K", "1048575", "1025G", "1T", "5", "x", "", "-1", "M", "64MB", "64.5M", " 64M", "64 M",
            "1048577M", "9" * 20 + "G", "18014398509481985K")
SIZES = "1M", "1m", "1024K", "1024k", "1048576", "+2M", "1024G", "1048576m", "2g"
# `AB'` takes 19 steps, and one more try finds the end; a form that prints `x` and calls itself does so at steps 38, 50,
# 62, 74, 86, 98 and so on. Here are budgets, with what is printed and the status.
LOOP = b"#(ds,L,(#(ps,x)#(cl,L)))'#(cl,L)'"
BUDGETS = ((b"AB'", ((1, b"", 3), (10, b"", 3), (11, b"AB", 3), (19, b"AB", 3), (20, b"AB", 0))),
           (LOOP, ((37, b"", 3), (38, b"x", 3), (97, b"xxxxx", 3), (100, b"xxxxxx", 3))))
WIDE = b"#(ad,9223372036854775807,1,Z)'"
# A form's call that would give more than a text may have.
TOO_LONG = b"#(ds,F,(%s))#(ss,F,x)#(cl,F,(%s))" % (b"x" * 4096, b"x" * 4097)
DOUBLED = b"#(ds,L,(#(ds,D,##(cl,D)##(cl,D))#(cl,L)))'#(ds,D,x)#(ps,begun)#(cl,L)'"
# The tools for who changes the code that take words, each with words that it does not.
TOOLS = {"believed": "--nothing", "dear": "trac_text x", "entered": "/nowhere", "make-release": "x", "release": "--x",
         "set-version": "--x", "third-party": "/nowhere", "times": "/nowhere", "watch": "x"}
# So many functions may be begun one in another: the idle program has two marks, and each of these one more.
MOST_BEGUN = 1048574


def launched(words: str | Sequence[Word], given: bytes = b"", folder: pathlib.Path = TOP) -> Ran:
    """A command by the launcher, with its input through a pipe."""
    return ran([LAUNCHER, *(words.split() if isinstance(words, str) else words)], given, 65536, folder)


def usage(text: bytes) -> bytes:
    """The line that says how a command is used."""
    found = re.search(rb"^usage: .*$", text, re.M | re.I)
    return found[0] if found else b""


def toolchain() -> str:
    """The toolchain, or the one that the release names, where none is there."""
    try:
        said = subprocess.run(["rt", "version"], stdout=subprocess.PIPE, stderr=subprocess.DEVNULL, check=False).stdout
    except OSError:
        said = b""
    contents = (TOP / "release" / "contents.txt").read_text(encoding="utf-8")
    found = re.search("^toolchain (.*)$", contents, re.M)
    return said.decode().strip() or (found[1] if found else "")


def typed(command: str, room: pathlib.Path) -> Ran:
    """A command of the shell where standard input is a pseudo-terminal, at which a text is typed, and Ctrl-D."""
    words = ["bash", "-c", "exec >out 2>error; top=$1; " + command, "-", os.fspath(TOP)]
    process, terminal = pty.fork()
    if process == 0:
        os.chdir(room)
        os.execvp(words[0], words)
    os.write(terminal, b"#(ad,2,3)'\n\x04")
    status = ending_of(process, terminal)
    return Ran((room / "out").read_bytes(), (room / "error").read_bytes(), status, command)


class Said(Case):
    """What is said of a command line."""

    suite = "endings"

    def is_help(self, words: str, first: bytes) -> bytes:
        """Help on standard output, with this line first that says how it is used, and nothing else."""
        run = launched(words)
        self.status(run.command, run, 0)
        self.same(run.command + ": its first line", usage(run.output), first)
        self.same(run.command + ": standard error", run.error, b"")
        return run.output

    def not_understood(self, words: str | Sequence[Word], *parts: str) -> list[str]:
        """A line on standard error that begins with `error: `, and nothing on standard output. Somewhere it has these
        parts. Returns its lines."""
        run = launched(words)
        text = run.error.decode("utf-8", "replace")
        self.status(run.command, run, 2)
        self.same(run.command, run.output, b"", None, "printed")
        self.holds("{}: {!r}".format(run.command, text), re.match("error: .", text))
        for part in parts:
            self.holds("{}: it has {!r}: {!r}".format(run.command, part, text), part in text)
        return text.split("\n")

    def advises(self, tip: str, words: str | Sequence[Word], *parts: str) -> list[str]:
        """Of these words it is said what is wrong, and right then this."""
        lines = self.not_understood(words, *parts)
        self.same("{}: the first tip".format(words), "\n".join(lines[1:3]), "\n  tip: " + tip)
        return lines


@tests
class Texts(Said):
    """Help, and why command lines are not understood."""

    @each(sorted(file.stem for file in TEXTS.glob("*.words")))
    def test_text(self, name: str) -> None:
        first, *words = (TEXTS / (name + ".words")).read_text(encoding="utf-8").split()
        program: list[Word] = [TOP / "out" / first]
        if first in ("trac-lint", "trac-lsp", "trac-dap"):
            program = [TOP / "out" / "trac-walk", first.replace("trac-", "--")]
        run, wrong = ran([*program, *words]), TEXTS / (name + ".err")
        place = Place(near(wrong if wrong.exists() else TEXTS / (name + ".out")))
        self.status(run.command, run, 2 if wrong.exists() else 0)
        self.same(run.command, run.output, bytes_in(TEXTS / (name + ".out")), place, "printed")
        self.same(run.command, run.error, bytes_in(wrong), place, "written to standard error")

    def test_list_of_commands(self) -> None:
        for words in "--help", "-h", "help", "help --help":
            text = self.is_help(words, b"Usage: trac <COMMAND> [WORDS..]").decode()
            listed = re.findall("^  ([a-z]+) ", text, re.M)
            self.same("trac {} lists".format(words), "\n".join(listed), "\n".join(COMMANDS))
            self.holds("trac {} has room on one screen".format(words),
                       text.count("\n") == 14 and max(map(len, text.split("\n"))) <= 80)
        self.ends("without a command", launched(""), b"", 2, launched("--help").output)

    def test_help_of_each_command(self) -> None:
        self.is_help("run --help", b"Usage: trac run [OPTIONS] < FILE")
        text = self.is_help("help run", b"Usage: trac run [OPTIONS] < FILE").decode()
        self.holds("the help of run has its options, and nothing of the debugger",
                   text.count("--budget") == 1 and "COUNT" not in text)
        self.is_help("debug --help", b"Usage: trac debug [OPTIONS] <FILE>")
        text = self.is_help("help debug", b"Usage: trac debug [OPTIONS] <FILE>").decode()
        self.holds("the help of debug has its commands, and no budget",
                   len(re.findall("^  [sbu] .*COUNT", text, re.M)) == 3 and "--budget" not in text)
        self.holds("it names the debugger for a terminal", "trac walk FILE" in text)
        for name in "walk", "lint", "lsp", "dap", "play", "page", "course":
            first = usage(launched(name + " --help").output)
            self.is_help("help " + name, first)
            self.holds("the help of {} says how it is used: {!r}".format(name, first),
                       re.match(r"usage: trac[- ]{}\b".format(name), first.decode(), re.I))

    def test_commands_that_there_are_not(self) -> None:
        for meant, words in NEAR:
            for word in words.split():
                said = "trac: there is no such command: did you mean trac {}?\n".format(meant)
                self.ends("trac " + ascii(word), launched([word, "F"]), b"", 2, said.encode())

    def test_version(self) -> None:
        """The program's version, and the logic of the toolchain that proves it."""
        logic = toolchain().split(" ", 1)[1]
        contents = (TOP / "release" / "contents.txt").read_text(encoding="utf-8")
        for words in "--version", "run --version", "debug --version", "lsp --version":
            run = launched(words)
            found = re.fullmatch(r"trac ([0-9][0-9.]*) \((.*)\)\n", run.output.decode())
            self.holds("{}: {!r}, in the logic {}".format(run.command, run.output, logic),
                       run.status == 0 and found and found[2] == logic)
            self.holds("it is that of release/", found and "version {}\n".format(found[1]) in contents)

    def test_statuses_in_the_help(self) -> None:
        text = ran([TRAC, "--help"]).output.decode()
        for status in 0, 2, 3, 4, 5, 6, 7, 8, 70, 130:
            count = len(re.findall("^  {}  *[a-zA-Z.]".format(status), text, re.M))
            self.holds("it tells of status {} once, and not {} times".format(status, count), count == 1)

    def test_names_of_files_for_run(self) -> None:
        first = near(FIRST)
        for words in first, first + " --budget 5", "run x", "run x y", "run --budget 5 x", "run x --budget 5":
            lines = self.advises(NO_REDIRECTION, words)
            tips = sum("tip:" in line for line in lines)
            self.holds("trac {}: there is no other tip".format(words), tips == 1)
        self.advises(NO_REDIRECTION, "run.trac", "  tip: a similar subcommand exists: 'run'")
        self.not_understood("run x", "Usage: trac run [OPTIONS] < FILE")
        lines = self.not_understood("run --fast")
        self.holds("an option that is not there is no file", "trac run < FILE" not in "".join(lines))

    def test_words_that_are_not_understood(self) -> None:
        self.advises("the version is shown by: trac --version", "version")
        self.not_understood(["no\n\x1b[31m\u202e"], "unrecognized subcommand 'no\\x0a\\x1b\\x5b31m\\xe2\\x80\\xae'")
        self.not_understood(["debug", "-\a", "F"], WITH_HYPHEN + "./-\\x07")
        self.not_understood("debug")
        self.not_understood("debug F G")
        self.not_understood("debug F --budget 1", "tip: " + OF_RUN)
        lines = self.not_understood(["debug", b"\xff"], "trac debug /dev/fd/3 3< FILE")
        self.same("a word that is not UTF-8", lines[0], "error: invalid UTF-8 was detected in one or more arguments")

    def test_tips_of_debug(self) -> None:
        """What is wrong, then one tip alone, and then how it is used."""
        for words, word, tip in TIPS:
            lines = self.not_understood("debug " + words)
            wanted = ["error: unexpected argument '{}' found".format(word), "", "  tip: " + tip, ""]
            self.same("trac debug " + words, "\n".join(lines[:4]), "\n".join(wanted))
            self.holds("trac debug {}: and then how it is used".format(words),
                       re.fullmatch("Usage: trac debug .*<FILE>", lines[4]))

    def test_values_of_options(self) -> None:
        for it in NO_BUDGETS:
            self.not_understood(["run", "--budget=" + it], "invalid value '{}' for '--budget <N>': ".format(it))
        self.not_understood("run --budget 1000000000001", "1000000000001 is not in 1..=1000000000000")
        for words in ["run"], ["debug", "F"]:
            for it in "0", "1048577":
                self.not_understood([*words, "--journal", it],
                                    "invalid value '{0}' for '--journal <N>': {0} is not in 1..=1048576".format(it))
            for it in NO_WIDTHS:
                self.not_understood([*words, "--decimals=" + it],
                                    "invalid value '{}' for '--decimals <BITS>'".format(it), WIDTHS)
            for it in "--decimals", "--decimals=":
                self.not_understood([*words, it], WIDTHS)

    def test_values_of_memory(self) -> None:
        for words in ["run"], ["debug", "F"], ["walk", "F"], ["lint", "F"]:
            for size in NO_SIZES:
                said = ("error: invalid value '{}' for '--memory <SIZE>': it is not in 1M..=1024G\n\n"
                        "For more information, try '--help'.\n").format(size)
                self.ends("", launched([*words, "--memory=" + size]), b"", 2, said.encode())
        for size in SIZES:
            self.ends("", launched(["run", "--memory", size], b"AB'"), b"AB")

    def test_files_of_odd_names(self) -> None:
        room = scratch(self)
        (room / "-file").write_bytes(b"A'")
        for words in ["./-file"], ["--", "-file"]:
            self.ends("a FILE whose name begins with -", launched(["debug", *words], b"q\n", room))
        odd = os.path.join(os.fsencode(room), b"\xff")
        with open(odd, "wb") as file:
            file.write(b"A'")
        run = ran(["bash", "-c", 'exec "$1" debug /dev/fd/3 3<"$2"', "-", LAUNCHER, odd], b"q\n")
        self.ends("a file whose name is not UTF-8, opened by the shell", run)


class Endings(Case):
    """How runs end."""

    def runs(self, words: str, given: bytes, output: bytes, status: int = 0, error: bytes = b"") -> None:
        """A run, which is given its input through a pipe."""
        self.ends("", launched("run " + words, given), output, status, error)

    def redirected(self, line: str, given: bytes = b"") -> Ran:
        """A line of the shell, with the launcher as $1."""
        return ran(["bash", "-c", line, "-", LAUNCHER], given, 65536)

    def test_printed(self) -> None:
        for text, output in PRINTED:
            self.runs("", text, output)

    def test_budgets(self) -> None:
        """With a journal of any length."""
        for journal in 1, 5, 64:
            for text, rows in BUDGETS:
                for budget, output, status in rows:
                    self.runs("--budget {} --journal {}".format(budget, journal), text, output, status,
                              SPENT if status else b"")
        self.runs("--budget +19 --journal +5", b"AB'", b"AB", 3, SPENT)

    def test_widths(self) -> None:
        """128 bits where nothing is said."""
        for words in "", "--decimals 128", "--decimals=128", "--decimals +128":
            self.runs(words, WIDE, b"9223372036854775808")
        for words in "--decimals 64", "--decimals=64", "--decimals +64":
            self.runs(words, WIDE, b"Z")

    def test_input_without_end(self) -> None:
        """With the budget spent nothing more is read."""
        for words in "--journal 64", "", "--decimals 64", "--decimals 128":
            run = self.redirected("yes \"A'\" | tr -d '\\n' | \"$1\" run --budget 1000 " + words)
            self.ends("an input without end", run, b"A" * 91, 3, SPENT)

    def test_limit_on_texts(self) -> None:
        self.runs("", TOO_LONG + b"'", b"", 4, LIMIT)
        self.runs("", b"AB'" + TOO_LONG + b"'", b"AB", 4, LIMIT)

    def test_limit_on_forms(self) -> None:
        """There may be 65,536 and no more; at that number a form can still be replaced."""
        forms = b"".join(b"#(ds,N%d,)" % number for number in range(1, 65536))
        self.runs("", forms + b"#(ds,A,x)#(cl,A)'#(ds,A,y)#(cl,A)'", b"xy")
        self.runs("", forms + b"#(ds,A,x)#(cl,A)'#(ds,B,x)#(cl,B)'", b"x", 4, LIMIT)

    def test_limit_on_marks(self) -> None:
        self.runs("", b"#(" * MOST_BEGUN + b"'", b"")
        self.runs("", b"#(" * (MOST_BEGUN + 1) + b"'", b"", 4, LIMIT)

    def test_reader(self) -> None:
        self.ends("a folder as standard input", self.redirected('"$1" run <.'), b"", 6, READ)
        self.ends("no standard input", self.redirected('"$1" run <&-'), b"", 6, READ)

    def test_terminal(self) -> None:
        """At a terminal a run says first how a text ends; the debugger, or a run of a file, does not."""
        room, first = scratch(self), '"$top/programs/examples/first.trac"'
        self.ends("", typed('"$top/trac" run', room), b"5", 0, AT_A_TERMINAL)
        self.ends("", typed('"$top/trac" run <' + first, room), b"Hello, world.\n")
        self.ends("", typed('echo q | "$top/trac" debug ' + first, room))
        run = typed('"$top/trac" run --budget 0', room)
        self.status("a line that is not understood", run, 2)
        self.holds("no word on the terminal: {!r}".format(run.error), b"terminal" not in run.error)

    def test_writer(self) -> None:
        for line, error in (("run >/dev/full", WRITE), ("--help >/dev/full", WRITE), ("run >&-", WRITE)):
            self.ends("", self.redirected('"$1" ' + line, b"AB'"), b"", 7, error)
        self.ends("nothing to print", self.redirected('"$1" run >&-'))
        self.ends("no standard error", self.redirected('"$1" run 2>&-', b"AB'"), b"AB")

    def test_tools(self) -> None:
        """Those for who changes the code say in a line what is wrong with their words."""
        for name, words in TOOLS.items():
            run = ran([TOP / "tools" / name, *words.split()])
            self.holds("status {} of {}".format(run.status, run.command), run.status in (1, 2))
            self.holds("a line, and no traceback: {!r}".format(run.error), run.error and b"Traceback" not in run.error)

    def test_words_of_tools(self) -> None:
        """Of no tool's words a byte reaches the terminal that it would obey."""
        for name, words in TOOLS.items():
            run = ran([TOP / "tools" / name, *(words + "\x1b]0;y\x07\x9b").split()])
            said = run.output + run.error
            self.holds("status {} of {}".format(run.status, run.command), run.status in (1, 2))
            self.holds("{}: {!r}".format(name, said), b"Traceback" not in said and
                       all(byte in b"\n" or 32 <= byte < 127 for byte in said))

    def test_pipe_that_nobody_reads_any_more(self) -> None:
        ours, theirs = os.pipe()
        os.close(ours)
        run = ran(["bash", "-c", 'exec "$1" run >&{}'.format(theirs), "-", LAUNCHER], b"AB'", pass_fds=[theirs])
        os.close(theirs)
        self.ends("", run, b"", 7, WRITE)

    def test_little_memory(self) -> None:
        """What the system refuses. A value that is too long is refused before it is built."""
        words: list[Word] = ["bash", "-c", 'ulimit -v 40000; exec "$1" run', "-", TRAC]
        self.ends("a text of 8 MB", ran(words, b"(%s)'" % (b" " * 8000000)), b"", 5, MEMORY)
        self.ends("a value that is too long", ran(words, b"AB'" + TOO_LONG + b"'"), b"AB", 4, LIMIT)

    def test_allowed_memory(self) -> None:
        file = scratch(self) / "doubled"
        file.write_bytes(DOUBLED)
        for size in "1M", "4M", "8388608":
            self.runs("--memory " + size, DOUBLED, b"begun", 5, MEMORY)
            run = launched(["debug", "--memory", size, file], b"s 100000000\ns 1\nc\nq\n")
            self.status(run.command, run, 0)
            said = re.sub(rb"\A(forward) \d+", rb"\1 N", run.output)
            self.same("a move is refused, and the session goes on", said,
                      b"forward N Memory\nforward 0 Memory\ncommit [begun]\n")
