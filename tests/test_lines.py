"""The line editor of `trac walk` and `trac play`: what it keeps of what is typed, what Tab completes, and that without
Python lines are plain."""
import os
import pty
import re
import shutil
import stat
import sys

from support.cases import DATA, EXAMPLES, TOP, Case, Word, each, ran, scratch, tests
from support.terminals import at_terminal, ending_of
from test_streams import OLDER

sys.path.insert(0, str(TOP / "python"))
from trac_tools import walk  # noqa: E402

TRAC, FIRST = TOP / "trac", EXAMPLES / "first.trac"
FACTORIAL = EXAMPLES / "wrong-factorial.trac"
ENDLESS = EXAMPLES / "endless.trac"
UP, NEXT_LINE = "\x1b[A", "\x16\n"
FORMS = ["again", "all"]
# A beginning of a line of the walk, and the words that may stand there.
COMPLETED: dict[str, tuple[str, list[str]]] = {
    "nothing": ("", walk.COMMANDS), "w": ("w ", FORMS), "y": ("y ", FORMS), "f": ("f ", FORMS), "f-all": ("f all ", []),
    "u": ("u ", [*walk.PRIMITIVES, "set"]), "u-set": ("u set ", FORMS), "u-or": ("u ds a | ", walk.PRIMITIVES),
    "u-or-cl": ("u ds a | cl ", FORMS), "u-ds-cl": ("u ds cl ", []), "break": ("break ", walk.PRIMITIVES),
    "r": ("r ", walk.PRIMITIVES), "r-cl": ("r cl ", FORMS), "r-CL": ("r CL ", FORMS),
    "r-ad": ("r ad ", []), "r-cl-again": ("r cl again ", []), "s": ("s ", ["end"]), "b": ("b ", ["start"]),
    "p": ("p ", ["all"]), "q": ("q ", []), "g": ("g ", []), "i": ("i ", []),
}
# Names of forms in a program: those that can be typed as they are, in the order of the alphabet.
NAMED = (b"#(ds,again,(#(DS,all,x)))##(ds,b-2,y)#( ds,c,y)#(ds,,z)#(ds,a b,z)"
         b"#(ds,\x1b[1m,z)#(ds,\"q\",z)#(ds,#(cl,x),z)'")


@tests
class Lines(Case):
    """What is typed at a pseudo-terminal."""

    def setUp(self) -> None:
        self.room = scratch(self)
        self.state = {"XDG_STATE_HOME": os.fspath(self.room), "HOME": os.fspath(self.room / "home")}

    def kept(self, name: str) -> str:
        """What is kept under a name; nobody else can read it."""
        place = self.room / "trac" / name
        self.holds("it is for the user alone", stat.S_IMODE(place.stat().st_mode) == 0o600)
        return place.read_text(encoding="utf-8")

    def test_walks(self) -> None:
        """A walk brings back the lines of the one before."""
        _, status = at_terminal([TRAC, "walk", FIRST], ["s 3\n", "q\n"], **self.state)
        self.holds("it ends: {}".format(status), status == 0)
        self.same("it is kept", self.kept("walk"), "s 3\nq\n")
        seen, _ = at_terminal([TRAC, "walk", FIRST], [UP + UP + "\n", "q\n"], **self.state)
        self.holds("it is brought back: {!r}".format(seen), re.search(r"^3  ", seen, re.M))
        self.same("and both are kept", self.kept("walk"), "s 3\nq\ns 3\nq\n")

    def test_plays(self) -> None:
        """A play has lines of its own."""
        program = self.room / "asks.trac"
        program.write_text("#(ps,<#(rs)>)'", encoding="utf-8")
        at_terminal([TRAC, "play", program], ["one'\n"], **self.state)
        self.same("it is kept", self.kept("play"), "one'\n")
        seen, _ = at_terminal([TRAC, "play", program], [UP + "\n"], **self.state)
        self.holds("it is brought back: {!r}".format(seen), "<one>" in seen)
        self.holds("and walks have none of it", not (self.room / "trac" / "walk").exists())

    def test_short_history(self) -> None:
        """Lines are kept also where the line editor is to have few."""
        setting = self.room / "inputrc"
        setting.write_text("set history-size 2\n", encoding="utf-8")
        for line in "s 3\n", "s 4\n":
            at_terminal([TRAC, "walk", FIRST], [line, "q\n"], **self.state, INPUTRC=os.fspath(setting))
        self.same("both are kept", self.kept("walk"), "s 3\nq\ns 4\nq\n")

    def test_lines_at_once(self) -> None:
        """Of lines that come at once, as if they are pasted, each is replied to before the next prompt."""
        typed = ["s 10" + NEXT_LINE + "s 3000000\n", "q\n"]
        seen, status = at_terminal([TRAC, "walk", ENDLESS], typed, **self.state)
        self.holds("it ends: {}".format(status), status == 0)
        self.holds("both are replied to: {!r}".format(seen),
                   re.search(r"^10  .*^3000010  .*^3000010> q$", seen, re.M | re.S))

    def test_home(self) -> None:
        """Without a folder for it that is absolute, it is ~/.local/state."""
        at_terminal([TRAC, "walk", FIRST], ["q\n"], **{**self.state, "XDG_STATE_HOME": "relative"})
        place = self.room / "home" / ".local" / "state" / "trac" / "walk"
        self.holds("it is kept there", place.exists() and place.read_text(encoding="utf-8") == "q\n")

    def test_where_nothing_can_be_kept(self) -> None:
        seen, status = at_terminal([TRAC, "walk", FIRST], ["q\n"], **{**self.state, "XDG_STATE_HOME": "/dev/null"})
        self.same("nothing is said of it", seen, "h lists the commands, q ends\n0> q\n")
        self.holds("and it ends well", status == 0)

    def test_tab(self) -> None:
        """Tab completes the name of a form, and the walk takes the line."""
        seen, _ = at_terminal([TRAC, "walk", FACTORIAL], ["s end\n", "w Fac\t\n", "q\n"], **self.state)
        self.holds("it is completed: {!r}".format(seen), "> w Factorial\n" in seen)
        self.holds("and taken: {!r}".format(seen), re.search(r"^[0-9]+  #\((?:ss|ds),Factorial,", seen, re.M))

    def test_without_python(self) -> None:
        """Lines are plain."""
        few = self.room / "few"
        few.mkdir()
        for name in "bash", "cksum":
            os.symlink(shutil.which(name) or "", few / name)
        seen, status = at_terminal([TRAC, "walk", FIRST], ["s 3\n", "q\n"], **{**self.state, "PATH": os.fspath(few)})
        is_plain = seen.startswith("0> s 3\n3  ") and seen.endswith("\n3> q\n")
        self.holds("it prompts and replies: {!r}".format(seen), is_plain)
        self.holds("and ends well", status == 0)
        self.holds("and nothing is kept", not (self.room / "trac").exists())

    def test_older_python(self) -> None:
        """Where Python is too old for the line editor, lines are plain too."""
        python = self.room / "python3"
        python.write_text(OLDER.format(sys.executable), encoding="utf-8")
        python.chmod(0o755)
        path = "{}:{}".format(self.room, os.environ["PATH"])
        seen, status = at_terminal([TRAC, "walk", FIRST], ["s 3\n", "q\n"], **{**self.state, "PATH": path})
        self.holds("it prompts and replies: {!r}".format(seen), seen.startswith("0> s 3\n3  "))
        self.holds("it ends well: {}".format(status), status == 0)
        self.holds("and nothing is kept", not (self.room / "trac").exists())

    def test_file_that_the_shell_opens(self) -> None:
        words: list[Word] = ["/bin/bash", "-c", 'exec "$0" walk /dev/fd/3 3<"$1"', TRAC, FIRST]
        seen, status = at_terminal(words, ["s 3\n", "q\n"], **self.state)
        self.holds("it is walked through: {!r}".format(seen), status == 0 and "> s 3\n3  " in seen)

    def test_file_that_is_typed(self) -> None:
        """FILE may be the terminal itself."""
        words: list[Word] = ["/bin/bash", "-c", 'printf "> " && exec "$0" walk /dev/stdin', TRAC]
        seen, status = at_terminal(words, ["#(ps,a)'\n\x04", "s 3\n", "q\n"], **self.state)
        self.holds("it is walked through: {!r}, {}".format(seen, status), status == 0 and "> s 3\n3  " in seen)

    def test_output_elsewhere(self) -> None:
        """Where standard output is no terminal, lines are plain too."""
        words: list[Word] = ["/bin/sh", "-c", 'exec "$0" walk "$1" >"$2"', TRAC, FIRST, self.room / "out"]
        pid, terminal = pty.fork()
        if pid == 0:
            os.execv(words[0], [os.fspath(word) for word in words])
        os.write(terminal, b"s 3\nq\n")
        status = ending_of(pid, terminal)
        text = (self.room / "out").read_text(encoding="utf-8")
        self.holds("it replies: {!r}".format(text), status == 0 and text.startswith("0> 3  ") and text.endswith("3> "))


@tests
class Words(Case):
    """What Tab completes."""

    suite = "lines"
    takes_programs = False

    @each(COMPLETED)
    def test_completed(self, name: str) -> None:
        front, wanted = COMPLETED[name]
        self.same(repr(front), "\n".join(walk.completed(front, FORMS)), "\n".join(wanted))

    def test_commands(self) -> None:
        """They are those that `h` lists."""
        text = (DATA / "walks" / "help.out").read_text(encoding="utf-8")
        for word in walk.COMMANDS:
            self.holds("h lists " + word, re.search(r"(?:^|  |or |[;,] ){}\b".format(word), text, re.M))
        listed = set(re.findall(r"(?:^|   )([a-zA-Z])(?:  | \[| [A-Z\"#])", text, re.M))
        self.holds("and none is missing: {}".format(listed - set(walk.COMMANDS)), listed <= set(walk.COMMANDS))

    def test_primitives(self) -> None:
        text = (TOP / "docs" / "language.md").read_text(encoding="utf-8").split("\n## All names\n")[1].split("\n## ")[0]
        rows = re.findall(r"^\| (`[^|]*) \|", text, re.M)
        names = sorted({name for row in rows for name in re.findall("`([a-z]{2})`", row)})
        self.same("they are those of docs/language.md", "\n".join(sorted(walk.PRIMITIVES)), "\n".join(names))

    def test_prompts(self) -> None:
        """A number of 64 bits may be a prompt; a longer line of digits is shown as it comes."""
        most = b"18446744073709551615"
        rows = (most, True), (most + b"> ", True), (b"", True), (most + b"0", False), (b"1" * 65536, False)
        for text, may_be in rows:
            self.holds("{!r}".format(text[:30]), bool(walk.MAY_BE.fullmatch(text)) == may_be)
        self.holds("a prompt", walk.PROMPT.fullmatch(most + b"> ") and not walk.PROMPT.fullmatch(most + b"0> "))

    def test_forms(self) -> None:
        """Names are found in a file alone: a pipe gives its bytes once."""
        file, pipe = scratch(self) / "it.trac", scratch(self) / "pipe"
        file.write_bytes(NAMED)
        os.mkfifo(pipe)
        self.same("of a file", "\n".join(walk.forms_of(file)), "again\nall\nb-2")
        for it in pipe, None, file / "none", file.parent:
            self.holds("of {} there are none".format(it), walk.forms_of(it) == [])

    def test_file(self) -> None:
        """FILE of a command line."""
        for line, wanted in (("--prompt F", "F"), ("--journal 9 --keep 5 F --memory 1G", "F"), ("--journal=9 F", "F"),
                             ("-- -F", "-F"), ("--prompt", None), ("--journal 9", None), ("", None)):
            self.holds(line, walk.file_of(line.split()) == wanted)


@tests
class Beginning(Case):
    """How what is written in Python begins."""

    suite = "lines"

    def test_files_of_the_folder(self) -> None:
        """No file of the folder where one is, or that PYTHONPATH names, is taken for a part of it; nothing is left."""
        room = scratch(self)
        for name in "argparse.py", "signal.py", "readline.py", "trac_tools.py":
            (room / name).write_text("print('wrong')\n", encoding="utf-8")
        run = ran([TRAC, "course", "--version"], folder=room, env={**os.environ, "PYTHONPATH": os.fspath(room)})
        self.ends("from such a folder", run, ran([TRAC, "--version"]).output)
        self.holds("no bytecode is left", not list((TOP / "python").rglob("__pycache__")))
