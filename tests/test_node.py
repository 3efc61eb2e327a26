"""release/trac.mjs, the programs in Node: what it answers is, byte for byte, what the programs do.

Most rows are answered in one process, whose streams are held in memory: the programs of tests/data/programs, the
sessions, the walks, and the command lines. Each is given its input at once, and in pieces, after each of which what
waits is answered. Then the file itself is run: as a pipe that waits, with long streams, where nobody reads, and with
Ctrl-C."""
from __future__ import annotations

import base64
import json
import os
import pathlib
import pty
import random
import re
import select
import shutil
import signal
import subprocess
import sys
import termios
from collections.abc import Iterable, Sequence
from typing import IO, Any

from support.cases import (DATA, EXAMPLES, TESTS, TOP, TRAC, WALK, Case, Place, Process, Ran, Silent, Word, bytes_in,
                           near, patience, ran, scratch, stems, words_in)
from test_programs import ENDINGS
from test_sessions import NOT_UNDERSTOOD, REPLIES, refusal

FILE = TOP / "release" / "trac.mjs"
NODE = shutil.which("node") or ""
# A program that prints without end.
LOOP = b"#(ds,L,(#(ps,x)#(cl,L)))'#(cl,L)'"
# Words of which command lines are made, and the seed by which they are.
WORDS = """
run debug help rum debgu walk version page x first.trac - -- -h -V -x -hV --help --version --help=5
--fast --fats=1 --budget --budget=5 --budget=0 --budget=x --budget= --bugdet --journal --journal=9
--journal=1048577 --jornal --decimals --decimals=64 --decimals=65 --decimals= --decimals=+128
--memory=5 --memory --keep --keep=0 --keep=256 --kep --prompt --prompt=1 --promt --steps --steps=5
--steps=0 --step --input --input=nowhere --inputs 5 0 +5 65 nowhere -1 --=3 --- é \x1b[31m [x]
--constructor --constructor=5 --__proto__ constructor __proto__ toString
""".split()
SEED, LINES = 78, 300
# Runs a command, and says on standard error how many KiB it held at most.
PEAK = """import resource, subprocess, sys
status = subprocess.run(sys.argv[1:]).returncode
sys.exit(print(resource.getrusage(resource.RUSAGE_CHILDREN).ru_maxrss, file=sys.stderr) or status)"""


def version() -> int:
    """The number of the Node that is there, or 0."""
    said = re.match(r"v([0-9]+)\.", ran([NODE, "--version"]).output.decode()) if NODE else None
    return int(said[1]) if said else 0


def row(words: Sequence[Word], given: bytes = b"", piece: int = 0,
        folder: str | os.PathLike[str] = TOP) -> dict[str, Any]:
    """A row for tests/node/answers.mjs."""
    return {"words": [os.fspath(word) for word in words], "given": base64.b64encode(given).decode(), "piece": piece,
            "folder": os.fspath(folder)}


def answers(rows: Sequence[dict[str, Any]]) -> list[Ran]:
    """What is answered to rows, each as a run."""
    given = "".join(json.dumps(it) + "\n" for it in rows).encode()
    run = ran([NODE, TESTS / "node" / "answers.mjs"], given)
    lines = [json.loads(line) for line in run.output.decode().splitlines()]
    if len(lines) != len(rows):
        raise AssertionError("{} of {} rows are answered: {}".format(len(lines), len(rows), run.error[-1000:]))
    return [Ran(base64.b64decode(it["output"]), it["error"].encode(), it["status"],
                " ".join(["release/trac.mjs", *of["words"]]) + (" in pieces" if of["piece"] else ""))
            for it, of in zip(lines, rows)]


def pieces(given: bytes, count: int = 6) -> tuple[int, int]:
    """How much comes at a time: each byte of what is short, and else so many pieces."""
    return 0, 1 if len(given) < 30 else len(given) // count + 1


class InNode(Case):
    """A test that takes Node."""

    suite = "node"

    def setUp(self) -> None:
        if version() < 18:
            self.skipTest("there is no node of version 18 or later")

    def are(self, rows: Sequence[tuple[dict[str, Any], dict[str, Any]]]) -> None:
        """Checks that rows are answered so: each a row, and what ends() takes."""
        for run, (_, wanted) in zip(answers([it for it, _ in rows]), rows):
            self.ends("in Node", run, **wanted)

    def begun(self, words: Sequence[Word], stdout: int | IO[bytes] = subprocess.PIPE) -> Process:
        """The file itself, begun with pipes."""
        process = Process([NODE, FILE, *words], stdin=subprocess.PIPE, stdout=stdout, stderr=subprocess.PIPE)
        self.addCleanup(process.kill)
        for stream in process.stdin, process.stdout, process.stderr:
            if stream:
                self.addCleanup(stream.close)
        return process


class Stored(InNode):
    """What is stored."""

    seconds = 20

    def test_programs(self) -> None:
        """The programs of tests/data/programs and of programs/examples/, with numbers of both widths."""
        rows = []
        for folder in DATA / "programs", EXAMPLES:
            for name in stems(folder, ".out"):
                file = folder / (name + ".trac")
                tape = file.read_bytes() + bytes_in(file.with_suffix(".in"))
                status = int((words_in(file.with_suffix(".status")) or ["0"])[0])
                wide, narrow = file.with_suffix(".out"), file.with_suffix(".64")
                for width, wanted in ("128", wide), ("64", narrow if narrow.exists() else wide):
                    how = {"output": wanted.read_bytes(), "status": status, "error": ENDINGS[status],
                           "place": Place(near(wanted))}
                    rows += [(row(["run", "--decimals", width], tape, piece), how) for piece in pieces(tape)]
        self.are(rows)

    def test_sessions(self) -> None:
        """The sessions of the debugger, and short lists of commands."""
        here, rows = DATA / "sessions", []
        stored = [(here / name, here / (name + ".in"), here / (name + ".trac")) for name in stems(here)]
        folder = here / "not-understood"
        stored += [(folder / "each", folder / (name + ".in"), here / "not-understood.trac")
                   for name in stems(folder, ".in")]
        for wanted, commands, file in stored:
            beside = [wanted.with_name(wanted.name + ending) for ending in (".out", ".status", ".err")]
            how = {"output": bytes_in(beside[0]), "status": int((words_in(beside[1]) or ["0"])[0]),
                   "error": bytes_in(beside[2]), "place": Place(near(beside[0]))}
            given = commands.read_bytes()
            rows += [(row(["debug", *words_in(wanted.with_name(wanted.name + ".options")), file], given, piece), how)
                     for piece in pieces(given)]
        room = scratch(self)
        (room / "AB").write_bytes(b"AB'")
        short = [(commands, output, 0, b"") for commands, output in REPLIES]
        short += [(line, b"", 8, refusal(1)) for line in NOT_UNDERSTOOD]
        short += [(b"r " + b"a" * letters + end, *how) for end in (b"", b"\n", b"\r\n") for letters, how in (
            (4094, (b"return 0 AtStart\n", 0, b"")), (4095, (b"", 8, refusal(1))))]
        short += [(b"\n" * 1048576 + last, b"", *how) for last, how in (
            (b"", (0, b"")), (b"q", (3, b"trac: budget spent\n")))]
        rows += [(row(["debug", "AB"], commands, piece, room), {"output": output, "status": status, "error": error})
                 for commands, output, status, error in short for piece in pieces(commands, 3)]
        self.are(rows)

    def test_walks(self) -> None:
        """The walks, and the short ones with prompts too, as the program gives them."""
        here, rows = DATA / "walks", []
        for name in stems(here, ".in"):
            file = here / (name.replace(".found", "") + ".trac")
            if not file.exists():
                continue
            given, options = (here / (name + ".in")).read_bytes(), words_in(here / (name + ".options"))
            wanted = here / (name + ".out")
            how = {"output": wanted.read_bytes(), "place": Place(near(wanted))}
            rows += [(row(["walk", *options, file], given, piece), how) for piece in pieces(given, 2)]
            if given.count(b"\n") < 12:
                run = ran([WALK, "--prompt", *options, file], given)
                rows.append((row(["walk", "--prompt", *options, file], given), {"output": run.output}))
        self.are(rows)

    def test_lint(self) -> None:
        """What trac-lint says of all programs that are here."""
        here, lines = DATA / "lint", []
        lines += [(words_in(here / (name + ".options")) + [name + ".trac"], here) for name in stems(here)]
        for folder in here / "mistakes", here / "parentheses", here / "unseen", DATA / "programs", EXAMPLES:
            lines.append(([near(file) for file in sorted(folder.glob("*.trac"))], TOP))
        first = "programs/examples/first.trac"
        lines += [(words, TOP) for words in (["--steps", "7", first, "nowhere"], ["--input", "nowhere", first],
                                             ["--decimals", "64", first], ["", "a\nb\u202e"], ["."])]
        rows = []
        for words, folder in lines:
            run = ran([WALK, "--lint", *words], folder=folder)
            how = {"output": run.output, "status": run.status, "error": run.error}
            rows.append((row(["lint", *words], folder=folder), how))
        self.are(rows)

    def test_texts(self) -> None:
        """Help, and command lines that are not understood; there is no language server."""
        rows = []
        commands: dict[str, list[str]] = {"trac": [], "trac-walk": ["walk"], "trac-lint": ["lint"]}
        for name in stems(DATA / "texts", ".words"):
            program, *words = words_in(DATA / "texts" / (name + ".words"))
            if program not in commands:
                continue
            out, err = (DATA / "texts" / (name + ending) for ending in (".out", ".err"))
            rows.append((row([*commands[program], *words]), {"output": bytes_in(out), "error": bytes_in(err),
                                                             "status": 2 if err.exists() else 0}))
        self.are(rows)

    def test_words(self) -> None:
        """Command lines of random words, as the programs take them."""
        chance, rows = random.Random(SEED), []
        fronts: tuple[tuple[pathlib.Path, list[str]], ...]
        fronts = (TRAC, []), (TRAC, ["run"]), (TRAC, ["debug"]), (WALK, []), (WALK, ["--lint"])
        for number in range(LINES):
            program, front = fronts[number % len(fronts)]
            words = chance.choices(WORDS, k=chance.randint(1, 4))
            if program == TRAC and not front and words[0] in ("walk", "lint"):
                continue
            run = ran([program, *front, *words])
            command = ["walk"] if program == WALK and not front else ["lint"] if program == WALK else front
            how = {"output": run.output, "status": run.status, "error": run.error}
            rows.append((row([*command, *words]), how))
        self.are(rows)

    def test_what_is_refused(self) -> None:
        """What the module cannot give is said, with the status of a line that is not understood."""
        memory = b": --memory is refused: trac.mjs has 512 MiB, counted otherwise\n"
        keep = b"trac lint: --keep is refused: trac.mjs keeps 256 MiB\n"
        self.are([(row(words), {"status": 2, "error": error}) for words, error in (
            (["run", "--memory", "5M"], b"trac" + memory), (["debug", "--memory", "5M", "F"], b"trac" + memory),
            (["walk", "--memory", "5M", "F"], b"trac walk" + memory),
            (["lint", "--memory", "5M", "F"], b"trac lint" + memory), (["lint", "--keep", "5", "F"], keep))])

    def test_endings(self) -> None:
        """Budgets, limits and files that cannot be read, as the programs end."""
        room = scratch(self)
        (room / "long").write_bytes(b"")
        os.truncate(room / "long", 33554433)
        forms = b"".join(b"#(ds,N%d,)" % number for number in range(65535))
        long = b"#(ds,F,(" + b" " * 4096 + b"))#(ss,F, )#(cl,F,(" + b"x" * 4097 + b"))'"
        programs = (LOOP, b"", b"#(hl)'x", b"AB'#(" * 3, forms + b"#(ds,A,x)'#(ps,y)'#(ds,B,x)'", long,
                    b"#(" * 1048575 + b"'")
        runs = [(["--budget", "9000000"], program) for program in programs]
        runs += [(["--budget", str(budget), "--journal", "5"], b"AB'") for budget in (1, 6, 7, 10, 11, 19, 20)]
        runs += [(["--budget", str(budget)], LOOP) for budget in (37, 38, 100, 3000000)]
        rows = []
        for words, given in runs:
            run = ran([TRAC, "run", *words], given)
            how = {"output": run.output, "status": run.status, "error": run.error}
            rows += [(row(["run", *words], given, piece), how) for piece in pieces(given, 2)]
        begins: dict[str, list[Word]] = {"debug": [TRAC, "debug"], "walk": [WALK], "lint": [WALK, "--lint"]}
        for words in (["debug", "long"], ["debug", "nowhere"], ["debug", "."], ["walk", "long"], ["walk", "no\nwhere"],
                      ["lint", "long"]):
            run = ran([*begins[words[0]], *words[1:]], folder=room)
            rows.append((row(words, folder=room), {"output": run.output, "status": run.status, "error": run.error}))
        self.are(rows)


class Made(Case):
    """The file itself, which takes no Node."""

    suite = "node"
    takes_programs = False

    def test_release_is_current(self) -> None:
        """It is what node/assemble makes of the page of release/."""
        run = ran([TOP / "node" / "assemble", "--compare"])
        self.ends("node/assemble --compare", run, b"1 passed, 0 failed\n")

    def test_files_that_cannot_be_used(self) -> None:
        """Where it cannot be written, or the page not be made of a file, a line says why."""
        for name, place in ("node", "/proc/x"), ("node", "/nowhere/\x1b[1m"), ("web", "/nowhere"):
            said = "{}/assemble: {}: No such file or directory\n".format(name, ascii(place))
            self.ends("", ran([TOP / name / "assemble", place]), b"", 1, said.encode())

    def test_takes_nothing_of_the_system(self) -> None:
        """It takes four parts of Node, and no addon, file or program beside these: so no C library but Node's own.
        (Its module has no imports either: all rows give it none.)"""
        text = FILE.read_text(encoding="utf-8")
        taken = re.findall(r'^import .* from "(.*)";$', text, re.M)
        self.same("what it takes", " ".join(taken), "node:fs node:tty node:zlib node:url")
        self.same("how often", str(len(re.findall(r"\bimport\b(?!\.meta)", text))), str(len(taken)))
        found = re.findall(r"\brequire\(|createRequire|dlopen|process\.binding|child_process|\.node\b", text)
        self.same("what else may take something", " ".join(found), "")


# The programs that an action looks through, and what it tells of them, but for the numbers of steps.
LINTED = {"a,b": b"#(pr)'", "near": b"#(ds,greeting,hi)'\n#(cl,greting)'",
          "percent": b"#(ds,F,x)'\n#(cl,F,100%:1:2: y)'", "right": b"#(ps,a)'"}
TOLD = """\
::warning file=a%2Cb.trac,line=1,col=3::no primitive is named pr
::warning file=near.trac,line=2,col=6::no form is named greting
::notice file=near.trac,line=1,col=6::a form of nearly this name is defined here
::warning file=percent.trac,line=2,col=8::argument 2 of cl is not used: 100%25:1:2: y
"""


class Action(InNode):
    """share/packaging/action.yml, a step of a workflow."""

    def setUp(self) -> None:
        super().setUp()
        self.room, self.folder = scratch(self), TOP / "share" / "packaging"
        self.text = (self.folder / "action.yml").read_text(encoding="utf-8")

    def step(self, files: str) -> Ran:
        """What the step says of files, as the system that it is for begins it."""
        script = re.search(r"^      run: \|\n((?:        .*\n)+)", self.text, re.M)
        assert script
        line = ["bash", "--noprofile", "--norc", "-eo", "pipefail", "-c", script[1]]
        run = ran(line, folder=self.room, env={**os.environ, "GITHUB_ACTION_PATH": os.fspath(self.folder),
                                               "FILES": files, "OPTIONS": "--steps 1000"})
        return run._replace(output=re.sub(rb" \(step [0-9]+\)$", b"", run.output, flags=re.M), command="action.yml")

    def test_action(self) -> None:
        """Its script tells each doubt in the words of that system, at the place that trac lint has, and ends as that
        does."""
        for name, program in LINTED.items():
            (self.room / (name + ".trac")).write_bytes(program)
        self.ends("all programs", self.step("*.trac"), TOLD.encode(), 1)
        self.ends("one without a doubt", self.step("right.trac"))
        self.ends("one that is not there", self.step("none.trac"), b"", 2,
                  b"trac lint: none.trac: it cannot be read\n")
        self.same("it leaves no file", " ".join(sorted(os.listdir(self.room))),
                  " ".join(sorted(name + ".trac" for name in LINTED)))

    def test_action_inputs(self) -> None:
        """The inputs that its script and its example name are those that it has."""
        has = re.findall(r"^  (\w+):\n    description:", self.text, re.M)
        for pattern in r"\$\{\{ inputs\.(\w+) \}\}", r"^#         (\w+):":
            named = re.findall(pattern, self.text, re.M)
            self.holds("{} are of {}".format(named, has), named and set(named) <= set(has))


class Streams(InNode):
    """The file itself, as a process."""

    def test_file(self) -> None:
        run = ran([NODE, FILE, "run"], b"#(ps,A#(rs))'B'")
        self.ends("a file as standard input", run, b"AB")
        self.ends("a pipe", ran([NODE, FILE, "run"], b"#(ps,A#(rs))'B'", 3), b"AB")
        self.ends("no input", ran([NODE, FILE, "run"]))
        self.ends("a folder", subprocess_run(["run"], stdin=os.open(TOP, os.O_RDONLY)), b"", 6, b"trac: read fault\n")

    def test_links(self) -> None:
        """A link to it does the same, also if Node leaves links as they are."""
        link = scratch(self) / "link.mjs"
        link.symlink_to(FILE)
        commands: tuple[list[Word], ...] = [NODE, link, "run"], [NODE, "--preserve-symlinks-main", link, "run"]
        for command in commands:
            self.ends("by a link", ran(command, b"#(ad,2,3)'"), b"5")

    def test_long_streams(self) -> None:
        """16 MiB through pipes, each way."""
        for what, given in ("texts of a MiB", (b"x" * 1048575 + b"'") * 16), ("plain text", b"y" * 16000000):
            run, wanted = ran([NODE, FILE, "run"], given, 65536), ran([TRAC, "run"], given)
            self.status(what, run, wanted.status)
            self.holds(what + " are printed", run.output == wanted.output)

    def test_long_line(self) -> None:
        """A line of 200 MB is passed over, what comes after it is answered, and memory is taken for neither."""
        given, file = b"s\n" + bytes(200_000_000) + b"\ns\n", EXAMPLES / "first.trac"
        wanted = ran([WALK, file], given).output
        for piece in 0, 1 << 20:
            run = ran([sys.executable, "-c", PEAK, NODE, FILE, "walk", file], given, piece)
            self.same("the lines before and after it", run.output, wanted)
            self.status("a long line", run, 0)
            self.holds("it takes {} KiB".format(run.error), int(run.error) < 200_000)

    def test_input_without_end(self) -> None:
        """A run ends as soon as it can, a text that grows without end passes the limit, and a line without end ends a
        walk."""
        run = subprocess_run(["run"], stdin=os.open("/dev/zero", os.O_RDONLY))
        self.ends("a text without end", run, b"", 4, b"trac: limit passed\n")
        said = (b"not understood; h lists the commands\n"
                b"this line has more than 4,294,967,296 bytes: it ends the walk\n")
        words = ["walk", os.fspath(EXAMPLES / "first.trac")]
        for front, line in (b"", words), (b"0> ", [*words, "--prompt"]):
            run = subprocess_run(line, stdin=os.open("/dev/zero", os.O_RDONLY))
            self.ends("a line without end", run, front + said, 3, b"trac: budget spent\n")

    def test_answer_before_the_end(self) -> None:
        """What waits has written what it printed, and `hl` ends a run whose input may go on."""
        process = self.begun(["run"])
        for given, wanted in (b"#(ps,A)'", b"A"), (b"#(ps,#(ad,1,#(rs)))'", b""), (b"2'", b"3"), (b"#(hl)'x", b""):
            process.stdin.write(given)
            process.stdin.flush()
            self.same("a run answers " + given.decode(), taken(process.stdout, len(wanted)), wanted)
        self.holds("it ends before its input does", process.wait(patience()) == 0)
        process = self.begun(["debug", EXAMPLES / "first.trac"])
        for given, wanted in (b"s 5\n", b"forward 5\n"), (b"b 2\n", b"back 2\n"), (b"q\n", b""):
            process.stdin.write(given)
            process.stdin.flush()
            self.same("a session answers", taken(process.stdout, len(wanted)), wanted)
        self.holds("q ends it", process.wait(patience()) == 0)
        process = self.begun(["walk", EXAMPLES / "first.trac"])
        process.stdin.write(b"s\n  quit\n")
        process.stdin.flush()
        self.holds("quit ends a walk", process.wait(patience()) == 0)

    def test_nobody_reads(self) -> None:
        process = self.begun(["run"])
        process.stdin.write(LOOP)
        process.stdin.close()
        self.same("something is printed", taken(process.stdout, 3), b"xxx")
        process.stdout.close()
        self.holds("nobody reads: the status is 7", process.wait(patience()) == 7)
        self.same("nobody reads: standard error", process.stderr.read(), b"trac: write fault\n")

    def test_full_disk(self) -> None:
        if not os.path.exists("/dev/full"):
            self.skipTest("there is no /dev/full")
        fault = b"trac: write fault\n"
        for words, given, status, said in ((["run"], b"AB'", 7, fault), (["--help"], b"", 7, fault),
                                           (["lint", "--help"], b"", 2, b"trac lint: the output cannot be written\n")):
            with open("/dev/full", "wb") as full:
                process = self.begun(words, full)
                _, error = process.communicate(given, patience())
            self.same("a full disk: standard error", error, said)
            self.holds("a full disk: status", process.returncode == status)

    def test_at_a_terminal(self) -> None:
        """A run says how a text ends, and answers each; a walk prompts."""
        begun = b"trac: reading from the terminal: ' and Enter end a text, Ctrl-D ends the input\r\n"
        rows: list[tuple[list[Word], tuple[tuple[bytes, bytes], ...], bytes]] = [
            (["run"], ((begun, b"#(ad,2,3)'\n"), (b"5", b"\x04")), begun + b"5"),
            (["walk", EXAMPLES / "first.trac"], ((b"0> ", b"s\n"), (b"1> ", b"q\n")),
             b"h lists the commands, q ends\r\n0> 1  ")]
        for words, typed, seen in rows:
            status, text = self.typed(words, typed)
            self.holds("{} at a terminal: status {}, {}".format(words[0], status, text), status == 0 and seen in text)

    def typed(self, words: Sequence[Word], typed: Iterable[tuple[bytes, bytes]]) -> tuple[int, bytes]:
        """The status, and what is seen at a pseudo-terminal without what is typed: each text is typed once that before
        it is seen."""
        pid, terminal = pty.fork()
        if pid == 0:
            os.execv(NODE, [NODE, os.fspath(FILE), *(os.fspath(word) for word in words)])
        settings = termios.tcgetattr(terminal)
        settings[3] &= ~termios.ECHO
        termios.tcsetattr(terminal, termios.TCSANOW, settings)
        seen, waiting = b"", list(typed)
        while select.select([terminal], [], [], patience())[0]:
            try:
                part = os.read(terminal, 65536)
            except OSError:
                break
            seen += part
            if waiting and waiting[0][0] in seen:
                os.write(terminal, waiting.pop(0)[1])
        else:
            os.kill(pid, signal.SIGKILL)
        status = os.waitstatus_to_exitcode(os.waitpid(pid, 0)[1])
        os.close(terminal)
        return status, seen

    def test_interrupted(self) -> None:
        """Ctrl-C ends it at once, also while the module works."""
        process = self.begun(["run", "--budget", "1000000000000"])
        process.stdin.write(LOOP)
        process.stdin.close()
        self.same("it prints", taken(process.stdout, 3), b"xxx")
        process.send_signal(signal.SIGINT)
        self.holds("and ends by the signal", process.wait(patience()) == -signal.SIGINT)


def taken(stream: IO[bytes], count: int) -> bytes:
    """So many bytes of a stream, which must not be silent for long."""
    got = b""
    while len(got) < count:
        if not select.select([stream], [], [], patience())[0]:
            raise Silent("release/trac.mjs was silent")
        part = os.read(stream.fileno(), count - len(got))
        if not part:
            break
        got += part
    return got


def subprocess_run(words: list[str], stdin: int) -> Ran:
    """The file itself, run with this standard input."""
    try:
        done = subprocess.run([NODE, FILE, *words], stdin=stdin, capture_output=True, timeout=patience())
    finally:
        os.close(stdin)
    return Ran(done.stdout, done.stderr, done.returncode, " ".join(["release/trac.mjs", *words]))
