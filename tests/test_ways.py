"""What `y` of trac-walk says of where bytes come from.

Each byte that the programs of tests/data/programs print is followed back, and the replies are read alone: a byte that
was read is that byte of FILE, what makes bytes makes digits or bits, or names that it lists, and the first line of a
way is of a call that prints. A way of one line, of a byte that the call which prints it makes, is of `pf`, or of a
program that turns the trace on. Of 400 random programs the replies must be those of the model, byte for byte. Then one
byte through a block, one through a form with a long name, one over a way of as many lines as are shown, and two over
longer ones."""
from __future__ import annotations

import re
from collections.abc import Iterator

from model import ways
from model.machine import GAP
from model.random_ways import Programs, questions
from support.cases import DATA, WALK, each, lined, ran, stems, tests
from test_walks import Walker

# What these make, where the trace is off.
MADE = {**{name: b"-0123456789" for name in ("ad", "su", "ml", "dv")}, "sb": b"0123456789",
        **{name: b"01234567" for name in ("bu", "bi", "bc", "bs", "br")}}
DIGITS = {"ad", "su", "ml"}
# Their arguments are names of forms, and not the bytes that they put elsewhere.
BY_NAME = {"sb", "fb"}
DEED = re.compile(r"^(\d+)  (?:##?\(([^,()]*)(.*?)\)?|.*?) +(prints|sets|gives|makes) it$")
READ = re.compile(r"^\d+  ##?\([rR][sScC].* +reads it: line (\d+), column (\d+)$")
WAY = re.compile(r"((?:^\d+  .*  (?:(?:prints|sets|gives|makes|reads) it|fills gap|gives its default).*\n"
                 r"|^\.\. \d+ more \.\.\n|^(?:FILE|    )    .*\n)*^here: .*)\n", re.M)
# So many random programs of this seed are tried, in so many tests; one is passed over that takes more steps.
COUNT, SEED, PARTS, STEPS = 400, 1, 4, 3000


def shows(byte: bytes, shown: str) -> bool:
    """Whether a shown text begins with a byte, or ends where the line feed is that the byte is."""
    sign = byte.decode("latin-1") if b" " <= byte <= b"~" and byte not in b"\\[]" else "\\x{:02x}".format(byte[0])
    return shown.startswith(sign) or byte == b"\n" and not shown


def byte_at(file: bytes, place: re.Match[str]) -> bytes:
    """The byte of FILE at the line and column that a line tells."""
    row = (file.split(b"\n")[int(place[1]) - 1] + b"\n")[int(place[2]) - 1:]
    return row[:1]


def wrong(file: bytes, printed: bytes, number: int, reply: str) -> str:
    """What is wrong with a reply to where the byte of this number comes from; nothing where none is."""
    byte = printed[number - 1:number]
    lines = reply.split("\n")
    if not lines[-1].startswith("here: "):
        return "it is not followed"
    if lines[-2].strip(" ") == "^":
        piece, mark = lines[-3:-1]
        lines = lines[:-3] + lines[-1:]
        if not piece.startswith("FILE    ") or not shows(byte, piece[len(mark) - 1:]):
            return "{} does not stand under it in {}".format(mark, piece)
    # (why a call gave its default, or what it compared)
    lines = [line for line in lines if not line.startswith(" " * 8)]
    read = re.search(r"  reads it: line (\d+), column (\d+)$", lines[-2])
    if read:
        return "" if byte_at(file, read) == byte else "{} is read".format(byte_at(file, read))
    deed = re.match(r"^(\d+)  (##?\(([^,()]*).*?|.*?) +makes it$", lines[-2])
    if not deed:
        return "nothing makes it"
    name = (deed[3] or "").lower()
    # the line of a trace, and the marks of a form that is printed, are made by the call that prints them
    if len(lines) == 2:
        return "" if name == "pf" or b"tn" in file.lower() else "{} prints nothing of its own".format(deed[3])
    if name != "ln" and byte not in MADE.get(name, b""):
        return "{} makes no such byte".format(deed[3])
    return "" if lines[0].endswith("  prints it") else "it is not printed"


def fault(file: bytes, byte: int, lines: list[str]) -> str:
    """What is not true of the lines of a way; nothing where all is."""
    for line in lines[:-1]:
        read, deed = READ.match(line), DEED.match(line)
        if read:
            if byte_at(file, read) != bytes([byte]):
                return "{} is read".format(byte_at(file, read))
        elif deed and deed[4] == "makes":
            name, is_digit = (deed[2] or "ss").lower(), chr(byte) in "-0123456789"
            if name not in ("ss", "ln") and not (name in DIGITS | {"sb"} and is_digit):
                return "{} makes it".format(deed[2])
        elif deed and deed[4] in ("prints", "sets"):
            if byte < GAP and deed[2].lower() not in BY_NAME and ".." not in line and chr(byte) not in deed[3]:
                return "{} was not given it".format(deed[2])
    return ""


def accepted() -> Iterator[tuple[bytes, ways.Follower, list[tuple[str, int]]]]:
    """The random programs that take few enough steps, each with the model after its last step, and the questions."""
    programs = Programs(SEED)
    while True:
        file = programs.program().encode()
        model = ways.Follower(file)
        if model.run(STEPS):
            yield file, model, questions(programs.pick, model)


@tests
class EachByte(Walker):
    """Each byte that a program prints, from where the program waits or has ended."""

    suite = "ways"

    @each(stems(DATA / "programs"))
    def test(self, name: str) -> None:
        program = DATA / "programs" / (name + ".trac")
        file, printed = program.read_bytes(), program.with_suffix(".out").read_bytes()
        lines = ["s 1000000", "e", "s 1000000"]
        for number in range(1, len(printed) + 1):
            lines += ["y #{}".format(number), "e", "s 1000000"]
        run = ran([WALK, "--journal", "1048576", program], lined(lines))
        replies = WAY.findall(run.output.decode("latin-1"))
        self.holds("{} replies to {} questions".format(len(replies), len(printed)), len(replies) == len(printed))
        for number, reply in enumerate(replies, 1):
            why = wrong(file, printed, number, reply)
            if why:
                self.bad("byte {}: {}: {}".format(number, why, reply))


@tests
class Random(Walker):
    """Random programs, of which each byte of the output and some of the forms are followed back."""

    suite = "ways"
    seconds = 10

    @each("{}-to-{}".format(1 + COUNT // PARTS * part, COUNT // PARTS * (part + 1)) for part in range(PARTS))
    def test_random(self, numbers: str) -> None:
        first, last = map(int, numbers.split("-to-"))
        for number, (file, model, asked) in enumerate(accepted(), 1):
            if number > last:
                return
            if number >= first:
                self.judge(number, file, model, asked)

    def judge(self, number: int, file: bytes, model: ways.Follower, asked: list[tuple[str, int]]) -> None:
        """A program: the replies to what is asked are true, and those of the model."""
        lines = "".join("g {}\ny {}\n".format(model.steps, what) for what, _ in asked)
        replies = self.replies(self.walk(file, lines.encode()).output.decode("latin-1"), model.steps)
        what = "program {}, {!r}: ".format(number, file)
        is_whole = self.holds("{}{} replies to {} lines".format(what, len(replies), len(asked)),
                              len(replies) == len(asked))
        wanted = [ways.reply(model, question) for question, _ in asked] if is_whole else []
        for (question, byte), reply, right in zip(asked, replies, wanted):
            if reply != right:
                self.same("{}y {}".format(what, question), lined(reply), lined(right))
            elif why := fault(file, byte, reply):
                self.bad("{}y {}: {}".format(what, question, why))

    @staticmethod
    def replies(text: str, steps: int) -> list[list[str]]:
        """The lines of each reply up to the one that says where it came to."""
        replies: list[list[str]] = []
        reply: list[str] | None = None
        for line in text.split("\n"):
            if line.startswith("{}  ".format(steps)) and reply is None:
                reply = []
            elif reply is not None:
                reply.append(line)
                if line.startswith("here: "):
                    replies, reply = replies + [reply], None
        return replies


class Ways(Walker):
    """Ways that were worked by hand: each call that carried a byte, without the steps' numbers."""

    suite = "ways"

    def goes(self, what: str, program: bytes, lines: bytes, pattern: str, wanted: list[str]) -> None:
        """Of the replies the lines that have the pattern are these."""
        run = self.walk(program, lines)
        self.status(what, run, 0)
        self.same(what + ": standard error", run.error, b"")
        those = [line for line in run.output.decode().split("\n") if re.search(pattern, line)]
        found = [re.sub(r" +", " ", re.sub(r"^[0-9]*  ", "", line)) for line in those]
        self.same(what, lined(found), lined(wanted))

    def test_through_a_block(self) -> None:
        """A byte of a form that went into a block and came back."""
        program = b"#(ds,A,ab)'\n#(sb,b,A)'\n#(fb,b)'\n#(ps,##(cl,A))'\n"
        self.goes("y through a block", program, b's 1000\ny "b"\n', " it",
                  ["#(ps,ab) prints it", "##(cl,A) gives it", "#(fb,b) sets it", "#(sb,b,A) sets it",
                   "#(ds,A,ab) sets it", "#(rs) reads it: line 1, column 9"])

    def test_through_a_form_with_a_long_name(self) -> None:
        """It is read after `#(ds,`, the name and a comma."""
        name = b"n" * 300
        program = b"#(ds,%s,x)'\n#(ps,##(cl,%s))'\n" % (name, name)
        self.goes("y through a form with a long name", program, b"s 10000\ny #\n", " reads it",
                  ["#(rs) reads it: line 1, column 307"])

    def handed(self, what: str, last: int, printed: str, wanted: list[str]) -> None:
        """Over a byte that forms hand on, each to the next, up to this one, and that is printed from there so."""
        forms = ["#(ds,f0,x)'"] + ["#(ds,f{},##(cl,f{}))'".format(k, k - 1) for k in range(1, last + 1)]
        program = lined(forms + ["#(ps,{})'".format(printed)])
        self.goes("y over " + what, program, b"s 10000\ny #\n", r" it| more \.\.", wanted)

    @staticmethod
    def handing(first: int, last: int) -> list[str]:
        """The lines of the calls that hand it on from these forms, the latest first."""
        lines = "##(cl,f{}) gives it", "#(ds,f{},x) sets it"
        return [line.format(k) for k in range(first, last - 1, -1) for line in lines]

    def test_as_many_lines_as_are_shown(self) -> None:
        """By 14 forms: 29 calls carried it, and one read it."""
        self.handed("a way of 30 lines", 13, "##(cl,f13)",
                    ["#(ps,x) prints it", *self.handing(13, 0), "#(rs) reads it: line 1, column 9"])

    def test_a_line_too_many(self) -> None:
        """And by `eq`. The latest 28 calls are shown, how many are left out, and the one that read it."""
        self.handed("a way of 31 lines", 13, "#(eq,1,1,##(cl,f13))",
                    ["#(ps,x) prints it", "#(eq,1,1,x) gives it: 1 and 1 are the same", *self.handing(13, 1),
                     ".. 2 more ..", "#(rs) reads it: line 1, column 9"])

    def test_a_long_way(self) -> None:
        """By 21 forms: 43 calls carried it."""
        self.handed("a long way", 20, "##(cl,f20)",
                    ["#(ps,x) prints it", *self.handing(20, 8), "##(cl,f7) gives it", ".. 15 more ..",
                     "#(rs) reads it: line 1, column 9"])
