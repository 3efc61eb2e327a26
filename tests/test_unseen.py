"""No tool shows a sign to a person that nobody sees, as itself: neither in a text of a program nor in a name. The list
of these signs is the same wherever it stands."""
from __future__ import annotations

import os
import re
import subprocess

from support.cases import TOP, WALK, Case, Word, each, patience, ran, scratch, tests
from support.unseen import SEEN, SIGNS, UNSEEN, as_bytes, unseen_in

# By each file with the list: where that begins and ends there, and how a sign is written in it.
LISTS = {
    "rattle": ("crates/trac_person_lines/src/unseen.rt", r"matches!\((.*?)\)\n\}", r"\\u\{([0-9a-f]+)\}", "..="),
    "python": ("python/trac_tools/tool.py", r"UNSEEN = re\.compile\((.*?)\n\)", r"\\(?:u|U)([0-9a-f]+)", "-"),
    "page": ("web/unseen.js", r"const UNSEEN =(.*?);\n", r"\\\\u\{([0-9a-f]+)\}", "-"),
    "node": ("node/names.js", r"const UNSEEN = new RegExp\((.*?)\);", r"\\\\u\{([0-9a-f]+)\}", "-"),
}
# What each is tried with: programs that have the sign in a name, in an argument, in what is printed.
TEXT = "#(ds,a{0}b,c{0}d)#(ps,##(cl,a{0}b))#(n{0})'"


def ranges_in(name: str) -> list[tuple[int, int]]:
    """The ranges of a list."""
    file, whole, sign, to = LISTS[name]
    found = re.search(whole, (TOP / file).read_text(encoding="utf-8"), re.S)
    quotes = "'?" if to == "..=" else ""
    pairs = re.findall("{0}(?:{1}{2}{1}{0})?".format(sign, quotes, re.escape(to)), found[1] if found else "")
    return [(int(first, 16), int(last or first, 16)) for first, last in pairs]


@tests
class Unseen(Case):
    """Each tool."""

    seconds = 5

    def setUp(self) -> None:
        self.room = scratch(self)

    def program(self, sign: str, name: str = "it") -> str:
        """A program with a sign in all of its texts, in a file of this name."""
        (self.room / name).write_bytes(TEXT.format(sign).encode())
        return name

    def shown(self, what: str, output: bytes, sign: str, wanted: bytes) -> None:
        """A check of what a tool said: it shows the sign so, and none that is not seen."""
        code = "{}, U+{:04X}".format(what, ord(sign))
        self.holds("{}: {!r} is in {!r}".format(code, wanted, output), wanted in output)
        self.same(code + ": none is there that is not seen", " ".join(unseen_in(output.decode("utf-8", "replace"))), "")

    @each(LISTS)
    def test_list(self, name: str) -> None:
        self.same(name, "\n".join("{:x} {:x}".format(*ends) for ends in ranges_in(name)),
                  "\n".join("{:x} {:x}".format(*ends) for ends in UNSEEN))

    def walked(self, sign: str, wanted: bytes) -> None:
        """A walk shows a sign so: in a line of a step, on its screen, in forms, doubts, and ways."""
        size = len(sign.encode())
        lines = b"s 12\np\nu ds\np\nr rs\nu ps\nf\nd\ny 1\np all\nl\n" + b"y . 1 2\n" * 2
        run = ran([WALK, self.program(sign)], lines, folder=self.room)
        self.status("a walk", run, 0)
        for text in b"a%sb", b"c%sd":
            self.shown("a walk", run.output, sign, text % wanted)
        self.holds("{} bytes of U+{:04X} are followed".format(size, ord(sign)), b"FILE " in run.output)

    def test_walk(self) -> None:
        for sign in SIGNS:
            self.walked(sign, as_bytes(sign))
        for sign in SEEN:
            self.walked(sign, sign.encode())

    def test_walk_of_controls(self) -> None:
        """Controls of two bytes are shown by them, and what is left of a sign."""
        for sign in map(chr, (0x80, 0x85, 0x9b, 0x9f)):
            self.walked(sign, as_bytes(sign))

    def test_lint(self) -> None:
        """In a doubt, and in the name of a file, which an editor opens."""
        for sign in [*SIGNS, *SEEN]:
            wanted = as_bytes(sign) if sign in SIGNS else sign.encode()
            run = ran([WALK, "--lint", self.program(sign, "i{}t".format(sign))], folder=self.room)
            self.shown("lint", run.output, sign, b"no primitive is named n" + wanted)
            self.shown("lint", run.output, sign, b"i" + wanted + b"t:1:")

    def said(self, *words: Word) -> bytes:
        """What a tool in Python prints."""
        environment = {**os.environ, "PYTHONUTF8": "1"}
        return subprocess.run([TOP / "trac", *words], cwd=self.room, stdin=subprocess.DEVNULL, stdout=subprocess.PIPE,
                              env=environment, check=False, timeout=patience()).stdout

    def test_course(self) -> None:
        """In what an exercise prints."""
        for sign in SIGNS[::3]:
            wanted = sign.encode("unicode_escape")
            self.shown("course", self.said("course", "check", "1.1", self.program(sign)), sign, b"c" + wanted + b"d")

    def test_page(self) -> None:
        """In the name of a program, which is the page's title too."""
        for sign in ("\u00ad", "\u180f", "\u202e", "\u3164", "\U000e0100"):
            wanted = as_bytes(sign).replace(b"\\", b"\\\\")
            self.shown("page", self.said("page", self.program(sign, "i{}t".format(sign))), sign,
                       b'"name":"i' + wanted + b't"')
