"""What the page says of each step, by its own scripts in Node: tests/data/sentences/NAME.out, written by hand from
docs/language.md and from what the rules come to. Of primitives.trac the sentences of calls alone are compared, and how
they begin is left out. It needs Node, from version 18 on; else it is skipped."""
import pathlib
import re

from support.cases import DATA, Case, Place, near, scratch
from support.paging import made, opened
from support.readers import PROGRAM, READERS

HERE = DATA / "sentences"
# A call in a sentence, and what is said of it; not the one by which the idle program reads.
CALL = re.compile(r"^\d+: \)(?: of the idle program)? ends the function, and (?!#\(rs\))(.* is performed: .*\n)", re.M)


class Sentences(Case):
    """What is said of the steps of a program."""

    def said(self, program: pathlib.Path) -> str:
        """The lines that say it."""
        return opened(self, "sentences", [made(self, [program])])

    def compare(self, name: str, said: str) -> None:
        """The lines are those of a file."""
        wanted = HERE / (name + ".out")
        text, place = wanted.read_text(encoding="utf-8"), Place(near(wanted))
        self.same("tests/data/sentences/{}.trac".format(name), said, text, place, "said by the page")

    def test_rules(self) -> None:
        """Each rule by which a step is taken."""
        self.compare("rules", self.said(HERE / "rules.trac"))

    def test_primitives(self) -> None:
        """Each primitive."""
        self.compare("primitives", "".join(CALL.findall(self.said(HERE / "primitives.trac"))))

    def test_readers(self) -> None:
        """Calls that read a form, and why they give their defaults (tests/support/readers.py)."""
        file = scratch(self) / "readers.trac"
        file.write_text(PROGRAM, encoding="utf-8")
        *sentences, last = CALL.findall(self.said(file))
        count = len(READERS)
        self.holds("there are {} calls, and not {}".format(count, len(sentences)), count == len(sentences))
        self.holds("the idle program prints what is left: " + last, last.startswith("#(ps,"))
        for (call, part), sentence in zip(READERS, sentences):
            self.holds("of {} it says: {}, and not {}".format(call, part, sentence), part in sentence)

    def test_end(self) -> None:
        """A program that halts."""
        last = self.said(HERE / "primitives.trac").splitlines()[-1]
        self.same("the end", last, "end: nothing: the program has halted")
