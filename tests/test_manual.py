"""The manual pages: groff and man take each without a word, where they are installed; it has the options that its
command says itself, and names the other pages."""
import re
import shutil

from support.cases import TOP, Case, each, ran, tests

PAGES = "trac", "trac-walk", "trac-lint", "trac-lsp", "trac-dap", "trac-play", "trac-page", "trac-course"
PARTS = "SYNOPSIS", "OPTIONS"


def options_in(text: str) -> str:
    """The long options of a text, a line each."""
    return "\n".join(sorted(set(re.findall("(?<![a-z-])--[a-z]+", text))))


def part_of(page: str, name: str) -> str:
    """A part of a page, without its marks."""
    plain = re.sub(r"\\f.", "", page.replace("\\-", "-"))
    found = re.search(r"^\.SH {}$(.*?)(?=^\.SH |\Z)".format(name), plain, re.M | re.S)
    return found[1] if found else ""


@tests
class Manual(Case):
    """Each page."""

    @each(PAGES)
    def test(self, name: str) -> None:
        page = TOP / "share" / "man" / (name + ".1")
        text = page.read_text(encoding="utf-8")
        words = "run" if name == "trac" else name.replace("trac-", "")
        wanted = options_in(ran([TOP / "trac", words, "--help"]).output.decode())
        for part in PARTS:
            self.same("{}: the options of trac {}".format(part, words), options_in(part_of(text, part)), wanted)
        for other in PAGES:
            if other != name:
                self.holds("it names {}(1)".format(other), re.search(r"^\.BR {} \(1\)".format(other), text, re.M))
        if shutil.which("groff"):
            self.same("groff", ran(["groff", "-ww", "-man", "-Tutf8", page]).error, b"", None, "said")
        if shutil.which("man"):
            self.same("man", ran(["env", "MANPAGER=cat", "man", "--warnings", "-l", page]).error, b"", None, "said")
