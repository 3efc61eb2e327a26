"""README.md of each crate has 10 to 20 lines, and what it names is there: files, crates, and the words of the language
and of its proofs, each in some file of the crates. So a name that changed, or went, is changed there too."""
import pathlib
import re

from support.cases import TOP, Case, each, tests

CRATES = TOP / "crates"
# What stands between two signs as code does.
CODE = re.compile(r"`([^`\n]+)`")
WORD = re.compile(r"[A-Za-z_]\w*(?:::\w+)*")
# Each word that stands in the files of the crates, read once.
WORDS: set[str] = set()


def words() -> set[str]:
    """These words, and those of the commands."""
    if not WORDS:
        for file in CRATES.glob("*/*/**/*"):
            if file.suffix in (".rt", ".antt") and "out" not in file.relative_to(CRATES).parts:
                WORDS.update(re.findall(r"\w+", file.read_text(encoding="utf-8")))
    return WORDS


def is_there(crate: pathlib.Path, name: str) -> bool:
    """Whether what is named so in the README.md of a crate is there."""
    if "/" in name or re.search(r"\.(rt|antt|md)$", name):
        places = crate, CRATES, TOP, crate / "specs", crate / "src", crate / "proofs"
        return any((place / name).exists() for place in places)
    if name.startswith("trac_"):
        return (CRATES / name).is_dir() or name in words()
    return not WORD.fullmatch(name) or all(word in words() for word in name.split("::"))


@tests
class Crates(Case):
    """The README.md of each crate."""

    takes_programs = False

    @each(sorted(folder.name for folder in CRATES.iterdir()))
    def test(self, name: str) -> None:
        crate = CRATES / name
        text = (crate / "README.md").read_text(encoding="utf-8")
        self.holds("it begins with the crate's name", text.startswith("# {}\n".format(name)))
        count = text.count("\n")
        self.holds("it has 10 to 20 lines, and not {}".format(count), 10 <= count <= 20)
        for code in sorted(set(CODE.findall(text))):
            self.holds("`{}`, which README.md of {} names, is there".format(code, name), is_there(crate, code))
