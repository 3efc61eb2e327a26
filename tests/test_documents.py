"""What README.md and docs/ show: each command that says what it prints, `printf ".." | ./trac run    # prints ..`,
which may have several lines, prints that; so too the doubts of trac lint that stand below such a command,
`# 1:7: ..`, and on the page of silent mistakes there are no others.

The example of docs/embedding.md is its crate, which the gate runs; the counts of definitions in docs/proof.md are
those of tools/believed."""
from __future__ import annotations

import pathlib
import re

from support.cases import TOP, Case, Place, Ran, each, lined, ran, scratch, tests

COMMAND = r'^ *(printf "[^"]*") \| \./trac run'
# A command, with what it prints where it says that, there or on the next line; or a doubt.
PART = re.compile(COMMAND + r"(?:\s+# prints (.*)$)?|^ +# ([0-9]+:[0-9]+: .*)$", re.M)
PAGES = {file.name: file for file in [TOP / "README.md", *sorted((TOP / "docs").glob("*.md"))]}
# The page on which a command without doubts below it has none.
SILENT = "nothing-printed.md"
# tools/believed counts so many lines more or less.
ABOUT = 100


def shell(command: str) -> Ran:
    """What a command prints, both streams together, and its status."""
    run = ran(["bash", "-c", "exec 2>&1; " + command])
    return run._replace(command=command)


@tests
class Documents(Case):
    """The commands of each page."""

    @each(name for name, file in PAGES.items() if re.search(COMMAND, file.read_text(encoding="utf-8"), re.M))
    def test(self, name: str) -> None:
        file = PAGES[name]
        text = file.read_text(encoding="utf-8")
        command: tuple[int, str] | None = None
        doubts: list[tuple[int, str]] = []
        for part in PART.finditer(text):
            words, prints, doubt = part.groups()
            number = text.count("\n", 0, part.end()) + 1
            if doubt:
                doubts.append((number, doubt))
                continue
            self.check_doubts(name, command, doubts)
            command, doubts = (number, words), []
            if prints is not None:
                self.check_output(file, number, words + " | ./trac run", prints)
        self.check_doubts(name, command, doubts)

    def check_output(self, file: pathlib.Path, number: int, command: str, wanted: str) -> None:
        """A command prints what its line says."""
        wanted, run = "" if wanted == "nothing" else wanted, shell(command)
        place = Place(file.relative_to(TOP), number)
        what = "{}:{}: {}".format(place.file, number, command)
        self.same(what, run.output.decode("utf-8", "replace"), wanted, place, "printed")
        self.status(what, run, 0)

    def check_doubts(self, name: str, command: tuple[int, str] | None, doubts: list[tuple[int, str]]) -> None:
        """Of what the last command prints trac lint says what stands below it."""
        if command is None or not doubts and name != SILENT:
            return
        number, words = command
        file = scratch(self) / "it"
        file.write_bytes(shell(words).output)
        said = ran([TOP / "trac", "lint", file]).output.decode("utf-8", "replace").replace("{}:".format(file), "")
        said = re.sub(r" +$", "", re.sub(r" \(step [0-9]+\)$", "", said, flags=re.M), flags=re.M)
        place = Place(PAGES[name].relative_to(TOP), [number for number, _ in doubts] or number)
        what = "{}:{}: what trac lint says of {}".format(place.file, number, words)
        self.same(what, said, lined(text for _, text in doubts).decode(), place, "said by trac lint")

    def test_embedding(self) -> None:
        """The program of the page is that of the example, and what it prints is what the gate compares."""
        page = (TOP / "docs" / "embedding.md").read_text(encoding="utf-8")
        example = TOP / "crates" / "trac_embedding_example"
        for kind, file in ("rust", example / "src" / "main.rt"), ("text", example / "stdout"):
            blocks = "".join(re.findall("^```{}\n(.*?)^```$".format(kind), page, re.M | re.S))
            place = Place(file.relative_to(TOP))
            self.same("docs/embedding.md shows " + place.file, blocks, file.read_text(encoding="utf-8"), place, "shown")

    def test_counts_of_definitions(self) -> None:
        """tools/believed counts as many files, and about as many lines, as docs/proof.md says."""
        rows = re.findall(r"^\| .* \| `([^`]+)` \| ([0-9]+) files, ([0-9,]+) lines \|$",
                          (TOP / "docs" / "proof.md").read_text(encoding="utf-8"), re.M)
        self.holds("docs/proof.md counts the definitions of contracts", len(rows) >= 6)
        for contract, files, lines in rows:
            said = ran([TOP / "tools" / "believed", contract]).output.decode()
            found = re.findall(r": ([0-9]+) files, ([0-9,]+) lines$", said, re.M)
            counts = [(int(many), int(long.replace(",", ""))) for many, long in found]
            wanted = int(files), int(lines.replace(",", ""))
            self.holds("docs/proof.md: of {} {} files and about {} lines, and not {}".format(contract, *wanted, counts),
                       any(many == wanted[0] and abs(long - wanted[1]) <= ABOUT for many, long in counts))
