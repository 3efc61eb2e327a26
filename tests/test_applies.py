"""Whether each edit file of the crates can be applied: crates/NAME/must-fail/*.edit, which the gate tries, and
crates/NAME/further-edits/*.edit, which ./check --edits tries. Each `old` has to stand exactly once in its file, in what
the pairs before it made. No more than 16 edits stand in one must-fail/, and no more than 64 in all. Whether the prover
refuses them is not looked at, and no program is needed."""
from __future__ import annotations

import pathlib

from support.cases import TOP, Case, each, near, tests

MOST, MOST_OF_ALL = 16, 64
CRATES = TOP / "crates"


def why_not(crate: pathlib.Path, edit: pathlib.Path) -> str | None:
    """Says why the edit cannot be applied to the crate, or nothing."""
    path, old = None, None
    texts: dict[str, str] = {}
    for line in edit.read_text(encoding="utf-8").splitlines():
        key, _, text = line.partition(": ")
        if key == "file":
            path = text.strip()
            if not (crate / path).is_file():
                return "there is no file {}".format(path)
            texts.setdefault(path, (crate / path).read_text(encoding="utf-8"))
        elif key == "old":
            old = text
        elif key.startswith("new"):
            if not path or not old:
                return "a line `new` stands before `file` or `old`"
            found = texts[path].count(old)
            if found != 1:
                return "an `old` is in {} {} times: {}".format(path, found, old.strip())
            texts[path], old = texts[path].replace(old, text), None
    changed = any((crate / path).read_text(encoding="utf-8") != text for path, text in texts.items())
    return None if changed else "it changes nothing"


@tests
class Applies(Case):
    """The edits of each crate."""

    takes_programs = False

    @each(sorted(crate.name for crate in CRATES.iterdir() if list(crate.glob("*/*.edit"))))
    def test(self, name: str) -> None:
        crate = CRATES / name
        edits = sorted(crate.glob("must-fail/*.edit"))
        if len(edits) > MOST:
            self.bad("{}/must-fail has {} edits, and not {} at most".format(name, len(edits), MOST))
        for edit in [*edits, *sorted(crate.glob("further-edits/*.edit"))]:
            why = why_not(crate, edit)
            if why:
                self.bad("{}: {}".format(near(edit), why))
            else:
                self.well()

    def test_number(self) -> None:
        count = len(list(CRATES.glob("*/must-fail/*.edit")))
        self.holds("at most {} edits are in the gate".format(MOST_OF_ALL), count <= MOST_OF_ALL)
