"""The page release/trac.html in Chromium and Firefox, where they are installed: each row of tests/webpage is a test in
each browser, or in one. TRAC_PAGE names another page; screenshots are kept in out/webpage/."""
from __future__ import annotations

import os
import sys
import traceback
from collections.abc import Iterable

from support.cases import TESTS, TOP, Case, near
from support.differing import Place, difference
from support.waiting import Gone, Missed
from webpage import (
    anew, answers, by_keys, colours, course, editing, features, folding, given, keeping, lacking, lending, looks, many,
    memory, minute, pages, player, programs, reading, seen, share, staying, stopping, teaching, touching, trials,
    window, wording, zoom,
)
from webpage.rows import Row, kinds_of, name_of

GROUPS = (anew, answers, by_keys, colours, course, editing, folding, given, keeping, lacking, looks, many, memory,
          minute, player, programs, reading, share, staying, stopping, teaching, touching, trials, window, wording,
          zoom)
PAGE = os.path.realpath(os.environ.get("TRAC_PAGE") or TOP / "release" / "trac.html")
# Where rows stand, and what there is no row.
FOLDER, SHARED = os.fspath(TESTS / "webpage"), {"pages.py", "lending.py", "rows.py", "seen.py", "names.py", "tabs.py"}
# The most bytes that the page has.
MOST_BYTES = 700_000


def place_in(frames: Iterable[tuple[str, int]]) -> tuple[str, int]:
    """The innermost of some places, from the outermost on, that stands in a row."""
    found = near(__file__), 1
    for file, line in frames:
        folder, name = os.path.split(os.path.realpath(file))
        if folder == FOLDER and name not in SHARED:
            found = near(os.path.realpath(file)), line
    return found


class Webpage(Case):
    """Rows of the page."""

    def __init__(self, method: str = "runTest") -> None:
        super().__init__(method)
        self.seconds: float = getattr(getattr(self, method), "seconds", 1)
        self.browser: str = getattr(getattr(self, method), "browser", "")

    def setUp(self) -> None:
        if not os.path.exists(PAGE):
            self.skipTest("there is no " + near(PAGE))
        os.makedirs(pages.KEPT, exist_ok=True)
        self.place: tuple[str, int] | None = None
        lending.under_way.append(self)
        self.addCleanup(lending.under_way.clear)

    def where(self) -> tuple[str, int]:
        return self.place or place_in((it.filename, it.lineno or 1) for it in traceback.extract_stack())

    def counts(self, holds: object, words: str, compared: seen.Pair | None) -> None:
        """Counts a check. If it does not hold, these words tell of it, and two texts that were found to differ."""
        if holds:
            self.well()
            return
        texts = [it.encode("utf-8", "backslashreplace") for it in compared or ()]
        self.bad(words, difference(texts[0], texts[1], Place(*self.where(), is_whole=True),
                                   "the page") if texts else ())

    def row(self, row: Row, kind: type[pages.Deeds]) -> None:
        """Tries a row; and once more in a new browser if something failed, since a busy machine can stop a browser.
        What failed at first is told too."""
        if not kind.is_here():
            self.skipTest("there is no " + kind.name)
        self.attempt(row, kind)
        if self.faults:
            sys.stderr.write("".join("tried once more: {}: {}\n".format(self.name, fault) for fault in self.faults))
            self.held, self.failed, self.cut, self.place = 0, 0, 0, None
            self.faults.clear()
            self.told.clear()
            lending.end_idle()
            self.attempt(row, kind)

    def attempt(self, row: Row, kind: type[pages.Deeds]) -> None:
        """Does it, and keeps what failed."""
        seen.last_compared()
        try:
            row.does(kind, PAGE)
        except Exception as fault:
            self.place = place_in((it.filename, it.lineno or 1) for it in traceback.extract_tb(fault.__traceback__))
            is_told = isinstance(fault, (Gone, Missed))
            self.counts(False, str(fault) if is_told else traceback.format_exc(), seen.last_compared())

    def test_file(self) -> None:
        """The page is not too large, and has its dark colours once."""
        size = os.path.getsize(PAGE)
        self.holds("the page has {:,} bytes".format(size), size <= MOST_BYTES)
        with open(PAGE, encoding="utf-8") as page:
            count = page.read().count("color-scheme: dark;")
        self.holds("the dark colours stand there {} times".format(count), count == 1)

    def test_features(self) -> None:
        """Its parts have nothing that later browsers alone have, and are short."""
        features.check_features()


def add_rows() -> None:
    """Gives the class a test of each row in each of its browsers."""
    for group in GROUPS:
        for row in group.TRIED:
            for kind in kinds_of(row):
                def test(self: Webpage, row: Row = row, kind: type[pages.Deeds] = kind) -> None:
                    self.row(row, kind)

                name = "-".join(dict.fromkeys([group.__name__.rsplit(".", 1)[-1].replace("_", "-"),
                                               *name_of(row, kind)]))
                setattr(test, "own_name", name)
                setattr(test, "seconds", row.seconds)
                setattr(test, "browser", kind.name)
                if hasattr(Webpage, "test_" + name):
                    raise ValueError("two rows have the name " + name)
                setattr(Webpage, "test_" + name, test)


add_rows()
