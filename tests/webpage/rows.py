"""Rows of the page: each does something with a page that was opened for it, so it can be tried alone."""
from __future__ import annotations

import contextlib
import functools
from collections.abc import Callable, Iterator
from typing import Any, NamedTuple

from webpage.pages import PAGES, Deeds, opened

# In which browsers a row is tried: in each, in one that is there, or in Chromium, since only that can do it.
EACH, ONE, CHROMIUM = "each", "one", "Chromium"
# What a row does, with a page or with what it opens by itself; and what it does in a browser of a kind.
Check = Callable[..., None]
Does = Callable[[type[Deeds], str], None]


class Row(NamedTuple):
    """A row: its name, what it does with a file in a browser of a kind, in which, and about how many seconds that
    takes."""

    name: str
    does: Does
    where: str
    seconds: float


def rows(*checks: Check, before: Check | None = None, given: Callable[[Deeds], Any] | None = None, where: str = EACH,
         seconds: float = 3, name: str = "", **looks: Any) -> list[Row]:
    """A row of each check of a page: opened with these looks, brought where the check begins, and with what else that
    is given for its time. The row has the check's name, and after it one for all of these."""

    def does(check: Check, kind: type[Deeds], file: str) -> None:
        with contextlib.ExitStack() as held, opened(kind, file, **looks) as page:
            if before:
                before(page)
            words = [held.enter_context(given(page))] if given else []
            check(page, *words)
            page.well(check.__name__)

    return [Row(worded(check) + name, functools.partial(does, check), where, seconds) for check in checks]


def opening(*checks: Check, where: str = EACH, seconds: float = 3) -> list[Row]:
    """A row of each check that opens pages of a file by itself."""
    return [Row(worded(check), check, where, seconds) for check in checks]


def worded(check: Check) -> str:
    """The name of a check in the name of its row."""
    return check.__name__.replace("check_", "", 1).replace("_", "-")


@contextlib.contextmanager
def file_of(page: Deeds) -> Iterator[str]:
    """The file of a page."""
    yield page.address[len("file://"):]


def kinds_of(row: Row) -> list[type[Deeds]]:
    """The kinds of browsers that a row is tried in."""
    if row.where == ONE:
        return [next((kind for kind in PAGES if kind.is_here()), PAGES[0])]
    return PAGES if row.where == EACH else [kind for kind in PAGES if kind.name == row.where]


def name_of(row: Row, kind: type[Deeds]) -> list[str]:
    """The parts of the name of a row in a browser of a kind."""
    return [row.name] if row.where == ONE else [row.name, kind.name.lower()]
