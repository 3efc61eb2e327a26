"""What stands around a row of the page while it is tried: who counts its checks, and the browsers, of which one that
has done a row does the next, since it is slow to begin."""
from __future__ import annotations

import contextlib
import multiprocessing.util
import os
from collections.abc import Iterator
from typing import Any, Protocol

from support.waiting import Waiting
from webpage import seen


class Counting(Protocol):
    """Who counts checks: the test that is under way."""

    def counts(self, holds: object, words: str, compared: seen.Pair | None) -> None:
        """Counts a check. If it does not hold, these words tell of it, and two texts that were found to differ."""


# The test that is under way in this process; its browsers that have nothing to do, and the process that began these.
under_way: list[Counting] = []
idle: list[Waiting] = []
owner: list[int] = []


def check(holds: object, words: str) -> None:
    """Counts a check of the row that is tried."""
    under_way[-1].counts(holds, words, seen.last_compared())


def end_idle() -> None:
    """Ends the browsers that have nothing to do."""
    while idle:
        idle.pop().end()


@contextlib.contextmanager
def lent(kind: type[Waiting], **looks: Any) -> Iterator[Any]:
    """A browser of a kind, with these looks: one that has nothing to do, or a new one. One that failed is not used
    again; all end with this process."""
    if owner != [os.getpid()]:
        owner[:], idle[:] = [os.getpid()], []
        multiprocessing.util.Finalize(None, end_idle, exitpriority=10)
    known = next((one for one in idle if type(one) is kind and one.can_be(**looks)), None)
    if known:
        idle.remove(known)
    page = known or kind(**looks)
    try:
        if known:
            page.become(**looks)
        yield page
    except BaseException:
        page.end()
        raise
    try:
        page.leave()
    except OSError:
        # (the row is done, but the next one is to have a browser without a fault)
        page.end()
    else:
        idle.append(page)
