"""Pages of ./trac page: how tests make them, and open them by the page's own scripts in Node."""
from __future__ import annotations

import json
import os
import pathlib
import re
import shutil
from collections.abc import Sequence

from support.cases import TESTS, TOP, Case, Word, lined, ran

PAGE = TOP / "release" / "trac.html"
# What makes pages, and what that puts into one.
MAKER: list[Word] = [TOP / "trac", "page"]
GIVEN = re.compile(rb'<script type="application/json" id="given-data">(.*?)</script>', re.S)


def made(test: Case, words: Sequence[Word]) -> bytes:
    """The page that these words make."""
    run = ran([*MAKER, *words])
    test.status("trac page", run, 0)
    return run.output


def a_checkout(room: pathlib.Path) -> str:
    """Makes a folder a checkout, but for the page in its release/: returns its launcher."""
    os.mkdir(os.path.join(room, "release"))
    for name in "crates", "crates.txt", "out", "python", "tools":
        os.symlink(TOP / name, os.path.join(room, name))
    return str(shutil.copy(TOP / "trac", room))


def has_node() -> bool:
    """Whether there is a node that runs the scripts."""
    node = shutil.which("node")
    version = re.match(rb"v(\d+)", ran([node, "--version"]).output) if node else None
    return version is not None and int(version[1]) >= 18


def opened(test: Case, what: str, pages: Sequence[bytes], steps: Sequence[Sequence[int]] | None = None) -> str:
    """What the scripts say of pages, in lines; `what` is `states`, at these further steps of each page, or
    `sentences`."""
    if not has_node():
        test.skipTest("there is no node of version 18 or later")
    rows = [{"given": GIVEN.findall(page)[0].decode("ascii"), "steps": more}
            for page, more in zip(pages, steps or [[]] * len(pages))]
    run = ran(["node", TESTS / "support" / "pages.mjs", PAGE, what], lined(map(json.dumps, rows)))
    test.status("the page's scripts", run, 0)
    return run.output.decode()
