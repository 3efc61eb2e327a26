"""What the documents show: walks."""
from __future__ import annotations

import re
from typing import NamedTuple

from support.cases import TOP


class Walk(NamedTuple):
    """The words after the program's name, the lines that are typed, the replies, and the lines of the page where these
    stand."""

    words: list[str]
    typed: list[str]
    replies: list[str]
    places: list[int]


def walks_of(page: str, command: str) -> list[Walk]:
    """The walks that a page shows, each from a line that begins with this command to its `q`."""
    found: list[Walk] = []
    walk: Walk | None = None
    for number, line in enumerate((TOP / page).read_text(encoding="utf-8").split("\n"), 1):
        if line.startswith("    " + command):
            walk = Walk(line[4 + len(command):].split(), [], [], [])
        elif walk and line.startswith("    "):
            typed = re.match("> ?(.*)", line[4:])
            if typed:
                walk.typed.append(typed[1])
            else:
                walk.replies.append(line[4:])
                walk.places.append(number)
            if line == "    > q":
                found.append(walk)
                walk = None
    return found
