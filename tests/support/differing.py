"""Two texts that differ, as a unified diff of few lines around the first byte that differs, with the file and line
where what was wanted stands."""
from __future__ import annotations

import difflib
import os
import re
from collections.abc import Sequence

# How many lines a difference has at most, how long these are, and how many bytes before and after what differs, and
# of that, are looked at.
MOST, WIDTH, BESIDE, WITHIN = 40, 160, 400, 8000
# How many lines stand before and after what differs.
CONTEXT = 3


class Place:
    """Where what was wanted stands: a file, and the line in it of each line of the text, or the line of the first
    one."""

    def __init__(self, file: str | os.PathLike[str], lines: int | Sequence[int] = 1, is_whole: bool = False) -> None:
        self.file, self.lines, self.is_whole = os.fspath(file), lines, is_whole

    def line(self, index: int) -> int:
        """The line in the file of the line of the text that has this index, or of the last one."""
        if isinstance(self.lines, int):
            return self.lines if self.is_whole else self.lines + index
        return self.lines[min(index, len(self.lines) - 1)] if self.lines else 1


def seen(text: bytes) -> str:
    """Bytes as a person can read them."""
    signs = text.decode("utf-8", "backslashreplace")
    return "".join(sign if sign.isprintable() else sign.encode("unicode_escape").decode() for sign in signs)


def first_difference(one: bytes, other: bytes) -> int:
    """How many bytes two texts have in common at their front."""
    low, high = 0, min(len(one), len(other))
    while low < high:
        middle = (low + high + 1) // 2
        if one[low:middle] == other[low:middle]:
            low = middle
        else:
            high = middle - 1
    return low


def last_difference(one: bytes, other: bytes, front: int) -> int:
    """How many bytes they have in common at their back, without those at their front."""
    low, high = 0, min(len(one), len(other)) - front
    while low < high:
        middle = (low + high + 1) // 2
        if one[len(one) - middle:] == other[len(other) - middle:]:
            low = middle
        else:
            high = middle - 1
    return low


def start_before(text: bytes, place: int) -> int:
    """Where some lines before a place begin, or less where these are long."""
    least, start = max(place - BESIDE, 0), place
    for _ in range(CONTEXT + 1):
        found = text.rfind(b"\n", least, start)
        if found < 0:
            return least if start == place or least == 0 else start + 1
        start = found
    return start + 1


def end_after(text: bytes, place: int) -> int:
    """Where some lines after a place end, or less where these are long."""
    most, end = min(place + BESIDE, len(text)), place
    for _ in range(CONTEXT + 1):
        found = text.find(b"\n", end, most)
        if found < 0:
            return most if end == place or most == len(text) else end
        end = found + 1
    return end


def lines_in(text: bytes, start: int, end: int) -> list[str]:
    """The lines of a part of a text, as they are shown: of those that are too long each piece by itself."""
    lines = text[start:min(end, start + WITHIN)].split(b"\n")
    last = lines.pop()
    shown = list(map(seen, lines))
    if last:
        shown.append(seen(last) + (" (without a line end)" if end == len(text) else " .."))
    return [line[at:at + WIDTH] + (" \\" if at + WIDTH < len(line) else "")
            for line in shown for at in range(0, max(len(line), 1), WIDTH)]


def difference(wanted: bytes, got: bytes, place: Place, given: str) -> list[str]:
    """The lines that tell how what was given differs from what was wanted, which stands there."""
    front = first_difference(wanted, got)
    back = last_difference(wanted, got, front)
    start, end = start_before(wanted, front), end_after(wanted, len(wanted) - back)
    parts = lines_in(wanted, start, end), lines_in(got, start, end - len(wanted) + len(got))
    before = wanted.count(b"\n", 0, start)

    def numbered(line: str) -> str:
        found = re.match(r"@@ -(\d+).*@@$", line)
        if not found:
            return line
        index = max(before + int(found[1]) - 1, 0)
        return "@@ from line {} on".format(index + 1 if place.is_whole else place.line(index))

    lines = list(map(numbered, list(difflib.unified_diff(*parts, n=CONTEXT, lineterm=""))[2:]))
    if len(lines) > MOST - 2:
        lines = lines[:MOST - 3] + [".. {} more lines".format(len(lines) - MOST + 3)]
    head = "--- wanted by {}:{}".format(place.file, place.line(wanted.count(b"\n", 0, front)))
    return [head, "+++ " + given, *(lines or ["they differ from byte {} on".format(front + 1)])]
