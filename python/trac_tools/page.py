"""Puts a TRAC program into a page, which runs it and shows each of its steps, forward and back.

    trac page [--input TEXTFILE] [--step N] [--budget N] [--decimals BITS] FILE > run.html

The page is trac.html, with the program in it, what the program reads, and the step where the page opens: web/given.js
takes these. It needs no other file and no network. Nothing is run here.
"""
from __future__ import annotations

import argparse
import base64
import json
import os
import re
import zlib
from collections.abc import Callable

from trac_tools.tool import TAPE, Fault, ShowVersion, Words, found, legible, read_file, shown, write

# The last step where a page may open, and the most steps after which it may stop.
MOST_STEPS = 100_000_000
# The element of trac.html that is for the program, what it has there, and how the page ends.
BEFORE, NOTHING, END = b'<script type="application/json" id="given-data">', b"null", b"</html>\n"
# Options that there were, and what is so instead.
ALL_STEPS = "the page has all steps of the run, and opens at --step N"
GONE = {
    "--last": ALL_STEPS, "--first": ALL_STEPS, "--steps": ALL_STEPS,
    "--to": "the page runs the program, and takes --budget N steps",
    "--program": "the page has the processor in it",
}


class Gone(argparse.Action):
    """An option that there is no more."""

    def __call__(self, parser: argparse.ArgumentParser, namespace: argparse.Namespace, values: object,
                 option_string: str | None = None) -> None:
        parser.error("{} is no option any more: {}".format(option_string, GONE[str(option_string)]))


def number(least: int, most: int) -> Callable[[str], int]:
    """What reads a number of the command line."""

    def read(word: str) -> int:
        if not re.fullmatch("[0-9]{1,12}", word) or not least <= int(word) <= most:
            raise argparse.ArgumentTypeError("{} is no number from {} to {}".format(shown(word), least, most))
        return int(word)

    return read


def width(word: str) -> int:
    """How many bits a number has."""
    if word not in ("64", "128"):
        raise argparse.ArgumentTypeError("{} is not 64 or 128".format(shown(word)))
    return int(word)


def options(given: list[str]) -> argparse.Namespace:
    """The command line."""
    words = Words(
        prog="trac page",
        description="Prints a page for a browser that runs a TRAC program and shows each step of it, forward and back.",
        epilog="Example: trac page FILE > run.html",
        allow_abbrev=False,
    )
    words.add_argument("file", metavar="FILE", help="the program")
    words.add_argument("--input", metavar="TEXTFILE", help="what the program reads after FILE")
    words.add_argument("--step", metavar="N", type=number(0, MOST_STEPS),
                       help="where the page opens: 0 to {:,} [default: at the end of the run]".format(MOST_STEPS))
    words.add_argument("--budget", metavar="N", type=number(1, MOST_STEPS),
                       help="stop after N steps, where the page can go on: 1 to {:,} [default: 2,000,000, or more if "
                       "--step says so]".format(MOST_STEPS))
    words.add_argument("--decimals", metavar="BITS", type=width, default=128,
                       help="how many bits numbers have in the page: 64 or 128 [default: 128]")
    words.add_argument("-V", "--version", action=ShowVersion, help="show the version of the processor")
    for name in GONE:
        words.add_argument(name, action=Gone, nargs="?", help=argparse.SUPPRESS)
    return words.parse_args(given)


def halves_of_page() -> tuple[bytes, bytes]:
    """The page before and after what is put there."""
    place = found("trac.html", "release/trac.html", "share/trac/trac.html")
    if not os.path.isfile(place):
        raise Fault("{} is no file".format(shown(place)), 70)
    with open(place, "rb") as file:
        before, mark, after = file.read().partition(BEFORE + NOTHING)
    if not mark or not after.endswith(END):
        raise Fault("{} takes no program: it is not whole, or not of this version".format(shown(place)), 70)
    return before + BEFORE, after


def packed(text: bytes) -> str:
    """Bytes as the page unpacks them."""
    return base64.b64encode(zlib.compress(text, 9)).decode()


def as_json(data: dict[str, object]) -> str:
    """Data as JSON that can stand in a script element: no sign in it is one of markup, and all are ASCII."""
    text = json.dumps(data, ensure_ascii=True, separators=(",", ":"))
    return re.sub("[<>&]", lambda sign: "\\u{:04x}".format(ord(sign[0])), text)


def given(chosen: argparse.Namespace) -> dict[str, object]:
    """What is put into the page."""
    program = read_file(chosen.file)
    read = read_file(chosen.input) if chosen.input is not None else b""
    if len(program) + len(read) > TAPE:
        raise Fault("FILE and TEXTFILE: more than {:,} bytes together".format(TAPE), 4)
    return {
        "name": legible(os.path.basename(chosen.file)),
        "program": packed(program),
        "input": packed(read),
        "step": chosen.step,
        "budget": chosen.budget,
        "decimals": chosen.decimals,
    }


def main(words: list[str]) -> None:
    """Makes the page, and prints it whole."""
    chosen = options(words)
    if os.isatty(1):
        raise Fault("the page goes to standard output, so name a file for it: trac page FILE > run.html", 2)
    before, after = halves_of_page()
    data = as_json(given(chosen))
    for part in (before, data.encode(), after):
        write(part)
