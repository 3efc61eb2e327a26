"""Pages that trac page makes of programs: what they show when they are opened, from a file and without a connection."""
from __future__ import annotations

import contextlib
import os
import shutil
import subprocess
import tempfile
from collections.abc import Iterator

from support.cases import patience
from webpage.pages import FACTORIAL, IS_FOLLOWED, IS_GATHERED, TOP, Deeds, check, ready
from webpage.rows import rows
from webpage.share import body, held, link, shared
from webpage.staying import LIT
from support.strange import ASKING, ENDLESS, HOSTILE, HOSTILE_NAME

# A number that has no room in 64 bits.
WIDE = b"#(ps,#(ad,9223372036854775807,1,Z))'"


class Maker:
    """Makes pages of programs by trac page, of this page."""

    def __init__(self, room: str, file: str) -> None:
        self.room, self.count = room, 0
        for name in "crates", "crates.txt", "out", "python", "tools":
            os.symlink(os.path.join(TOP, name), os.path.join(room, name))
        self.script = shutil.copy(os.path.join(TOP, "trac"), room)
        os.mkdir(os.path.join(room, "release"))
        os.symlink(file, os.path.join(room, "release", "trac.html"))

    def keep(self, name: bytes, text: bytes) -> bytes:
        """A file of a program."""
        place = os.path.join(os.fsencode(self.room), name)
        with open(place, "wb") as out:
            out.write(text)
        return place

    def make(self, *words: str | bytes) -> str:
        """The page that these words make."""
        self.count += 1
        place = os.path.join(self.room, "{}.html".format(self.count))
        with open(place, "wb") as out:
            made = subprocess.run([self.script, "page", *words], stdout=out, timeout=patience())
        check(made.returncode == 0, "trac page {}: status {}".format(words, made.returncode))
        return place


def at_step(page: Deeds, step: int) -> None:
    """It has opened at this step."""
    page.at(step, "it opens")
    check(page.script("document.getElementById('welcome').hidden"), "nobody is welcomed to a page of a program")


def check_step(page: Deeds, maker: Maker) -> None:
    """A program at a step, with its name and its sentence; and then at its end, where its 0 is followed to where it was
    written."""
    page.load(maker.make("--step", "78", FACTORIAL))
    ready(page)
    at_step(page, 78)
    title = page.script("[document.title, document.getElementById('program-name').textContent]")
    check(title == ["wrong-factorial.trac: TRAC", "wrong-factorial.trac"], "its name: {}".format(title))
    said = page.text("ending")
    check(page.text("output") == "" and "Step 78 of 276 is shown." in said, "at step 78: " + said)
    check(page.script("document.getElementById('undo').hidden"), "there is nothing to be brought back")
    page.load(maker.make(FACTORIAL))
    ready(page)
    at_step(page, 276)
    check(page.text("output") == "0", "it has run: " + page.text("output"))
    page.until(IS_GATHERED, "the calls are listed")
    page.click("document.querySelector('#output [data-byte]')")
    page.until(IS_FOLLOWED, "where the 0 comes from")
    page.click("document.querySelector('#way-list .way-row:last-child [data-place$=\" 2\"]')")
    there = "document.getElementById('way-list').textContent.endsWith('reads it: line 1, column 26')"
    page.until(there, "where it was written")
    check(page.script(LIT) == "25,0", "the byte that is lit: {}".format(page.script(LIT)))


def check_hostile(page: Deeds, maker: Maker) -> None:
    """Bytes that are no text, and look like markup, arrive as they are; so does the name."""
    page.load(maker.make(maker.keep(HOSTILE_NAME, HOSTILE)))
    ready(page)
    name = page.text("program-name")
    check(name.startswith("<b>\"&' \\xff \\xe2\\x80\\xa8.trac"), "the name: " + ascii(name))
    check("<svg onload=window.hostile=1>" in page.text("output"), "what it prints: " + page.text("output")[:80])
    data = held(shared(page))
    check(HOSTILE in data, "its bytes: {}".format(data[:60]))


def check_input(page: Deeds, maker: Maker) -> None:
    """What it reads is there. Another program runs there too, and can be brought back where the page is opened again;
    and a link to the page is opened."""
    mine, value = "#(ps,mine)'", "document.getElementById('source').value"
    place = maker.make("--input", maker.keep(b"answer", b"Ann'\n"), maker.keep(b"asking.trac", ASKING))
    page.load(place)
    ready(page)
    read = page.text("given-text")
    check(page.text("output") == "Who? Hello Ann!" and read.startswith("Ann'"), "the input: " + read)
    page.type(mine)
    page.run()
    check(page.text("output") == "mine", "another program runs there: " + page.text("output"))
    page.load(place)
    ready(page)
    check(page.script(value) == ASKING.decode(), "the program of the page: " + page.script(value))
    page.click("document.getElementById('undo')")
    check(page.script(value) == mine, "what was typed is brought back: " + page.script(value))
    page.load(place, link(body(b"#(ps,linked)'", [], False, 9)))
    ready(page)
    page.at(9, "a link to that page goes")
    check(page.script(value) == "#(ps,linked)'", "the program of the link: " + page.script(value))


def check_budget(page: Deeds, maker: Maker) -> None:
    """How many steps it takes."""
    page.load(maker.make("--budget", "1000", "--step", "5000", maker.keep(b"endless.trac", ENDLESS)))
    ready(page)
    note = page.text("note")
    check("After 1,000 steps: it was stopped there" in page.text("ending"), "the budget: " + page.text("ending"))
    check(note == "the page is to step 5,000, and the run ends before it", "a step that is not there: " + note)
    page.click("document.querySelector('#ending button')")
    page.until("document.getElementById('ending').textContent.startsWith('After 2,001,000 steps')", "it goes on")


def check_decimals(page: Deeds, maker: Maker) -> None:
    """How wide its numbers are: so a sum is the default, the page says why, and Share says what its link lacks."""
    page.load(maker.make("--decimals", "64", maker.keep(b"wide.trac", WIDE)))
    ready(page)
    check(page.text("output") == "Z" and "of 64 bits" in page.text("rest"), "64 bits: {}".format(page.text("output")))
    for words in ("#(ps,Z)", "is a sum that does not fit in 64 bits, so its value is argument 3, the default: Z"):
        page.press("r")
        there = "document.getElementById('next').textContent.includes({!r})".format(words)
        page.until(there, "the call before: " + words)
    check(WIDE in held(shared(page)), "its link")
    check("numbers have 64 bits here" in page.text("share-words"), "what the link lacks: " + page.text("share-words"))


@contextlib.contextmanager
def a_maker(page: Deeds) -> Iterator[Maker]:
    """What makes pages of programs."""
    with tempfile.TemporaryDirectory(prefix="trac-webpage-test-") as room:
        yield Maker(room, page.address[len("file://"):])


TRIED = rows(check_step, check_hostile, check_input, check_budget, check_decimals, given=a_maker)
