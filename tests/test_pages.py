"""The pages that ./trac page makes: each program of tests/data/programs opens at the step that was asked for, or else
where `trac walk` comes to an end, in the state that `trac debug` prints there. The page's own scripts say so, in Node
(tests/support/pages.mjs), from version 18 on; without that, these tests are skipped. And command lines."""
from __future__ import annotations

import base64
import json
import os
import pathlib
import random
import re
import shutil
import sys
from collections.abc import Sequence
from typing import Any

from support.cases import DATA, EXAMPLES, TESTS, TOP, TRAC, WALK, Case, Word, near, ran, scratch, stems
from support.paging import GIVEN, MAKER, PAGE, a_checkout, made, opened
from support.strange import ASKING, ENDLESS, HOSTILE, HOSTILE_NAME, VARIOUS

sys.path.insert(0, str(TOP / "python"))
from trac_tools.dialogue import bytes_of  # noqa: E402

# The most that a page may have beside its program, in bytes.
MOST_BYTES = 700_000
NARROW = ["--decimals", "64"]
GONE = ("--last", "--first", "--steps", "--to", "--program")


def states_at(file: Word, steps: Sequence[int], words: list[str]) -> list[dict[str, Any]]:
    """The states that trac debug prints at rising steps: each without what its journal has, and without what was read
    and printed, which is beside that."""
    moves = [("s {}\n".format(to - at) if to > at else "") + "p\n" for at, to in zip([0, *steps], steps)]
    said = ran([TRAC, "debug", *words, file], "".join(moves).encode()).output.decode("ascii")
    found = re.findall(r"^(active .*?)\nposition ([0-9]+)\noutput \[(.*?)\]\njournal ", said, re.M | re.S)
    return [{"text": text, "position": int(position), "printed": base64.b64encode(bytes_of(printed)).decode()}
            for text, position, printed in found]


def end_of(file: Word, words: list[str]) -> int:
    """The step where trac walk comes to an end."""
    return int(re.findall(rb"^(?:here: )?([0-9]+)  ", ran([WALK, *words, file], b"s end\n").output, re.M)[-1])


def printed(state: dict[str, Any]) -> str:
    """A state as a text."""
    return json.dumps(state, indent=1)


class Program:
    """A file; and a copy of it under a name that is ASCII, which `trac` takes on a command line."""

    def __init__(self, file: str | pathlib.Path, room: pathlib.Path) -> None:
        self.file, self.copy = file, file
        if not os.fspath(file).isascii():
            self.copy = shutil.copy(file, room / "copy.trac")
        with open(file, "rb") as text:
            self.bytes = text.read()
        self.name = ascii(near(file))


class Pages(Case):
    """Pages of programs."""

    seconds = 20

    def test_programs(self) -> None:
        """Each program, at its end and at some step."""
        room = scratch(self)
        programs = [Program(DATA / "programs" / (name + ".trac"), room) for name in stems(DATA / "programs")]
        for name, text in ((HOSTILE_NAME, HOSTILE), (b"various.trac", VARIOUS)):
            place = os.path.join(os.fsencode(room), name)
            with open(place, "wb") as out:
                out.write(text)
            programs.append(Program(os.fsdecode(place), room))
        self.compare(programs, [])

    def test_narrow(self) -> None:
        """Those that differ with numbers of 64 bits."""
        room, names = scratch(self), stems(DATA / "programs", ".64")
        self.compare([Program(DATA / "programs" / (name + ".trac"), room) for name in names], NARROW)

    def compare(self, programs: list[Program], words: list[str]) -> None:
        """Each page opens where it was asked to, with all bytes of its program. Its states there and at two other steps
        are those that there are."""
        chance, pages, rows = random.Random(79), [], []
        for number, program in enumerate(programs):
            end = end_of(program.copy, words)
            step, *others = [chance.randrange(end + 1) for _ in range(3)]
            asked = ["--step", str(step)] if number % 4 else []
            pages.append(made(self, [*words, *asked, program.file]))
            rows.append((program, end, [step if asked else end, *others]))
        lines = opened(self, "states", pages, [steps[1:] for _, _, steps in rows]).splitlines()
        for (program, end, steps), page, line in zip(rows, pages, lines):
            name, found = program.name, json.loads(line)
            places, wanted = (found["step"], found["end"]), (steps[0], end)
            self.holds("{}: it opens at {}, and not {}".format(name, places, wanted), places == wanted)
            self.holds("{}: all bytes of it arrive".format(name), base64.b64decode(found["program"]) == program.bytes)
            there = dict(zip(sorted(set(steps)), states_at(program.copy, sorted(set(steps)), words)))
            for step, state in zip(steps, found["states"]):
                self.same("{} at step {}".format(name, step), printed(state), printed(there[step]))
            self.judge(name, page, program.bytes)

    def judge(self, name: str, page: bytes, program: bytes) -> None:
        """A page is trac.html, but for what was put there, which cannot be markup; and it is not too large."""
        block = GIVEN.findall(page)[0]
        self.holds("{}: what is put there is no markup".format(name), not re.search(rb"[<>&]|[^ -~]", block))
        self.holds("{}: the rest is trac.html".format(name), page.replace(block, b"null", 1) == PAGE.read_bytes())
        self.holds("{}: {:,} bytes".format(name, len(page)), len(page) <= MOST_BYTES + len(program))

    def test_options(self) -> None:
        """Input, a step past the end, and where a run stops by its budget or goes on to its step."""
        room = scratch(self)
        for name, text in (("asking", ASKING), ("answer", b"Ann'\n"), ("endless", ENDLESS)):
            (room / name).write_bytes(text)
        asking, endless = room / "asking", room / "endless"
        rows: tuple[list[Word], ...] = (["--input", room / "answer", asking], ["--step", "5000", asking],
                                        ["--budget", "1000", endless], ["--step", "2000001", endless])
        said = opened(self, "states", [made(self, row) for row in rows])
        answered, past, spent, far = map(json.loads, said.splitlines())
        self.same("the answer is read", base64.b64decode(answered["states"][0]["printed"]), b"Who? Hello Ann!")
        self.same("the name", answered["name"], "asking")
        self.same("past the end", "".join(past["notes"]), "the page is to step 5,000, and the run ends before it")
        self.holds("it is at its end: {}".format(past["step"]), past["step"] == past["end"] > 0)
        self.holds("after 1,000 steps: {}".format(spent["end"]), spent["end"] == spent["step"] == 1000)
        self.holds("beyond 2,000,000: {}".format(far["step"]), (far["step"], far["end"]) == (2_000_001, 4_000_000))


class Lines(Case):
    """Command lines of trac page."""

    suite = "pages"

    def test_words(self) -> None:
        """What is wrong with a command line is said, of an option that there was also what is so instead."""
        file, none = EXAMPLES / "wrong-factorial.trac", scratch(self) / "none"
        rows: list[tuple[list[Word], int]]
        rows = [(["--step", "-1", file], 2), (["--step", "100000001", file], 2), (["--step", "x", file], 2),
                (["--budget", "0", file], 2), (["--decimals", "32", file], 2), (["--input", none, file], 6),
                ([none], 6), ([TESTS], 6), ([], 2)]
        rows += [([name, "5", file], 2) for name in GONE]
        for words, status in rows:
            run = ran([*MAKER, *words])
            self.status(run.command, run, status)
            self.holds("{}: it says why, and prints nothing".format(run.command), run.error and not run.output)
            if words and words[0] in GONE:
                what = "{} is no option any more: the page ".format(words[0]).encode()
                self.holds("{}: {}".format(run.command, run.error), what in run.error)

    def test_version(self) -> None:
        """The version of trac is shown, whatever else the line has; so it is by the other scripts in Python."""
        said = ran([TRAC, "--version"]).output
        for words in (["page", "none", "-V"], ["page", "--step", "5", "--version"],
                      ["play", "--version", "none"], ["course", "none", "--version"]):
            run = ran([TOP / "trac", *words])
            self.ends(run.command, run, said)

    def test_damaged(self) -> None:
        """No page is made of a trac.html that is not there, not whole, or has a program."""
        room, whole = scratch(self), PAGE.read_bytes()
        copy, file = a_checkout(room), EXAMPLES / "first.trac"
        place = room / "release" / "trac.html"
        missing, wrong = b"trac page: trac.html is missing: ", b" takes no program: it is not whole, or not of this "
        damaged: bytes | int | None
        for what, damaged, said in (("that is missing", None, missing), ("that is a folder", 0, b"html is no file\n"),
                                    ("that is empty", b"", wrong), ("that is cut", whole[:-1], wrong),
                                    ("that has a program", made(self, [file]), wrong)):
            if place.is_dir():
                place.rmdir()
            if isinstance(damaged, bytes):
                place.write_bytes(damaged)
            elif damaged is not None:
                place.mkdir()
            run = ran([copy, "page", file])
            self.status("of a page " + what, run, 70)
            self.holds("of a page {}: {}".format(what, run.error), said in run.error and not run.output)

    def test_same(self) -> None:
        """The same program makes the same page, from a pipe too."""
        file = EXAMPLES / "wrong-factorial.trac"
        page = made(self, [file])
        self.holds("a second page is the same", made(self, [file]) == page)
        piped = ran([*MAKER, "/dev/stdin"], file.read_bytes(), 100).output
        renamed = piped.replace(b'"name":"stdin"', b'"name":"wrong-factorial.trac"')
        self.holds("a program from a pipe", renamed == page)

    def test_limits(self) -> None:
        """More than a program and its input may have together, and too little memory for them."""
        room = scratch(self)
        (room / "few").write_bytes(bytes(600_000))
        (room / "many").write_bytes(random.Random(79).randbytes(33_000_000))
        run = ran([*MAKER, "--input", room / "many", room / "few"])
        said = b"trac page: FILE and TEXTFILE: more than 33,554,432 bytes together\n"
        self.ends("more than there may be", run, b"", 4, said)
        bound = ["bash", "-c", 'ulimit -v "$1"; shift; exec "$@"', "-", "60000"]
        run = ran([*bound, *MAKER, room / "many"])
        self.ends("little memory", run, b"", 5, b"trac page: there is no memory\n")
