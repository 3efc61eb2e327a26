"""What trac-walk replies to `y`: the model with each byte carrying the way by which it came. It was written before
the program was tried, and not from it.

A way is a tuple of events, the latest first: the number of a step, what the step does, and what it did with the
byte."""
from __future__ import annotations

from collections.abc import Iterable
from typing import Union

from model.doubts import shown
from model.machine import IDLE, Byte, Call, Machine, Text, number, numeral, plain

LOADED = "nothing is left: the idle program is loaded"
# The number of a step, what it does, and what it did with the byte, or which it read; and a way.
Event = tuple[int, str, Union[str, int]]
Way = tuple[Event, ...]


def written(argument: Text) -> bytes:
    """An argument as it would be written: in parentheses, if what a line of 80 columns shows of it has one or a
    comma."""
    text = plain(argument)
    return b"(" + text + b")" if any(mark in text[:81] for mark in b",()") else text


def text_of(call: Call) -> str:
    """A call as it would be written."""
    return (call.kind + b"(" + b",".join(map(written, call.arguments)) + b")").decode("latin-1")


class Follower(Machine):
    """The model, whose input may go on."""

    def __init__(self, tape: bytes, bits: int = 128) -> None:
        super().__init__(tape, bits, may_go_on=True)
        # by which step each form is as it is, and in which line that step's call was written
        self.changed: dict[bytes, tuple[int, int | None]] = {}

    def states(self) -> dict[bytes, tuple[list[int], int]]:
        """The forms without what their bytes carry."""
        return {name: ([value for value, _ in form.items], form.pointer) for name, form in self.forms.items()}

    def call(self) -> None:
        name, before, steps = self.frames[-1][1][0], self.states(), self.steps
        source = name[0][1][-1][2] if name and name[0][1] else None
        row = self.tape[:source].count(10) + 1 if isinstance(source, int) else None
        super().call()
        now = self.states()
        for it in before.keys() | now.keys():
            if before.get(it) != now.get(it):
                self.changed[it] = steps, row

    def compared(self, call: Call) -> str:
        one, other = call.text(1), call.text(2)
        if call.name == "eq":
            words = "{} and {} are the same" if one == other else "{} and {} differ"
            return "gives it: " + words.format(side(one), side(other))
        words = "{} is greater than {}" if number(one) > number(other) else "{} is at most {}"
        return "gives it: " + words.format(*(side(numeral(it) or b"0") for it in (one, other)))

    def defaulted(self, call: Call) -> str:
        return "gives its default\n" + self.lack(call)

    def lack(self, call: Call) -> str:
        """Why a call gives its default argument."""
        if call.name not in ("cs", "cc", "cn", "in"):
            is_zero = call.name == "dv" and number(call.text(2)) == 0
            return "it divides by 0" if is_zero else "the result does not fit"
        form, name = self.known(call), shown(call.text(1)).decode()
        step, row = self.changed[call.text(1)]
        since = " since step {}".format(step) + ("" if row is None else " (line {})".format(row))
        if not form.items:
            return "the form {} is empty".format(name) + since
        if call.name == "cn" and number(call.text(2)) < 0:
            return ("before the pointer of {} stand gaps alone".format(name) if form.pointer
                    else "the pointer of {} is at its start".format(name) + since)
        if form.pointer == len(form.items):
            return "the pointer of {} is at its end".format(name) + since
        if call.name == "in":
            return "{} is nowhere after the pointer of {}".format(shown(call.text(2)).decode(), name)
        return "after the pointer of {} stand gaps alone".format(name)

    def event(self, call: Call, what: str | int) -> Event:
        """That a call does this with a byte."""
        return self.steps, text_of(call), what

    def idle(self) -> Text:
        way = ((self.steps, LOADED, "makes it"),) if self.steps else ()
        return [(byte, way) for byte in IDLE]

    def of_tape(self, place: int, call: Call) -> Way:
        return (self.event(call, place),)

    def made(self, values: Iterable[int], call: Call) -> Text:
        way = (self.event(call, "makes it"),)
        return [(value, way) for value in values]

    def moved(self, text: Iterable[Byte], call: Call, what: str) -> Text:
        event = self.event(call, what)
        return [(value, (event,) + way) for value, way in text]


# ---- what is shown

def side(text: bytes) -> str:
    """A text that is compared."""
    if not text.strip(b" "):
        return "nothing" if not text else "a blank" if len(text) == 1 else "{} blanks".format(len(text))
    words = shown(text).decode()
    return '"{}"'.format(words) if text[:1] == b" " or text[-1:] == b" " else words


def cut(text: str, columns: int) -> str:
    return text if len(text) <= columns else text[:columns - 2] + ".."


def seen(text: str) -> str:
    """Bytes 32 to 126 but for these three are shown as themselves."""
    return "".join(char if " " <= char <= "~" and char not in "\\[]" else f"\\x{ord(char):02x}" for char in text)


def place_in(tape: bytes, place: int) -> str:
    before = tape[:place]
    return f"line {before.count(10) + 1}, column {place - before.rfind(10)}"


def piece_in(tape: bytes, place: int) -> list[str]:
    """The line of a tape that has the byte at this place, cut around it, and `^` under it."""
    start, end = tape.rfind(b"\n", 0, place) + 1, (tape + b"\n").find(b"\n", place)
    before, rest = (seen(text.decode("latin-1")) for text in (tape[start:place], tape[place:end]))
    after = max(1, len(rest))  # (the mark takes a column)
    room = 72 if len(before) + after <= 72 else max(36, 70 - after)
    if len(before) > room:
        before = ".." + before[-room:]
    return [cut("FILE    " + before + rest, 80), " " * (8 + len(before)) + "^"]


def lines_of(tape: bytes, step: int, call: str, what: str | int) -> list[str]:
    """What is said of a call on a way; what it read is shown too."""
    head = (cut(f"{step}  {seen(call)}", 48) + "  ").ljust(34)
    if isinstance(what, int):
        return [cut(head + "reads it: " + place_in(tape, what), 80)] + piece_in(tape, what)
    deed, *reasons = what.split("\n")
    if len(head + deed) > 80:
        deed, *reasons = deed.split(": ", 1)
    return [cut(head + deed, 80)] + [cut(" " * 8 + reason, 80) for reason in reasons]


def way_of(machine: Machine, asked: str) -> Way:
    """The way of the byte that `y` is asked to follow."""
    way: Way
    if asked.startswith("#"):
        way = machine.output[int(asked[1:]) - 1][1]
    elif asked.startswith("."):
        argument, place = map(int, asked[1:].split())
        way = machine.frames[-1][1][argument][place - 1][1]
    else:
        name, number = asked.split()
        way = machine.forms[name.encode()].items[int(number) - 1][1]
    return way


def reply(machine: Machine, asked: str) -> list[str]:
    """The lines that `y` replies, of a way at most 30."""
    way = way_of(machine, asked)
    told = [lines_of(machine.tape, *event) for event in way]
    if len(told) > 30:
        told = told[:28] + [[f".. {len(told) - 29} more .."]] + told[-1:]
    step, call, _ = way[-1]
    return sum(told, []) + ["here: " + cut(f"{step}  {seen(call)}", 80)]
