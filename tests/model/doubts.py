"""What trac-lint says of a program: the model with each byte carrying its place, so that each doubt has one. It is
written from the table of doubts, and shares nothing with trac.

The place of a byte is where it was read; one that a call makes has the place of that call's name, and one of the idle
program that of the text which it reads."""
from __future__ import annotations

from collections.abc import Iterable
from typing import Any

from model.advice import advice
from model.machine import GAP, IDLE, NEED_FORM, Call, Done, Form, Machine, Text, numeral, plain

DIGITS = b"0123456789"
# How many arguments a primitive uses, its name not counted; None: all that there are. `cl` is judged by its form.
USES = {
    "ps": 1, "rs": 0, "rc": 0, "hl": 0, "cm": 1, "tn": 0, "tf": 0, "ln": 1, "pf": 1, "ds": 2, "dd": None, "da": 0,
    "ss": None, "cl": None, "cr": 1, "cs": 2, "cc": 2, "cn": 3, "in": 3, "eq": 4, "gr": 4, "ad": 3, "su": 3, "ml": 3,
    "dv": 3, "bu": 2, "bi": 2, "bc": 1, "bs": 2, "br": 2, "sb": None, "fb": 1, "eb": 1,
}
NUMBERS = {"ad": (1, 2), "su": (1, 2), "ml": (1, 2), "dv": (1, 2), "gr": (1, 2), "cn": (2,), "bs": (1,), "br": (1,)}


def shown(text: bytes) -> bytes:
    """A text as it is said: escaped, and cut to 32 columns."""
    if not text:
        return b"(an empty text)"
    pieces, width = [], 0
    for byte in text:
        pieces.append(b"%c" % byte if 32 <= byte <= 126 and byte not in b"[\\]" else b"\\x%02x" % byte)
        width += len(pieces[-1])
    if width <= 32:
        return b"".join(pieces)
    while width > 30:
        width -= len(pieces.pop())
    return b"".join(pieces) + b".."


def bare(name: bytes) -> bytes:
    return bytes(byte for byte in name.lower() if byte not in b" \t\r\n")


def is_slip(one: bytes, other: bytes) -> bool:
    """Whether a name of five bytes or more becomes the other one by one byte more or less, another one, or two
    swapped, which are not digits."""
    shorter, longer = sorted([one, other], key=len)
    if len(shorter) < 5:
        return False
    if len(longer) == len(shorter) + 1:
        return any(longer[:i] + longer[i + 1 :] == shorter and longer[i] not in DIGITS for i in range(len(longer)))
    if len(longer) > len(shorter):
        return False
    wrong = [i for i in range(len(one)) if one[i] != other[i]]
    if not wrong or all(one[i] in DIGITS and other[i] in DIGITS for i in wrong):
        return False
    return len(wrong) == 1 or (
        len(wrong) == 2 and wrong[1] == wrong[0] + 1
        and one[wrong[0]] == other[wrong[1]] and one[wrong[1]] == other[wrong[0]]
    )


def unended(count: int) -> bytes:
    """Of so many calls that never end."""
    return b"1 call was begun and never ended" if count == 1 else b"%d calls were begun and never ended" % count


def place_of(call: Call, k: int) -> Any:
    """Where an argument begins, or where the name does; of a call without a name where that begins."""
    for text in (call.argument(k), call.argument(0)):
        if text:
            return text[0][1]
    return call.begun


def unused(call: Call, form: Form | None) -> int | None:
    """The first argument that nothing uses, if there is one; `cl` uses as many as the gaps of its form have
    numbers."""
    uses = USES.get(call.name)
    if call.name == "cl" and form is not None:
        uses = 1 + max((value - GAP for value, _ in form.items if value >= GAP), default=0)
    return uses + 1 if uses is not None and len(call.arguments) > uses + 1 else None


class Doubter(Machine):
    """A program with its input, the rest of it, and the doubts that its steps gave so far."""

    doubts: list[tuple[int, bytes, int | None]]
    told: set[tuple[str | tuple[str, int], int]]
    advised: int | None
    defined: dict[bytes, int | None]

    def __init__(self, tape: bytes, bits: int = 128) -> None:
        self.doubts, self.told, self.scanned, self.advised, self.defined = [], set(), (0, b""), None, {}
        super().__init__(tape, bits)

    # ---- places

    def idle(self) -> Text:
        """The bytes of the idle program stand where the text begins that it reads."""
        return [(byte, self.start(self.position)) for byte in IDLE]

    def of_tape(self, place: int, call: Call) -> int:
        return place

    def made(self, values: Iterable[int], call: Call) -> Text:
        return [(value, place_of(call, 0)) for value in values]

    def start(self, first: int) -> int:
        """Where a text begins that is read from this byte on: the first one that is no blank, tab or line end."""
        start = first
        while start < len(self.tape) and self.tape[start] in b" \t\r\n":
            start += 1
        return start if start < len(self.tape) else first

    def do_rs(self, call: Call) -> Text:
        first = self.position
        text = super().do_rs(call)
        # (the idle program's rs is in its ps, and nothing stands after that)
        if len(self.active) == 2 and len(self.frames) == 2 and call.text(0) == b"rs":
            start = self.start(first)
            self.scanned = start, self.tape[start:max(start, first + len(text))]
        return text

    def perform(self, call: Call) -> Done:
        """Performs a call after its doubts are noted; a form is defined where the name stands of the call that first
        made it."""
        self.judge(call)
        value = super().perform(call)
        new = call.argument(1)[0][1] if call.text(1) else None
        self.defined = {name: self.defined.get(name, new if name == call.text(1) else None) for name in self.forms}
        return value

    # ---- doubts

    def meets_unended(self) -> None:
        count, (_, (name, *_), begun) = len(self.frames), self.frames[0]
        self.doubt(("unended", count), name[0][1] if name else begun, unended(count))

    def meets_closing(self, carried: int) -> None:
        self.doubt("closing", carried, b") ends no call")

    def meets_opening(self, carried: int) -> None:
        self.doubt("opening", carried, b"( is never closed")

    def doubt(self, kind: str | tuple[str, int], place: int, words: bytes) -> None:
        """Notes a doubt, once for each kind and place."""
        if (kind, place) not in self.told:
            self.told.add((kind, place))
            self.doubts.append((place, words, self.steps))
            if kind in ("opening", "closing") or kind[0] == "unended":
                self.advise()
            if kind == "no form":
                self.tell_near()

    def tell_near(self) -> None:
        """Notes where the form is defined whose name is nearly that of which there is none."""
        name = plain(self.frames[-1][1][1]) if len(self.frames[-1][1]) > 1 else b""
        near = sorted((not is_same, other) for other in self.forms for is_same in [bare(other) == bare(name)]
                      if is_same or is_slip(bare(other), bare(name)))
        place = self.defined[near[0][1]] if near else None
        if place is not None:
            self.doubts.append((place, b"note: a form of nearly this name is defined here", None))

    def advise(self) -> None:
        """Notes which parenthesis is probably wrong in the text that the idle program read last, once for each
        text."""
        start, text = self.scanned
        given = advice(text) if start != self.advised else None
        self.advised = start
        if given:
            self.doubts.append((start + given[1], b"note: " + given[0], None))

    def judge(self, call: Call) -> None:
        """Notes the doubts of a call that is performed next, in the order of the table."""
        name, form = call.name, self.form(call)
        says, first = shown(call.text(0)), shown(call.text(1))
        if name not in USES and call.text(0) in self.forms:
            self.doubt("form", place_of(call, 0), says + b" is a form: call it by cl")
        elif name not in USES:
            self.doubt("name", place_of(call, 0), b"no primitive is named " + says)
        if name in NEED_FORM and form is None:
            self.doubt("no form", place_of(call, 1), b"no form is named " + first)
        if name in ("fb", "eb") and form is not None and self.block(call) is None:
            self.doubt("no block", place_of(call, 1), first + b" names no block")
        k = unused(call, form)
        if k is not None:
            words = b"argument %d of %s is not used: %s" % (k, says, shown(call.text(k)))
            self.doubt(("unused", k), place_of(call, k), words)
        self.judge_numbers(call, says)
        if name == "ss" and form is not None:
            for gap, text in enumerate(call.texts(2), 1):
                if text and not any(form.stands_at(at, text) for at in range(len(form.items))):
                    words = b"argument %d of %s is nowhere in the form %s" % (gap + 1, says, first)
                    self.doubt(("nowhere", gap + 1), place_of(call, gap + 1), words)

    def judge_numbers(self, call: Call, says: bytes) -> None:
        """Notes what counts as 0, and a result that does not fit."""
        for k in NUMBERS.get(call.name, ()):
            if call.text(k) and not numeral(call.text(k)):
                words = b"argument %d of %s has no number, and counts as 0: %s" % (k, says, shown(call.text(k)))
                self.doubt(("number", k), place_of(call, k), words)
        if call.name in ("ad", "su", "ml", "dv") and self.result(call) is None and len(call.arguments) < 4:
            self.doubt("result", place_of(call, 0), b"the result does not fit, and gives nothing")


def spots(name: str, program: bytes, input_name: str = "", more: bytes = b"", steps: int = 10_000_000,
          bits: int = 128) -> list[bytes]:
    """The lines that trac-lint must print of a program, and of what it reads after it."""
    machine = Doubter(program + more, bits)
    machine.run(steps)
    lines = []
    for place, words, step in machine.doubts:
        file, text = name, program
        if more and place >= len(program):
            file, text, place = input_name, more, place - len(program)
        line = 1 + text.count(b"\n", 0, place)
        column = place - text.rfind(b"\n", 0, place)
        end = b"" if step is None else b" (step %d)" % step
        lines.append(b"%s:%d:%d: %s%s\n" % (file.encode(), line, column, words, end))
    return lines
