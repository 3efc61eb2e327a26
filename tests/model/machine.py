"""A TRAC T-64 processor whose bytes carry along where they come from. It is written from the rules of the language
alone, and shares nothing with trac. What is carried is up to a subclass, which is also told what happens: `ways` and
`doubts` are such.

A byte is a pair of its value and what it carries. So is a gap in a form: its value is GAP and its number together."""
from __future__ import annotations

import re
from collections.abc import Iterable
from typing import Any

IDLE = b"#(ps,#(rs))"
GAP = 1000
DELETED = b"\r\n\t"
NAMES = frozenset((
    "ps rs rc cm hl tn tf eq gr ad su ml dv bu bi bc bs br ds dd da ss cl cr cs cc cn in ln pf sb fb eb"
).split())
# These do nothing if there is no form of the name.
NEED_FORM = frozenset("ss cl cr cs cc cn in pf fb eb".split())
# A byte or a gap with what it carries; a text; what a call does: its value, and whether that is scanned in any case.
Byte = tuple[int, Any]
Text = list[Byte]
Done = tuple[Text, bool]


class Waits(Exception):
    """The next step is refused: the input has ended, or the program halts."""


def plain(text: Iterable[Byte]) -> bytes:
    """The bytes of a text, or of the items of a form."""
    return bytes(value for value, _ in text if value < GAP)


def numeral(text: bytes) -> bytes:
    """The longest tail of a text that is a sign, which may be missing, and digits; null where there is none."""
    found = re.search(rb"([+-]?[0-9]+)?\Z", text)
    return found.group() if found else b""


def number(text: bytes) -> int:
    """The number at the end of a text."""
    return int(numeral(text) or b"0")


def octal(text: bytes) -> bytes:
    """The octal digits at the end of a text."""
    found = re.search(rb"[0-7]*\Z", text)
    return found.group() if found else b""


def octal_value(digits: bytes) -> int:
    """The number that octal digits stand for."""
    return int(digits or b"0", 8)


class Form:
    """The items of a form, and the place of its pointer."""

    def __init__(self, items: Iterable[Byte], pointer: int = 0) -> None:
        self.items, self.pointer = list(items), pointer

    def ahead(self) -> list[int]:
        """The places of the bytes after the pointer."""
        return [place for place in range(self.pointer, len(self.items)) if self.items[place][0] < GAP]

    def before(self) -> list[int]:
        """The places of those before it."""
        return [place for place in range(self.pointer) if self.items[place][0] < GAP]

    def stands_at(self, place: int, text: bytes) -> bool:
        """Whether a text stands there, without a gap in it."""
        return [value for value, _ in self.items[place:place + len(text)]] == list(text)

    def give(self, places: Iterable[int], pointer: int) -> Text:
        """The bytes at these places; the pointer goes to a place."""
        self.pointer = pointer
        return [self.items[place] for place in places]


class Call:
    """A call that is performed next: `#` or `##`, its arguments, the name being number 0, and what the first byte
    carried by which it was begun."""

    def __init__(self, kind: bytes, arguments: list[Text], begun: Any) -> None:
        self.kind, self.arguments, self.begun = kind, arguments, begun
        self.name = self.text(0).decode("latin-1").lower()

    def argument(self, place: int) -> Text:
        """An argument, null where it is missing."""
        return self.arguments[place] if place < len(self.arguments) else []

    def text(self, place: int) -> bytes:
        """Its bytes."""
        return plain(self.argument(place))

    def texts(self, first: int) -> list[bytes]:
        """The bytes of the arguments from one on."""
        return [plain(argument) for argument in self.arguments[first:]]


class Machine:
    """A state, the input, and the width of numbers. If the input may go on, a text that has no end yet is waited
    for."""

    base: Text
    frames: list[tuple[bytes, list[Text], Any]]
    forms: dict[bytes, Form]
    blocks: list[dict[bytes, Form] | None]
    output: Text

    def __init__(self, tape: bytes, bits: int = 128, may_go_on: bool = False) -> None:
        self.tape, self.may_go_on = tape, may_go_on
        self.least, self.most = -(1 << bits - 1), (1 << bits - 1) - 1
        self.position, self.meta, self.trace, self.steps = 0, b"'", False, 0
        self.base, self.frames, self.forms, self.blocks, self.output = [], [], {}, [], []
        # (the active text is kept in reverse: it is taken from its front)
        self.active = self.idle()[::-1]

    # ---- what a subclass says: what bytes carry

    def idle(self) -> Text:
        """The idle program, which is loaded now."""
        return [(byte, None) for byte in IDLE]

    def of_tape(self, place: int, call: Call) -> Any:
        """What the byte at a place of the input carries that a call reads."""

    def made(self, values: Iterable[int], call: Call) -> Text:
        """Bytes or gaps that a call makes."""
        return [(value, None) for value in values]

    def moved(self, text: Iterable[Byte], call: Call, what: str) -> Text:
        """Bytes that a call passes on: it `gives`, `sets` or `prints` them."""
        return list(text)

    def compared(self, call: Call) -> str:
        """What a call does that gives the argument which its comparison chooses."""
        return "gives it"

    def defaulted(self, call: Call) -> str:
        """What a call does that gives its default argument."""
        return "gives its default"

    # ---- and what it is told

    def meets_unended(self) -> None:
        """The idle program is loaded while calls are begun."""

    def meets_closing(self, carried: Any) -> None:
        """A `)` ends no call."""

    def meets_opening(self, carried: Any) -> None:
        """A `(` has no match."""

    # ---- scanning

    def run(self, most: int) -> bool:
        """Goes on by so many steps at most; whether the next one is refused."""
        try:
            while self.steps < most:
                self.step()
                self.steps += 1
            return False
        except Waits:
            return True

    def is_front(self, text: bytes) -> bool:
        """Whether the active text begins so."""
        return plain(self.active[:-len(text) - 1:-1]) == text

    def step(self) -> None:
        """Takes a step; one that is refused changes nothing."""
        if not self.active:
            if self.frames:
                self.meets_unended()
            self.active, self.base, self.frames = self.idle()[::-1], [], []
        elif self.is_front(b"("):
            self.protect()
        elif self.is_front(b"##("):
            self.begin(b"##")
        elif self.is_front(b"#("):
            self.begin(b"#")
        elif self.is_front(b")") and self.frames:
            self.call()
        else:
            self.scan(*self.active.pop())

    def scan(self, value: int, carried: Any) -> None:
        """Scans a byte that begins nothing."""
        if value == ord(",") and self.frames:
            self.frames[-1][1].append([])
        elif value == ord(")"):
            self.meets_closing(carried)
        elif value not in DELETED + b",":
            self.gather([(value, carried)])

    def gather(self, text: Iterable[Byte]) -> None:
        """Puts a text at the end of the current one."""
        (self.frames[-1][1][-1] if self.frames else self.base).extend(text)

    def begin(self, kind: bytes) -> None:
        """Begins a function."""
        carried = self.active[-1][1]
        del self.active[-len(kind) - 1:]
        self.frames.append((kind, [[]], carried))

    def protect(self) -> None:
        """Deletes a `(`, and its match, if there is one; what stands between them, or all the rest, is gathered."""
        depth, end = 1, len(self.active) - 1
        while depth and end:
            end -= 1
            depth += {ord("("): 1, ord(")"): -1}.get(self.active[end][0], 0)
        if depth:
            self.meets_opening(self.active[-1][1])
            self.gather(self.active[-2::-1])
            self.active = []
        else:
            self.gather(self.active[-2:end:-1])
            del self.active[end:]

    def call(self) -> None:
        """Performs the innermost begun call."""
        call, is_traced, printed = Call(*self.frames[-1]), self.trace, len(self.output)
        value, is_forced = self.perform(call)
        if is_traced:
            line = call.kind + b"(" + b"*".join(call.texts(0)) + b")\n"
            self.output[printed:printed] = self.made(line, call)
        self.frames.pop()
        self.active.pop()
        if call.kind == b"#" or is_forced:
            self.active.extend(value[::-1])
        else:
            self.gather(value)

    def perform(self, call: Call) -> Done:
        """Does what a call does, and returns its value, and whether that is scanned whatever the kind of the call."""
        if call.name not in NAMES or call.name in NEED_FORM and self.form(call) is None:
            return [], False
        value: Text | Done | None = getattr(self, "do_" + call.name)(call)
        return value if isinstance(value, tuple) else (value or [], False)

    def form(self, call: Call) -> Form | None:
        """The form that a call names."""
        return self.forms.get(call.text(1))

    def known(self, call: Call) -> Form:
        """The same, where there is one."""
        return self.forms[call.text(1)]

    def given(self, call: Call, place: int, what: str = "gives it") -> Text:
        """An argument, as the value."""
        return self.moved(call.argument(place), call, what)

    def default(self, call: Call, place: int) -> Done:
        """An argument that is scanned whatever the kind of the call."""
        return self.given(call, place, self.defaulted(call)), True

    def fits(self, value: int) -> bool:
        """Whether a number fits."""
        return self.least <= value <= self.most

    # ---- input and output

    def do_ps(self, call: Call) -> None:
        self.output += self.moved(call.argument(1), call, "prints it")

    def do_rs(self, call: Call) -> Text:
        end = self.tape.find(self.meta, self.position)
        if end < 0:
            end = len(self.tape)
            if self.may_go_on or end == self.position:
                raise Waits
        text = [(self.tape[place], self.of_tape(place, call)) for place in range(self.position, end)]
        self.position = min(end + 1, len(self.tape))
        return text

    def do_rc(self, call: Call) -> Text:
        if self.position == len(self.tape):
            raise Waits
        self.position += 1
        return [(self.tape[self.position - 1], self.of_tape(self.position - 1, call))]

    def do_hl(self, call: Call) -> None:
        raise Waits

    def do_cm(self, call: Call) -> None:
        self.meta = call.text(1)[:1] or self.meta

    def do_tn(self, call: Call) -> None:
        self.trace = True

    def do_tf(self, call: Call) -> None:
        self.trace = False

    # ---- decisions, numbers and bits

    def do_eq(self, call: Call) -> Text:
        return self.given(call, 3 if call.text(1) == call.text(2) else 4, self.compared(call))

    def do_gr(self, call: Call) -> Text:
        return self.given(call, 3 if number(call.text(1)) > number(call.text(2)) else 4, self.compared(call))

    def result(self, call: Call) -> int | None:
        """The result of an operation on decimals; None where it does not fit, or an operand does not."""
        one, other = number(call.text(1)), number(call.text(2))
        if not (self.fits(one) and self.fits(other)) or call.name == "dv" and other == 0:
            return None
        if call.name == "dv":
            result = abs(one) // abs(other) * (1 if (one < 0) == (other < 0) else -1)
        else:
            result = {"ad": one + other, "su": one - other, "ml": one * other}[call.name]
        return result if self.fits(result) else None

    def do_ad(self, call: Call) -> Text | Done:
        result = self.result(call)
        if result is None:
            return self.default(call, 3)
        prefix = call.argument(1)[:len(call.text(1)) - len(numeral(call.text(1)))]
        return self.moved(prefix, call, "gives it") + self.made(b"%d" % result, call)

    do_su = do_ml = do_dv = do_ad

    def bits(self, call: Call, count: int, value: int) -> Text:
        """A number as so many octal digits."""
        return self.made(b"%0*o" % (count, value), call) if count else []

    def do_bu(self, call: Call) -> Text:
        one, other = octal(call.text(1)), octal(call.text(2))
        return self.bits(call, max(len(one), len(other)), octal_value(one) | octal_value(other))

    def do_bi(self, call: Call) -> Text:
        one, other = octal(call.text(1)), octal(call.text(2))
        # (of the longer one only the end counts)
        return self.bits(call, min(len(one), len(other)), octal_value(one) & octal_value(other))

    def do_bc(self, call: Call) -> Text:
        digits = octal(call.text(1))
        return self.bits(call, len(digits), 8 ** len(digits) - 1 - octal_value(digits))

    def do_bs(self, call: Call) -> Text:
        by, digits = number(call.text(1)), octal(call.text(2))
        if not self.fits(by):
            return []
        by, value = max(-3 * len(digits), min(3 * len(digits), by)), octal_value(digits)
        return self.bits(call, len(digits), (value << by if by >= 0 else value >> -by) % 8 ** len(digits))

    def do_br(self, call: Call) -> Text:
        by, digits = number(call.text(1)), octal(call.text(2))
        if not digits or not self.fits(by):
            return []
        value = octal_value(digits) << by % (3 * len(digits))
        return self.bits(call, len(digits), value % 8 ** len(digits) | value // 8 ** len(digits))

    # ---- forms

    def do_ds(self, call: Call) -> None:
        self.forms[call.text(1)] = Form(self.moved(call.argument(2), call, "sets it"))

    def do_dd(self, call: Call) -> None:
        for name in call.texts(1):
            self.forms.pop(name, None)

    def do_da(self, call: Call) -> None:
        self.forms.clear()

    def do_ln(self, call: Call) -> Text:
        return [byte for name in sorted(self.forms) for byte in self.given(call, 1) + self.made(name, call)]

    def cut(self, form: Form, gap: int, text: bytes, call: Call) -> Text:
        """The items of a form after the leftmost occurrences of a text became gaps of this number."""
        items, at = [], 0
        while at < len(form.items):
            if text and form.stands_at(at, text):
                items += self.made([GAP + gap], call)
                at += len(text)
            else:
                items.append(form.items[at])
                at += 1
        return items

    def do_ss(self, call: Call) -> None:
        form = self.known(call)
        for gap, text in enumerate(call.texts(2), 1):
            form.items = self.cut(form, gap, text, call)
        form.pointer = 0

    def do_cl(self, call: Call) -> Text:
        form, value = self.known(call), []
        for item in form.items[form.pointer:]:
            gap = item[0] - GAP
            value += (self.given(call, 1 + gap, "fills gap {}".format(gap)) if gap > 0
                      else self.moved([item], call, "gives it"))
        return value

    def do_cr(self, call: Call) -> None:
        self.known(call).pointer = 0

    def do_pf(self, call: Call) -> None:
        form = self.known(call)
        pieces = [self.made(b"<%d>" % (item[0] - GAP), call) if item[0] >= GAP
                  else self.moved([item], call, "prints it") for item in form.items]
        pieces.insert(form.pointer, self.made(b"<^>", call))
        self.output += [byte for piece in pieces for byte in piece]

    # ---- reading at the pointer

    def do_cs(self, call: Call) -> Text | Done:
        form = self.known(call)
        if form.pointer == len(form.items):
            return self.default(call, 2)
        gaps = (place for place in range(form.pointer, len(form.items)) if form.items[place][0] >= GAP)
        end = next(gaps, len(form.items))
        return self.moved(form.give(range(form.pointer, end), min(end + 1, len(form.items))), call, "gives it")

    def do_cc(self, call: Call) -> Text | Done:
        form = self.known(call)
        places = form.ahead()[:1]
        return self.moved(form.give(places, places[0] + 1), call, "gives it") if places else self.default(call, 2)

    def do_cn(self, call: Call) -> Text | Done:
        form, count = self.known(call), number(call.text(2))
        if count == 0 or not self.fits(count):
            return []
        places = form.ahead()[:count] if count > 0 else form.before()[count:]
        if not places:
            return self.default(call, 3)
        return self.moved(form.give(places, places[-1] + 1 if count > 0 else places[0]), call, "gives it")

    def do_in(self, call: Call) -> Text | Done:
        form, text = self.known(call), call.text(2)
        if not text:
            return []
        for at in range(form.pointer, len(form.items) - len(text) + 1):
            if form.stands_at(at, text):
                before = [place for place in form.ahead() if place < at]
                return self.moved(form.give(before, at + len(text)), call, "gives it")
        return self.default(call, 3)

    # ---- blocks: each its forms by their names, or None if it is erased

    def put(self, forms: dict[bytes, Form], call: Call) -> dict[bytes, Form]:
        """These forms, as a call puts them elsewhere."""
        return {name: Form(self.moved(form.items, call, "sets it"), form.pointer) for name, form in forms.items()}

    def do_sb(self, call: Call) -> None:
        held = {name: self.forms.pop(name) for name in dict.fromkeys(call.texts(2)) if name in self.forms}
        self.blocks.append(self.put(held, call))
        self.forms[call.text(1)] = Form(self.made(b"%d" % (len(self.blocks) - 1), call))

    def block(self, call: Call) -> int | None:
        """The number of the block that a form names, by its bytes without its gaps; None if it names none."""
        form = self.form(call)
        numbers = (place for place, block in enumerate(self.blocks)
                   if block is not None and form is not None and plain(form.items) == b"%d" % place)
        return next(numbers, None)

    def do_fb(self, call: Call) -> None:
        place = self.block(call)
        held = None if place is None else self.blocks[place]
        if held is not None:
            self.forms.update(self.put(held, call))

    def do_eb(self, call: Call) -> None:
        place = self.block(call)
        if place is not None:
            self.blocks[place] = None
            del self.forms[call.text(1)]
