"""A plain TRAC T-64 processor, written from the rules of the language alone. It shares nothing with trac, and nothing
of it is proved.

Texts are bytes. A frame is a list: `#` or `##`, the finished arguments, and the argument being gathered. A form is a
pair of its items and the place of its pointer; an item is a byte or a Gap. Frames change where they stand, all other
lists and maps are replaced, so a copy shares them.
"""
from __future__ import annotations

import re
import sys
from collections.abc import Callable, Sequence
from typing import NamedTuple, Union, cast

IDLE = b"#(ps,#(rs))"
MOST_BYTES, MOST_MARKS, MOST_FORMS = 16777216, 1048576, 65536
NAMES = frozenset((
    "ps rs rc cm hl tn tf eq gr ad su ml dv bu bi bc bs br ds dd da ss cl cr cs cc cn in ln pf sb fb eb"
).split())
# these do nothing if there is no form of the name
NEED_FORM = frozenset("ss cl cr cs cc cn in pf fb eb".split())
NUMERAL, OCTAL = re.compile(rb"[+-]?[0-9]+\Z"), re.compile(rb"[0-7]*\Z")


class Gap(NamedTuple):
    """A gap in a form, and how many bytes it stands for."""

    number: int
    width: int


# What a form has, and a form.
Item = Union[int, Gap]
Form = tuple[tuple[Item, ...], int]

if hasattr(sys, "set_int_max_str_digits"):  # (numerals of any length are compared)
    sys.set_int_max_str_digits(0)


class Ended(Exception):
    """The next step is refused: the input has ended, or the program halts."""


class TooLong(Exception):
    """The next step is refused: its state would pass a limit."""


def split_number(text: bytes) -> tuple[bytes, int]:
    """What stands before the numeral at the end of a text, and the number."""
    found = NUMERAL.search(text)
    return (text[:found.start()], int(found.group())) if found else (text, 0)


def octal(text: bytes) -> bytes:
    """The octal string at the end of a text."""
    found = OCTAL.search(text)
    return found.group() if found else b""


def digits_of(value: int, count: int) -> bytes:
    """A number as so many octal digits."""
    return b"%0*o" % (count, value) if count else b""


def has_gap(items: Sequence[Item]) -> bool:
    """Whether there is a gap among the items of a form. (Some have millions.)"""
    return Gap in set(map(type, items))


def bytes_of(items: Sequence[Item]) -> bytes:
    """The bytes among the items of a form."""
    if has_gap(items):
        return bytes(item for item in items if not isinstance(item, Gap))
    return bytes(cast("Sequence[int]", items))


def shown(form: Form) -> bytes:
    """What `pf` prints."""
    items, pointer = form
    pieces = [b"<%d>" % item.number if isinstance(item, Gap) else bytes([item]) for item in items]
    return b"".join(pieces[:pointer] + [b"<^>"] + pieces[pointer:])


def stands_at(items: Sequence[Item], place: int, text: bytes) -> bool:
    """Whether a text that is not null stands there, without a gap in it."""
    return items[place:place + len(text)] == tuple(text)


def cut(items: Sequence[Item], number: int, text: bytes) -> tuple[Item, ...]:
    """The items after the leftmost occurrences of a text became gaps of this number."""
    result: list[Item] = []
    place = 0
    while place < len(items):
        if text and stands_at(items, place, text):
            result.append(Gap(number, len(text)))
            place += len(text)
        else:
            result.append(items[place])
            place += 1
    return tuple(result)


class Processor:
    """A state, the input, which has ended, and the width of numbers."""

    frames: list[list[bytes]]
    forms: dict[bytes, Form]
    blocks: list[list[tuple[bytes, Form]] | None]

    def __init__(self, tape: bytes, bits: int = 128) -> None:
        self.tape, self.least, self.most = tape, -(1 << bits - 1), (1 << bits - 1) - 1
        self.active, self.base, self.frames, self.forms, self.blocks = IDLE, b"", [], {}, []
        self.meta, self.trace, self.position, self.output = b"'", False, 0, b""

    def copy(self) -> Processor:
        """The same state, to go on from by itself."""
        other = object.__new__(Processor)
        other.__dict__.update(self.__dict__, frames=[frame[:] for frame in self.frames])
        return other

    # ---- scanning

    def step(self) -> None:
        """Takes one step. A refused one leaves a state that is to be thrown away."""
        active = self.active
        front = active[:1]
        if front == b"#":
            self.step_at_sharp()
        elif front == b"(":
            self.protect()
        elif front == b")" and self.frames:
            self.active = active[1:]
            self.call()
        elif front == b"," and self.frames:
            self.active = active[1:]
            self.frames[-1].append(b"")
            self.judge_marks()
        elif not front:
            self.base, self.frames, self.active = b"", [], IDLE
        else:
            self.active = active[1:]
            if front not in b"\r\n\t,)":
                self.gather(front)

    def step_at_sharp(self) -> None:
        for kind in (b"#", b"##"):
            if self.active.startswith(kind + b"("):
                self.active = self.active[len(kind) + 1:]
                self.frames.append([kind, b""])
                self.judge_marks()
                return
        self.active = self.active[1:]
        self.gather(b"#")

    def protect(self) -> None:
        """Deletes a `(`, and its match, if there is one; what stands between them, or all the rest, is gathered."""
        depth = 0
        for place, byte in enumerate(self.active):
            depth += (byte == ord("(")) - (byte == ord(")"))
            if depth == 0:
                self.gather(self.active[1:place])
                self.active = self.active[place + 1:]
                return
        self.gather(self.active[1:])
        self.active = b""

    def gather(self, text: bytes) -> None:
        if self.frames:
            self.frames[-1][-1] += text
        else:
            self.base += text

    def call_name(self) -> bytes | None:
        """The name of the function that the next step performs, or None."""
        return self.frames[-1][1] if self.frames and self.active[:1] == b")" else None

    # ---- limits: only these steps can pass one

    def judge_marks(self) -> None:
        if sum(len(frame) - 1 for frame in self.frames) > MOST_MARKS:
            raise TooLong

    def judge_texts(self) -> None:
        texts = len(self.active) + len(self.base) + sum(len(text) for frame in self.frames for text in frame[1:])
        if texts > MOST_BYTES or len(self.output) > MOST_BYTES:
            raise TooLong

    def put(self, name: bytes, items: Sequence[Item], pointer: int = 0) -> None:
        """Puts a form under a name, in place of an earlier one."""
        extent = sum(item.width if isinstance(item, Gap) else 1 for item in items) if has_gap(items) else len(items)
        if extent > MOST_BYTES or len(name) > MOST_BYTES:
            raise TooLong
        self.forms = dict(self.forms)
        self.forms[name] = tuple(items), pointer
        if len(self.forms) > MOST_FORMS:
            raise TooLong

    # ---- performing

    def call(self) -> None:
        """Performs the innermost function, whose `)` is gone."""
        kind, *self.arguments = self.frames.pop()
        name = self.arguments[0].lower().decode("latin-1")
        if self.trace:
            self.output += kind + b"(" + b"*".join(self.arguments) + b")\n"
        value = None
        self.is_forced = False
        if name in NAMES and not (name in NEED_FORM and self.argument(1) not in self.forms):
            value = getattr(self, "do_" + name)()
        if kind == b"#" or self.is_forced:
            self.active = (value or b"") + self.active
        else:
            self.gather(value or b"")
        self.judge_texts()

    def argument(self, number: int) -> bytes:
        return self.arguments[number] if number < len(self.arguments) else b""

    def force(self, number: int) -> bytes:
        """The default argument, which is scanned whatever the function is."""
        self.is_forced = True
        return self.argument(number)

    def fits(self, number: int) -> bool:
        return self.least <= number <= self.most

    # ---- input, output, the trace

    def do_ps(self) -> None:
        self.output += self.argument(1)

    def do_rs(self) -> bytes:
        end = self.tape.find(self.meta, self.position)
        first, self.position = self.position, end + 1
        if end < 0:
            end = self.position = len(self.tape)
            if first == end:
                raise Ended
        return self.tape[first:end]

    def do_rc(self) -> bytes:
        if self.position == len(self.tape):
            raise Ended
        self.position += 1
        return self.tape[self.position - 1:self.position]

    def do_cm(self) -> None:
        self.meta = self.argument(1)[:1] or self.meta

    def do_hl(self) -> None:
        raise Ended

    def do_tn(self) -> None:
        self.trace = True

    def do_tf(self) -> None:
        self.trace = False

    # ---- decisions, numbers, bits

    def do_eq(self) -> bytes:
        return self.argument(3 if self.argument(1) == self.argument(2) else 4)

    def do_gr(self) -> bytes:
        return self.argument(3 if split_number(self.argument(1))[1] > split_number(self.argument(2))[1] else 4)

    def calculated(self, operation: Callable[[int, int], int | None]) -> bytes:
        """The prefix of argument 1, and the result, if numbers and result fit; else argument 3."""
        (prefix, first), (_, second) = split_number(self.argument(1)), split_number(self.argument(2))
        result = operation(first, second) if self.fits(first) and self.fits(second) else None
        if result is None or not self.fits(result):
            return self.force(3)
        return prefix + b"%d" % result

    def do_ad(self) -> bytes:
        return self.calculated(lambda first, second: first + second)

    def do_su(self) -> bytes:
        return self.calculated(lambda first, second: first - second)

    def do_ml(self) -> bytes:
        return self.calculated(lambda first, second: first * second)

    def do_dv(self) -> bytes:
        return self.calculated(lambda first, second: None if second == 0 else
                               abs(first) // abs(second) * (1 if (first < 0) == (second < 0) else -1))

    def do_bu(self) -> bytes:
        first, second = octal(self.argument(1)), octal(self.argument(2))
        return digits_of(int(first or b"0", 8) | int(second or b"0", 8), max(len(first), len(second)))

    def do_bi(self) -> bytes:
        first, second = octal(self.argument(1)), octal(self.argument(2))
        count = min(len(first), len(second))
        return digits_of(int(first or b"0", 8) & int(second or b"0", 8), count)

    def do_bc(self) -> bytes:
        bits = octal(self.argument(1))
        return digits_of(8 ** len(bits) - 1 - int(bits or b"0", 8), len(bits))

    def do_bs(self) -> bytes:
        places, bits = split_number(self.argument(1))[1], octal(self.argument(2))
        if not self.fits(places):
            return b""
        places = max(-3 * len(bits), min(3 * len(bits), places))
        value = int(bits or b"0", 8)
        return digits_of((value << places if places > 0 else value >> -places) % 8 ** len(bits), len(bits))

    def do_br(self) -> bytes:
        places, bits = split_number(self.argument(1))[1], octal(self.argument(2))
        if not bits or not self.fits(places):
            return b""
        value = int(bits, 8) << places % (3 * len(bits))
        return digits_of(value % 8 ** len(bits) + value // 8 ** len(bits), len(bits))

    # ---- forms

    def form(self) -> Form:
        return self.forms[self.argument(1)]

    def do_ds(self) -> None:
        self.put(self.argument(1), self.argument(2))

    def do_dd(self) -> None:
        self.forms = {name: form for name, form in self.forms.items() if name not in self.arguments[1:]}

    def do_da(self) -> None:
        self.forms = {}

    def do_ss(self) -> None:
        items, _ = self.form()
        for number, text in enumerate(self.arguments[2:], 1):
            items = cut(items, number, text)
        self.put(self.argument(1), items)

    def do_cr(self) -> None:
        self.put(self.argument(1), self.form()[0])

    def do_cl(self) -> bytes:
        items, pointer = self.form()
        if not has_gap(items):
            return bytes_of(items[pointer:])
        return b"".join(self.argument(1 + item.number) if isinstance(item, Gap) else bytes([item])
                        for item in items[pointer:])

    def do_ln(self) -> bytes:
        return b"".join(self.argument(1) + name for name in sorted(self.forms))

    def do_pf(self) -> None:
        self.output += shown(self.form())

    def give(self, pointer: int, items: Sequence[Item]) -> bytes:
        """The bytes of these items; the pointer goes to a place."""
        self.put(self.argument(1), self.form()[0], pointer)
        return bytes_of(items)

    def do_cs(self) -> bytes:
        items, pointer = self.form()
        if pointer == len(items):
            return self.force(2)
        gap = next((place for place in range(pointer, len(items)) if isinstance(items[place], Gap)), len(items))
        return self.give(min(gap + 1, len(items)), items[pointer:gap])

    def do_cc(self) -> bytes:
        items, pointer = self.form()
        place = next((place for place in range(pointer, len(items)) if not isinstance(items[place], Gap)), None)
        return self.force(2) if place is None else self.give(place + 1, items[place:place + 1])

    def do_cn(self) -> bytes:
        (items, pointer), count = self.form(), split_number(self.argument(2))[1]
        if count == 0 or not self.fits(count):
            return b""
        side = range(pointer, len(items)) if count > 0 else range(pointer)
        places = [place for place in side if not isinstance(items[place], Gap)]
        places = places[:count] if count > 0 else places[count:]
        if not places:
            return self.force(3)
        return self.give(places[-1] + 1 if count > 0 else places[0], [items[place] for place in places])

    def do_in(self) -> bytes:
        (items, pointer), text = self.form(), self.argument(2)
        if not text:
            return b""
        place = next((place for place in range(pointer, len(items)) if stands_at(items, place, text)), None)
        return self.force(3) if place is None else self.give(place + len(text), items[pointer:place])

    # ---- blocks: each a list of names with their forms, or None if it is erased

    def do_sb(self) -> None:
        block, self.forms = [], dict(self.forms)
        for name in self.arguments[2:]:
            if name in self.forms:
                block.append((name, self.forms.pop(name)))
        self.blocks = self.blocks + [block]
        if len(block) > MOST_FORMS or len(self.blocks) > MOST_FORMS:
            raise TooLong
        self.put(self.argument(1), b"%d" % (len(self.blocks) - 1))

    def block(self) -> int | None:
        """The number of the block that the form names, or None."""
        text = bytes_of(self.form()[0])
        numbers = (number for number, block in enumerate(self.blocks) if block is not None and b"%d" % number == text)
        return next(numbers, None)

    def do_fb(self) -> None:
        number = self.block()
        for name, form in [] if number is None else self.blocks[number] or []:
            self.put(name, *form)

    def do_eb(self) -> None:
        number = self.block()
        if number is not None:
            self.blocks = self.blocks[:number] + [None] + self.blocks[number + 1:]
            self.forms = {name: form for name, form in self.forms.items() if name != self.argument(1)}


def run(tape: bytes, bits: int, budget: int) -> tuple[bytes, int, int]:
    """What a run prints, how many steps it takes, and its exit status."""
    processor, printed, steps = Processor(tape, bits), [], 0
    try:
        while steps < budget:
            processor.output = b""
            processor.step()
            printed.append(processor.output)
            steps += 1
        status = 3
    except Ended:
        status = 0
    except TooLong:
        status = 4
    return b"".join(printed), steps, status
