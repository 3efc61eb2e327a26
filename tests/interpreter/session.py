"""What `trac debug` replies, by docs/debugger.md: a session over the plain processor, which keeps each state whole."""
from __future__ import annotations

from collections.abc import Callable, Iterable

from interpreter import processor


def text_of(text: Iterable[int]) -> str:
    """A text as it is shown."""
    return "".join(chr(byte) if 32 <= byte <= 126 and byte not in b"[\\]" else "\\x%02x" % byte for byte in text)


def form_of(form: processor.Form) -> str:
    """A form as it is shown, its marks as they are."""
    items, pointer = form
    pieces = ["<{}>".format(item.number) if isinstance(item, processor.Gap) else text_of([item]) for item in items]
    return "".join(pieces[:pointer] + ["<^>"] + pieces[pointer:])


class Session:
    """The states, the last one being the present; how much output was released, and up to which place of the input."""

    def __init__(self, tape: bytes, bits: int, journal: int) -> None:
        self.states, self.journal = [processor.Processor(tape, bits)], journal
        self.output, self.position = 0, 0

    def step(self) -> str:
        """Takes a step, or tells the refusal."""
        if len(self.states) > self.journal:
            return " JournalFull"
        state = self.states[-1].copy()
        try:
            state.step()
        except processor.Ended:
            return " Ended"
        except processor.TooLong:
            return " TooLong"
        self.states.append(state)
        return ""

    def step_back(self) -> str:
        if len(self.states) == 1:
            return " AtStart"
        self.states.pop()
        return ""

    def walk(self, step: Callable[[], str], most: int, name: bytes | None = None) -> str:
        """So many steps, or up to a state at a call of this name; tells how many, and why no more."""
        for done in range(most):
            why = step()
            if why:
                return str(done) + (why if name is None or done == 0 or why != " AtStart" else " NotMet")
            if name is not None and self.states[-1].call_name() == name:
                return str(done + 1)
        return str(most) + ("" if name is None else " NotMet")

    def commit(self, keep: int) -> str:
        self.states = self.states[-1 - keep:]
        first, released = self.states[0], self.output
        self.output, self.position = len(first.output), first.position
        return "commit [" + text_of(first.output[released:]) + "]"

    def reply(self, line: str) -> list[str]:
        """The lines that a command gets."""
        letter, *words = line.split(" ")
        if letter == "s":
            return ["forward " + self.walk(self.step, int(words[0]))]
        if letter == "b":
            return ["back " + self.walk(self.step_back, int(words[0]))]
        if letter == "u":
            return ["until " + self.walk(self.step, int(words[1]), words[0].encode())]
        if letter == "r":
            return ["return " + self.walk(self.step_back, len(self.states), words[0].encode())]
        return [self.commit(int((words + ["0"])[0]))] if letter == "c" else self.lines()

    def lines(self) -> list[str]:
        """The lines of the present state."""
        state = self.states[-1]
        lines = ["active [{}]".format(text_of(state.active)), "base [{}]".format(text_of(state.base))]
        for kind, *arguments in state.frames:
            shown = "".join("[" + text_of(argument) + "]" for argument in arguments)
            lines.append("call " + kind.decode() + " " + shown)
        lines += ["form [{}] [{}]".format(text_of(name), form_of(form)) for name, form in sorted(state.forms.items())]
        for number, block in enumerate(state.blocks):
            lines.append("block {}".format(number) + (" erased" if block is None else ""))
            lines += ["held [{}] [{}]".format(text_of(name), form_of(form)) for name, form in block or []]
        lines += ["meta [{}]".format(text_of(state.meta)), "trace " + ("on" if state.trace else "off")]
        lines.append("position {}".format(state.position - self.position))
        lines.append("output [{}]".format(text_of(state.output[self.output:])))
        return lines + ["journal {}".format(len(self.states) - 1)]


def replies(tape: bytes, bits: int, journal: int, commands: list[str]) -> bytes:
    """All that a session prints."""
    session = Session(tape, bits, journal)
    return "".join(line + "\n" for command in commands for line in session.reply(command)).encode()
