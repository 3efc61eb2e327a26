"""Where a parenthesis of a text is probably missing, or one too many, by the rule of share/man/trac-lint.1.

It shares nothing with trac."""
from __future__ import annotations

import re

MISSING_OPENING, MISSING_CLOSING = b"a ( may be missing here", b"a ) may be missing here"
SURPLUS_OPENING, SURPLUS_CLOSING = b"this ( may be one too many", b"this ) may be one too many"
CALL, CODE, TEXT = "call", "protected call", "protected text"
# Words and a place.
Advice = tuple[bytes, int]


def kind_of(text: bytes, at: int) -> str:
    """What the ( at this place begins."""
    if text[:at].endswith(b"#"):
        return CALL
    return CODE if re.match(rb"\([ \t\r\n]*#", text[at:]) else TEXT


def is_first(text: bytes, at: int) -> bool:
    """Whether only blanks stand before this place on its line."""
    return not text[text.rfind(b"\n", 0, at) + 1 : at].strip(b" \t\r")


def blanks_before(text: bytes, at: int) -> int:
    return at - (text.rfind(b"\n", 0, at) + 1)


class Reader:
    """The parentheses that are begun at a place of a text, each with its kind and with the indentation of its line."""

    def __init__(self, text: bytes) -> None:
        self.text, self.indent = text, 0
        self.begun: list[tuple[str, int]] = []

    def in_call(self) -> bool:
        return bool(self.begun) and self.begun[-1][0] == CALL

    def in_text(self) -> bool:
        return bool(self.begun) and self.begun[-1][0] == TEXT

    def looks_wrong(self, at: int, ended: str | None) -> bool:
        """Whether what begins at this place seldom stands there, after the end of this kind of parenthesis, if any."""
        byte, first = self.text[at : at + 1], is_first(self.text, at)
        before = self.text[:at].rstrip(b" \t\r\n")[-1:] or b","
        if byte == b"#" and first and self.in_call() and before not in b",(":
            return True
        if ended is None or byte == b"(":
            return False
        if byte == b",":
            return not self.in_call()
        if byte == b")":
            return first and bool(self.begun) and self.begun[-1][1] != blanks_before(self.text, at)
        if byte == b"#":
            return ended == CODE
        return ended != CALL and not self.in_text()

    def pass_by(self, at: int) -> tuple[str | None, bool]:
        """Passes the byte at this place; what it ends, if it is a ), and whether that has its (."""
        byte = self.text[at : at + 1]
        if is_first(self.text, at):
            follows = byte == b")" and self.begun
            self.indent = self.begun[-1][1] if follows else blanks_before(self.text, at)
        if byte == b"(":
            self.begun.append((kind_of(self.text, at), self.indent))
        if byte == b")":
            return (self.begun.pop()[0], True) if self.begun else (None, False)
        return None, True


def advice(text: bytes) -> Advice | None:
    """Words and a place, which is that before which a parenthesis is missing; None where each has its match."""
    reader, end = Reader(text), 0
    ended: str | None = None
    opened: Advice | None = None
    weakly: Advice | None = None
    closed: Advice | None = None
    for at in range(len(text)):
        if text[at : at + 1] in (b" ", b"\t", b"\r", b"\n"):
            continue
        if reader.looks_wrong(at, ended):
            opened = opened or (MISSING_CLOSING, end)
            if ended:
                closed = closed or (SURPLUS_CLOSING, end - 1)
        if text[at : at + 1] == b"(" and text[at - 1 : at] == b"(":
            opened = opened or (SURPLUS_OPENING, at)
        elif text[at : at + 1] == b"(" and at and text[at - 1] not in b"#,) \t\r\n":
            weakly = weakly or (SURPLUS_OPENING, at)
        if text[at : at + 1] == b"#" and text[at + 1 : at + 2] not in (b"#", b"("):
            closed = closed or (MISSING_OPENING, at + 1)
        ended, has_match = reader.pass_by(at)
        end = at + 1
        if not has_match:
            return closed or (SURPLUS_CLOSING, at)
    return (opened or weakly or (MISSING_CLOSING, end)) if reader.begun else None
