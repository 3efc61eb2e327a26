"""What a page tells, as texts that remember with what they were last compared in vain: so a check that fails can show
both as a difference."""
from __future__ import annotations

from typing import Any

# What was wanted, and what the page told.
Pair = tuple[str, str]
# The last two that were found to differ, if any.
compared: list[Pair] = []


def last_compared() -> Pair | None:
    """The two texts that were last found to differ, since this was asked before."""
    pair = compared[-1] if compared else None
    compared.clear()
    return pair


def keep(told: object, wanted: object) -> None:
    """Keeps two that were found to differ."""
    compared[:] = [(lined(wanted), lined(told))]


def lined(value: object) -> str:
    """A value as a text: of a list each part in a line."""
    return "\n".join(map(lined, value)) if isinstance(value, (list, tuple)) else str(value)


class Text(str):
    """A text that a page tells."""

    __hash__ = str.__hash__

    def __eq__(self, other: object) -> bool:
        return self.noted(str.__eq__(self, other) is True, other)

    def __ne__(self, other: object) -> bool:
        return not self == other

    def __contains__(self, part: object) -> bool:
        return self.noted(isinstance(part, str) and str.__contains__(self, part), part)

    def startswith(self, *words: Any) -> bool:
        return self.noted(str.startswith(self, *words), words[0])

    def endswith(self, *words: Any) -> bool:
        return self.noted(str.endswith(self, *words), words[0])

    def noted(self, holds: bool, other: object) -> bool:
        """Keeps both, if something does not hold of them."""
        if not holds:
            keep(str(self), other)
        return holds


class List(list[Any]):
    """A list that a page tells."""

    def __eq__(self, other: object) -> bool:
        holds = list.__eq__(self, other) is True
        if not holds:
            keep(self, other)
        return holds

    def __ne__(self, other: object) -> bool:
        return not self == other


def told(value: Any) -> Any:
    """What a page tells, with texts that remember."""
    if isinstance(value, str):
        return Text(value)
    if isinstance(value, list):
        return List(map(told, value))
    return value
