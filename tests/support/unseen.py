"""Signs that nobody sees, or that turn the direction of others or end a line: no tool shows one to a person as itself.

The list is that of Unicode 15: what is ignored where it cannot be shown (Default_Ignorable_Code_Point) but the signs
that choose the look of the one before them, U+FE00 to U+FE0F; the ends of lines and paragraphs; and the marks of notes
between lines."""
from __future__ import annotations

# The ranges: their first and last signs.
UNSEEN = ((0xad, 0xad), (0x34f, 0x34f), (0x61c, 0x61c), (0x115f, 0x1160), (0x17b4, 0x17b5), (0x180b, 0x180f),
          (0x200b, 0x200f), (0x2028, 0x202e), (0x2060, 0x206f), (0x3164, 0x3164), (0xfeff, 0xfeff), (0xffa0, 0xffa0),
          (0xfff0, 0xfffb), (0x1bca0, 0x1bca3), (0x1d173, 0x1d17a), (0xe0000, 0xe0fff))
# The ends of each, and some within the longest.
WITHIN = 0x200e, 0x2066, 0xe0041, 0xe007f, 0xe0100
SIGNS = sorted(set(map(chr, [*WITHIN, *(code for ends in UNSEEN for code in ends)])))
# Signs beside them, which are seen, or stand where one is seen.
SEEN = list(map(chr, (0xe9, 0xac, 0xae, 0x34e, 0x61b, 0x61e, 0x115e, 0x1161, 0x17b3, 0x17b6, 0x180a, 0x1810, 0x2010,
                      0x2027, 0x2030, 0x2070, 0x3163, 0x3165, 0xfe0f, 0xfefc, 0xff9f, 0xffa1, 0xfffc, 0x1f600)))


def unseen_in(text: str) -> list[str]:
    """Which of them stand in a text."""
    return ["U+{:04X}".format(ord(sign)) for sign in text
            if any(first <= ord(sign) <= last for first, last in UNSEEN)]


def as_bytes(sign: str) -> bytes:
    """A sign as the debugger shows its bytes."""
    return "".join("\\x{:02x}".format(byte) for byte in sign.encode()).encode()
