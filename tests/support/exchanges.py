"""Exchanges with an editor, over frames of messages."""
from __future__ import annotations

import pathlib

from support.cases import WALK, Case, Place, Ran, near, ran
from support.framed import framed


def messages_in(file: pathlib.Path) -> bytes:
    """The messages of a file, one in each line, in their frames."""
    return b"".join(map(framed, file.read_bytes().splitlines()))


def unframed(text: bytes) -> list[bytes]:
    """The messages in frames."""
    found = []
    while text:
        head, _, text = text.partition(b"\r\n\r\n")
        size = int(head.rpartition(b" ")[2])
        found.append(text[:size])
        text = text[size:]
    return found


def exchange(server: str, given: bytes, piece: int = 65536) -> Ran:
    """What a server does with these bytes, as they come in pieces."""
    return ran([WALK, "--" + server], given, piece)


def is_stored(case: Case, server: str, folder: pathlib.Path, name: str) -> None:
    """Tries a stored exchange of a server, which ends as it was asked to: NAME.in, and what is replied, NAME.out."""
    given, wanted = messages_in(folder / (name + ".in")), folder / (name + ".out")
    for piece in 65536, 7:
        case.ends(name, exchange(server, given, piece), messages_in(wanted), 0, place=Place(near(wanted)))
