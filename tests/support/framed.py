"""An exchange of messages in frames, as editors hold it with a language server."""
from __future__ import annotations

import json
import os
import selectors
import subprocess
from collections.abc import Sequence
from typing import Any

from support.cases import Process, Silent, Word, command_of, patience

# A message.
Message = dict[str, Any]


def framed(message: bytes) -> bytes:
    """A message in its frame."""
    return b"Content-Length: %d\r\n\r\n%s" % (len(message), message)


class Exchange:
    """A server that is given messages, and what it sends."""

    def __init__(self, words: Sequence[Word]) -> None:
        self.command = command_of(words)
        self.process = Process([os.fspath(word) for word in words], stdin=subprocess.PIPE, stdout=subprocess.PIPE,
                               stderr=subprocess.DEVNULL)
        self.held = b""

    def give(self, given: bytes) -> None:
        """Gives it bytes."""
        try:
            self.process.stdin.write(given)
            self.process.stdin.flush()
        except BrokenPipeError:
            pass

    def tell(self, method: str, params: Any = None, number: int | None = None) -> None:
        """Gives it a message: a request, if it has a number."""
        message: Message = {"jsonrpc": "2.0", "method": method, "params": params}
        self.give(framed(json.dumps(message if number is None else {**message, "id": number}).encode()))

    def more(self) -> bool:
        """Waits for bytes; whether some came."""
        with selectors.DefaultSelector() as ready:
            ready.register(self.process.stdout, selectors.EVENT_READ)
            if not ready.select(patience()):
                self.process.kill()
                raise Silent(self.command + ": it was silent, and was ended")
        part = os.read(self.process.stdout.fileno(), 1 << 16)
        self.held += part
        return bool(part)

    def message(self) -> bytes:
        """The next message; an empty one if none comes."""
        while b"\r\n\r\n" not in self.held:
            if not self.more():
                return b""
        header, rest = self.held.split(b"\r\n\r\n", 1)
        size = int(header.removeprefix(b"Content-Length: "))
        while len(rest) < size:
            if not self.more():
                return b""
            rest = self.held.split(b"\r\n\r\n", 1)[1]
        self.held = rest[size:]
        return rest[:size]

    def reply(self, number: int) -> Message:
        """The reply to the request of this number; what comes before it is passed over."""
        while text := self.message():
            message: Message = json.loads(text)
            if message.get("id") == number:
                return message
        return {}

    def asked(self, method: str, params: Any, number: int) -> Any:
        """What a request gives."""
        self.tell(method, params, number)
        return self.reply(number).get("result")

    def end(self) -> int:
        """Goes away; the status."""
        self.process.stdin.close()
        while self.more():
            pass
        self.process.stdout.close()
        return self.process.wait(patience())
