"""What is seen of a command at a pseudo-terminal, where it is typed to."""
from __future__ import annotations

import contextlib
import os
import pty
import re
import select
import signal
from collections.abc import Iterable, Sequence

from support.cases import Word, patience

# What the line editor tells of pasted text, which nobody sees.
PASTING = re.compile(rb"\x1b\[\?2004[hl]\r?")
PROMPT = re.compile(rb"(> |\.\. )$")


def at_terminal(words: Sequence[Word], typed: Iterable[str | bytes], **environment: str) -> tuple[str, int]:
    """What is seen where each of these is typed at a prompt, and the status; that of a signal where nothing comes."""
    pid, terminal = pty.fork()
    if pid == 0:
        os.environ.update(TERM="dumb", COLUMNS="80", **environment)
        os.execv(words[0], tuple(words))
    seen, typed = bytearray(), list(typed)
    # (of what was seen since something was typed, the last bytes: there may be very much of it)
    last = b""
    while True:
        if typed and PROMPT.search(last):
            text = typed.pop(0)
            os.write(terminal, text if isinstance(text, bytes) else text.encode())
            last = b""
        if not select.select([terminal], [], [], patience())[0]:
            os.kill(pid, signal.SIGKILL)
            break
        try:
            data = os.read(terminal, 65536)
        except OSError:
            data = b""
        if not data:
            break
        data = PASTING.sub(b"", data)
        seen += data
        last = (last + data)[-4:]
    return seen.decode("utf-8", "replace").replace("\r\n", "\n"), ending_of(pid, terminal)


def ending_of(pid: int, terminal: int) -> int:
    """How a process at a pseudo-terminal ends, where what is still seen of it does not matter; that of a signal where
    nothing comes, and it does not end."""
    with contextlib.suppress(OSError):
        while select.select([terminal], [], [], patience())[0] and os.read(terminal, 65536):
            pass
        os.kill(pid, signal.SIGKILL)
    os.close(terminal)
    return os.waitstatus_to_exitcode(os.waitpid(pid, 0)[1])
