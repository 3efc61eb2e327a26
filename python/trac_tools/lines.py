"""Lines that are typed at the terminal, by the line editor of Python where that is there; what was typed is kept for
the next time, and Tab completes what a tool says. No key runs a command, or lists files."""
from __future__ import annotations

import contextlib
import errno
import os
import sys
from collections.abc import Callable

from trac_tools.tool import Fault, is_opened, tell, write

try:
    import readline
except ImportError:
    # (a name of a module that may be none has no type)
    readline = None  # type: ignore[assignment]

# How many lines are kept.
KEPT = 1000


def folder() -> str:
    """The folder for what is kept: one of the user, who may have none."""
    place = os.environ.get("XDG_STATE_HOME", "")
    if not os.path.isabs(place):
        place = os.path.join(os.path.expanduser("~"), ".local", "state")
    if not os.path.isabs(place):
        raise OSError("there is no home")
    return os.path.join(place, "trac")


class History:
    """Has what is typed meanwhile kept under a name, and what was typed before brought back by the arrow keys. What
    cannot be read or written is passed over. `complete` gives the words that may stand after a beginning of a line."""

    def __init__(self, name: str, complete: Callable[[str], list[str]] = lambda front: []) -> None:
        self.name, self.complete, self.before = name, complete, 0
        self.found: list[str] = []

    def __enter__(self) -> History:
        # (a stream of text that is no file does not have this)
        sys.stdin.reconfigure(errors="surrogateescape")  # type: ignore[attr-defined]
        if readline:
            readline.set_completer(self.completion)
            readline.set_completer_delims(" ")
            readline.parse_and_bind("tab: complete")
            # (in the locale C a byte of a letter would be taken for a command; a history that is full would count no
            # line as typed)
            for setting in ("input-meta on", "output-meta on", "convert-meta off", "history-size -1"):
                readline.parse_and_bind("set " + setting)
            # (in a search by Ctrl-R, GNU Readline 8.2 breaks off by Ctrl-X and a key that means nothing after it)
            readline.parse_and_bind(r'"\C-x": redraw-current-line')
            readline.set_history_length(KEPT)
            with contextlib.suppress(OSError):
                if os.path.isfile(self.place()):
                    readline.read_history_file(self.place())
            self.before = readline.get_current_history_length()
        return self

    def place(self) -> str:
        """The file."""
        return os.path.join(folder(), self.name)

    def completion(self, word: str, number: int) -> str | None:
        """A word that begins so, by its number, as the line editor asks for it."""
        if number == 0:
            front = readline.get_line_buffer()[:readline.get_begidx()]
            self.found = [it for it in self.complete(front) if it.startswith(word)]
        return self.found[number] if number < len(self.found) else None

    def __exit__(self, *_: object) -> None:
        if not readline:
            return
        typed = readline.get_current_history_length() - self.before
        with contextlib.suppress(OSError):
            os.makedirs(folder(), 0o700, exist_ok=True)
            # (answers are for nobody else)
            os.close(os.open(self.place(), os.O_CREAT | os.O_WRONLY | os.O_NONBLOCK, 0o600))
            # (of two sessions at once neither takes away what the other has kept; what is no file keeps nothing)
            if not os.path.isfile(self.place()):
                return
            if hasattr(readline, "append_history_file"):
                readline.append_history_file(max(typed, 0), self.place())
            else:
                readline.write_history_file(self.place())


def ask(prompt: str) -> bytes:
    """A line that is typed after a prompt, with its end; none where the lines have ended. Where standard output is no
    terminal, the prompt is told on standard error."""
    if not os.isatty(1):
        tell(prompt, "")
        # (as the line editor does: else a terminal that does not wait for a line would seem to have ended)
        os.set_blocking(0, True)
        return sys.stdin.buffer.readline()
    if not is_opened(1, os.O_WRONLY):
        # (the line editor would show no prompt, and wait)
        raise Fault("the output cannot be written: {}".format(os.strerror(errno.EBADF)), 7)
    try:
        return input(prompt).encode(sys.stdin.encoding, "surrogateescape") + b"\n"
    except EOFError:
        write("\n")
        return b""
