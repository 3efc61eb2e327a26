"""Walks through a program at the terminal: `trac walk`, with lines that can be edited, brought back and completed.

The proved program trac-walk does all else. It is begun with --prompt: its prompts become those of the line editor.
"""
from __future__ import annotations

import contextlib
import os
import re
from subprocess import PIPE

from trac_tools import lines
from trac_tools.tool import begin, is_opened, program, ready, tell, write

# A prompt of the program, and what may become one: of a number of 64 bits. (A long line of digits is none.)
PROMPT, MAY_BE = re.compile(rb"([0-9]{1,20})> "), re.compile(rb"[0-9]{0,20}>? ?")
# A line, with its end, if it has one.
LINE = re.compile(rb"[^\n]*\n|[^\n]+")
# What a line of the walk may begin with, and the primitives.
COMMANDS = "s b n N o O u r d D m w y l g i e p f t h q where bt break breaks unbreak restart help quit exit".split()
PRIMITIVES = (
    "ad bc bi br bs bu cc cl cm cn cr cs da dd ds dv eb eq fb gr hl in ln ml pf ps rc rs sb ss su tf tn"
).split()
# What may stand after a command: names of forms, calls, or these words.
AFTER = {"s": ["end"], "b": ["start"], "p": ["all"]}
OF_FORMS, OF_CALLS = ("w", "y", "f"), ("u", "r", "break")
# Where a program names a form that is to be, by a name that can be typed as it is.
NAMED = re.compile(rb'#\(ds,([^\x00-\x20\x7f-\xff,()#"\\]+),', re.I)
# The options that take a word.
VALUED = ("--journal", "--keep", "--decimals", "--memory")
# So much of FILE is looked through for names.
LOOKED = 1 << 20


def file_of(words: list[str]) -> str | None:
    """FILE of a command line; none if that names none."""
    left = iter(words)
    for word in left:
        if word == "--":
            return next(left, None)
        if word in VALUED:
            next(left, None)
        elif not word.startswith("-"):
            return word
    return None


def forms_of(name: str | os.PathLike[str] | None) -> list[str]:
    """The names of the forms that FILE defines. (Only a file is looked at: a pipe gives its bytes once.)"""
    if name is None or not os.path.isfile(name):
        return []
    try:
        with open(name, "rb") as file:
            return sorted({name.decode() for name in NAMED.findall(file.read(LOOKED))})
    except OSError:
        return []


def completed(front: str, forms: list[str]) -> list[str]:
    """The words that may stand after this beginning of a line."""
    words = front.split()
    if not words:
        return COMMANDS
    if words[0] in OF_FORMS and len(words) == 1:
        return forms
    if words[0] in OF_CALLS:
        if len(words) == 1 or words[-1] == "|":
            return PRIMITIVES if words[0] != "u" or len(words) > 1 else [*PRIMITIVES, "set"]
        calls = words[-1].lower() == "cl" and (len(words) == 2 or words[-2] == "|")
        return forms if calls or words == ["u", "set"] else []
    return AFTER.get(words[0], []) if len(words) == 1 else []


def is_own_input(name: str | None) -> bool:
    """Whether FILE is the terminal that the lines come from, such as /dev/stdin."""
    with contextlib.suppress(OSError, ValueError):
        return name is not None and os.path.samestat(os.stat(name), os.fstat(0))
    return False


class Session:
    """The program, by its streams."""

    def __init__(self, words: list[str]) -> None:
        # (a file that the shell has opened is for the program too)
        self.process = begin([program("trac-walk"), *words], stdin=PIPE, stdout=PIPE, close_fds=False)
        self.said = b""

    def prompt(self) -> str | None:
        """Shows what it says up to its next prompt, and returns that; none where it has ended."""
        out = self.process.stdout.fileno()
        while True:
            part = os.read(out, 65536)
            self.said += part
            front, _, last = self.said.rpartition(b"\n")
            is_prompt = PROMPT.fullmatch(last) and not ready([out], [], 0)[0]
            shown = len(self.said) - (len(last) if part and (is_prompt or MAY_BE.fullmatch(last)) else 0)
            write(self.said[:shown])
            self.said = self.said[shown:]
            if not part:
                return None
            if is_prompt:
                self.said = b""
                return last.decode()

    def give(self, line: bytes) -> bool:
        """Gives it a line; whether it is taken."""
        try:
            self.process.stdin.write(line)
            self.process.stdin.flush()
        except BrokenPipeError:
            return False
        return True

    def end(self) -> int:
        """Ends its lines, and shows the rest; returns its status."""
        try:
            self.process.stdin.close()
        except BrokenPipeError:
            pass
        while self.prompt():
            pass
        return self.process.wait()


def main(words: list[str]) -> int:
    """Walks; returns the exit status."""
    file = file_of(words)
    if is_own_input(file) or not is_opened(0, os.O_RDONLY) or not is_opened(1, os.O_WRONLY):
        # (of the pipe that is begun here for its lines, it would wait for the end first; and what it cannot read or
        # write it says itself)
        os.execv(program("trac-walk"), ["trac-walk", *words])
    forms = forms_of(file)
    with lines.History("walk", lambda front: completed(front, forms)):
        session = Session(words)
        prompt = session.prompt()
        if prompt is not None:
            tell("h lists the commands, q ends")
        while prompt is not None and (text := lines.ask(prompt)):
            # (lines that are pasted come at once. If all were given, a reply might come after the next prompt, or wait
            # until they are taken, while they wait until it is read.)
            for line in LINE.findall(text):
                if prompt is not None:
                    prompt = session.prompt() if session.give(line) else None
        return session.end()
