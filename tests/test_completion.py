"""What Tab completes in bash, zsh and fish, by share/completions: a table for all of them, and the options that each
command itself says. A shell that is not installed is skipped."""
from __future__ import annotations

import os
import pty
import re
import select
import shutil
import subprocess
import time
from collections.abc import Iterator

from support.cases import TOP, Case, each, patience, ran, scratch, tests

TRAC, SCRIPTS = TOP / "trac", TOP / "share" / "completions"
COMMANDS = ("run", "play", "walk", "debug", "lint", "page")
FILES = "first.trac folder"
# A line, and what may stand in place of its last word.
ROWS = [
    ("trac ru", "run"), ("trac p", "page play"), ("trac help w", "walk"), ("trac he", "help"), ("trac run f", ""),
    ("trac run --b", "--budget"), ("trac debug --b", ""), ("trac run --budget ", ""), ("trac debug --decimals 6", "64"),
    ("trac run --decimals ", "128 64"), ("trac run --budget 5 --j", "--journal"), ("trac debug f", FILES),
    ("trac l", "lint lsp"), ("trac help ls", "lsp"),
] + [row for at in ("trac ", "trac-") for row in (
    (at + "course h", "hint"), (at + "course hint 3.1", "3.1"), (at + "course 7.", "7.1 7.2 7.3"),
    (at + "course solution 10.", "10.1 10.2 10.3"), (at + "course check 3.1 f", FILES), (at + "play --budget 9 f",
                                                                                         FILES),
    (at + "walk --memory ", ""), (at + "lint --input f", FILES), (at + "page --step ", ""),
    (at + "lsp --", "--help --stdio --version"), (at + "lsp f", ""), (at + "dap --", "--help"), (at + "dap f", ""),
    *((at + command + rest, wanted) for command in ("walk", "lint", "play", "page")
      for rest, wanted in ((" --ver", "--version"), (" f", FILES))),
)]
BASH = 'source "$1"; COMP_WORDS=("${@:2}"); COMP_CWORD=$(($# - 2)); _trac 2>/dev/null; printf "%s\\n" "${COMPREPLY[@]}"'
FISH = 'source $argv[1]; complete -C $argv[2]'


class Zsh:
    """A zsh at a pseudo-terminal."""

    def __init__(self, room: str, folder: str) -> None:
        self.room, (self.terminal, inner) = room, pty.openpty()
        environment = {"PATH": os.environ["PATH"], "TERM": "dumb", "HOME": room}
        self.process = subprocess.Popen(["zsh", "-f", "-i"], stdin=inner, stdout=inner, stderr=inner, cwd=folder,
                                        start_new_session=True, env=environment)
        os.close(inner)
        self.type("source {} {} {}\n".format(TOP / "tests" / "support" / "completing.zsh", SCRIPTS, room), "ready> ")

    def type(self, text: str, until: str) -> None:
        """Types something, and reads what comes, up to this, which that has not."""
        os.write(self.terminal, text.encode())
        seen = ""
        while until not in seen and select.select([self.terminal], [], [], patience())[0]:
            seen += os.read(self.terminal, 65536).decode("utf-8", "replace")

    def told(self, line: str) -> list[str]:
        """What may stand at the end of a line."""
        file, end = os.path.join(self.room, "told"), time.monotonic() + patience()
        os.write(self.terminal, line.encode() + b"\7")
        while not os.path.exists(file) and time.monotonic() < end:
            if select.select([self.terminal], [], [], 0.05)[0]:
                os.read(self.terminal, 65536)
        with open(file, encoding="utf-8") as words:
            found = words.read().split()
        os.remove(file)
        return found

    def end(self) -> None:
        """Ends it."""
        self.process.kill()
        self.process.wait()
        os.close(self.terminal)


def options(text: str) -> list[str]:
    """The long options that a text names."""
    return sorted(set(re.findall(r"(?<![a-z-])--[a-z]+", text)))


@tests
class Completion(Case):
    """Completion in a shell."""

    seconds = 10

    @each(("bash", "zsh", "fish"))
    def test(self, shell: str) -> None:
        if not shutil.which(shell):
            self.skipTest("there is no " + shell)
        room = scratch(self)
        folder = room / "work"
        (folder / "folder").mkdir(parents=True)
        (folder / "first.trac").touch()
        for line, wanted in [*ROWS, *self.rows_of_options()]:
            told = self.completed(shell, line, os.fspath(room), os.fspath(folder))
            self.same("{}: {!r}".format(shell, line), "\n".join(told), "\n".join(wanted.split()))

    def rows_of_options(self) -> Iterator[tuple[str, str]]:
        """Of each command, all of its options."""
        for command in COMMANDS:
            words = " ".join(options(ran([TRAC, command, "--help"]).output.decode()))
            yield "trac {} --".format(command), words
            if command not in ("run", "debug"):
                yield "trac-{} --".format(command), words

    def completed(self, shell: str, line: str, room: str, folder: str) -> list[str]:
        """What a shell may put in place of the last word of a line."""
        if shell == "zsh":
            if not hasattr(self, "zsh"):
                self.zsh = Zsh(room, folder)
                self.addCleanup(self.zsh.end)
            return sorted(self.zsh.told(line))
        if shell == "bash":
            run = ran(["bash", "-c", BASH, "-", SCRIPTS / "trac.bash", *line.split(" ")], folder=folder)
        else:
            run = ran(["fish", "--no-config", "-c", FISH, SCRIPTS / "trac.fish", line], folder=folder,
                      env={**os.environ, "HOME": room})
        self.same("{}: {!r}: standard error".format(shell, line), run.error, b"")
        found = [word.split("\t")[0].rstrip("/") for word in run.output.decode().splitlines() if word]
        return sorted(set(found))
