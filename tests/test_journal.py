"""When `trac run` writes: a full journal writes what is pending, as `--journal` says, and so does the end.

The contract of a run leaves open at which of its steps it writes. Each write is seen by a pipe that keeps them apart
(`O_DIRECT`)."""
import os
import select
import subprocess
import tempfile

from support.cases import TRAC, Case, patience

TEXT = b"#(ps,a)#(ps,b)'"


def writes(words: list[str]) -> bytes:
    """What a run of the text writes: each write is a line here."""
    ours, theirs = os.pipe2(os.O_DIRECT)
    with tempfile.TemporaryFile() as given:
        given.write(TEXT)
        given.seek(0)
        run = subprocess.Popen([TRAC, "run", *words], stdin=given, stdout=theirs)
    os.close(theirs)
    found = b""
    while select.select([ours], [], [], patience())[0] and (part := os.read(ours, 65536)):
        found += part + b"\n"
    os.close(ours)
    run.kill()
    run.wait()
    return found


class Journal(Case):
    """The journal of a run."""

    suite = "journal"

    def test_full(self) -> None:
        """With one step in it, each text that is printed is written by itself."""
        self.same("one step", writes(["--journal", "1"]), b"a\nb\n")

    def test_not_full(self) -> None:
        """While there is room, what is printed is written together."""
        self.same("many steps", writes([]), b"ab\n")
