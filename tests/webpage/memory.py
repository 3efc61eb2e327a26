"""What a tab takes of memory for large programs: at most 1 GiB, at any moment; for files that are too long, nothing.
And what is said of them."""
from __future__ import annotations

import contextlib
import os
import tempfile
from collections.abc import Iterator

from webpage.pages import Deeds, check
from webpage.rows import CHROMIUM, rows

MOST = 1 << 30
MIB = 1 << 20
# The most that a program may have.
MOST_BYTES = 33_554_432


def children(pid: int) -> list[int]:
    """The processes that a process has begun, and those that these have."""
    begun: dict[int, list[int]] = {}
    for name in filter(str.isdigit, os.listdir("/proc")):
        try:
            with open("/proc/{}/stat".format(name)) as stat:
                begun.setdefault(int(stat.read().rsplit(")", 1)[1].split()[1]), []).append(int(name))
        except OSError:
            continue
    found, left = [], [pid]
    while left:
        more = begun.get(left.pop(), [])
        found += more
        left += more
    return found


class Tab:
    """The process of a page."""

    def __init__(self, page: Deeds) -> None:
        self.pids = [pid for pid in children(page.process.pid) if b"--type=renderer" in self.read(pid, "cmdline")]

    @staticmethod
    def read(pid: int, name: str) -> bytes:
        """What the system says of a process."""
        try:
            with open("/proc/{}/{}".format(pid, name), "rb") as file:
                return file.read()
        except OSError:
            return b""

    def forget(self) -> None:
        """Counts anew from here on."""
        for pid in self.pids:
            try:
                with open("/proc/{}/clear_refs".format(pid), "w") as file:
                    file.write("5")
            except OSError:
                pass

    def peak(self) -> int:
        """The most that it took since then, in bytes."""
        lines = [line for pid in self.pids for line in self.read(pid, "status").splitlines()
                 if line.startswith(b"VmHWM:")]
        return max(int(line.split()[1]) * 1024 for line in lines)


def settle(page: Deeds) -> None:
    """Waits until all is told of a run that is told of it."""
    page.until("document.getElementById('stop').hidden "
               "&& !/are listed/.test(document.getElementById('tree-count').textContent)", "the calls are listed")
    page.rest(1500)
    page.until("document.getElementById('stop').hidden", "nothing is waited for")


def choose(page: Deeds, room: str, name: str, data: bytes) -> None:
    """Opens a file with these bytes."""
    path = os.path.join(room, name)
    with open(path, "wb") as out:
        out.write(data)
    page.script("document.getElementById('program-name').textContent = ''")
    page.choose_file("#file", path)
    page.until("document.getElementById('program-name').textContent !== ''", "a file is opened")
    os.remove(path)


def walk(page: Deeds) -> None:
    """Goes back from the end, to the start, and some steps on."""
    end = int(page.script("document.getElementById('slider').max"))
    for step in (end - 1, max(end - 12, 0), 0, 8, 12):
        if step <= end:
            page.go(step)
    settle(page)


# Of 16 MiB with line ends, which take four signs each where a state is told: 8 steps up to the reading, 6 for `#(`,
# `ps`, `,`, all that is protected and `)`, one for the idle program's `)`, one that loads it anew, and its 7 before it
# reads again.
LINES = b"#(ps,(" + b"abcdefg \n" * 1_864_000 + b"))'"
# Of 31 MB: the first of these texts takes 20 steps, each other one 21, and after 15 of these it has printed.
SHORT = b"#(ps,a)#(pr)'\n" * 2_214_000
DIGITS = b"#(ps,#(gr,(" + b"1" * 5_000_000 + b"),(" + b"2" * 5_000_000 + b"),yes,no))'"
# Programs, what is said of each at its end, and of its output.
PROGRAMS = (
    ("lines.trac", LINES, "Done after 23 steps: all of the program is run", "of 16,776,000"),
    ("digits.trac", DIGITS, "Done after 39 steps: all of the program is run", "click a character"),
    ("short.trac", SHORT, "After 2,000,000 steps: it was stopped there, and could go on", "of 95,238"),
    ("plain.trac", b"a" * 16_700_000 + b"'", "After 2,000,000 steps: it was stopped there, and could go on",
     "nothing printed yet"),
)
# A form of 2 MiB that is printed 33 times; one of 4 MiB under more and more names; and a text that is longer than any
# may be.
DOUBLED = "#(ds,A,0123456789abcdef)'#(ds,D,(#(ds,A,##(cl,A)##(cl,A))))'{}'"
REFUSED = (
    ("printing.trac", DOUBLED.format("#(cl,D)" * 17) + "#(ps,##(cl,A))'" * 33,
     "This is too long to be shown: more than 64 MiB are printed."),
    ("growing.trac",
     DOUBLED.format("#(cl,D)" * 18) + "#(ds,L,(#(ds,N,##(cl,A))#(cl,L,#(ad,N,1))))'#(ss,L,N)'#(cl,L,1)'",
     "Memory was refused, for this page takes 512 MiB for a run: a form may grow with each call."),
    ("text.trac", "a" * 17_000_000 + "'",
     "After 7 steps: a limit is passed: a form may grow with each call, or a text lack its '."),
)


def check_programs(page: Deeds, room: str) -> None:
    """Large programs that are opened, run and walked through."""
    for name, data, said, note in PROGRAMS:
        tab = Tab(page)
        tab.forget()
        choose(page, room, name, data)
        page.run()
        check(page.text("ending").startswith(said), "{}: {}".format(name, page.text("ending")))
        check(note in page.text("output-note"), "{}: what is printed: {}".format(name, page.text("output-note")))
        settle(page)
        walk(page)
        check(tab.peak() <= MOST, "{} takes {} MiB".format(name, tab.peak() // MIB))


def check_refused(page: Deeds, room: str) -> None:
    """Programs that pass what a page takes: what is said of them."""
    for name, data, said in REFUSED:
        tab = Tab(page)
        tab.forget()
        choose(page, room, name, data.encode())
        page.run()
        # (as much of it as was known before stays)
        check(page.text("ending").startswith(said), "{}: {}".format(name, page.text("ending")))
        check(tab.peak() <= MOST, "{} takes {} MiB".format(name, tab.peak() // MIB))


def check_opened(page: Deeds, room: str) -> None:
    """The longest program, only opened: a part of it is shown."""
    tab = Tab(page)
    tab.forget()
    choose(page, room, "long.trac", b"abcdefg\n" * (MOST_BYTES // 8))
    want = "long.trac (for reading only: bytes 1 to 65,536 of 33,554,432 are shown)"
    check(page.text("program-name") == want, "what is said of it: " + page.text("program-name"))
    check(page.script("document.getElementById('source').value.length") == 65536, "how much is shown")
    page.frames()
    check(tab.peak() <= MOST, "a file that is only opened takes {} MiB".format(tab.peak() // MIB))


def drop(page: Deeds, path: str) -> None:
    """Drops a file on the page, as from another window."""
    data = {"items": [], "files": [path], "dragOperationsMask": 1}
    for kind in ("dragEnter", "dragOver", "drop"):
        page.call("Input.dispatchDragEvent", type=kind, x=400, y=300, data=data)


def check_dropped(page: Deeds, room: str) -> None:
    """Files that are dropped and are too long, also by far: that is told, and nothing of them is read."""
    tab = Tab(page)
    page.type("#(ps,kept)'")
    for mebibytes in (33, 200):
        path = os.path.join(room, "long-{}.trac".format(mebibytes))
        with open(path, "wb") as out:
            # (the file takes no room on the disk)
            out.truncate(mebibytes * MIB)
        tab.forget()
        before = tab.peak()
        drop(page, path)
        said = "{} has {:,} bytes: a program may have at most {:,}. Nothing is opened.".format(
            os.path.basename(path), mebibytes * MIB, MOST_BYTES)
        page.until("document.getElementById('ending').textContent === '{}'".format(said), "it is said: " + said)
        page.frames()
        check(page.script("document.getElementById('source').value") == "#(ps,kept)'", "the program stays")
        more = tab.peak() - before
        check(more < 16 * MIB, "a file of {} MiB that is dropped takes {} MiB".format(mebibytes, more // MIB))


@contextlib.contextmanager
def a_room(_: Deeds) -> Iterator[str]:
    """A folder for files."""
    with tempfile.TemporaryDirectory(prefix="trac-webpage-memory-") as room:
        yield room


# (Chromium tells what its processes take)
TRIED = rows(check_dropped, check_opened, check_programs, check_refused, given=a_room, where=CHROMIUM, seconds=30,
             alone=True)
