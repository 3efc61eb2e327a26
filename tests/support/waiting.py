"""What tests wait for in a page, in any browser. All that a test asks for has its time: a slow machine is no fault."""
import re
import subprocess
import time
from collections.abc import Callable
from typing import Any

from support.cases import SILENCE, patience  # noqa: F401

# So many seconds what was asked for may take to hold, where a machine has no more to do than it has processors: only
# what hangs takes so long.
PATIENCE = 25
# Looks in the page again and again, but for some seconds at most, until this holds, and tells what it came to. (Each
# question from outside takes more of a processor than some looks there.)
LOOKS = """(async () => {{
  const end = performance.now() + 5000;
  {}
  for (let pause = 2; ; pause = Math.min(pause * 1.5, 16)) {{
    const told = await ({}
);
    if (told || performance.now() > end) return told;
    await new Promise((done) => setTimeout(done, pause));
  }}
}})()"""
# Has a page that is left ask nothing, and keep nothing for the next one.
LEFT = """(() => {
  const kinds = ['beforeunload', 'pagehide'];
  kinds.forEach((kind) => addEventListener(kind, (event) => event.stopImmediatePropagation(), true));
  try {
    Storage.prototype.setItem = () => {};
    [localStorage, sessionStorage].forEach((one) => one.clear());
  } catch {}
})()"""
# A script that compares something with a text, and what it compares.
COMPARES = re.compile(r"(.+?)(?: === |\.(?:startsWith|endsWith|includes)\()'((?:[^'\\]|\\.)*)'\)?")


class Gone(OSError):
    """A browser that does not begin, has ended, or says nothing."""


class Missed(Exception):
    """What was waited for did not come."""


class Waiting:
    """What is waited for; a browser's class has beside that what is only named here (`resize` Chromium's alone)."""

    name: str
    is_slow: bool
    address: str
    process: subprocess.Popen[bytes]
    is_here: Callable[[], bool]
    can_be: Callable[..., bool]
    become: Callable[..., None]
    leave: Callable[[], None]
    call: Callable[..., Any]
    load: Callable[..., None]
    resize: Callable[[int, int], None]
    script: Callable[[str], Any]
    press: Callable[..., None]
    insert: Callable[[str], None]
    click_at: Callable[[float, float], None]
    touch: Callable[..., None]
    choose_file: Callable[[str, str], None]
    faults: Callable[[], list[Any]]
    picture: Callable[[str], None]
    end: Callable[[], None]

    def until(self, test: str, what: str, after: str = "") -> Any:
        """Waits until a script tells that this holds, and returns what it tells; if need be, after statements that the
        page is to do first. Else what comes after cannot be tried."""
        began = time.monotonic()
        told = self.script(LOOKS.format(after, test))
        while not told:
            passed = time.monotonic() - began
            if passed > PATIENCE and passed > patience(PATIENCE):
                self.compare(test)
                raise Missed("{}: {}, within {:.0f} seconds; {}".format(self.name, what, passed, self.where()))
            told = self.script(LOOKS.format("", test))
        return told

    def comes(self, test: str, what: str) -> Any:
        """Waits likewise, while a page is left meanwhile: a browser that leaves it answers nothing of it."""
        began = time.monotonic()
        while True:
            try:
                return self.until(test, what)
            except Gone:
                raise
            except OSError:
                if time.monotonic() - began > patience(PATIENCE):
                    raise

    def compare(self, test: str) -> None:
        """Compares here what a script compares with a text there."""
        found = COMPARES.fullmatch(test)
        if found:
            self.script(found[1]) == found[2]  # noqa: B015

    def where(self) -> Any:
        """Where a page stands, for those who read that something did not come."""
        return self.script("['slider', 'note', 'ending', 'said'].map((id) => document.getElementById(id))"
                           ".map((it) => it?.value ?? it?.textContent ?? '').join(' | ')")

    def frames(self) -> None:
        """Waits until what was scrolled, changed in size or drawn for the next frame is there."""
        self.script("new Promise((done) => { let left = 4; "
                    "const next = () => (left-- ? requestAnimationFrame(next) : done()); next(); })")

    def rest(self, milliseconds: int) -> None:
        """Lets those timers of the page come first that it has set for so many milliseconds at most."""
        self.script("new Promise((done) => setTimeout(done, {}))".format(milliseconds + 1))
