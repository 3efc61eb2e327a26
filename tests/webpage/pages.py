"""The page trac.html in a browser, and what tests do with it."""
from __future__ import annotations

import contextlib
import json
import os
from collections.abc import Iterator
from typing import Any

from support import browser
from support.waiting import Missed, Waiting
from webpage import lending, seen
from webpage.lending import check

TOP = os.path.dirname(os.path.dirname(os.path.dirname(os.path.realpath(__file__))))

KEPT = os.path.join(TOP, "out", "webpage")

# A program with a fault that a newcomer looks for: it prints 0.
FACTORIAL = os.path.join(TOP, "programs", "examples", "wrong-factorial.trac")
# All is told of its run: its calls as they stood when they were performed, and what it prints.
IS_GATHERED = ("document.querySelector('#tree .quote') !== null "
               "&& document.querySelectorAll('#marks [role=option]').length === 3 "
               "&& document.getElementById('stop').hidden")
# All is told of where its 0 comes from: two calls, with their arguments.
IS_FOLLOWED = ("[...document.querySelectorAll('#way-list .way-row')]"
               ".filter((row) => row.querySelector('[tabindex]')).length === 2")

# Keeps from the page what the mouse does beside an element, which may have moved meanwhile, and after the first click
# on it. (Where the element is too thin to be hit, what is around it is the goal.)
AIM = """((find, goal = find) => {
  const kinds = ['pointerdown', 'mousedown', 'pointerup', 'mouseup', 'click'];
  let isHit = false;
  const judge = (event) => {
    if (!isHit && goal()?.contains(event.target)) isHit = event.type === 'click';
    else {
      event.preventDefault();
      event.stopImmediatePropagation();
    }
  };
  kinds.forEach((kind) => addEventListener(kind, judge, true));
  const end = () => {
    kinds.forEach((kind) => removeEventListener(kind, judge, true));
    delete window.aim;
    return true;
  };
  const frame = () => new Promise((done) => requestAnimationFrame(done));
  return {
    place: () => {
      const it = find();
      if (!it?.getClientRects().length) return null;
      it.scrollIntoView({ block: 'nearest' });
      const box = it.getBoundingClientRect();
      return [box.x + box.width / 2, box.y + box.height / 2];
    },
    // whether the click came to it, now or with the next frames
    isHit: async () => {
      for (let left = 5; left && !isHit; left--) await frame();
      return isHit && end();
    },
  };
})"""


class Deeds(Waiting):
    """What is done with the page, in any browser."""

    def script(self, text: str) -> Any:
        """The value of a script in the page: texts of it remember with what they are compared."""
        return seen.told(super().script(text))

    def text(self, name: str) -> str:
        """The text of an element."""
        text: str = self.script("document.getElementById('{}').textContent".format(name))
        return text

    def type(self, text: str) -> None:
        """Types a program, in place of what is there."""
        self.script("(document.getElementById('source').select(), document.getElementById('source').focus())")
        self.insert(text)

    def put(self, text: str) -> None:
        """Puts a long program there."""
        self.script("(() => {{ const box = document.getElementById('source'); box.value = {}; "
                    "box.dispatchEvent(new Event('input')); }})()".format(json.dumps(text)))

    def tab(self, name: str) -> None:
        """Has a panel seen: way, tree, forms, begun or doubts."""
        self.script("document.getElementById('tab-{}').click()".format(name))

    def unit(self, name: str) -> None:
        """Has the buttons go a byte, a token or a call."""
        self.script("document.getElementById('{}').click()".format(name))

    def click(self, element: str, around: str | None = None) -> None:
        """Clicks the middle of an element by the mouse, once it is there; and again if the page moved under the
        mouse."""
        aim = "window.aim = {}({});".format(AIM, ", ".join("() => " + one for one in (element, around) if one))
        for _ in range(100):
            place = self.until("window.aim.place()", "it is there to be clicked: " + element, aim)
            self.click_at(*place)
            if self.script("window.aim.isHit()"):
                return
            aim = ""
        raise Missed("{}: no click comes to {}".format(self.name, element))

    def run(self) -> None:
        """Runs what is there, and waits for its end."""
        self.click("document.getElementById('run')")
        self.until("document.getElementById('stop').hidden "
                   "&& document.getElementById('ending').textContent !== 'It runs.'", "the run ends")

    def go(self, step: int | str) -> None:
        """Goes to a step, and waits until it is shown."""
        # (the page writes the number anew when it shows the step)
        goes = ("const box = document.getElementById('place'); box.value = ' {}'; "
                "box.dispatchEvent(new Event('change'));".format(step))
        shown = "document.getElementById('slider').value === '{}' && document.getElementById('place').value === '{:,}'"
        self.until(shown.format(step, int(step)), "it goes to step {}".format(step), goes)

    def at(self, step: int | str, what: str = "it goes") -> None:
        """Waits until the page is at a step."""
        self.until("document.getElementById('slider').value === '{}'".format(step), "{} to step {}".format(what, step))

    def followed(self) -> None:
        """Runs the wrong factorial, and asks where its 0 comes from; waits until all of that is told."""
        self.type(open(FACTORIAL).read())
        self.run()
        self.until(IS_GATHERED, "the calls are listed")
        self.click("document.querySelector('#output [data-byte]')")
        self.until(IS_FOLLOWED, "where the 0 comes from")
        self.until("document.getElementById('said').textContent.includes('Where it comes from: ')", "that is said")

    def well(self, what: str) -> None:
        """Nothing went wrong, and nothing of a program was run."""
        faults = self.faults()
        check(not faults, "{}: {}".format(what, str(faults)[:400]))
        check(self.script("window.hostile === undefined"), what + ": nothing of the program was run")


class ChromiumPage(Deeds, browser.Browser):
    """The page in Chromium."""


class FirefoxPage(Deeds, browser.Firefox):
    """The page in Firefox."""


PAGES: list[type[Deeds]] = [ChromiumPage, FirefoxPage]


def installed() -> list[type[Deeds]]:
    """The kinds of pages whose browsers are here."""
    return [page for page in PAGES if page.is_here()]


def ready(page: Deeds) -> None:
    """Waits until the page takes programs."""
    page.until("document.documentElement.dataset.ready === 'yes'", "the page is ready")


# Forgets what the browser keeps of the page, and says whether that was something.
FORGET = """(() => {
  const is = [localStorage, sessionStorage].some((one) => one.length);
  [localStorage, sessionStorage].forEach((one) => one.clear());
  return is;
})()"""


@contextlib.contextmanager
def opened(kind: type[Deeds], file: str, **looks: Any) -> Iterator[Deeds]:
    """The page in a browser of a kind, for some time, as it is for whom opens it first."""
    with lending.lent(kind, **looks) as page:
        page.load(file)
        ready(page)
        if page.script(FORGET):
            page.load(file)
            ready(page)
        yield page
