"""What is folded, and what is looked for anew: the steps of the idle program, and calls before those that are
listed."""
import os
from collections.abc import Iterable

from webpage.pages import TOP, Deeds, check
from webpage.rows import rows

LONG = os.path.join(TOP, "programs", "examples", "long-way-back.trac")
PRESSED = "document.getElementById('idle').getAttribute('aria-pressed')"
ROWS = "[...document.querySelectorAll('#tree .row .number')].map((it) => it.textContent)"


def steps(page: Deeds, key: str, wanted: Iterable[int]) -> None:
    """A key goes to these steps, one after the other."""
    page.script("document.activeElement.blur()")
    for step in wanted:
        page.press(key)
        page.at(step, key)


def check_idle(page: Deeds) -> None:
    """By bytes and by tokens the idle program's steps are one; a button or a key has each of them shown, and says
    so."""
    page.type("#(ps,a)'")
    page.run()
    steps(page, "Home", (0,))
    steps(page, "s", (8, 9, 10, 11, 12, 13, 14, 15, 23))
    check(page.text("last").startswith("Just done, 8 steps: the idle program waits to read on"),
          "at the end: " + page.text("last"))
    steps(page, "b", (15, 14))
    steps(page, "ArrowLeft", (13, 12, 11, 9, 8, 0))
    check(page.text("next") == "Next, steps 0 to 7: the idle program reads on", "at the start: " + page.text("next"))
    page.click("document.getElementById('idle')")
    check(page.script(PRESSED) == "true", "the switch is on")
    page.until("document.getElementById('next').textContent.startsWith('Next, step 0: #( begins an active function')",
               "each step is told")
    steps(page, "s", (1, 2))
    steps(page, "ArrowRight", (3, 4, 5, 7, 8))
    steps(page, "End", (23,))
    steps(page, "b", (22, 21))
    check(page.text("last").startswith("Just done: the idle program reads on: "), "a step of it: " + page.text("last"))
    page.press("i")
    check(page.script(PRESSED) == "false", "the key switches it off")
    steps(page, "b", (15,))


def check_listed(page: Deeds) -> None:
    """Of a run with more calls than are listed, those around the cursor are listed anew."""
    page.put(open(os.path.join(TOP, "programs", "examples", "endless.trac")).read())
    page.tab("tree")
    page.run()
    page.until("document.getElementById('tree-count').textContent.endsWith(', the last of the run')",
               "the last calls are listed")
    page.until("document.querySelector('#tab-doubts .count').textContent !== ''", "all is gathered")
    page.go(1000)
    page.until("/, those of steps up to 51,000$/.test(document.getElementById('tree-count').textContent)",
               "those around step 1,000 are listed")
    current = page.script("document.querySelector('#tree [aria-current] .number').textContent")
    check(0 < int(current.replace(",", "")) <= 1000, "the call of the step: " + current)
    page.press("End")
    page.script("document.activeElement.blur()")
    page.press("End")
    page.until("document.getElementById('tree-count').textContent.endsWith(', the last of the run')",
               "at the end the last ones are")


TRIED = rows(check_idle, check_listed)
