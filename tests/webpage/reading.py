"""What the page says to those who do not see it: roles and names, one region that speaks, and what a step changed."""
from __future__ import annotations

import difflib
import json
import os
from collections.abc import Callable

from webpage import names
from webpage.pages import IS_GATHERED, Deeds, check
from webpage.rows import CHROMIUM, rows

STORED = os.path.join(os.path.dirname(os.path.realpath(__file__)), "names.txt")
SAID = ("(() => { window.said = []; "
        "new MutationObserver(() => window.said.push(document.getElementById('said').textContent))"
        ".observe(document.getElementById('said'), { childList: true }); })()")
# So many milliseconds the page waits at most before it says something.
PAUSE = 80
# (what stands in a box speaks there: all else is silent while that is open)
LIVE = ("[...document.querySelectorAll('[aria-live], [role=status], [role=alert], [role=log], output')]"
        ".filter((it) => it.getAttribute('aria-live') !== 'off' && !it.closest('dialog')).map((it) => it.id).join()")


def check_stored(page: Deeds) -> None:
    """The roles and names of a fixed program at a step, with where its 0 comes from, are those that are stored."""
    page.followed()
    page.go(90)
    page.until("document.getElementById('program-note').textContent === 'here: line 1, column 29'",
               "the place in the program")
    quiet(page)
    page.until("document.getElementById('said').textContent.startsWith('Next, step 90')", "the step is said")
    page.until(IS_GATHERED, "protected arguments stand in quotes")
    text = names.text(page)
    # (of the other tabs what stands under them)
    for tab in ("tree", "forms", "begun"):
        page.tab(tab)
        page.until("document.querySelectorAll('#tree .quote').length >= 6", "protected arguments stand in quotes")
        under = names.text(page).split("    tablist ")[1].split("\n", 1)[1]
        text += "\n{}:\n{}".format(tab, under.split("status\n")[0])
    page.tab("way")
    if os.environ.get("STORE_NAMES"):
        with open(STORED, "w") as stored:
            stored.write(text)
    with open(STORED) as stored:
        rows = list(difflib.unified_diff(stored.read().split("\n"), text.split("\n"), "names.txt", "the page",
                                         lineterm="", n=1))
    check(not rows,
          "roles and names are others than in tests/webpage/names.txt (STORE_NAMES=1 stores these):\n"
          + "\n".join(rows[:40]))


def all_named(page: Deeds, when: str) -> None:
    """Nothing that takes the focus lacks a name now."""
    nameless = names.nameless(page)
    check(nameless == [], "without names, {}: {}".format(when, nameless))


def check_named(page: Deeds) -> None:
    """Nothing that takes the focus lacks a name: at the start, in a run, with the help, where input is wanted, and
    doubted."""
    all_named(page, "in a run")
    page.script("document.getElementById('help-button').click()")
    all_named(page, "in the help")
    page.script("document.getElementById('help-button').click()")
    page.type("#(pr,a)'\n#(ps,Hello, world)'\n#(sb,B)'#(ps,##(rs))'")
    page.run()
    page.until("document.querySelector('#doubts .doubt') !== null", "doubts are listed")
    page.tab("doubts")
    all_named(page, "with doubts")


def check_changes(page: Deeds) -> None:
    """What a step moved, put and deleted has its role, and the mark its word: at the steps of `(a)b`, and of a call."""
    page.type("#(ps,(a)b)'")
    page.run()
    for step, roles in ((13, ["insertion a", "deletion (", "deletion )"]), (14, ["insertion b"]),
                        (15, ["deletion #(ps,ab)"])):
        page.go(step)
        said = page.script("[...document.querySelectorAll('#neutral ins, #neutral del, #active ins, #active del')]"
                           ".map((it) => `${{ INS: 'insertion', DEL: 'deletion' }[it.tagName]} "
                           "${it.textContent.replace(/[\\u201c\\u201d]/g, '')}`)")
        check(sorted(said) == sorted(roles), "what step {} changed: {}".format(step, said))
    check(page.text("mark") == "mark", "the mark has its word")


def quiet(page: Deeds) -> None:
    """Waits until the step is said that was asked for, or what led there. What is said is noted from here on."""
    page.until("['last', 'next'].map((id) => document.getElementById(id).textContent)"
               ".some((text) => document.getElementById('said').textContent.endsWith(text))",
               "the step is said")
    page.rest(PAUSE)
    page.script("window.said = []")


def all_said(page: Deeds, what: str) -> list[str]:
    """What is said, once no more is to come."""
    page.until("window.said.length > 0", what)
    page.rest(PAUSE)
    said: list[str] = page.script("window.said")
    return said


def check_said(page: Deeds) -> None:
    """One region speaks: of a run its end, of a step its sentence; while it plays nothing, and the last sentence at its
    end."""
    check(page.script(LIVE) == "said", "what speaks: " + page.script(LIVE))
    quiet(page)
    page.script(SAID)
    page.type("#(ps,7)'")
    page.run()
    said = all_said(page, "a run is said")
    check("all of the program is run" in said[0] and said[0].endswith("Printed is: 7") and len(said) == 1,
          "what is said of a run: {}".format(said))
    page.go(3)
    quiet(page)
    page.script("document.activeElement.blur()")
    page.press("s")
    said = all_said(page, "a step is said")
    check(said == [page.text("last")], "what is said of a step: {}".format(said))
    page.go(0)
    quiet(page)
    page.press(" ")
    page.until("document.getElementById('slider').value > 4", "it plays")
    page.until("document.getElementById('play').textContent === 'play'", "it plays to its end")
    # (had it spoken while it played, that would stand among what is said)
    said = all_said(page, "the end of playing is said")
    check(said == [page.text("last")], "once, at its end: {}".format(said))


def hears(page: Deeds, does: Callable[[], object], words: str) -> str:
    """Something is done, and this is said of it."""
    page.rest(PAUSE)
    page.script("window.said = []")
    does()
    page.until("window.said.join('|').includes({})".format(json.dumps(words)), "it says " + words)
    page.rest(PAUSE)
    said: str = page.script("window.said.join('|')")
    return said


def press_in(page: Deeds, selector: str | None, *keys: str) -> None:
    """Gives the focus to an element, or to none, and presses keys."""
    page.script("document.querySelector({})?.focus()".format(json.dumps(selector)) if selector
                else "document.activeElement.blur()")
    for key in keys:
        page.press(key)


def check_noted(page: Deeds) -> None:
    """A note goes on with its doubt: where the form is that was probably meant, or which parenthesis is probably
    wrong."""
    for program, wanted in (
        ("#(ds,greeting,hi)'#(cl,greting)'",
         "no form is named greting; a form of nearly this name is defined at line 1, column 6: did you mean greeting?"),
        ("a)b'", ") ends no call; the ) at line 1, column 2 may be one too many"),
    ):
        page.type(program)
        page.run()
        page.until("document.querySelector('#doubts .doubt')?.textContent === " + json.dumps(wanted),
                   "the note: " + wanted)


def check_heard(page: Deeds) -> None:
    """What was asked for is said: a call that one goes to, where a byte comes from, how much is doubted, and what is
    opened."""
    page.script(SAID)
    page.type("#(pr,a)#(ps,Hello, world)'")
    hears(page, page.run, "Printed is: Hello")
    page.until("window.said.join('|').includes('2 doubts are listed')", "how much is doubted")
    page.tab("doubts")
    said = hears(page, lambda: press_in(page, "#doubts button", "Enter"),
                 "Next, step 13: ) ends the function, and #(pr,a) is performed")
    check(said.endswith("its value is empty. Doubt: no primitive is named pr: did you mean ps or pf?"),
          "what is doubted: " + said)
    said = hears(page, lambda: press_in(page, None, "r"), "there is no call before this step")
    check("Step" not in said and "step 13" not in said, "a step is not said again: " + said)
    hears(page, lambda: page.press("u"), ") ends the function, and #(ps,Hello, world) is performed")
    hears(page, lambda: page.press("u"), "there is no call after this step: ")
    hears(page, lambda: page.press("y"), "Where it comes from: step 7: #(rs) reads it: line 1, column 10")
    hears(page, lambda: page.press("w"), "there is no form at this step")
    hears(page, lambda: page.go(24), "Next, step 24: a blank goes to the current text")
    page.script("document.getElementById('place').value = '999'")
    hears(page, lambda: press_in(page, "#place", "9", "Enter"), "the run has steps 0 to ")
    page.tab("tree")
    page.script("document.getElementById('filter').focus()")
    hears(page, lambda: page.insert("hello"), "1 of 2 calls")
    hears(page, lambda: page.press("Enter"), ") ends the function, and #(ps,Hello, world) is performed")
    hears(page, lambda: press_in(page, "#library", "H", "Enter"), "first.trac is opened.")


def check_start(page: Deeds) -> None:
    """Nothing lacks a name at the start."""
    all_named(page, "at the start")


def in_a_run(page: Deeds) -> None:
    """A step of the wrong factorial's run, with where its 0 comes from."""
    page.followed()
    page.go(90)


# (what Chromium tells of a text that changes depends on whether it has told of it before)
TRIED = (rows(check_start, check_changes, check_noted, where=CHROMIUM)
         + rows(check_stored, before=check_start, where=CHROMIUM)
         + rows(check_named, check_said, check_heard, before=in_a_run, where=CHROMIUM))
