"""The page by fingers: what a newcomer does, how large targets are, and a swipe over the text as a step."""
from webpage.pages import FACTORIAL, IS_FOLLOWED, IS_GATHERED, Deeds, check
from webpage.rows import CHROMIUM, rows

# What a finger presses and is smaller than 44 pixels, or one of those in another's row.
SMALL = ("[...document.querySelectorAll('button, select, input, textarea, summary, .row, .way-row [tabindex]')]"
         ".filter((it) => it.checkVisibility())"
         ".map((it) => [it, (it.closest('label') ?? it).getBoundingClientRect()])"
         ".filter(([, box]) => box.width > 0 && (box.width < 43.9 || box.height < 43.9))"
         ".map(([it, box]) => `${it.id || it.className || it.textContent}: ${box.width} by ${box.height}`)")
# Waits until the page scrolls no more: for some frames it stays where it is.
RESTS = ("new Promise((done) => { let last = null, count = 0; "
         "const look = () => { count = scrollY === last ? count + 1 : 0; last = scrollY; "
         "if (count < 20) requestAnimationFrame(look); else done(); }; look(); })")
# Where the middle of an element is.
MIDDLE = ("(() => {{ const box = {}.getBoundingClientRect(); "
          "return [box.x + box.width / 2, box.y + box.height / 2]; }})()")
STEP = "document.getElementById('slider').value"


def middle(page: Deeds, element: str) -> tuple[float, float]:
    """The middle of an element, in view."""
    page.script("{}.scrollIntoView({{ block: 'center' }})".format(element))
    x, y = page.script(MIDDLE.format(element))
    return x, y


def check_newcomer(page: Deeds) -> None:
    """From a wrong 0 to the place where it was written, in four actions."""
    page.touch(middle(page, "document.getElementById('source')"))
    page.script("document.getElementById('source').select()")
    page.insert(open(FACTORIAL).read())
    page.touch(middle(page, "document.getElementById('run')"))
    page.until("document.getElementById('output').textContent === '0'", "it prints 0")
    page.until(IS_GATHERED, "the calls are listed")
    x, y = middle(page, "document.querySelector('#output [data-byte]')")
    page.touch((x + 12, y + 8))
    page.until(IS_FOLLOWED, "a tap beside the 0 is for it")
    page.touch(middle(page, "document.querySelector('#way-list .way-row:last-child [data-place$=\" 2\"]')"))
    page.until("document.getElementById('way-list').textContent.endsWith('reads it: line 1, column 26')",
               "where it was written")


def check_lesson(page: Deeds) -> None:
    """With a lesson open, what a program prints comes in view."""
    page.script("(() => { const list = document.getElementById('course'); list.value = '4'; "
                "list.dispatchEvent(new Event('change')); })()")
    page.until("document.getElementById('lesson-title').textContent === '2. Commas and protection'", "a lesson is open")
    page.script(RESTS)
    page.script("scrollTo(0, 0)")
    page.script(RESTS)
    page.touch(page.script(MIDDLE.format("document.getElementById('run')")))
    page.until("/^(Done a|A)fter /.test(document.getElementById('ending').textContent)", "it is run")
    seen = ("(() => { const box = document.getElementById('ending').getBoundingClientRect(); "
            "return box.top >= 0 && box.bottom <= innerHeight; })()")
    page.until(seen, "what it prints is in view")
    page.script("document.getElementById('lesson-close').click()")


def check_sizes(page: Deeds) -> None:
    """Each target has 44 by 44 pixels: with the help, doubts, an input, forms; and a question."""
    check(page.script("matchMedia('(pointer: coarse)').matches"), "a finger points")
    page.script("document.getElementById('help-button').click()")
    small = page.script(SMALL)
    check(small == [], "targets that are too small: {}".format(small))
    page.script("document.getElementById('help-button').click()")
    page.script("document.getElementById('question').showModal()")
    small = page.script(SMALL)
    check(small == [], "targets of a question that are too small: {}".format(small))
    page.script("document.getElementById('question').close()")


def check_swipes(page: Deeds) -> None:
    """A swipe over the text is a step; up and down the page scrolls as it does elsewhere."""
    page.go(100)
    x, y = middle(page, "document.getElementById('tape')")
    # (the last swipe but one is too short; had it been a step, the one after it would lead elsewhere)
    for by, step in ((90, 101), (90, 102), (-90, 101), (20, 101), (90, 102)):
        page.touch((x, y), (x + by / 2, y + 3), (x + by, y + 5))
        page.at(step, "a swipe by {}".format(by))
    check(page.script("getComputedStyle(document.getElementById('tape')).touchAction") == "pan-y pinch-zoom",
          "the page scrolls up and down")
    before = page.script("scrollY")
    page.touch((x, y), (x + 2, y - 60), (x + 4, y - 200))
    page.until("scrollY > {}".format(before + 50), "it scrolls from {}".format(before))
    page.script(RESTS)
    check(page.script(STEP) == "102", "that is no step: " + page.script(STEP))
    x, y = middle(page, "document.getElementById('slider')")
    before = page.script("scrollY")
    page.touch((x, y), (x + 1, y - 30), (x + 2, y - 100), (x + 2, y - 200))
    page.until("scrollY > {}".format(before + 50), "it scrolls over the slider too, from {}".format(before))
    page.script(RESTS)
    check(page.script(STEP) == "102", "the slider stays: " + page.script(STEP))
    x, y = middle(page, "document.getElementById('slider')")
    page.touch((x, y), (x + 30, y + 1), (x + 60, y + 2))
    page.until("{} > 150".format(STEP), "a finger moves the slider")


def by_fingers(page: Deeds) -> None:
    """Fingers point there."""
    page.call("Emulation.setTouchEmulationEnabled", enabled=True)


def swiped(page: Deeds) -> None:
    """So too, with a run of the wrong factorial."""
    by_fingers(page)
    check_newcomer(page)


TRIED = (rows(check_newcomer, check_sizes, check_lesson, before=by_fingers, where=CHROMIUM, width=390, height=844)
         + rows(check_swipes, before=swiped, where=CHROMIUM, width=390, height=844))
