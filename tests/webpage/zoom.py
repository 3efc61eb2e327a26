"""At 200 percent: no text is cut off, nothing goes sideways, and from 1024 by 700 pixels of the page on it does not
scroll; in smaller windows the program and the bar leave in sight what has the focus."""
from __future__ import annotations

import json

from webpage.pages import Deeds, check
from webpage.rows import CHROMIUM, rows
from webpage.window import OUTSIDE

# Windows at 200 percent, in pixels of the page: of 1280 by 800, 1024 by 700, 1920 by 1080; and of twice the sizes that
# the page fills. (A phone is among the small ones.)
SMALL = ((640, 400), (512, 350), (960, 540), (390, 844))
FILLED = ((1024, 700), (1280, 800), (1920, 1080))
# What is cut off or wider than its place: not the text beside the mark and rows of the tree, whose ends are cut, nor
# words that a small window leaves out.
CUT = """(() => {
  const left = '.unseen, #tape, .row, .word, #mark-label, script';
  const isCut = (it, axis) => {
    const flow = getComputedStyle(it)[`overflow${axis}`];
    const size = axis === 'X' ? it.scrollWidth - it.clientWidth : it.scrollHeight - it.clientHeight;
    if (size <= 1) return false;
    const isTight = flow === 'visible' && it.matches('button, label, select, th, td, h2, h3, kbd');
    return ['hidden', 'clip'].includes(flow) || isTight || (axis === 'X' && ['auto', 'scroll'].includes(flow));
  };
  const root = document.documentElement;
  const sideways = root.scrollWidth > root.clientWidth ? [`the page to ${root.scrollWidth}`] : [];
  const cut = [...document.body.querySelectorAll('*')].filter((it) => it.checkVisibility() && !it.closest(left)
    && it.clientWidth > 0 && getComputedStyle(it).display !== 'inline' && (isCut(it, 'X') || isCut(it, 'Y')));
  return [...sideways, ...cut.map((it) => it.id || it.className || it.localName)].slice(0, 8);
})()"""
SCROLLS = "document.documentElement.scrollHeight > innerHeight"
# What gets the focus and then stands under the program or under the bar.
HIDDEN = """(() => {
  const program = document.getElementById('program-section'), bar = document.getElementById('buttons');
  const isOver = getComputedStyle(program).position === 'sticky';
  if (!isOver) return [];
  const found = [];
  for (const it of document.querySelectorAll('main :is(button, input, select, [tabindex="0"])')) {
    if (!it.checkVisibility() || program.contains(it) || bar.contains(it)) continue;
    it.focus();
    const box = it.getBoundingClientRect();
    const top = program.getBoundingClientRect().bottom, bottom = bar.getBoundingClientRect().top;
    const isIn = box.top >= top - 1 && box.bottom <= bottom + 1;
    if (!isIn && box.height < bottom - top) found.push(`${it.id || it.className}: ${box.top} to ${box.bottom}`);
  }
  document.activeElement.blur();
  return found.slice(0, 4);
})()"""


def zoom(page: Deeds, width: int, height: int) -> None:
    """Gives the page so many pixels of its own, each of which is two by two of the screen's."""
    page.call("Emulation.setDeviceMetricsOverride", width=width, height=height, deviceScaleFactor=2, mobile=False)
    page.until("innerWidth === {} && innerHeight === {} && devicePixelRatio === 2".format(width, height), "its size")
    page.frames()


def looked_at(page: Deeds, what: str) -> None:
    """Looks at the page in all sizes."""
    for width, height in SMALL + FILLED:
        zoom(page, width, height)
        look = "{}, {} by {}".format(what, width, height)
        cut = page.script(CUT)
        check(cut == [], "{}: cut off: {}".format(look, cut))
        if (width, height) in FILLED:
            check(not page.script(SCROLLS), look + ": the page does not scroll")
    zoom(page, 1280, 800)


def choose(page: Deeds, place: int) -> None:
    """Opens a lesson or an exercise."""
    page.script("(() => {{ const list = document.getElementById('course'); list.value = '{}'; "
                "list.dispatchEvent(new Event('change')); }})()".format(place))


def check_cut(page: Deeds) -> None:
    """As it is opened, in a run, with each tab, with the help, with a lesson and an exercise, where it waits for
    input."""
    looked_at(page, "opened")
    page.followed()
    page.go(90)
    for name in ("way", "tree", "forms", "begun"):
        page.tab(name)
        looked_at(page, name)
    page.script("document.getElementById('help-button').click()")
    looked_at(page, "help")
    page.script("document.getElementById('help-button').click()")
    page.type("#(pr,a)'\n#(ps,Hello, \x01world)'\n#(ps,##(rs))'")
    page.run()
    page.until("document.querySelector('#doubts .doubt') !== null", "doubts are listed")
    page.tab("doubts")
    looked_at(page, "doubts, and input")
    for place, what in ((0, "lesson"), (1, "exercise")):
        choose(page, place)
        looked_at(page, what)


def check_millions(page: Deeds) -> None:
    """The number of a step of eight figures has room in its box; in the large view, too."""
    page.put("#(ds,L,(#(cl,L)))'#(cl,L)'")
    page.run()
    page.until("document.getElementById('place').value === '2,000,000'", "the run takes all steps")
    page.script("document.getElementById('place').value = '20,000,000'")
    looked_at(page, "20,000,000 steps")
    page.script("document.getElementById('big').click()")
    looked_at(page, "large view")


def check_focus(page: Deeds) -> None:
    """In small windows what gets the focus is seen, and the program and the bar stay."""
    page.followed()
    page.go(90)
    for width, height in SMALL:
        zoom(page, width, height)
        hidden = page.script(HIDDEN)
        check(hidden == [], "{} by {}: hidden: {}".format(width, height, hidden))
        if width < 760:
            page.script("scrollTo(0, 300)")
            page.frames()
            outside = page.script(OUTSIDE.format(json.dumps(["program-section", "buttons"])))
            check(outside == [], "{} by {}: out of the window: {}".format(width, height, outside))


TRIED = rows(check_cut, check_focus, check_millions, where=CHROMIUM, seconds=10)
