"""The window: the program scrolls, the output keeps its room, only panels scroll, and the help, the doubts and a lesson
have theirs."""
import json
import os

from webpage.pages import KEPT, TOP, Deeds, check, opened
from webpage.rows import opening, rows
from webpage.staying import LIT

# Whether the first lit byte of a kind is seen within the editor.
IN_EDITOR = """((name) => {{
  const range = [...CSS.highlights.get(name) ?? []][0];
  if (!range) return false;
  const at = range.getBoundingClientRect(), frame = document.getElementById('editor').getBoundingClientRect();
  return at.height > 0 && at.top >= frame.top - 1 && at.bottom <= frame.bottom + 1;
}})('{}')"""
# The box of text is as high as what is painted: so it never scrolls by itself.
SAME_HEIGHT = """(() => {
  const [box, paint] = ['source', 'paint'].map((id) => document.getElementById(id));
  return box.scrollHeight <= box.clientHeight + 1 && box.scrollTop === 0
    && Math.abs(box.clientHeight - paint.clientHeight) <= 1;
})()"""
# What is not wholly in the window.
OUTSIDE = """((ids) => ids.filter((id) => {{
  const box = document.getElementById(id).getBoundingClientRect();
  const isOut = box.left < -1 || box.top < -1 || box.right > innerWidth + 1 || box.bottom > innerHeight + 1;
  return isOut || box.width < 4 || box.height < 4;
}}))({})"""
IDS = ["library", "run", "editor", "output", "ending", "rules", "tape", "slider", "buttons", "more-buttons", "tabs",
       "help-button"]
SIZES = ((1024, 700), (1280, 800), (1920, 1080))
LINES = "".join("{}\n".format(number) for number in range(1, 14))
HEIGHT = "document.getElementById('{}').clientHeight"


def pick(page: Deeds, name: str) -> None:
    """Opens a program from the list."""
    page.script("(() => {{ const list = document.getElementById('library'); "
                "list.value = [...list.options].find((one) => one.title === "
                "'{}').value; list.dispatchEvent(new Event('change')); }})()".format(name))
    page.until("document.getElementById('program-name').textContent === '{}'".format(name), name + " is opened")


def sign_of_output(page: Deeds, sign: str, last: bool = False) -> None:
    """Clicks a sign of the output, in view."""
    place = page.script("""(() => {{
      const box = document.getElementById('output');
      const cells = [...box.querySelectorAll('[data-per]')].filter((cell) => cell.textContent.includes({0}));
      const text = cells.at({1}).firstChild, at = text.data.{2}({0});
      const range = document.createRange();
      range.setStart(text, at);
      range.setEnd(text, at + 1);
      const down = range.getBoundingClientRect().bottom - box.getBoundingClientRect().bottom;
      if (down > 0) box.scrollTop += down;
      const rect = range.getBoundingClientRect();
      return [rect.x + rect.width / 2, rect.y + rect.height / 2];
    }})()""".format(json.dumps(sign), -1 if last else 0, "lastIndexOf" if last else "indexOf"))
    page.click_at(*place)


def check_scrolls(page: Deeds) -> None:
    """A program that is longer than its box scrolls, and what is lit comes in view, under its own sign."""
    pick(page, "roman.trac")
    page.run()
    top = page.script("document.getElementById('editor').scrollTop")
    check(page.script("document.getElementById('editor').scrollHeight > "
                      "document.getElementById('editor').clientHeight"), "it is longer")
    sign_of_output(page, "u")
    page.until("document.getElementById('way-list').textContent.endsWith('reads it: line 37, column 20')",
               "where the u was written")
    page.until(IN_EDITOR.format("read"), "the u is in view, from {}".format(top))
    page.script("document.getElementById('source').focus()")
    page.press("End", control=True)
    page.frames()
    check(page.script(SAME_HEIGHT), "the box does not scroll over the painted text")
    text = "#(ps,(" + "".join("line {}\n".format(line) for line in range(1, 2001)) + "last))'"
    page.put(text)
    check(page.script(SAME_HEIGHT), "2,000 lines have the height of the painted text")
    numbers = page.script("document.querySelectorAll('#paint .line').length")
    check(numbers == 2001, "so many lines are numbered: {}".format(numbers))
    page.run()
    page.script("document.activeElement.blur()")
    sign_of_output(page, "t", True)
    page.until("document.getElementById('way-list').textContent.endsWith('reads it: line 2,001, column 4')",
               "the last byte")
    check(page.script(LIT) == "{},t".format(text.index("last") + 3), "it is lit: " + page.script(LIT))
    check(page.script(IN_EDITOR.format("read")), "and in view")


def check_output(page: Deeds) -> None:
    """13 lines, doubts, and input that is waited for: the output has room, and a click leaves it as it is."""
    page.type("#(pr,a)#(ps,({}))#(ps,##(rs))'".format(LINES))
    page.run()
    page.until("document.querySelector('#doubts .doubt') !== null", "a doubt is listed")
    check(not page.script("document.getElementById('input-form').hidden"), "input is waited for")
    before = page.script(HEIGHT.format("output"))
    check(before >= 100, "the output is {} pixels high".format(before))
    sign_of_output(page, "3", True)
    page.until("document.getElementById('way-list').textContent.includes('reads it: line 13, ')",
               "where the 3 was written")
    after = page.script(HEIGHT.format("output"))
    seen = page.script("(() => { const at = [...CSS.highlights.get('followed')][0].getBoundingClientRect(); "
                       "const box = document.getElementById('output').getBoundingClientRect(); "
                       "return at.top >= box.top - 1 && at.bottom <= box.bottom + 1; })()")
    check(after == before and seen, "after the click: {} and {} pixels high, in view: {}".format(before, after, seen))


def check_sizes(kind: type[Deeds], file: str) -> None:
    """From 1024 by 700 on the page itself never scrolls, all parts are in the window, and they fill it; on a phone the
    program and the bar stay in sight."""
    for width, height in SIZES:
        for dark in (False, True):
            with opened(kind, file, width=width, height=height, dark=dark) as page:
                look = "{}-{}-{}".format(width, "dark" if dark else "light", kind.name)
                page.picture(os.path.join(KEPT, "first-{}.png".format(look)))
                page.followed()
                page.go(90)
                outside = page.script(OUTSIDE.format(json.dumps(IDS)))
                check(outside == [], "{}: out of the window: {}".format(look, outside))
                page.script("scrollTo(0, 10000)")
                check(page.script("scrollY === 0 && document.documentElement.scrollHeight <= innerHeight"),
                      look + ": the page does not scroll")
                bottom = page.script("document.querySelector('main').getBoundingClientRect().bottom")
                check(bottom > height - 4, "{}: the window is filled to {}".format(look, bottom))
                page.picture(os.path.join(KEPT, "window-{}.png".format(look)))
    for dark in (False, True):
        with opened(kind, file, width=390, height=844, dark=dark) as page:
            look = "390-{}-{}".format("dark" if dark else "light", kind.name)
            page.picture(os.path.join(KEPT, "first-{}.png".format(look)))
            page.followed()
            page.go(90)
            for place in (0, 300, 100000):
                page.script("scrollTo(0, {})".format(place))
                page.frames()
                outside = page.script(OUTSIDE.format(json.dumps(["editor", "buttons"])))
                check(outside == [], "{} at {}: out of the window: {}".format(look, place, outside))
            check(page.script("innerHeight - document.getElementById('buttons').getBoundingClientRect().bottom") <= 1,
                  look + ": the bar")
            page.script("scrollTo(0, 250)")
            page.frames()
            page.picture(os.path.join(KEPT, "window-{}.png".format(look)))


def check_help(page: Deeds) -> None:
    """The help lies over the window, scrolls by itself, and is closed by Esc, by its button, and by the one that opened
    it."""
    seen = OUTSIDE.format(json.dumps(["help", "help-close", "help-button"]))
    hidden = "document.getElementById('help').hidden"
    page.type("#(ps,a)'")
    page.run()
    for close in ("Escape", "help-close", "help-button"):
        page.script("document.getElementById('rules').focus()")
        page.press("?", shift=True)
        check(not page.script(hidden) and page.script(seen) == [],
              "the help is in the window: {}".format(page.script(seen)))
        page.script("document.getElementById('help').scrollTop = 300")
        check(page.script("scrollY") == 0 and page.script(seen) == [], "its button stays when it scrolls")
        if close == "Escape":
            page.press(close)
        else:
            page.script("document.getElementById('{}').click()".format(close))
        check(page.script(hidden), close + " closes the help")
    page.press("?", shift=True)
    page.press("Escape")
    check(page.script("document.activeElement.id") == "rules",
          "the focus comes back: " + page.script("document.activeElement.id"))


def check_doubts(page: Deeds) -> None:
    """Many doubts: none is cut off, and the last one's links can be clicked."""
    page.put("".join("#(nosuchname{},{})\n".format("x" * 60, at) for at in range(25)) + "'")
    page.run()
    page.until("document.querySelectorAll('#doubts .doubt').length === 25", "they are listed")
    check(page.script("document.querySelector('#tab-doubts .count').textContent") == "25", "how many there are")
    page.tab("doubts")
    cut = page.script("[...document.querySelectorAll('#doubts .way-row')]"
                      ".filter((row) => row.scrollWidth > row.clientWidth + 1 "
                      "|| row.getBoundingClientRect().right > "
                      "document.getElementById('doubts-panel').getBoundingClientRect().right).length")
    check(cut == 0, "so many are cut off: {}".format(cut))
    page.click("document.querySelector('#doubts .way-row:last-child .place')")
    page.until("document.activeElement.id === 'source'", "its place leads there")
    line = page.script("(() => { const { value, selectionStart } = document.getElementById('source'); "
                       "return value.slice(0, selectionStart).split('\\n').length; })()")
    check(line == 25, "to line 25: {}".format(line))


def check_lesson(kind: type[Deeds], file: str) -> None:
    """A lesson keeps its room when the program runs, leads back and on, and speaks of no shell."""
    with opened(kind, file, width=1024, height=700) as page:
        page.script("(() => { const list = document.getElementById('course'); list.value = '0'; "
                    "list.dispatchEvent(new Event('change')); })()")
        page.until("!document.getElementById('lesson').hidden", "a lesson is open")
        shell = page.script("document.getElementById('lesson-text').textContent.includes('shell')")
        check(not shell, "lesson 1 speaks of no shell")
        check(page.script("document.getElementById('lesson-before').hidden"), "nothing is before lesson 1")
        before = page.script(HEIGHT.format("lesson-text"))
        page.run()
        after = page.script(HEIGHT.format("lesson-text"))
        check(after >= 200 and after >= before * 0.9,
              "the lesson has {} pixels, and {} after Run".format(before, after))
        title = page.text("lesson-title")
        page.click("document.getElementById('lesson-next')")
        check(page.text("lesson-title") != title, "next leads on")
        page.click("document.getElementById('lesson-before')")
        check(page.text("lesson-title") == title, "previous leads back: " + page.text("lesson-title"))
        page.picture(os.path.join(KEPT, "lesson-{}.png".format(kind.name)))
        page.script("document.getElementById('lesson-close').click()")


def check_timeline(page: Deeds) -> None:
    """Over the slider of a run of millions of steps there is something everywhere, as soon as its doubts are listed."""
    with open(os.path.join(TOP, "programs", "examples", "endless.trac")) as program:
        page.put("#(pr)'" + program.read())
    page.run()
    page.until("document.querySelector('#doubts .doubt') !== null", "a doubt is listed")
    check(page.text("timeline-note").startswith(", at most "),
          "how many calls are begun: " + page.text("timeline-note"))
    high = page.script("""(() => {
      const canvas = document.getElementById('depth'), { width } = canvas, floor = Math.floor(canvas.height * 0.56) - 2;
      const signs = canvas.getContext('2d').getImageData(0, 0, width, floor).data;
      let columns = 0;
      for (let at = 0; at < width; at++) {
        let filled = 0;
        for (let row = 0; row < floor; row++) if (signs[4 * (row * width + at) + 3] > 0) filled++;
        if (filled >= floor * 0.25) columns++;
      }
      return columns / width;
    })()""")
    check(high > 0.9, "so much of it is filled: {:.2f}".format(high))


TRIED = (rows(check_scrolls, check_output, check_help, check_doubts, check_timeline, width=1280, height=900)
         + opening(check_lesson, check_sizes))
