"""The program as it is edited: Tab sets lines in and out, Esc and then Tab leaves, undo brings back, find meets each
place once."""
from webpage.pages import Deeds, check
from webpage.rows import rows

SOURCE = "document.getElementById('source')"
VALUE = SOURCE + ".value"
CHOSEN = "[{0}.selectionStart, {0}.selectionEnd].join()".format(SOURCE)
FOCUS = "document.activeElement.id"
TEXT = "#(ds,a,(\n#(ps,b)\n#(ps,c)\n))'"


def choose(page: Deeds, start: int, end: int) -> None:
    """Chooses a part of the program."""
    page.script("({0}.focus(), {0}.setSelectionRange({1}, {2}))".format(SOURCE, start, end))


def undo(page: Deeds, wanted: str) -> None:
    """Ctrl+Z brings back a text."""
    page.press("z", control=True)
    check(page.script(VALUE) == wanted, "undo brings back {!r}, not {!r}".format(wanted, page.script(VALUE)))


def check_tab(page: Deeds) -> None:
    """Tab at the caret, and over lines; Shift+Tab takes one tab away; undo goes back over each."""
    page.type(TEXT)
    choose(page, 9, 9)
    page.press("Tab")
    one = "#(ds,a,(\n\t#(ps,b)\n#(ps,c)\n))'"
    check(page.script(VALUE) == one, "at the caret: {!r}".format(page.script(VALUE)))
    check(page.script(CHOSEN) == "10,10", "the caret stands after it: " + page.script(CHOSEN))
    choose(page, 12, 20)
    page.press("Tab")
    two = "#(ds,a,(\n\t\t#(ps,b)\n\t#(ps,c)\n))'"
    check(page.script(VALUE) == two, "two lines: {!r}".format(page.script(VALUE)))
    check(page.script(CHOSEN) == "9,27", "they are chosen: " + page.script(CHOSEN))
    undo(page, one)
    choose(page, 12, 20)
    page.press("Tab", shift=True)
    check(page.script(VALUE) == TEXT, "Shift+Tab: {!r}".format(page.script(VALUE)))
    undo(page, one)
    undo(page, TEXT)
    choose(page, 12, 12)
    page.press("Tab", shift=True)
    check(page.script(VALUE) == TEXT and page.script(CHOSEN) == "12,12",
          "a line with no tab stays: {!r}".format(page.script(VALUE)))
    check(page.script("document.getElementById('paint').textContent") == TEXT, "the painted text is the same")
    page.run()
    check(page.text("output") == "", "the program runs")


def check_leaving(page: Deeds) -> None:
    """Esc and then Tab leaves the program; Shift+Tab so, too; and a text for reading only holds nobody."""
    for shift, after in ((False, True), (True, False)):
        choose(page, 0, 0)
        text = page.script(VALUE)
        page.press("Escape")
        page.press("Tab", shift=shift)
        focus = page.script("[{}.compareDocumentPosition(document.activeElement), "
                            "document.activeElement.localName].join()".format(SOURCE))
        place, name = focus.split(",")
        check(name not in ("body", "textarea") and bool(int(place) & 4) == after,
              "Esc, then Tab leads on: {}".format(focus))
        check(page.script(VALUE) == text, "nothing is written")
    page.script("({0}.readOnly = true, {0}.focus())".format(SOURCE))
    page.press("Tab")
    check(page.script(FOCUS) != "source", "a text for reading only is left by Tab")
    page.script(SOURCE + ".readOnly = false")


def check_find(page: Deeds) -> None:
    """A search of the browser meets a place of the program once: the painted text is not for it."""
    page.type("#(ps,wonderful)'")
    check(page.script("document.getElementById('paint').inert"), "the painted text is inert")
    page.script("(document.activeElement.blur(), getSelection().removeAllRanges(), scrollTo(0, 0))")
    places = page.script("""(() => {
      const places = [];
      while (places.length < 5 && find('wonderful')) {
        const { anchorNode } = getSelection();
        const within = anchorNode instanceof Element ? anchorNode : anchorNode?.parentElement;
        places.push(within?.closest('#paint') ? 'painted' : 'program');
      }
      return places.join();
    })()""")
    check("painted" not in places and places.count("program") <= 1,
          "it is met: {}".format(places or "by the browser's own search alone"))


def check_end_after_blanks(page: Deeds) -> None:
    """The ' that a program lacks is put at its end at once, however many blanks stand within it."""
    page.put("#(ps,hello)" + " " * 300_000 + "x\n")
    page.run()
    page.click("document.querySelector('#ending button')")
    page.until(VALUE + ".endsWith(\"x'\\n\")", "it is there")


TRIED = rows(check_tab, check_leaving, check_find, check_end_after_blanks)
