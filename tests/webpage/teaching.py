"""What a teacher shows with the page: why a comma ends an argument and a decision took its branch, what was protected,
steps by token, marks over the slider, the idle program, and the large view."""
import os
from collections.abc import Sequence

from webpage.pages import FACTORIAL, IS_GATHERED, KEPT, Deeds, check, opened
from webpage.rows import ONE, opening, rows
from support.readers import PROGRAM, READERS

# The least number that is too great for 128 bits, and that less one.
WIDE = "170141183460469231731687303715884105728"
FITS = "170141183460469231731687303715884105727"
NEXT = ", which is scanned next, since #( began an active function"
# Calls, and what their sentences say, by docs/language.md.
REASONS = (
    ("#(eq,abc,abd,same,differ)", "abc and abd differ, so its value is argument 4: differ" + NEXT),
    ("#(eq,abc,abc,same,differ)", "abc and abc are the same, so its value is argument 3: same" + NEXT),
    ("##(eq,a,b,,(x,y))",
     "a and b differ, so its value is argument 4: “x,y”, which is not scanned, since ##( began a neutral function"),
    ("#(eq,a,A,y,n)",
     "a and A differ (capital and small letters are not the same), so its value is argument 4: n" + NEXT),
    ("#(eq,1,01,y,n)", "1 and 01 differ (bytes are compared, not numbers), so its value is argument 4: n" + NEXT),
    ("#(eq,a)", "a and empty (argument 2 is missing) differ, so its value is argument 4, which is missing: empty"),
    ("#(eq,,,null)", "empty and empty are the same, so its value is argument 3: null" + NEXT),
    ("#(gr,7,5,y,n)", "performed: 7 is greater than 5, so its value is argument 3: y" + NEXT),
    ("#(gr,5,5,y,n)", "performed: 5 is not greater than 5, so its value is argument 4: n" + NEXT),
    ("#(gr,a10,b9,y,n)",
     "of a10 only the end counts, 10; of b9 only the end counts, 9; "
     "10 is greater than 9, so its value is argument 3: "),
    ("#(gr,-0,0,y,n)", "-0 counts as 0; 0 is not greater than 0, so its value is argument 4: n"),
    ("#(gr,--4,5-,y,n)",
     "of --4 only the end counts, -4; 5- ends in no digit and counts as 0; -4 is not greater than 0, so its value is "
     "argument 4: n"),
    ("#(gr,+0012,,y)", "+0012 counts as 12; empty counts as 0; 12 is greater than 0, so its value is argument 3: y"),
    ("#(gr,-3)",
     "argument 2 is missing and counts as 0; -3 is not greater than 0, so its value is argument 4, "
     "which is missing: empty"),
    ("#(gr,{0}9,{0}8,y,n)".format(WIDE), "{0}9 is greater than {0}8, so its value is argument 3: y".format(WIDE)),
    ("#(gr,-{0}9,-{0}8,y,n)".format(WIDE),
     "-{0}9 is not greater than -{0}8, so its value is argument 4: n".format(WIDE)),
    ("#(gr,9223372036854775809,9223372036854775808,y)",
     "9223372036854775809 is greater than 9223372036854775808, so its value is argument 3: y"),
    ("#(ad,{},1,Z)".format(FITS),
     "{} plus 1 is a sum that does not fit in 128 bits, so its value is argument 3, the default: Z".format(FITS)),
    ("#(ad,-{},0)".format(WIDE), "-{0} plus 0 is -{0}; its value is -{0}".format(WIDE)),
    ("#(ml,{},1)".format(WIDE),
     "{} does not fit in 128 bits, so its value is argument 3, the default, which is missing: empty".format(WIDE)),
    ("##(dv,7,0,Z)",
     "the divisor is 0, so its value is argument 3, the default: Z, which is scanned next: it is the default, "
     "although ##("),
    ("#(dv,-7,2)", "-7 divided by 2, cut toward zero, is -3; its value is -3"),
    ("#(su,a-5,b2)", "-5 minus 2 is -7, and a stays before it; its value is a-7"),
    ("#(pr,a)", "no primitive is named pr, so nothing is done; its value is empty"),
    ("#(dv,-{},-1,Z)".format(WIDE),
     "-{} divided by -1 is a quotient that does not fit in 128 bits, so its value is argument 3".format(WIDE)),
)
# A program with protected text, empty texts, and texts that say null.
PROTECTED = "#(ds,A,(a,b(c)))'##(eq,##(cl,A),,x,(no,no))#(ps,(#(q,)))#(ds,null,null)#(cl,null)'"
ROWS = ["15#(ds,A,“a,b(c)”)", "41##(eq,“a,b(c)”,empty,x,“no,no”) gives no,no", "35##(cl,A) gives a,b(c)",
        "47#(ps,“#(q,)”)", "61#(ds,null,null)", "70#(cl,null) gives null"]


# How much of the height is filled over the slider in the middle of some steps, of 1.
FILLED = """(([steps, end]) => {{
  const canvas = document.getElementById('depth'), floor = Math.floor(canvas.height * 0.56) - 2, {{ width }} = canvas;
  const signs = canvas.getContext('2d').getImageData(0, 0, width, floor).data;
  return steps.map((step) => {{
    const across = Math.round((step + 0.5) / end * (width - 2));
    let empty = 0;
    while (empty < floor && signs[4 * (empty * width + across) + 3] === 0) empty++;
    return (floor - empty) / floor;
  }});
}})({})"""


def says(page: Deeds, name: str, words: str) -> None:
    """What the page says of the last step or the next one has these words."""
    text = page.text(name)
    check(words in text, "it says: {}, without: {}".format(text[:300], words))


def check_reasons(page: Deeds) -> None:
    """Sentences of decisions and decimals; the number of the list is that of the sentence, the slider and the box."""
    calls = [call for call, _ in REASONS]
    check_sentences(page, "".join(calls[:12]) + "'" + "".join(calls[12:]) + "'", REASONS)
    # (why the default of a call that reads a form)
    check_sentences(page, PROGRAM, READERS)


def check_sentences(page: Deeds, program: str, rows: Sequence[tuple[str, str]]) -> None:
    """Of each call of a program, one after the other, the sentence before its step and after it."""
    wrong = []
    page.type(program)
    page.run()
    page.until("document.getElementById('tree-count').textContent === '{}'".format(len(rows)), "all are listed")
    page.tab("tree")
    page.script("document.getElementById('tree').scrollTop = 0")
    for index, (call, said) in enumerate(rows):
        page.script("document.getElementById('tree').focus()")
        page.press("ArrowDown" if index else "Home")
        step = page.script("document.querySelector('#tree .chosen .number').textContent")
        page.press("Enter")
        page.at(step.replace(",", ""))
        lead = "Next, step {}: ) ends the function, and {}".format(step, call[:5])
        text = page.text("next")
        place = page.script("document.getElementById('place').value")
        if not text.startswith(lead) or said not in text or place != step:
            wrong.append((call, text))
        page.script("document.activeElement.blur()")
        page.press("s")
        page.at(int(step.replace(",", "")) + 1, "step {} is done, and the page goes".format(step))
        says(page, "last", "Just done: ) ends")
        if said not in page.text("last"):
            wrong.append((call, page.text("last")))
    check(not wrong, "sentences: {}".format(wrong[:3]))


def check_protected(page: Deeds) -> None:
    """Protected commas stand in quotes, in the list, the sentence and what is struck; the empty text has a sign."""
    page.type(PROTECTED)
    page.tab("tree")
    page.run()
    page.until("document.querySelectorAll('#tree .quote').length === 8", "protected arguments stand in quotes")
    rows = page.script("[...document.querySelectorAll('#tree .row')]"
                       ".map((row) => row.textContent.replace(/[▾▸\\u00a0]| has an empty value/g, ''))")
    check(rows == ROWS, "the list of calls: {}".format(rows))
    check(page.script("document.querySelector('#tree .empty').getAttribute('aria-label')") == "empty", "its name")
    page.go(41)
    says(page, "next", "##(eq,“a,b(c)”,empty,x,“no,no”) is performed: “a,b(c)” and empty differ")
    page.go(42)
    struck = page.script("document.querySelector('#neutral .gone').textContent")
    check(struck == "##(eq,“a,b(c)”,empty,x,“no,no”)", "what is struck: " + struck)
    check(page.script("document.querySelector('#neutral .quote') !== null"),
          "what was protected is in quotes in the text")
    page.go(14)
    says(page, "next", "( and its matching ) are deleted, and what they protect goes to the current text unchanged: "
         "no comma in it ends an argument")
    page.go(11)
    says(page, "next", "a , that is not protected by ( ) ends the name of the function, ds; argument 1 is begun")
    page.go(13)
    says(page, "next", "a , that is not protected by ( ) ends argument 1 of ds: A; argument 2 is begun")
    page.go(14)
    scanned = page.script("document.getElementById('neutral').textContent")
    check(scanned == "#(ps,#(ds,A,", "a comma that was deleted stands there once: " + scanned)
    page.click("document.querySelector('#neutral .comma')")
    page.until("document.getElementById('note').textContent.startsWith('this sign is no byte any more')",
               "a click on one says what it is")
    check(page.script("document.querySelector('#neutral .gone').textContent") == ",", "and is struck")
    page.go(71)
    says(page, "last", "its value is null, which is scanned next")


def check_tokens(page: Deeds) -> None:
    """Steps by token, both ways, by keys and buttons; the idle program is explained once, and folded after that."""
    explained = "It is #(ps,#(rs)), there at the start and whenever nothing is left"
    page.type("#(ps,abc)'\n##(zz)'")
    page.run()
    page.script("document.activeElement.blur()")
    page.press("Home")
    page.at(0)
    says(page, "last", explained)
    # (the idle program; `#(` `ps` `,` `abc` `)` and its own `)`; the idle program; the line end, `##(` `zz` `)` and
    # `)`)
    steps = (8, 9, 11, 12, 15, 16, 17, 26, 27, 28, 30, 31, 32, 40)
    for step in steps:
        page.press("ArrowRight")
        page.at(step)
        if step == 8:
            says(page, "last",
                 "Just done, 8 steps: the idle program reads on: its rs gives #(ps,abc), which is scanned next")
        if step == 15:
            says(page, "last", "Just done, 3 steps: abc goes to the current text")
        if step == 17:
            says(page, "next", "Next, steps 17 to 25: the idle program reads on")
        if step == 26:
            says(page, "last", "Just done, 9 steps: the idle program reads on: its rs gives LF##(zz)")
        if step == 16:
            says(page, "next", ") of the idle program ends the function, and #(ps,empty) is performed")
        if step == 28:
            says(page, "last", "##( begins a neutral function: its value will not be scanned")
    says(page, "last", "Just done, 8 steps: the idle program waits to read on")
    for step in (*reversed(steps[:-1]), 0):
        page.script("document.getElementById('back').click()")
        page.at(step)
    page.script("document.getElementById('forward').click()")
    page.at(8)
    page.press("End")
    page.at(40)
    page.put("#(ps," + "long" * 5000 + ")'")
    page.run()
    page.go(12)
    page.script("document.activeElement.blur()")
    for key, step in (("ArrowRight", 20012), ("ArrowLeft", 12)):
        page.press(key)
        page.at(step)
    check(page.text("next").startswith("Next, steps 12 to 20,011: longlong"), "a long token: " + page.text("next")[:80])


def check_marks(page: Deeds) -> None:
    """Each mark over the slider has a name and leads to its step, by keys and by the mouse."""
    name = ("document.getElementById(document.getElementById('marks').getAttribute('aria-activedescendant'))"
            ".getAttribute('aria-label')")
    page.type(open(FACTORIAL).read())
    page.run()
    page.until("document.querySelectorAll('#marks [role=option]').length === 3", "three marks")
    page.until("document.getElementById('timeline-note').textContent === ', at most 7 at once'", "how deep it goes")
    # (of 7 begun calls 2, then 3, then 6: so many parts of the height above the floor are filled)
    heights = page.script(FILLED.format([[80, 100, 232], 276]))
    check([round(height * 7) for height in heights] == [2, 3, 6], "how many calls are begun: {}".format(heights))
    page.go(90)
    page.script("document.getElementById('marks').focus()")
    page.until(name + " === 'step 50, a form: #(ss,Factorial,X)'", "the mark before the step")
    page.press("ArrowRight")
    check(page.script(name) == "step 267: prints 0", "the next mark: " + page.script(name))
    page.press("Enter")
    page.at(267)
    says(page, "next", "printed is 0")
    page.press("Home")
    page.until(name + ".startsWith('step 23, a form: #(ds,Factorial,“#(eq,X,1,0,')", "the first mark")
    page.press(" ")
    page.at(23)
    check(page.script("document.activeElement.id") == "marks", "the focus stays")
    page.script("document.activeElement.blur()")
    page.click("document.querySelectorAll('#marks [role=option]')[1]", "document.getElementById('marks')")
    page.at(50)


def check_large_view(page: Deeds) -> None:
    """A key or a button opens the large view and closes it, and Esc leaves it; the focus comes back."""
    is_open = "document.documentElement.dataset.big === 'yes' && !document.getElementById('source').checkVisibility()"
    pressed = "document.getElementById('big').getAttribute('aria-pressed')"
    page.type("#(ps,a)'")
    page.run()
    page.script("document.getElementById('active').focus()")
    page.press("f")
    check(page.script(is_open) and page.script(pressed) == "true", "f opens the large view")
    page.press("ArrowLeft")
    page.press("Escape")
    focus = "document.activeElement.id"
    check(not page.script(is_open) and page.script(focus) == "active", "Esc leaves it")
    page.click("document.getElementById('big')")
    check(page.script(is_open), "the button opens it")
    page.press("/")
    check(not page.script(is_open) and page.script(focus) == "filter", "to search leaves it")
    page.press("Escape")
    page.go(5)
    page.script("(document.activeElement.blur(), scrollTo(0, 150))")
    before = page.script("scrollY")
    page.press("f")
    page.click("document.querySelector('#neutral [data-byte]')")
    page.until("document.getElementById('note').textContent.endsWith('it is there already; Esc shows the list')",
               "where it comes from is said")
    page.click("document.getElementById('big')")
    check(not page.script(is_open) and page.script(pressed) == "false", "the button closes it")
    page.frames()
    check(page.script("scrollY") == before, "the page stands where it stood: {}".format(page.script("scrollY")))


def check_sizes(kind: type[Deeds], file: str) -> None:
    """The large view fills windows of projectors, and nothing of it is out of view."""
    seen = ("['rules', 'tape', 'mark', 'slider', 'big', 'start', 'end', 'place'].filter((id) => {{ "
            "const box = document.getElementById(id).getBoundingClientRect(); "
            "return box.left < 0 || box.top < 0 || box.right > {0} || box.bottom > {1} || box.height < 4; }}).join()")
    fits = "document.getElementById('rules').scrollHeight <= document.getElementById('rules').clientHeight"
    for width, height in ((1024, 768), (1920, 1080)):
        with opened(kind, file, width=width, height=height) as page:
            page.type(open(FACTORIAL).read())
            page.run()
            page.until(IS_GATHERED, "the calls are listed")
            page.go(90)
            page.script("document.activeElement.blur()")
            page.press("f")
            for step in (90, 258, 131, 0):
                page.go(step)
                out = page.script(seen.format(width, height))
                check(out == "", "{} by {}, step {}: out of view: {}".format(width, height, step, out))
            check(page.script(fits), "the sentence fits")
            size = page.script("parseFloat(getComputedStyle(document.getElementById('tape')).fontSize)")
            check(size >= width / 32, "the text is large: {}".format(size))
            page.go(90)
            page.picture(os.path.join(KEPT, "large-{}.png".format(width)))
            page.well("the large view")


TRIED = (rows(check_reasons, check_protected, check_tokens, check_marks, check_large_view)
         + opening(check_sizes, where=ONE))
