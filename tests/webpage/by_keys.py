"""The page by keys alone: the order of the focus, every control, the tree of calls, keys that are switched off, and a
focus that stays where it is."""
import os

from webpage.pages import FACTORIAL, IS_FOLLOWED, IS_GATHERED, TOP, Deeds, check
from webpage.rows import rows

ENDLESS = os.path.join(TOP, "programs", "examples", "endless.trac")
# A program that takes long.
SLOW = ("#(ds,A,0123456789abcdef)'#(ds,D,(#(ds,A,##(cl,A)##(cl,A))))'" + "#(cl,D)" * 15
        + "#(ds,L,(#(ds,B,##(cl,A)##(cl,A))#(cl,L)))'"
        "#(cl,L)'")

# What has the focus: its id, or what it is called and where it stands.
FOCUS = ("(() => { const it = document.activeElement; const within = it.closest('[id]'); "
         "return it === document.body ? '' : it.id || "
         "`${within.id}: ${it.getAttribute('aria-label') ?? it.textContent}`; })()")
# Every stop of the Tab key that can be seen, in the order of the page; controls that stand side by side are one where
# the browser says so.
STOPS = ("[...document.querySelectorAll('button, select, input, textarea, [tabindex]')]"
         ".filter((it) => it.checkVisibility() && it.tabIndex >= 0 "
         "&& !it.disabled && it.type !== 'file').map((it) => it.id "
         "|| `${it.closest('[id]').id}: ${it.getAttribute('aria-label') ?? it.textContent}`)")
STEP = "document.getElementById('slider').value"
IN_WAY = "document.activeElement.closest('.way-row') !== null"
CHOSEN = "document.getElementById(document.getElementById('tree').getAttribute('aria-activedescendant'))"


def focus(page: Deeds, name: str) -> None:
    """Gives the focus to what has an id, as Tab would."""
    page.script("document.getElementById('{}').focus()".format(name))


def start(page: Deeds) -> None:
    """Has the wrong factorial run, its calls listed, and where its 0 comes from; all of that by keys."""
    focus(page, "source")
    page.script("document.getElementById('source').select()")
    page.insert(open(FACTORIAL).read())
    page.press("Enter", control=True)
    page.until("document.activeElement.id === 'output'", "the output has the focus")
    page.until(IS_GATHERED, "the calls are listed")
    page.press("Enter")
    page.until(IS_FOLLOWED, "where the 0 comes from")
    page.until(IN_WAY, "where it comes from has the focus")


def check_order(page: Deeds) -> None:
    """Tab goes over every control in the order in which the page is read; the tree of calls is one stop, and so are the
    tabs."""
    page.tab("tree")
    page.script("document.getElementById('help-button').getAttribute('aria-expanded') === 'true' "
                "|| document.getElementById('help-button').click()")
    wanted = page.script(STOPS)
    page.script("(document.activeElement.blur(), getSelection().removeAllRanges(), "
                "document.querySelector('h1').tabIndex = -1, "
                "document.querySelector('h1').focus())")
    seen: list[str] = []
    for _ in range(len(wanted)):
        # (the program takes Tab, unless Esc came before; here that would close the help, too)
        if seen[-1:] == ["source"]:
            page.script("document.getElementById('source')"
                        ".dispatchEvent(new KeyboardEvent('keydown', { key: 'Escape' }))")
        page.press("Tab")
        seen.append(page.script(FOCUS))
    page.script("document.querySelector('h1').removeAttribute('tabindex')")
    check(seen == wanted,
          "the order of the focus: {}".format([pair for pair in zip(seen, wanted) if pair[0] != pair[1]][:3]))
    check(sum(name == "tree" for name in seen) == 1, "the tree is one stop: {}".format(seen))
    check(sum(name.startswith("tab-") for name in seen) == 1, "the tabs are one stop: {}".format(seen))
    places = page.script("[...document.querySelectorAll('header, #help, #program-section, #result, #rules, #tape, "
                         "#timeline, #buttons, #tabs')]"
                         ".map((it) => it.compareDocumentPosition(document.getElementById('tabs')))")
    check(all(place & 4 or place == 0 for place in places), "the tabs are read last: {}".format(places))
    page.script("document.getElementById('help-button').click()")


def check_buttons(page: Deeds) -> None:
    """Each button of the player by Enter, the slider by arrows, the number of a step by typing."""
    for name, unit, before, after in (
        ("start", "token", 100, 0), ("end", "token", 100, 276), ("back", "byte", 78, 77), ("forward", "byte", 77, 78),
        ("forward", "token", 0, 8), ("back", "token", 138, 137), ("forward", "call", 0, 23), ("back", "call", 265, 263),
        ("over", "token", 77, 267), ("over-back", "token", 263, 138), ("out", "token", 138, 263),
        ("begin", "token", 263, 132),
    ):
        page.go(before)
        focus(page, unit)
        page.press("Enter")
        check(page.script("document.getElementById('{}').getAttribute('aria-pressed')".format(unit)) == "true",
              "the switch: " + unit)
        focus(page, name)
        page.press("Enter")
        page.at(after, "the button {} from {}".format(name, before))
        check(page.script(FOCUS) == name, "{} has the focus still, not {}".format(name, page.script(FOCUS)))
    focus(page, "slider")
    page.press("ArrowRight")
    page.at(133, "an arrow on the slider")
    focus(page, "place")
    page.script("document.getElementById('place').select()")
    page.insert("50")
    page.press("Enter")
    page.at(50, "a number that is typed")
    page.press("Escape")


def check_playing(page: Deeds) -> None:
    """The player's button by Enter, in a run that plays for minutes."""
    again(page, "#(ad,1,1)" * 300 + "'")
    page.go(0)
    focus(page, "play")
    page.press("Enter")
    page.until("Number({}) > 2".format(STEP), "it plays")
    name = "document.getElementById('play').getAttribute('aria-label')"
    check(page.script(name) == "pause", "the name of the button while it plays: " + page.script(name))
    page.press("Enter")
    check(page.text("play") == "play" and page.script(name) == "play", "it pauses: " + page.script(name))


def check_others(page: Deeds) -> None:
    """A step on the way of a byte, the other looks, a program of the list, a doubt, and earlier output."""
    page.tab("way")
    page.script("document.querySelector('#way-list [data-go]').focus()")
    page.press("Enter")
    page.at(267, "a call on the way")
    focus(page, "theme")
    for looks in ("dark", "light"):
        page.press("Enter")
        page.until("document.documentElement.dataset.theme === '{}'".format(looks), "the looks are " + looks)
    focus(page, "library")
    name = page.text("program-name")
    page.press("H")
    check(page.text("program-name") == name,
          "going through a closed list opens nothing yet: " + page.text("program-name"))
    page.press("Enter")
    page.until("document.getElementById('program-name').textContent === 'first.trac'", "first.trac is opened")
    again(page, "#(pr,a)#(ps,({}))'".format("long " * 2000))
    page.until("document.querySelector('#doubts button') !== null", "a doubt is listed")
    page.tab("doubts")
    page.script("document.querySelector('#doubts button').focus()")
    page.press("Enter")
    page.at(13, "a doubt")
    page.press("End")
    page.until("document.getElementById('output-note').textContent.startsWith('bytes 1,809 to 10,000')",
               "the end of the output")
    page.script("document.querySelector('#output button').focus()")
    page.press("Enter")
    page.until("document.getElementById('output-note').textContent.startsWith('bytes 1 to 1,808')", "earlier output")
    check("output" in page.script(FOCUS), "earlier output keeps the focus: {}".format(page.script(FOCUS)))
    again(page, open(FACTORIAL).read())
    page.until(IS_GATHERED, "the calls are listed")


def again(page: Deeds, text: str) -> None:
    """Types another program, and runs it."""
    focus(page, "source")
    page.script("document.getElementById('source').select()")
    page.insert(text)
    page.press("Enter", control=True)
    page.until("document.activeElement.id === 'output' "
               "&& /^(Done|A)/.test(document.getElementById('ending').textContent)", "it is run")


def check_texts(page: Deeds) -> None:
    """Signs of each text that the page shows are chosen by arrows and followed by Enter."""
    page.go(90)
    for name, keys in (("neutral", 1), ("active", 3), ("begun", 1), ("rules", 6), ("output", 0)):
        if name == "output":
            page.go(276)
        page.script("document.getElementById('way-list').replaceChildren()")
        page.tab("begun")
        focus(page, name)
        page.press("ArrowRight", max(keys, 1))
        check(page.text("note").startswith("byte "), "the chosen sign of {}: {}".format(name, page.text("note")))
        page.press("Enter")
        page.until(IN_WAY, "a sign of {} is followed".format(name))
    page.tab("forms")
    page.script("document.querySelector('#forms [data-place]').focus()")
    page.press("ArrowLeft")
    page.press("Enter")
    page.until(IN_WAY, "a sign of a form is followed")
    page.tab("forms")
    page.script("document.querySelector('#forms [data-who]').focus()")
    page.press("Enter")
    page.at(50, "who changed the form")


def check_focus_stays(page: Deeds) -> None:
    """What has the focus has it after a step: it is there, or what stands in its place is."""
    page.go(100)
    stops = page.script("[...document.querySelectorAll('#player [tabindex], #player button, #panels [tabindex], "
                        "#panels button')]"
                        ".filter((it) => it.checkVisibility()).length")
    dropped = []
    page.tab("forms")
    for index in range(stops):
        page.script("[...document.querySelectorAll('#player [tabindex], #player button, #panels [tabindex], "
                    "#panels button')]"
                    ".filter((it) => it.checkVisibility())[{}]?.focus()".format(index))
        held = page.script(FOCUS)
        for step in (101, 99, 276, 100):
            page.go(step)
        if page.script(FOCUS) != held:
            dropped.append((held, page.script(FOCUS)))
    page.script("document.querySelector('#forms [data-place]').focus()")
    page.go(0)
    check(page.script(FOCUS) == "active",
          "a form that is not there any more leaves the focus to the text: " + page.script(FOCUS))
    check(stops > 15 and not dropped, "the focus was dropped by a step: {}".format(dropped))


def check_tree(page: Deeds) -> None:
    """Arrows, Home, End and letters within the tree; places among the calls of the same call; a focus that scrolling
    keeps."""
    page.go(90)
    page.tab("tree")
    page.script("document.getElementById('filter').focus()")
    page.press("Tab")
    check(page.script(FOCUS) == "tree", "the tree has the focus: " + page.script(FOCUS))
    number = CHOSEN + ".querySelector('.number').textContent"
    for key, step in (("Home", "23"), ("ArrowDown", "50"), ("ArrowUp", "23"), ("m", "265"), ("ArrowRight", "119"),
                      ("ArrowRight", "117"), ("ArrowLeft", "119"), ("ArrowLeft", "119"), ("ArrowDown", "131"),
                      ("ArrowLeft", "265"), ("End", "257")):
        page.press(key)
        shown = page.script(number)
        check(shown == step, "{} chooses the call at {}, not {}".format(key, step, shown))
    wanted = ["role", "aria-level", "aria-posinset", "aria-setsize"]
    # (beside it stand the calls of ds, ss, cl and eq; within it those of cl, which is folded, eq and ml)
    page.press("Home")
    page.press("m")
    said = page.script("{}.map((name) => {}.getAttribute(name))".format(wanted, CHOSEN))
    check(said == ["treeitem", "1", "5", "5"], "what is told of the call at 265: {}".format(said))
    page.press("ArrowRight")
    said = page.script("[...{}, 'aria-expanded'].map((name) => {}.getAttribute(name))".format(wanted, CHOSEN))
    check(said == ["treeitem", "2", "1", "3", "false"], "what is told of the call at 119: {}".format(said))
    page.press("Enter")
    page.at(119, "Enter in the tree")
    check(page.script(FOCUS) == "tree", "the tree has the focus after that: " + page.script(FOCUS))
    page.script("document.getElementById('tree').scrollTop = 100000")
    page.frames()
    check(page.script(FOCUS) == "tree" and page.script(number) == "119",
          "scrolling keeps the focus and the chosen call")
    page.press("Home")


def check_switch(page: Deeds) -> None:
    """Keys of one sign can be switched off, from the help, by keys; the others go on."""
    page.go(100)
    page.script("document.activeElement.blur()")
    page.press("s")
    page.at(101, "s")
    page.press("?", shift=True)
    page.until("!document.getElementById('help').hidden", "the help is there")
    focus(page, "single-keys")
    page.press(" ")
    check(not page.script("document.getElementById('single-keys').checked"), "the switch is off")
    page.script("document.activeElement.blur()")
    for key in "sbnNoOruywdDmgih? /":
        page.press(key)
    check(page.script(STEP) == "101", "no key of one sign is a step: " + page.script(STEP))
    page.press("Home")
    page.at(0, "Home, while they are off")
    check(page.text("play") == "play" and page.script(FOCUS) == "",
          "no key of one sign did anything: " + page.script(FOCUS))
    focus(page, "single-keys")
    page.press(" ")
    page.press("Escape")
    page.until("document.getElementById('help').hidden", "Escape closes the help")
    page.script("document.activeElement.blur()")
    page.press("s")
    page.at(8, "s, after they are on again")


def check_input(page: Deeds) -> None:
    """A dialogue by keys: a line, the question whether another may take its place, and the end of input."""
    focus(page, "source")
    page.script("document.getElementById('source').select()")
    page.insert("#(ps,(Who? ))#(ps,Hello ##(rs))'")
    focus(page, "run")
    page.press("Enter")
    page.until("document.getElementById('ending').textContent.includes('waits for input')", "it waits")
    focus(page, "input")
    page.insert("Ann'")
    page.press("Enter")
    page.until("document.getElementById('output').textContent.endsWith('Hello Ann')", "it reads a line")
    page.go(20)
    focus(page, "input")
    page.insert("Bob'")
    page.press("Enter")
    page.until("document.getElementById('question').open", "it asks")
    page.press("Escape")
    page.until("!document.getElementById('question').open && document.activeElement.id === 'input'",
               "Escape is no, and the focus is back")
    page.press("Escape")
    page.press("End")
    page.at(page.script("document.getElementById('slider').max"), "End")
    page.script("document.querySelector('#ending button').focus()")
    page.press("Enter")
    page.until(FOCUS + " === 'input'", "more may be typed")
    focus(page, "end-input")
    page.press("Enter")
    page.until("document.getElementById('ending').textContent.includes('the input has ended')", "the input ends")
    page.until(FOCUS + " === 'output'", "the output has the focus then")


def check_comes_back(page: Deeds) -> None:
    """The focus goes to the help and comes back; it stays where a way is shown anew, at `go on`, and where Escape stops
    a run."""
    again(page, open(FACTORIAL).read())
    page.go(100)
    focus(page, "rules")
    page.press("?", shift=True)
    check(page.script(FOCUS) == "help", "the help has the focus: " + page.script(FOCUS))
    page.press("Tab")
    check(page.script(FOCUS) == "help-close", "its button is next: " + page.script(FOCUS))
    page.press("?", shift=True)
    check(page.script(FOCUS) == "rules", "the focus comes back: " + page.script(FOCUS))
    is_said = "document.getElementById('said').textContent.includes('Where it comes from: ')"
    page.press("y")
    page.until(is_said, "the name of a call is followed, and that is said")
    page.script("(document.getElementById('said').replaceChildren(), "
                "document.querySelector('#way-list [data-go]').focus())")
    page.press("y")
    page.until(is_said, "it is followed again")
    check(page.script(FOCUS) != "", "a way that is shown anew keeps the focus")
    again(page, open(ENDLESS).read())
    page.press("Tab")
    page.press("Enter")
    page.until("document.getElementById('ending').textContent.startsWith('After 4,000,000 steps')", "it goes on")
    page.until(FOCUS + " === 'ending: go on'", "`go on` has the focus still")
    focus(page, "source")
    page.script("document.getElementById('source').select()")
    page.insert(SLOW)
    page.press("Enter", control=True)
    page.until("!document.getElementById('stop').hidden", "it runs")
    page.press("Escape")
    page.until("document.getElementById('note').textContent === 'stopped'", "Escape stops it")
    page.until(FOCUS + " === 'output'", "the output has the focus then")


TRIED = rows(check_order, check_others, check_buttons, check_texts, check_focus_stays, check_tree, check_switch,
             check_playing, check_input, check_comes_back, before=start)
