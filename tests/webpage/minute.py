"""The first minute: what is there at first, how a run ends in true words, where the focus is, and what Stop leaves."""
import os

from webpage.pages import FACTORIAL, TOP, Deeds, check
from webpage.rows import rows
from webpage.window import pick

# A program that prints on and on, and takes long.
ENDLESS = ("#(ds,A,0123456789abcdef)'#(ds,D,(#(ds,A,##(cl,A)##(cl,A))))'" + "#(cl,D)" * 11
           + "#(ds,L,(#(ps,x)#(ds,B,##(cl,A)##(cl,A))#(cl,L)))'#(cl,L)'")
FOCUS = "document.activeElement.id"
# Keeps all that is told of how many calls and doubts there are.
TOLD = """(() => {
  const told = ['#tab-tree .count', '#tab-doubts .count', '#doubts-hint'].map((it) => document.querySelector(it));
  window.told = [];
  const note = () => window.told.push(told.map((it) => it.textContent));
  new MutationObserver(note).observe(document.getElementById('panels'),
                                     { childList: true, characterData: true, subtree: true });
})()"""
HIDDEN = "document.getElementById('{}').hidden"


def lines(page: Deeds, name: str) -> int:
    """How many lines an element has."""
    count: int = page.script("(() => {{ const it = document.getElementById('{0}'); "
                             "const range = document.createRange(); "
                             "range.selectNodeContents(it); return Math.round(range.getBoundingClientRect().height / "
                             "parseFloat(getComputedStyle(it).lineHeight)); }})()".format(name))
    return count


def check_first(page: Deeds) -> None:
    """A sentence says what this is; a program is there; what to do stands where the output comes, and is gone after the
    first run."""
    check("everything is text" in page.text("what"), "what this is: " + page.text("what"))
    with open(FACTORIAL) as program:
        check(page.script("document.getElementById('source').value") == program.read(), "a program is in the editor")
    check(not page.script(HIDDEN.format("welcome")), "what to do is said")
    check(page.script("document.querySelectorAll('#tries button').length") == 4, "others are offered")
    options = page.script("[...document.getElementById('library').options].map((one) => one.text)")
    check("Eight queens: Places a queen in each row so that none attacks another, shows the first board, "
          "and counts all 92" in options,
          "programs have titles, and what they show: {}".format(options[:40]))
    page.click("document.getElementById('run')")
    page.until("document.getElementById('output').textContent === '0'", "it prints 0")
    check(page.script(HIDDEN.format("welcome")), "what to do is gone")
    page.click("document.querySelector('#output [data-byte]')")
    page.until("document.getElementById('way-list').textContent.includes('makes it')", "where the 0 comes from")
    said = page.script("document.querySelector('#welcome ol').textContent")
    check("character of the output, and then the argument" in said, "what to click is said: " + said)
    page.click("[...document.querySelectorAll('#way-list .way-row:last-child .argument')].at(-1)")
    page.until("document.getElementById('way-list').textContent.includes('reads it: line 1, column 26')",
               "the byte that is to be changed")
    check(page.script("document.getElementById('tab-way').getAttribute('aria-selected')") == "true", "its tab is seen")


def check_done(page: Deeds) -> None:
    """A program that has ended says so; it offers no box, and the idle program takes one line."""
    page.type("#(ps,a)'")
    page.run()
    check(page.text("ending").startswith("Done after 23 steps: all of the program is run."),
          "what is said: " + page.text("ending"))
    check("what you type now" not in page.script("document.body.textContent"), "nothing more is asked for")
    check(page.script(HIDDEN.format("input-form")), "there is no box for input")
    check(lines(page, "last") == 1 and lines(page, "next") == 1,
          "the end takes {} lines and {}".format(lines(page, "last"), lines(page, "next")))
    page.click("document.querySelector('#ending button')")
    page.until(FOCUS + " === 'input'", "more can be typed")
    page.insert("#(ps,b)")
    page.press("Enter")
    page.until("document.getElementById('output').textContent === 'ab'", "and is run")


def check_unended(page: Deeds) -> None:
    """A text without its end is not run; only that is said, and a button ends it."""
    page.type("print hello")
    page.run()
    check("no ' at its end" in page.text("ending"), "that it is not run: " + page.text("ending"))
    said = page.text("ending") + page.text("last") + page.text("next")
    check("all of the program is run" not in said and "Done" not in said, "nothing else is said: " + said)
    page.click("document.querySelector('#ending button')")
    page.until("document.getElementById('output').textContent === 'print hello'", "it is run with a '")
    check(page.script("document.getElementById('source').value") == "print hello'", "which stands in the program")


def check_waits(page: Deeds) -> None:
    """Where input is waited for, the box has the focus; Enter ends what is read up to a ', and says so; a byte that is
    read stays alone."""
    page.type("#(ps,(Who? ))#(ps,Hello ##(rs))'")
    page.run()
    page.until(FOCUS + " === 'input'", "the box has the focus")
    page.insert("Ann")
    page.press("Enter")
    page.until("document.getElementById('output').textContent === 'Who? Hello Ann'", "it reads Ann")
    check(page.text("given") == "Input: Ann'LF", "what was given: " + page.text("given"))
    check(page.text("note").startswith("' was put at its end"), "what is said of it: " + page.text("note"))
    page.type("#(ps,[##(rc)])'")
    page.script("document.getElementById('source').focus()")
    page.press("Enter", control=True)
    page.until(FOCUS + " === 'input'", "the box has the focus after Ctrl+Enter")
    page.insert("x")
    page.press("Enter")
    page.until("document.getElementById('output').textContent === '[x]'", "it reads a byte")
    check(page.text("given") == "Input: xLF", "what was given: " + page.text("given"))


def check_right(page: Deeds) -> None:
    """A right program that takes long is not blamed."""
    pick(page, "queens.trac")
    page.run()
    page.until("/^[\\d,]+/.test(document.getElementById('tree-count').textContent) "
               "&& document.getElementById('tree-count').textContent !== '0'", "its calls are listed")
    said = "".join(page.text(name) for name in ("ending", "last", "next", "said"))
    check("without end" not in said and "budget" not in said, "what is said of queens.trac: " + said)
    check(page.script("document.querySelector('#ending button').textContent") == "go on", "it can go on")


def check_looked_for(page: Deeds) -> None:
    """Until the calls and doubts of a long run are known, their tabs have no number, and none is denied."""
    page.put(open(os.path.join(TOP, "programs", "examples", "endless.trac")).read())
    page.script(TOLD)
    page.run()
    page.until("document.querySelector('#tab-doubts .count').textContent === '0'", "its doubts are known")
    told = page.script("window.told")
    count = page.script("document.querySelector('#tab-tree .count').textContent")
    check(len(count) > 4 and {it[0] for it in told} == {"", count}, "how many calls there are: {}".format(told[-1]))
    check({it[1] for it in told} == {"", "0"}, "how many doubts there are: {}".format(told[-1]))
    hasty = [it for it in told if it[1] == "" and "Nothing" in it[2]]
    check(hasty == [] and "looked for" in told[0][2], "what is said of doubts: {}".format((hasty or told)[0]))


def check_stopped(page: Deeds) -> None:
    """While a program runs, what it prints is shown; Stop leaves that, and the player, at the step where it was
    stopped."""
    page.type("#(ps,before)'")
    page.run()
    page.put(ENDLESS)
    page.click("document.getElementById('run')")
    page.until("/^It runs: [\\d,]+ steps so far/.test(document.getElementById('ending').textContent) "
               "&& /^x{20}/.test(document.getElementById('output').textContent)", "what it prints comes while it runs")
    page.click("document.getElementById('stop')")
    page.until("document.getElementById('ending').textContent.includes('it was stopped there')", "it is stopped")
    end = int(page.script("document.getElementById('slider').max"))
    check(end > 0 and set(page.text("output")) == {"x"}, "what stays of it: {}".format(page.text("output")[:40]))
    check(not page.script(HIDDEN.format("player")), "the player stays")
    page.until("document.getElementById('repeats').textContent.includes('#(cl,L ..)')",
               "which calls come again and again")
    page.unit("byte")
    for step in (end - 1, end - 2):
        page.click("document.getElementById('back')")
        page.at(step, "a step back goes")
    page.unit("token")


TRIED = rows(check_first, check_done, check_unended, check_waits, check_right, check_looked_for, check_stopped)
