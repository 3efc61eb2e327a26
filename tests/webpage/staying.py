"""What stays on the page: after a run that came to no end, after an edit, and where other input is given at an earlier
step."""
from __future__ import annotations

from webpage.pages import Deeds, check
from webpage.rows import rows

# A program that never ends, and one that does not if its input is x.
NO_END = "#(ps,(wxyz))'#(ds,L,(#(cl,L)))'#(cl,L)'"
PERHAPS = "#(ds,L,(#(cl,L)))'#(ps,go)#(eq,##(rs),x,(#(cl,L)),(#(ps,ne)))'"
WAITED = "After 40 steps: the program waits for input."
# The places of the bytes of the program that are lit, with their signs.
LIT = ("[...CSS.highlights.get('read') ?? []].map((range) => { const front = document.createRange(); "
       "front.setStart(document.getElementById('paint'), 0); front.setEnd(range.startContainer, range.startOffset); "
       "return [front.toString().length, range.toString()].join(); }).join(' ')")
COUNT = "document.getElementById('tree-count').textContent"
NO_FORM = "document.getElementById('input-form').hidden"
HAS_RUN = "document.getElementById('stop').hidden && document.getElementById('ending').textContent.startsWith('{}')"


def give(page: Deeds, line: str, question: str | None = None) -> None:
    """Types a line of input; it may be asked first, and the answer is yes."""
    page.script("document.getElementById('input').focus()")
    page.insert(line)
    page.press("Enter")
    answer(page, question)


def answer(page: Deeds, question: str | None) -> None:
    """Answers a question by yes, if there is one."""
    if question:
        page.until("document.getElementById('question').open", "it asks")
        check(page.text("question-text") == question, "the question: " + page.text("question-text"))
        page.click("document.getElementById('question-yes')")


def follow(page: Deeds, sign: str, place: str) -> None:
    """Clicks a sign of the output, in the middle of it, and waits until it is told where that was read."""
    page.script("document.getElementById('output').scrollIntoView({ block: 'nearest' })")
    page.frames()
    page.click_at(*page.script("""(() => {{
      const text = document.querySelector('#output [data-byte]').firstChild;
      const range = document.createRange();
      range.setStart(text, text.data.indexOf('{0}'));
      range.setEnd(text, text.data.indexOf('{0}') + 1);
      const box = range.getBoundingClientRect();
      return [box.x + box.width / 2, box.y + box.height / 2];
    }})()""".format(sign)))
    page.until("document.getElementById('way-list').textContent.endsWith('reads it: {}')".format(place),
               "the way of " + sign)


def check_stopped(page: Deeds) -> None:
    """Where another program is stopped before anything is known of it, the run before stays, and says so."""
    page.type("#(ps,ABC)#(pr)'")
    page.run()
    page.until("document.querySelectorAll('#doubts .doubt').length === 1", "all is listed")
    page.put(NO_END)
    page.script("(document.getElementById('run').click(), document.getElementById('stop').click())")
    page.until("document.getElementById('output').textContent === 'ABC'", "what the run before printed stays")
    check(page.text("ending").startswith("The run was stopped. The run before is shown. "),
          "what is said of it: " + page.text("ending"))
    check(page.text("program-note") == "changed since the run", "its program is another: " + page.text("program-note"))
    page.type("#(ps,again)'")
    page.run()
    check(page.text("output") == "again", "the page goes on: " + page.text("output"))


def check_before(page: Deeds) -> None:
    """Where a line of input leads to no end, the run before stays, and is asked over its own input. The line is in its
    box again."""
    page.type(PERHAPS)
    page.run()
    check(page.text("ending") == WAITED, "it waits: " + page.text("ending"))
    # (before anything is known of the new run)
    page.script("""(() => {
      const button = document.getElementById('stop');
      const stop = new MutationObserver(() => {
        if (button.hidden) return;
        stop.disconnect();
        button.click();
      });
      stop.observe(button, { attributes: true });
    })()""")
    give(page, "x'")
    page.until("document.getElementById('ending').textContent.startsWith('The run was stopped')", "it is stopped")
    check(page.text("ending") == "The run was stopped. Not taken: x'. The run before is shown. " + WAITED,
          "it is stopped: " + page.text("ending"))
    check(page.text("output") == "go" and page.script("document.getElementById('given').hidden"),
          "what stays: " + page.text("output"))
    page.until(COUNT + " === '2'", "its calls are listed")
    follow(page, "g", "line 1, column 24")
    check(page.script(LIT) == "23,g", "the byte that is lit: {}".format(page.script(LIT)))
    check(page.script("document.getElementById('input').value") == "x'", "the line is in its box")
    page.script("document.getElementById('input').value = ''")
    give(page, "y'")
    page.until("document.getElementById('output').textContent === 'gone'", "it takes another line")
    check(page.text("given") == "Input: y'LF", "what was given: " + page.text("given"))


def check_listed(page: Deeds) -> None:
    """A Stop while calls are listed does not end that."""
    page.type("#(ps,#(ad,1,2))'")
    page.script("""(() => {
      const count = document.getElementById('tree-count');
      const stop = new MutationObserver(() => {
        if (count.textContent !== 'are listed ..') return;
        stop.disconnect();
        document.getElementById('stop').click();
      });
      stop.observe(count, { childList: true });
      document.getElementById('run').click();
    })()""")
    page.until("document.getElementById('note').textContent === 'stopped'", "Stop is pressed")
    page.until(COUNT + " === '2'", "the calls are listed")
    check(page.text("output") == "3" and page.text("ending").startswith("Done after "),
          "what stays: " + page.text("ending"))


def check_edited(page: Deeds) -> None:
    """After an edit no place of the run is lit or chosen in the new text; so too while it runs."""
    page.type("#(ps,ABC)'")
    page.run()
    follow(page, "A", "line 1, column 6")
    page.script("document.getElementById('source').setSelectionRange(0, 0)")
    page.script("document.getElementById('source').focus()")
    page.insert("#(ds,Q,1)'\n")
    old = "line 1, column {} of the program as it was run"
    check(page.text("way-list").endswith(old.format(6)), "a place that is shown: " + page.text("way-list"))
    follow(page, "B", old.format(7))
    check(page.script(LIT) == "", "the byte that is lit: {}".format(page.script(LIT)))
    check(not page.script("document.querySelectorAll('#way-list .deed button').length"), "the place leads nowhere")
    page.run()
    follow(page, "B", "line 2, column 7")
    check(page.script(LIT) == "17,B", "the byte that is lit after another run: {}".format(page.script(LIT)))
    page.script("""(() => {
      const box = document.getElementById('source');
      document.getElementById('run').click();
      box.value = ` ${box.value}`;
      box.dispatchEvent(new Event('input'));
    })()""")
    page.until(HAS_RUN.format("Done after "), "the run ends")
    check(page.text("program-note") == "changed since the run", "an edit while it runs: " + page.text("program-note"))


def check_other_input(page: Deeds) -> None:
    """After a run has halted, was ended or is spent, other input is given at an earlier step; but not where none was
    read later."""
    page.type("#(ps,Hello ##(rs))#(hl)'")
    page.run()
    give(page, "Ann'")
    page.until(HAS_RUN.format("Done after 26 steps: the program halts."), "it halts")
    check(page.script(NO_FORM), "no input is taken where it halts")
    page.go(22)
    check(page.script(NO_FORM), "no input is taken after the reading")
    page.go(10)
    give(page, "Bob'", "One line of input came after step 10. Take this line in place of that?")
    page.until("document.getElementById('output').textContent === 'Hello Bob'", "it takes other input")
    check(page.text("given") == "Input: Bob'LF", "what was given: " + page.text("given"))
    page.go(10)
    page.click("document.getElementById('end-input')")
    answer(page, "One line of input came after step 10. End the input here, in place of that?")
    page.until(HAS_RUN.format("Done after 21 steps: the input has ended."), "it is ended before that line")
    check(page.script(NO_FORM), "no input is taken where it has ended")
    page.go(20)
    give(page, "Eve'", "The end of input came after step 20. Take this line in place of that?")
    page.until("document.getElementById('output').textContent === 'Hello Eve'", "it takes input in place of the end")
    page.type(PERHAPS)
    page.run()
    give(page, "x'")
    page.until(HAS_RUN.format("After 2,000,000 steps: it was stopped there"), "it is spent")
    check(page.script(NO_FORM), "no input is taken where it is spent")
    page.go(39)
    give(page, "y'", "One line of input came after step 39. Take this line in place of that?")
    page.until("document.getElementById('output').textContent === 'gone'", "it takes input in place of what has no end")
    page.type("#(ps,a)#(hl)'")
    page.run()
    for step in (0, 5, 11):
        page.go(step)
        check(page.script(NO_FORM), "no input is taken at step {} of a program that reads none".format(step))


TRIED = rows(check_stopped, check_before, check_listed, check_edited, check_other_input)
