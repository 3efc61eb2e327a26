"""A long program that runs: what it prints is shown meanwhile, and Stop leaves that, and the player, at the step where
it was stopped."""
from webpage.pages import Deeds, check
from webpage.rows import rows

KIB = 1024
SIZES = (300 * KIB, 2 * KIB * KIB)
# Prints without end. Each turn copies a long form: so states are large, and a step takes long.
COPYING = "#(ds,A,({}))'#(ds,L,(#(ps,x)#(ds,B,##(cl,A))#(cl,L)))'#(cl,L)'"
# The same with a long text that is never read: so states are small.
PRINTING = "#(ds,L,(#(ps,x)#(cl,L)))'#(cl,L)'#(ps,{})'"
# Presses Stop as soon as something is shown of what is printed, and keeps what was said and shown then.
STOP = """(() => {
  const said = document.getElementById('ending'), output = document.getElementById('output');
  window.atStop = null;
  const stop = new MutationObserver(() => {
    const steps = /^It runs: ([\\d,]+) steps so far/.exec(said.textContent);
    if (!steps || !/^x/.test(output.textContent)) return;
    stop.disconnect();
    window.atStop = [steps[1], document.getElementById('output-note').textContent];
    document.getElementById('stop').click();
  });
  stop.observe(document.body, { childList: true, characterData: true, subtree: true });
})()"""
ENDED = ("window.atStop !== null && document.getElementById('stop').hidden "
         "&& document.getElementById('ending').textContent === "
         "`After ${window.atStop[0]} steps: it was stopped there, and could go on.go on`")


def stopped(page: Deeds, button: str) -> None:
    """Begins a run by a button, and stops it while it prints: what was shown stays, and steps back lead on from
    there."""
    page.script(STOP)
    page.click(button)
    page.until(ENDED, "it is stopped where it was")
    steps, note = page.script("window.atStop")
    end, printed = int(steps.replace(",", "")), int(note.split()[0].replace(",", ""))
    check(note == "{:,} bytes so far".format(printed) and printed > 0, "what was shown while it ran: " + note)
    kept = page.script("[document.getElementById('slider').max, document.getElementById('slider').value]")
    check(kept == [str(end)] * 2, "the player stands at step {}: {}".format(end, kept))
    told = page.text("output-note")
    is_all = "of {:,}".format(printed) in told or page.text("output") == "x" * printed
    check(is_all, "all that was printed stays, {} bytes: {}".format(printed, told))
    page.script("document.activeElement.blur()")
    page.press("b")
    page.at(end - 1, "a step back goes")


def check_large(page: Deeds) -> None:
    """A program that copies a form of 300 KiB, or of 2 MiB."""
    for size in SIZES:
        page.put(COPYING.format("a" * size))
        stopped(page, "document.getElementById('run')")


def check_long(page: Deeds) -> None:
    """A program of as many bytes that goes on after 2,000,000 steps: what the run before came to is no less."""
    for size in SIZES:
        page.put(PRINTING.format("a" * size))
        page.run()
        before = int(page.script("document.getElementById('slider').max"))
        check(before == 2_000_000, "so many steps: {}".format(before))
        stopped(page, "document.querySelector('#ending button')")
        after = int(page.script("document.getElementById('slider').max"))
        check(before < after < 2 * before, "it is stopped on its way: {}".format(after))


def check_once_more(page: Deeds) -> None:
    """A Stop before more is known leaves the run that goes on."""
    page.put(PRINTING.format("a" * SIZES[0]))
    page.run()
    page.script("(document.querySelector('#ending button').click(), document.getElementById('stop').click())")
    page.until("document.getElementById('stop').hidden", "it is stopped")
    said = "The run was stopped. The run before is shown. After 2,000,000 steps: it was stopped there, and could go on."
    check(page.text("ending").startswith(said), "what is said of it: " + page.text("ending"))


TRIED = rows(check_large, check_long, check_once_more, seconds=10)
