#!/usr/bin/env python3
"""Times trac.html in Chromium: from opening to ready, a run of a million steps, and what is done over it. Prints a
table of milliseconds: the least, the median and the most of all rounds, as the page itself measures them.

    python3 bench/webpage/run.py [ROUNDS [PAGE]]

PAGE is release/trac.html if none is given. The run is programs/examples/long-way-back.trac, of 1,024,773 steps. A click
is timed until the calls on the way are shown; `move` goes out of a call, to where one begins, and to calls, and `who`
to the one that changed a form last; `tree` lists all calls of the run after a search, until they are painted; `stop`
ends the Worker of a run without end.
"""
import json
import os
import pathlib
import random
import statistics
import sys
import time

ROOT = pathlib.Path(__file__).resolve().parent.parent.parent
sys.path.insert(0, str(ROOT / "tests"))
sys.dont_write_bytecode = True
from support import browser  # noqa: E402

PROGRAM = (ROOT / "programs" / "examples" / "long-way-back.trac").read_text()
ENDLESS = (ROOT / "programs" / "examples" / "endless.trac").read_text()
GOALS = {"ready": 300, "run": 500, "step": 100, "jump": 100, "move": 100, "click": 100, "who": 100, "tree": 300,
         "stop": 200}
END = 1_024_773
READY = "new MutationObserver(() => { if (document.documentElement.dataset.ready) " \
        "window.readyAt ??= performance.now(); }).observe(document, { attributes: true, subtree: true });"
# Does something, and waits until this holds; its value is how long that took.
TIMED = """new Promise((done) => {{
  const from = performance.now();
  const watch = new MutationObserver(() => {{
    if (!({until})) return;
    watch.disconnect();
    done(performance.now() - from);
  }});
  watch.observe(document, {{ childList: true, attributes: true, characterData: true, subtree: true }});
  {does};
}})"""


# Stops a run once it is known to go on; its value is how long it takes until the Worker is ended.
STOPPED = """new Promise((done) => {
  const end = Worker.prototype.terminate, stop = document.getElementById('stop');
  let from = 0;
  Worker.prototype.terminate = function () {
    end.call(this);
    if (from) done(performance.now() - from);
  };
  document.getElementById('run').click();
  setTimeout(() => {
    from = performance.now();
    stop.click();
  }, 50);
})"""

# Ends a search of the calls, and waits until all are listed and painted; its value is how long that took.
LISTED = """new Promise((done) => {
  const box = document.getElementById('filter');
  const search = (word) => {
    box.value = word;
    box.dispatchEvent(new Event('input'));
  };
  const painted = (then) => requestAnimationFrame(() => setTimeout(then));
  search('no call has this');
  painted(() => {
    const from = performance.now();
    search('');
    painted(() => done(performance.now() - from));
  });
})"""


def timed(page, does, until):
    """How long it takes from here to there, in milliseconds."""
    said = page.call("Runtime.evaluate", expression=TIMED.format(does=does, until=until), awaitPromise=True,
                     returnByValue=True)
    return said["result"]["value"]


def go(step):
    """The script that goes to a step, and what holds then."""
    does = "const box = document.getElementById('place'); box.value = '{}'; box.dispatchEvent(new Event('change'))"
    return does.format(step), "document.getElementById('place').value === '{:,}'".format(step)


def clicked(selector):
    """The script that clicks the first byte of an element."""
    return ("(() => {{ const byte = document.querySelector('{} [data-byte]'), box = byte.getBoundingClientRect(); "
            "const place = {{ clientX: box.x + 2, clientY: box.y + box.height / 2 }}; "
            "byte.dispatchEvent(new MouseEvent('click', {{ bubbles: true, ...place }})); }})()").format(selector)


def pressed(name):
    """The script that presses a button, and what holds once it has gone somewhere."""
    moved = "document.getElementById('place').value !== window.stood"
    return "document.getElementById('{}').click()".format(name), moved


def rest(page):
    """Waits until what was begun beside is done, and notes where the cursor is."""
    time.sleep(1)
    page.script("window.stood = document.getElementById('place').value")


def one_round(file, times):
    """Opens the page once."""
    page = browser.Browser()
    try:
        page.call("Page.addScriptToEvaluateOnNewDocument", source=READY)
        page.load(str(file))
        while not page.script("window.readyAt"):
            pass
        times["ready"].append(page.script("window.readyAt"))
        page.script("document.getElementById('source').value = " + json.dumps(PROGRAM))
        times["run"].append(timed(page, "document.getElementById('run').click()",
                                  "document.getElementById('output').textContent === '24060'"))
        while not page.script("document.getElementById('tree-count').textContent[0] > '0'"):
            pass
        time.sleep(4)
        for step in random.Random(1).sample(range(1000, 1_000_000), 5):
            times["jump"].append(timed(page, *go(step)))
            for key in ("forward", "back"):
                after = step + 1 if key == "forward" else step
                times["step"].append(timed(page, "document.getElementById('{}').click()".format(key), go(after)[1]))
            rest(page)
            for name in ("out", "begin", "call-back", "call"):
                times["move"].append(timed(page, *pressed(name)))
                rest(page)
        timed(page, *go(END))
        rest(page)
        times["tree"].append(page.script(LISTED))
        for selector in ("#output", "#forms tr:nth-child(2) td", "#forms tr:last-child td"):
            page.script("document.getElementById('way-list').replaceChildren()")
            times["click"].append(timed(page, clicked(selector), "document.querySelector('#way-list .code')"))
            rest(page)
        times["who"].append(timed(page, "[...document.querySelectorAll('[data-who]')].at(-1).click()", pressed("")[1]))
        rest(page)
        page.script("document.getElementById('source').value = " + json.dumps(ENDLESS))
        times["stop"].append(page.script(STOPPED))
    finally:
        page.end()


def main():
    """The table."""
    rounds = int(sys.argv[1]) if len(sys.argv) > 1 else 5
    file = pathlib.Path(sys.argv[2] if len(sys.argv) > 2 else ROOT / "release" / "trac.html").resolve()
    times = {name: [] for name in GOALS}
    for _ in range(rounds):
        one_round(file, times)
    print("{:,} bytes".format(os.path.getsize(file)))
    for name, goal in GOALS.items():
        print("{:6} least {:6.1f}  median {:6.1f}  most {:6.1f}  goal {}".format(name, min(times[name]),
                                                                                 statistics.median(times[name]),
                                                                                 max(times[name]), goal))


if __name__ == "__main__":
    main()
