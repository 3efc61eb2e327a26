"""Much of what the page shows: 72,000 calls in the tree, a step with 1,000 begun calls, one with 20,000 arguments, and
programs of many parts in a line and of 40,000 lines."""
from webpage import names
from webpage.pages import Deeds, check
from webpage.rows import CHROMIUM, rows

# A form that calls itself: 3 calls at each turn, of cl, su and eq; before that ds, ss and a first cl, and at last eq.
TURNS = "#(ds,L,(#(eq,N,0,,(#(cl,L,#(su,N,1))))))'#(ss,L,N)'#(cl,L,{})'"
NUMBER = ("document.getElementById(document.getElementById('tree').getAttribute('aria-activedescendant'))"
          ".querySelector('.number').textContent")
# Counts how often a text is asked for its length, as where a place in painted text is looked for.
ASKED = """(() => {
  const length = Object.getOwnPropertyDescriptor(CharacterData.prototype, 'length');
  window.asked = 0;
  Object.defineProperty(CharacterData.prototype, 'length', {
    ...length,
    get() {
      window.asked++;
      return length.get.call(this);
    },
  });
})()"""
# Counts how many lines come and go in the painted text, and how many signs are painted.
PAINTED = """(() => {
  const paint = document.getElementById('paint');
  window.lines = window.signs = 0;
  window.watch?.disconnect();
  window.watch = new MutationObserver((changes) => {
    for (const { target, addedNodes, removedNodes } of changes) {
      if (target === paint) window.lines += addedNodes.length + removedNodes.length;
      for (const node of addedNodes) window.signs += node.textContent.length;
    }
  });
  window.watch.observe(paint, { childList: true, subtree: true });
})()"""


def check_calls(page: Deeds) -> None:
    """72,000 calls: those that can be seen are rows, and keys reach the first and the last."""
    page.put(TURNS.format(24000))
    page.run()
    page.until("document.getElementById('tree-count').textContent === '72,004'", "72,004 calls are listed")
    page.tab("tree")
    page.script("document.getElementById('filter').focus()")
    page.press("Tab")
    page.press("End")
    last = page.script(NUMBER).replace(",", "")
    page.press("Enter")
    page.at(last, "Enter goes to the last call")
    said = page.script("['aria-posinset', 'aria-setsize']"
                       ".map((name) => document.querySelector('.row.chosen').getAttribute(name))")
    check(said[0] == said[1], "it is the last of those beside it: {}".format(said))
    page.press("Home")
    check(page.script(NUMBER) == "15", "the first call: " + page.script(NUMBER))
    check(page.script("document.querySelectorAll('#tree .row').length") < 60, "only rows that can be seen are made")
    page.script("document.getElementById('tree').scrollTop = 1e7")
    page.frames()
    check(page.script("document.activeElement.id") == "tree" and page.script(NUMBER) == "15",
          "scrolling keeps the focus and the chosen call")


def check_begun(page: Deeds) -> None:
    """A step of 1,000 begun calls: the innermost are shown, how many there are is told, and the text beside the mark is
    there."""
    page.put("#(ps," * 1000 + "deep" + ")" * 1000 + "'")
    page.run()
    # (the text is read at step 8; each call begins in 4 steps; then come the 4 letters)
    page.go(8 + 1000 * 4 + 4)
    # (the idle program's call is begun, too)
    check(page.text("begun-count").startswith("1,001"), "how many calls are begun: " + page.text("begun-count"))
    check(page.script("document.querySelectorAll('#begun .box').length") <= 20, "the innermost are shown")
    check(page.script("document.getElementById('neutral').textContent").endswith("deep"), "the text before the mark")
    nameless = names.nameless(page)
    check(nameless == [], "without names, with many begun calls: {}".format(nameless))
    page.tab("begun")
    page.script("document.getElementById('begun').focus()")
    page.press("ArrowRight")
    check(page.text("note").startswith("byte 4: p"), "the innermost sign is chosen first: " + page.text("note"))
    page.press("b")
    page.at(4011, "a step back")
    check(page.script("document.activeElement.id") == "begun", "the focus stays")


def check_arguments(page: Deeds) -> None:
    """A call with 20,000 arguments, as it is begun and as it is performed: 200 of each side are shown. (A page that
    showed all was at work for many minutes.)"""
    page.put("#(ps" + ",x" * 20000 + ")'")
    page.run()
    # (the text is read at step 8; then come `#(`, two letters, and a comma and a letter for each argument)
    page.go(8 + 3 + 2 * 20000)
    count = "document.querySelectorAll('{} [data-place^=\"argument 1 \"]').length"
    shown = page.script(count.format("#begun"))
    check(shown == 400, "so many are shown: {}".format(shown))
    check("more arguments" in page.text("begun") and "19,601" in page.text("begun"), "and how many more there are")
    last = count.format("#begun").replace("^=\"argument 1 ", "=\"argument 1 20000")
    check(page.script(last) == 1, "the last one has its number")
    check(page.script("document.getElementById('neutral').textContent").endswith(",x,x"), "the text before the mark")
    page.press("s")
    page.at(40012, "the call is performed")
    check("19,601 more arguments" in page.text("last"), "how many more it had: " + page.text("last")[-200:])


def check_parts(page: Deeds) -> None:
    """1,000 doubts in a line of 42,000 painted parts are marked, and the line is not gone over for each."""
    page.put("0 " * 20000 + "#(xx)" * 1000 + "'")
    parts = page.script("document.querySelectorAll('#paint span').length")
    check(parts > 42000, "so many parts are painted: {}".format(parts))
    page.script(ASKED)
    page.run()
    page.until("document.querySelector('#tab-doubts .count')?.textContent === '1,000'", "1,000 doubts are listed")
    marked = page.script("CSS.highlights.get('doubtful').size")
    check(marked == 1000, "so many are marked: {}".format(marked))
    asked = page.script("window.asked")
    check(asked < 200000, "texts are asked for their lengths {:,} times".format(asked))


def check_typed_lines(page: Deeds) -> None:
    """40,000 lines are painted without a number for each, whether they are short or long. A sign or a line that is
    typed there has at most some lines painted anew, with colours and without, and the others neither come nor go."""
    painted, value = "document.getElementById('paint').textContent", "document.getElementById('source').value"
    for line, count in ("", 40000), ("#(ps,a)", 40000), ("#(ps,a)", 8000):
        page.put((line + "\n") * count)
        # (without colours the line after the last line end has a line end, too)
        more = int(count == 40000)
        page.until("{}.length === {}".format(painted, count * (len(line) + 1) + more), "the lines are painted")
        elements = page.script("document.querySelectorAll('#paint .line').length")
        check(elements < 1000 if more else elements == count + 1,
              "{} lines are painted in {} elements".format(count, elements))
        for keys in ["x"], ["Enter"], ["Enter", "y", "Enter"]:
            page.script(PAINTED)
            page.script("(() => {{ const box = document.getElementById('source'); box.focus(); "
                        "box.setSelectionRange({0}, {0}); }})()".format(count // 2 * (len(line) + 1)))
            for key in keys:
                page.press(key)
            page.until("{}.length === {}.length + {}".format(painted, value, more), "it is painted")
            check(page.script("{}.startsWith({})".format(painted, value)), "all of it is painted")
            lines, signs = page.script("[window.lines, window.signs]")
            check(lines <= 2 and signs <= 2000,
                  "of {} {} lines come and go, and {} signs are painted".format(keys, lines, signs))


TRIED = rows(check_calls, check_begun, check_arguments, check_parts, check_typed_lines, where=CHROMIUM)
