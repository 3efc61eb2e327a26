"""What is kept: each program that someone types on, in an entry of its own, over reloads, the opening of others, other
tabs, and what older versions have kept; its name and the looks."""
from __future__ import annotations

import json
import os
import tempfile

from webpage.pages import Deeds, check, ready
from webpage.rows import file_of, rows
from webpage.share import body, link
from webpage.tabs import close, new_tab, tab_of, turn
from webpage.window import pick

VALUE = "document.getElementById('source').value"
NAME = "document.getElementById('program-name').textContent"
PAPER = "getComputedStyle(document.body).backgroundColor"
UNDO = "document.getElementById('undo')"
NOTE = "document.getElementById('kept-note').textContent"
QUESTION = "document.getElementById('question').open"

# The entries, as texts; whether one has a text; and whether the browser is asked before the page is left.
ENTRIES = "Object.keys(localStorage).filter((key) => key.startsWith('trac.work.')).map((key) => localStorage[key])"
IS_KEPT = ENTRIES + ".some((one) => JSON.parse(one).text.includes('{}'))"
TEXTS = (ENTRIES + ".map((one) => JSON.parse(one)).filter(({ isReplaced }) => !isReplaced)"
         ".map(({ text }) => text).sort()")
ASKS = """(() => {
  const event = new Event('beforeunload', { cancelable: true });
  dispatchEvent(event);
  return event.defaultPrevented;
})()"""
# Leaves no room for what is kept, or makes room again.
FULL = """(() => {
  for (let count = 0, size = 1 << 20; size > 0;) {
    try {
      localStorage.setItem(`full${count++}`, 'x'.repeat(size));
    } catch {
      size >>= 1;
    }
  }
})()"""
ROOM = "Object.keys(localStorage).forEach((key) => key.startsWith('full') && localStorage.removeItem(key))"
# The places of the choices in the list of programs that have some words.
CHOICES = """((words) => [...document.getElementById('library').options]
  .flatMap((one, at) => one.text.includes(words) ? [at] : []))({})"""
CHOSEN = "document.getElementById('library').selectedOptions[0].text"
# Asks twice, and takes long after each answer.
ASKING = ("#(ds,L,(#(eq,N,0,,(#(cl,L,#(su,N,1))))))'#(ss,L,N)'#(ps,(a? ))#(ds,A,##(rs))#(cl,L,20000)"
          "#(ps,(b? ))#(ds,B,##(rs))#(cl,L,20000)#(ps,(a=))#(ps,##(cl,A))#(ps,( b=))#(ps,##(cl,B))'")
ENDED = "document.getElementById('stop').hidden && document.getElementById('output').textContent.includes('{}')"
LONG = ("#(ps,({}))'\n".format("x" * 1000)) * 1100


def typed(page: Deeds, text: str) -> None:
    """Types a program in place of what is there, and waits until it is kept."""
    page.type("#(ps,{})'".format(text))
    page.until(IS_KEPT.format(text), "{} is kept".format(text))


def choices(page: Deeds, words: str) -> list[int]:
    """The places of choices, as the list has them when it gets the focus."""
    page.script("(document.getElementById('source').focus(), document.getElementById('library').focus())")
    places: list[int] = page.script(CHOICES.format(json.dumps(words)))
    return places


def choose(page: Deeds, words: str) -> None:
    """Takes the first choice that has some words, by keys."""
    places = choices(page, words)
    check(places, "the list has {}".format(words))
    page.press("ArrowDown", places[0])
    check(words in page.script(CHOSEN), "chosen is {}: {}".format(words, page.script(CHOSEN)))
    page.press("Enter")


def go_on(page: Deeds, text: str) -> None:
    """Goes on with one's own program that has a text."""
    choose(page, "#(ps,{}".format(text))
    page.until(VALUE + ".includes('{}')".format(text), "{} is there".format(text))


def again(page: Deeds) -> None:
    """Loads the page again, as a person does."""
    page.script("(document.documentElement.dataset.old = 'yes', setTimeout(() => location.reload()))")
    page.comes("document.documentElement.dataset.old === undefined", "it is loaded again")
    ready(page)


def check_draft(page: Deeds) -> None:
    """A reload keeps what was typed, with its name, and the looks."""
    pick(page, "hello.trac")
    page.script("(() => { const box = document.getElementById('source'); "
                "box.focus(); box.setSelectionRange(0, 0); })()")
    page.insert("mine ")
    before = page.script(PAPER)
    page.script("document.getElementById('theme').click()")
    paper = page.script(PAPER)
    check(before != paper, "the other looks have another paper: {}".format(paper))
    looks = page.script("document.documentElement.dataset.theme")
    text = page.script(VALUE)
    again(page)
    check(text.startswith("mine ") and page.script(VALUE) == text, "what was typed: " + page.script(VALUE)[:40])
    check(page.script(NAME) == "hello.trac", "its name: " + page.script(NAME))
    check(page.script("document.documentElement.dataset.theme") == looks, "the looks: {}".format(looks))
    check(page.script(PAPER) == paper, "the paper: {}".format(page.script(PAPER)))
    page.script("document.getElementById('theme').click()")
    check(page.script(PAPER) == before, "the looks before: {}".format(page.script(PAPER)))


def check_opened(page: Deeds) -> None:
    """What was only opened is there after a reload, and no entry."""
    pick(page, "hello.trac")
    text = page.script(VALUE)
    again(page)
    check(page.script(VALUE) == text and page.script(NAME) == "hello.trac", "it is there: " + page.script(NAME))
    check(page.script(ENTRIES) == [], "it is no entry: {}".format(page.script(ENTRIES)))
    check(not page.script(ASKS) and page.script(UNDO + ".hidden"), "it is left")


def check_brought_back(page: Deeds) -> None:
    """What was brought back, and gave way to a third program, can be had again: it is in the list, and asks nothing."""
    typed(page, "one")
    pick(page, "hello.trac")
    typed(page, "two")
    pick(page, "guess.trac")
    for text in "two", "one":
        page.click(UNDO)
        page.until(VALUE + ".includes('{}')".format(text), "{} is back".format(text))
    pick(page, "hanoi.trac")
    check(not page.script(ASKS), "all is kept")
    for text in "two", "one":
        go_on(page, text)
        check(page.script(VALUE) == "#(ps,{})'".format(text), "as it was typed: " + page.script(VALUE))
    check(page.script(ENTRIES + ".length") == 2, "each once: {}".format(page.script(ENTRIES)))


def check_large_files(page: Deeds) -> None:
    """Large files that were only opened drive out no program that was typed."""
    typed(page, "mine")
    with tempfile.TemporaryDirectory() as room:
        for name in "one.trac", "two.trac":
            path = os.path.join(room, name)
            with open(path, "wb") as file:
                file.write(b"\xff" * 17_000_000)
            page.choose_file("#file", path)
            page.until(NAME + ".startsWith('{}')".format(name), name + " is opened")
    pick(page, "hello.trac")
    names = []
    while not page.script(UNDO + ".hidden"):
        page.click(UNDO)
        names.append(page.script(NAME))
    check(page.script(VALUE) == "#(ps,mine)'" or "mine" in page.script(TEXTS)[0], "mine is held: {}".format(names))
    pick(page, "hello.trac")
    go_on(page, "mine")


def check_many_opened(page: Deeds) -> None:
    """So many programs that were only opened drive it out neither."""
    typed(page, "mine")
    for index in range(22):
        pick(page, ("guess.trac", "hanoi.trac")[index % 2])
    check(not page.script(ASKS), "all is kept")
    go_on(page, "mine")


def check_many_typed(page: Deeds) -> None:
    """Of many programs that were typed none is driven out, also in a page that is loaded anew."""
    for index in range(12):
        typed(page, "text {};".format(index))
        pick(page, "hello.trac")
    again(page)
    texts = page.script(TEXTS)
    check(len(texts) == 12, "all are kept: {}".format(texts))
    for index in 0, 11:
        go_on(page, "text {};".format(index))


def check_replaced(page: Deeds) -> None:
    """A program stays that someone has replaced as a whole, by one that is typed in its place."""
    typed(page, "mine")
    page.script("document.getElementById('source').focus()")
    page.press("a", control=True)
    page.press("x")
    page.press("y")
    page.until(IS_KEPT.format("xy"), "another one is kept")
    page.press("Backspace", times=2)
    page.press("z")
    page.until(TEXTS + ".includes('z')", "and another one")
    check(page.script(TEXTS) == ["z"], "one is typed now: {}".format(page.script(TEXTS)))
    check(choices(page, ", replaced: xy"), "the list says what was replaced")
    again(page)
    check(page.script(VALUE) == "z", "that is back: " + page.script(VALUE))
    go_on(page, "mine")


def check_two_tabs(page: Deeds, file: str) -> None:
    """Two tabs that have the same program lose nothing to each other, whoever types in it."""
    first = tab_of(page)
    typed(page, "first")
    second = new_tab(page)
    page.load(file)
    ready(page)
    check(page.script(VALUE) == "#(ps,first)'", "the other tab goes on with it: " + page.script(VALUE))
    for _ in range(3):
        again(page)
    check(page.script(ENTRIES + ".length") == 1, "to load it anew keeps nothing more")
    typed(page, "other")
    page.until(IS_KEPT.format("first"), "what the first tab has typed is kept, too")
    turn(page, first)
    check(page.script(VALUE) == "#(ps,first)'" and not page.script(ASKS), "it stands there: " + page.script(VALUE))
    typed(page, "more")
    turn(page, second)
    typed(page, "others")
    for tab, text in (first, "more"), (second, "others"):
        turn(page, tab)
        again(page)
        check(page.script(VALUE) == "#(ps,{})'".format(text), "each goes on with its own: " + page.script(VALUE))
    check(page.script(TEXTS) == ["#(ps,more)'", "#(ps,others)'"], "both are kept: {}".format(page.script(TEXTS)))
    close(page, first)
    choose(page, "#(ps,others")
    page.until(VALUE + " === \"#(ps,others)'\"", "the first tab goes on with that of the other")


def check_same_time(page: Deeds) -> None:
    """Where two tabs wrote an entry at the same time, this one writes its own again."""
    typed(page, "mine")
    page.script("(() => { const key = Object.keys(localStorage).find((one) => one.startsWith('trac.work.')); "
                "const entry = { ...JSON.parse(localStorage[key]), text: 'theirs' }; "
                "localStorage[key] = JSON.stringify(entry); dispatchEvent(new StorageEvent('storage', { key })); })()")
    check(page.script(TEXTS) == ["#(ps,mine)'", "theirs"], "both are kept: {}".format(page.script(TEXTS)))


def check_at_once(page: Deeds) -> None:
    """What was typed just before the page is left, or loaded anew, is kept."""
    for text in "one", "two":
        page.type("#(ps,{})'".format(text))
        again(page)
        check(page.script(VALUE) == "#(ps,{})'".format(text), "it is back: " + page.script(VALUE))
    check(page.script(TEXTS) == ["#(ps,two)'"], "as one program: {}".format(page.script(TEXTS)))


def check_full(page: Deeds) -> None:
    """Where the browser has no room, it says so, and asks before another program is opened, or the page is left."""
    typed(page, "small")
    page.script(FULL)
    page.type("#(ps,{})'".format("mine" * 20))
    page.until(NOTE + ".startsWith('not kept')", "it says so")
    check(page.script(ASKS), "it is asked for what is not kept")
    choose(page, "Hello")
    page.until(QUESTION, "it is asked before another program is opened")
    page.press("Enter")
    page.until("!" + QUESTION, "No")
    check("mine" in page.script(VALUE), "it stands there: " + page.script(VALUE))
    choose(page, "Hello")
    page.until(QUESTION, "it is asked again")
    page.click("document.getElementById('question-yes')")
    page.until(NAME + " === 'first.trac'", "another program is opened")
    for index in range(25):
        pick(page, ("guess.trac", "hanoi.trac")[index % 2])
    check(page.script(ASKS), "it is asked as long as that is not kept")
    page.script(ROOM)
    check(not page.script(ASKS), "it is kept once there is room")
    go_on(page, "minemine")
    check(page.script(NOTE) == "", "nothing is said of what is kept: " + page.script(NOTE))


def check_too_long(page: Deeds) -> None:
    """So too of a program that was kept and has grown too long for that, where a link is followed."""
    typed(page, "small")
    page.put(LONG)
    page.until(NOTE + ".includes('1 MiB')", "it says so")
    check(page.script(ASKS), "it is asked for what is not kept")
    page.script("location.hash = {}".format(json.dumps(link(body(b"#(ps,shared)'")))))
    page.until(QUESTION, "it is asked before the link is opened")
    page.click("document.getElementById('question-yes')")
    page.until(VALUE + " === \"#(ps,shared)'\"", "the link is opened")
    check(page.script(ASKS), "and where another program is opened")
    page.click(UNDO)
    page.until(VALUE + ".length > 1000000", "it is back")
    page.click("document.getElementById('save')")
    check(not page.script(ASKS), "what is saved is left")


def check_forgotten(page: Deeds) -> None:
    """One is forgotten by the list, after a question; and where the browser was told to forget, nothing is kept."""
    for text in "one", "two":
        typed(page, text)
        if text == "one":
            pick(page, "hello.trac")
    choose(page, "Forget hello.trac")
    page.until(QUESTION, "it is asked")
    page.press("Enter")
    page.until("!" + QUESTION, "No")
    check(len(page.script(TEXTS)) == 2, "both are kept")
    choose(page, "Forget hello.trac")
    page.click("document.getElementById('question-yes')")
    page.until(VALUE + " === ''", "the editor is empty")
    check(page.script(TEXTS) == ["#(ps,one)'"], "the other is kept: {}".format(page.script(TEXTS)))
    check(not choices(page, "#(ps,two") and not choices(page, "Forget"), "it is listed no more")
    page.click(UNDO)
    page.until(VALUE + " === \"#(ps,two)'\"", "it is brought back")
    page.until(TEXTS + ".length === 2", "and kept again")
    go_on(page, "one")
    page.script("localStorage.clear()")
    check(page.script(ASKS), "it is asked for what is kept no more")
    page.script("dispatchEvent(new Event('pagehide'))")
    check(page.script("localStorage.length") == 0, "nothing is kept")


def check_saved(page: Deeds) -> None:
    """Of more than 50 programs the oldest goes that was saved to a file. Without one, it is said, and all are kept."""
    typed(page, "saved")
    # (a download takes the focus from Firefox's page, and does not give it back)
    page.script("HTMLAnchorElement.prototype.click = () => {}")
    page.click("document.getElementById('save')")
    page.script("""(() => {
      for (let at = 0; at < 49; at++) localStorage[`trac.work.${at}`] = JSON.stringify(
        { name: `${at}.trac`, text: `#(ps,old ${at};)'`, time: at, isSaved: false });
    })()""")
    check(choices(page, ", saved: #(ps,saved"), "the list says what is saved")
    for text, count in ("one", 50), ("two", 51):
        pick(page, "hello.trac")
        typed(page, text)
        check(page.script(ENTRIES + ".length") == count, "{} are kept".format(count))
        check(not page.script(IS_KEPT.format("saved")), "what was saved went")
    check(page.script(NOTE).startswith("Yours has 51 programs"), "it is said: " + page.script(NOTE))
    go_on(page, "old 0;")


def check_older(page: Deeds) -> None:
    """What older versions have kept is taken over, however long."""
    draft = {"name": "draft.trac", "text": "#(ps,draft)'", "isTyped": True, "isLeft": False}
    aside = [{"name": "a.trac", "text": text, "isTyped": True} for text in ("#(ps,first)'", "\n" * (1 << 20), "last")]
    for key, value in ("trac.draft", draft), ("trac.aside", aside):
        page.script("localStorage.setItem('{}', {})".format(key, json.dumps(json.dumps(value))))
    again(page)
    texts = page.script(TEXTS)
    check(sorted(map(len, texts)) == [4, 12, 12, 1 << 20], "all are kept: {}".format([len(one) for one in texts]))
    check(page.script("['trac.draft', 'trac.aside'].every((key) => localStorage[key] === undefined)"), "once")
    for text in "first", "draft":
        go_on(page, text)


def check_early(page: Deeds, file: str) -> None:
    """What was typed before the page was there to hear of it stays; what was kept, too."""
    text = open(file, encoding="utf-8").read()
    with tempfile.TemporaryDirectory() as room:
        path = os.path.join(room, "early.html")
        for early in "", "#(ps,early)'":
            with open(path, "w", encoding="utf-8") as copy:
                copy.write(text.replace("</textarea>", early + "</textarea>"))
            page.load(path)
            ready(page)
            if not early:
                typed(page, "before")
                page.script("sessionStorage.clear()")
        check(page.script(VALUE) == "#(ps,early)'", "it stays: " + page.script(VALUE))
        check(page.script(TEXTS) == ["#(ps,before)'", "#(ps,early)'"], "both are kept: {}".format(page.script(TEXTS)))
        go_on(page, "before")


def check_not_ready(page: Deeds, file: str) -> None:
    """So does what is typed as long as the processor does not come: what was kept stands there from the first on."""
    parts = open(file, encoding="utf-8").read().split('<script type="text/plain" id="worker">')
    with tempfile.TemporaryDirectory() as room:
        path = os.path.join(room, "slow.html")
        for is_slow in False, True:
            with open(path, "w", encoding="utf-8") as copy:
                copy.write('<script type="text/plain" id="worker">{}'.format("//" if is_slow else "").join(parts))
            page.load(path)
            if not is_slow:
                ready(page)
                typed(page, "before")
        page.until(VALUE + " === \"#(ps,before)'\"", "what was kept is there")
        check(page.script("document.documentElement.dataset.ready === undefined"), "and not the processor")
        pick(page, "hello.trac")
        page.until(NAME + " === 'hello.trac'", "a program is opened")
        typed(page, "early")
        check(page.script(TEXTS) == ["#(ps,before)'", "#(ps,early)'"], "both are kept: {}".format(page.script(TEXTS)))
        page.script("[1, 2].forEach(() => document.getElementById('run').click())")
        page.rest(500)
        words = page.script("document.body.innerText")
        check("not run in this browser" not in words, "who presses Run twice is not told that nothing runs")


def check_typed_before_a_link(page: Deeds) -> None:
    """What was typed just before a link is followed is kept, and the program of the link is not."""
    page.script("(() => {{ const box = document.getElementById('source'); box.value = \"#(ps,mine)'\"; "
                "box.dispatchEvent(new Event('input')); location.hash = {}; }})()".format(
                    json.dumps(link(body(b"#(ps,shared)'")))))
    page.until(VALUE + " === \"#(ps,shared)'\"", "the link is opened")
    page.rest(400)
    check(page.script(TEXTS) == ["#(ps,mine)'"], "kept is: {}".format(page.script(TEXTS)))
    check(not page.script(ASKS), "nothing is lost")


def check_raced(page: Deeds) -> None:
    """Two pages write one entry at about the same time, and one opens another program at once: both texts are kept."""
    typed(page, "mine")
    pick(page, "hello.trac")
    page.script("""(() => {
      const [key, raw] = Object.entries(localStorage).find(([key]) => key.startsWith("trac.work."));
      const entry = JSON.parse(raw);
      localStorage[key] = JSON.stringify({ ...entry, text: "#(ps,theirs)'", time: entry.time + 3 });
      dispatchEvent(new StorageEvent("storage", { key }));
    })()""")
    check(sorted(page.script(TEXTS)) == ["#(ps,mine)'", "#(ps,theirs)'"], "both: {}".format(page.script(TEXTS)))


def check_lines_ahead(page: Deeds) -> None:
    """A line of input that is given while the run after the last one goes on comes after that; so does the end."""
    for end in False, True:
        page.type(ASKING)
        page.run()
        page.script("document.getElementById('input').focus()")
        page.insert("ONE'")
        page.press("Enter")
        if end:
            page.script("document.getElementById('end-input').click()")
        else:
            page.insert("TWO'")
            page.press("Enter")
        page.until(ENDED.format("a=ONE"), "all is read")
        check(page.text("given-text") == "ONE'LF" + ("" if end else "TWO'LF"), "given is: " + page.text("given-text"))
        check("the input has ended" in page.text("ending") or not end, "how it ends: " + page.text("ending"))


def check_lines_stopped(page: Deeds) -> None:
    """Lines that are given for a run that is stopped are there still: given, if something of it is known, else the last
    in its box, and all in what is said if there are several."""
    there = ("['input', 'given-text', 'ending'].map((id) => document.getElementById(id))"
             ".map((one) => one.value ?? one.textContent).join().includes(\"{}\")")
    for lines in ("ONE'",), ("ONE'", "TWO'"):
        page.type(ASKING)
        page.run()
        page.script("document.getElementById('input').value = ''")
        page.script("document.getElementById('input').focus()")
        for line in lines:
            page.insert(line)
            page.press("Enter")
        page.script("document.getElementById('stop').click()")
        for line in lines:
            page.until(there.format(line), "{} is there".format(line))


def check_undo(page: Deeds) -> None:
    """Another program is opened without a question, and Ctrl+Z brings back what was there; so does a button; and forth
    again."""
    page.type("#(ps,mine)'")
    for way in ("keys", "button"):
        pick(page, "hello.trac")
        check(not page.script(QUESTION), "nothing is asked")
        hello = page.script(VALUE)
        if way == "keys":
            page.script("document.getElementById('source').focus()")
            page.press("z", control=True)
        else:
            page.click(UNDO)
        check(page.script(VALUE) == "#(ps,mine)'", "the {} bring back: {}".format(way, page.script(VALUE)[:40]))
    page.script("document.getElementById('source').focus()")
    page.press("y", control=True)
    check(page.script(VALUE) == hello, "and forth again: " + page.script(VALUE)[:40])
    page.press("z", control=True)
    page.run()
    check(page.text("output") == "mine", "what was brought back runs: " + page.text("output"))


def check_undone(page: Deeds) -> None:
    """Where all that was typed is undone, one more Ctrl+Z brings back no other program: Ctrl+Y does all again."""
    first = page.script(VALUE)
    pick(page, "hello.trac")
    hello = page.script(VALUE)
    page.script("(() => { const box = document.getElementById('source'); "
                "box.focus(); box.setSelectionRange(0, 0); })()")
    page.insert("#(ps,mine)'")
    text = page.script(VALUE)
    page.press("z", times=3, control=True)
    check(page.script(VALUE) == hello, "it is undone: " + page.script(VALUE))
    check(page.script(UNDO + ".hidden"), "no button brings back another one")
    page.press("y", times=3, control=True)
    check(page.script(VALUE) == text and "mine" in text, "it is done again: " + page.script(VALUE))
    typed(page, "other")
    pick(page, "hello.trac")
    page.script("document.getElementById('source').focus()")
    page.insert("BBBB")
    page.press("z", times=6, control=True)
    check(page.script(VALUE) == hello, "nothing of the program before is undone: " + page.script(VALUE))
    page.press("a", control=True)
    page.press("Delete")
    page.press("z", control=True)
    check(page.script(VALUE) == hello, "but what was deleted there: " + page.script(VALUE))
    pick(page, "hanoi.trac")
    page.script("document.getElementById('source').focus()")
    page.press("z", control=True)
    page.press("z", control=True)
    page.press("z", control=True)
    whole = "#(ps,other)'", hello, first
    check(page.script(VALUE) in whole, "nor in one that is brought back: " + page.script(VALUE))


def check_question(page: Deeds) -> None:
    """A question has No first, so that Enter loses nothing."""
    page.script("document.getElementById('question').showModal()")
    check(page.script("document.activeElement.id") == "question-no",
          "No has the focus: " + page.script("document.activeElement.id"))
    page.script("document.getElementById('question').close()")


TRIED = (rows(check_draft, check_opened, check_brought_back, check_many_opened, check_many_typed, check_replaced,
              check_same_time, check_at_once, check_full, check_too_long, check_forgotten, check_saved, check_older,
              check_typed_before_a_link, check_lines_ahead, check_lines_stopped, check_raced, check_undo, check_undone,
              check_question)
         + rows(check_large_files, seconds=10)
         + rows(check_two_tabs, check_early, check_not_ready, given=file_of, seconds=5))
