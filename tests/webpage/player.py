"""The player: what a newcomer does, by mouse and by keys, steps and calls, input, doubts, files, and programs that are
large, endless or hostile."""
from __future__ import annotations

import glob
import os
import random
import shutil
import subprocess
import tempfile

from support.cases import patience
from webpage.pages import FACTORIAL, KEPT, TOP, Deeds, check, opened
from webpage.rows import ONE, opening, rows
from webpage.staying import LIT

# A form of 16 bytes that is doubled so often.
DOUBLED = "#(ds,A,0123456789abcdef)'#(ds,D,(#(ds,A,##(cl,A)##(cl,A))))'{}'"
HOSTILE = ("#(ps,</pre></textarea><script>window.hostile=1</script><img src=x onerror=\"window.hostile=1\">)'"
           "#(ds,<b onclick=window.hostile=1>,<svg onload=window.hostile=1>)'</script><!-- ]]>'")


def check_newcomer(kind: type[Deeds], file: str) -> None:
    """From a wrong 0 to the place where it was written, in four actions: by mouse, then by keys."""
    there = "document.getElementById('way-list').textContent.endsWith('reads it: line 1, column 26')"
    with opened(kind, file) as page:
        page.followed()
        check(page.text("output") == "0", "the output: " + page.text("output"))
        check("makes it" in page.text("way-list"), "the way of the 0: " + page.text("way-list"))
        page.click("document.querySelector('#way-list .way-row:last-child [data-place$=\" 2\"]')")
        page.until(there, "the place where it was written")
        check(page.script(LIT) == "25,0", "the byte that is lit: {}".format(page.script(LIT)))
        page.click("document.querySelector('#way-list .way-row:last-child .deed button')")
        chosen = page.script("[document.activeElement.id, document.activeElement.selectionStart, "
                             "document.activeElement.selectionEnd].join()")
        check(chosen == "source,25,26", "its place leads there: {}".format(chosen))
        page.script("document.activeElement.blur()")
        page.picture(os.path.join(KEPT, "newcomer-{}.png".format(kind.name)))
        page.go(90)
        check("5 and 1 differ, so its value is argument 4: #(ml,5," in page.text("last"),
              "the branch: " + page.text("last"))
        page.well("by mouse")
    with opened(kind, file, width=390, height=844, dark=True) as page:
        page.type(open(FACTORIAL).read())
        page.press("Enter", control=True)
        page.until("document.activeElement.id === 'output'", "the output has the focus")
        page.press("Enter")
        page.until("document.activeElement.closest('.way-row') !== null", "the call that made it has the focus")
        page.press("Enter")
        page.until(there, "the place where it was written, by keys")
        check(page.script("document.documentElement.scrollWidth <= innerWidth"), "nothing is wider than a phone")
        page.picture(os.path.join(KEPT, "phone-{}.png".format(kind.name)))
        page.well("by keys")


def check_states(page: Deeds) -> None:
    """The text that is shown at some steps is that of `trac debug`."""
    commands = "".join("s {}\np\nb 999\n".format(step) for step in range(277))
    command = [os.path.join(TOP, "trac"), "debug", FACTORIAL]
    said = subprocess.run(command, input=commands, stdout=subprocess.PIPE, universal_newlines=True,
                          timeout=patience()).stdout
    states = [line[len("active ["):-1] for line in said.split("\n") if line.startswith("active [")]
    page.type(open(FACTORIAL).read())
    page.run()
    wrong = []
    for step in random.Random(61).sample(range(277), 25):
        page.go(step)
        shown = page.script("[...document.querySelectorAll('#active [data-byte]')]"
                            ".map((cell) => cell.textContent).join('')")
        if shown != states[step].replace("\\x0a", "LF"):
            wrong.append((step, shown, states[step]))
    check(len(states) == 277 and not wrong, "the text at some steps: {}".format(wrong[:2]))


def check_moves(page: Deeds) -> None:
    """Steps, tokens and calls, by keys, as trac-walk goes."""
    page.go(0)
    page.script("document.activeElement.blur()")
    for key, step in (("u", 23), ("u", 50), ("u", 77), ("s", 78), ("b", 77), ("n", 267), ("r", 265), ("r", 263),
                      ("N", 138), ("ArrowLeft", 137), ("m", 138), ("o", 263), ("O", 132), ("Home", 0),
                      ("ArrowRight", 8), ("End", 276)):
        page.press(key)
        page.at(step, key)
    page.until("document.querySelectorAll('#tree .row').length > 5", "the calls are listed")
    page.script("document.querySelector('#tree .row').click()")
    page.at(23, "a click on a call")
    page.go(276)
    page.tab("forms")
    page.click("document.querySelector('[data-who]')")
    page.at(50, "who changed the form last")


def check_input(page: Deeds) -> None:
    """A program that asks: an answer, another in its place after a question, and the end of the input."""
    page.type("#(ps,(Who? ))#(ps,Hello ##(rs))'")
    page.run()
    check("waits for input" in page.text("ending"), "it waits: " + page.text("ending"))
    for name, yes in (("Ann", None), ("Bob", "no"), ("Bob", "yes")):
        if yes:
            page.go(20)
        page.script("(document.getElementById('input').focus(), document.getElementById('input').select())")
        page.insert(name + "'")
        page.click("document.querySelector('#input-form button')")
        if yes:
            page.until("document.getElementById('question').open", "it asks first")
            page.click("document.getElementById('question-{}')".format(yes))
            page.until("!document.getElementById('question').open", "the question is answered")
        if yes == "no":
            page.until("document.getElementById('input').value === 'Bob\\''", "the line stays")
        else:
            page.until("document.getElementById('output').textContent.endsWith('Hello {}')".format(name),
                       "it reads " + name)
    page.script("document.getElementById('end-input').click()")
    page.until("document.getElementById('ending').textContent.includes('the input has ended')", "the input ends")
    page.type("#(ds,A,#(rs))'")
    page.run()
    check(page.script("document.getElementById('given').hidden"), "no input is shown before there is any")
    check(page.text("ending") == "After 17 steps: the program waits for input.", "it waits: " + page.text("ending"))
    most = "document.getElementById('timeline-note').textContent === ', at most 3 at once'"
    page.until(most, "calls that wait are begun too")
    check_end(page)


def check_end(page: Deeds) -> None:
    """A last text without its end is not run; at the end of the input it is, and its calls and doubts are listed."""
    page.type("#(ds,A,abc)'#(pr,x)#(ps,##(cl,A)!)")
    page.run()
    check("no ' at its end" in page.text("ending") and page.text("output") == "",
          "a text without its end: " + page.text("ending"))
    page.click("document.getElementById('end-input')")
    page.until("document.getElementById('output').textContent === 'abc!'", "at the end of the input it is run")
    steps = "[...document.querySelectorAll('#tree .number')].map((it) => it.textContent).join()"
    page.until(steps + " === '17,33,45,43'", "its calls")
    page.until("document.querySelectorAll('#doubts .doubt').length === 1", "its doubt")
    for key, step in (("r", 45), ("r", 43), ("r", 33), ("r", 17), ("u", 33), ("D", 33), ("End", 55)):
        page.script("document.activeElement.blur()")
        page.press(key)
        page.at(step, key)


def check_doubts(page: Deeds) -> None:
    """What was hardly meant is listed once for each place."""
    page.type("#(pr,a)'\n#(ps,Hello, world)'\n")
    page.run()
    page.until("document.querySelectorAll('#doubts .doubt').length === 2", "two doubts are listed")
    check("no primitive is named pr" in page.text("doubts") and "line 1, column 3" in page.text("doubts"),
          page.text("doubts"))
    check(page.script("document.querySelectorAll('#tree .doubt').length") == 2, "doubts stand under their calls")
    page.type("#(ds,A,(#(pr)))'#(cl,A)#(cl,A)#(cl,A)'")
    page.run()
    page.until("document.querySelectorAll('#doubts .doubt').length === 1", "a doubt that comes again is listed once")
    check("line 1, column 11" in page.text("doubts"), page.text("doubts"))
    page.script("document.activeElement.blur()")
    for key, words in (("d", "no new doubt after this step"), ("Home", ""), ("D", "no new doubt before this step")):
        page.press(key)
        page.until("document.getElementById('note').textContent === '{}'".format(words), "{}: {}".format(key, words))


def check_examples(page: Deeds) -> None:
    """The output of the examples, which are in the list of programs."""
    wrong = []
    for path in sorted(glob.glob(os.path.join(TOP, "programs", "examples", "*.out"))):
        name = os.path.basename(path)[:-len(".out")] + ".trac"
        page.script("(() => {{ const list = document.getElementById('library'); "
                    "list.value = [...list.options].find((one) => one.title === "
                    "'{}').value; list.dispatchEvent(new Event('change')); }})()".format(name))
        page.until("document.getElementById('program-name').textContent === '{}'".format(name), name + " is opened")
        page.run()
        want = open(path).read()
        if not want.startswith(page.text("output")) or page.text("output").strip() == "" and want.strip():
            wrong.append((name, page.text("output"), want))
    check(not wrong, "the examples: {}".format(wrong[:2]))


def check_files(page: Deeds) -> None:
    """Bytes that are no text are for reading only, and are run as they are."""
    room = tempfile.mkdtemp(prefix="trac-webpage-test-")
    for name, data, is_fixed in (("bytes.trac", b"#(ps,\xff\xfe\x00)'\n", True),
                                 ("crossed.trac", b"#(ps,(a\r\nb))'\r\n", False),
                                 ("both.trac", b"#(ps,(a\r\nb\n))'", True),
                                 ("letters.trac", "#(ps,äöü)'".encode(), False)):
        path = os.path.join(room, name)
        with open(path, "wb") as out:
            out.write(data)
        page.script("document.getElementById('program-name').textContent = ''")
        page.choose_file("#file", path)
        page.until("document.getElementById('program-name').textContent.startsWith('{}')".format(name),
                   name + " is opened")
        check(page.script("document.getElementById('source').readOnly") == is_fixed, name + ": for reading only")
        page.run()
        want = {"bytes.trac": "fffeNUL", "crossed.trac": "aCR\nb", "both.trac": "aCR\nb\n", "letters.trac": "äöü"}[name]
        check(page.text("output") == want, "{}: {}".format(name, ascii(page.text("output"))))
    shutil.rmtree(room)


def check_wide(page: Deeds) -> None:
    """A line of many signs that join, or a long one in which scripts alternate, with which a browser would be busy for
    minutes, is shown in a part; many short lines of them, or a long one of letters, can be edited."""
    name, hebrew = "document.getElementById('program-name').textContent", "a\u05d0"
    for text, is_fixed in ((hebrew * 40000, True), ("\u0e01\u0e33" * 40000, True), ("e\u0301" * 40000, True),
                           ("a\uaa60\uaa7b" * 20000, True), ("\U00010900" * 20000, True),
                           ("\U00013000\U00013430" * 10000, True), ("\u2d30\u2d7f" * 10000, True),
                           ((hebrew * 500 + "\n") * 80, False), ("\u00e9\u0416\u2019" * 20000, False),
                           ("a\u0416 " * 15000, True), ("a\u4e2d" * 15000, True), ("\u4e2d\u3042" * 15000, True),
                           ("a \U0001f600\u2713" * 10000, True),
                           ("word \u0441\u043b\u043e\u0432\u043e " * 8000, True),
                           ("a\ua500\ua501" * 10000, True), ("\U0001d400\U0001d434" * 15000, True),
                           (("a\u0416 " * 1000 + "\n") * 60, True), ("a\ue000" * 5000, False),
                           ("a\u0416\u4e2d\u3042\uac00\u03b1\U0001f600\u2211 " * 1000, False),
                           ("word \u0441\u043b\u043e\u0432\u043e " * 2000, False),
                           ("\u0441\u043b\u043e\u0432\u043e, 12 " * 20000, False),
                           ("a\x85b\x90" * 10000, True), ("a\t" * 20000, True),
                           ("\u4e2d\u2014" * 15000, True), ("\u4e2d\u2014" * 2000, False),
                           ("\uff21\uff71" * 15000, True), ("\u03b1\u03e3" * 30000, True),
                           ("y" * 9000 + "\u05d0\U0001f600", False)):
        with tempfile.TemporaryDirectory(prefix="trac-webpage-test-") as room:
            path = os.path.join(room, "wide.trac")
            with open(path, "w", encoding="utf-8") as out:
                out.write(text)
            page.script(name + " = ''")
            page.choose_file("#file", path)
            page.until(name + ".startsWith('wide.trac')", "it is opened")
        check(page.script("document.getElementById('source').readOnly") == is_fixed, ascii(text[:9]) + ": reading only")
    # (Firefox gives a script no such paste)
    held = page.script("(() => { const data = new DataTransfer(); "
                       "data.setData('text/plain', 'a\\u05d0'.repeat(40000)); "
                       "const paste = new ClipboardEvent('paste', {clipboardData: data, bubbles: true, "
                       "cancelable: true}); document.getElementById('source').dispatchEvent(paste); "
                       "return paste.clipboardData.getData('text/plain').length; })()")
    want = "bytes 1 to 4,096 of 129,006 are shown: a line is too long for signs that join"
    check(not held or want in page.script(name), "a paste of them is shown in a part: " + page.script(name))
    page.put("a\u4e2d" * 15000)
    want = "bytes 1 to 4,096 of 60,000 are shown: lines are too long for their mixed scripts"
    check(want in page.script(name), "what is typed is shown in a part: " + page.script(name))
    with tempfile.TemporaryDirectory(prefix="trac-webpage-test-") as room:
        path = os.path.join(room, "bytes.trac")
        with open(path, "wb") as data:
            data.write(b"\xff" * 30000)
        page.choose_file("#file", path)
        page.until(name + " === 'bytes.trac (for reading only: bytes 1 to 4,096 of 30,000 are shown)'",
                   "a line of bytes that are no text is shown in a part")


def check_unseen(page: Deeds) -> None:
    """Signs that nobody sees stand as their bytes: in a text, and in the name of a file."""
    with tempfile.TemporaryDirectory(prefix="trac-webpage-test-") as room:
        path = os.path.join(room, "a\u202e\u3164.trac")
        with open(path, "wb") as out:
            out.write("#(ps,(a\u3164b\u00adc\u180bd\u034fe\U000e0100\u00e9))'".encode())
        page.choose_file("#file", path)
        name = "document.getElementById('program-name').textContent"
        page.until(name + ".endsWith('.trac') && " + name + "[0] === 'a'", "it is opened")
    check(page.script(name) == r"a\xe2\x80\xae\xe3\x85\xa4.trac", "its name: " + ascii(page.script(name)))
    page.run()
    check(page.text("output") == "ae385a4bc2adce1a08bdcd8fef3a08480\u00e9", "its bytes: " + ascii(page.text("output")))
    page.type("#(n\u00c0\u3164)'")
    page.run()
    page.until("document.querySelectorAll('#doubts .doubt').length === 1", "a doubt of such a name")
    check(r"no primitive is named n\u00c0\xe3\x85\xa4".replace(r"\u00c0", "\u00c0") in page.text("doubts"),
          "it is shown so: " + ascii(page.text("doubts")))


def check_dropped(page: Deeds) -> None:
    """A file that is dropped is opened; a text that is dragged is the editor's."""
    deed = ("(() => {{ const data = new DataTransfer(); data.items.add({}); "
            "const words = {{ bubbles: true, cancelable: true, dataTransfer: data }}; "
            "return !document.getElementById('source').dispatchEvent(new DragEvent('{}', words)); }})()")
    taken = "document.getElementById('program-name').textContent === 'dropped.trac'"
    hidden = "document.getElementById('drop').hidden"
    for data, is_file in (("'a text', 'text/plain'", False), ("new File([\"#(ps,a)'\"], 'dropped.trac')", True)):
        check(page.script(deed.format(data, "dragover")) == is_file, "where it is dragged: " + data)
        check(page.script(hidden) != is_file, "what is said of it: " + data)
        check(page.script(deed.format(data, "drop")) == is_file and page.script(hidden), "where it is dropped: " + data)
    page.until(taken, "the file is opened")


def check_large(page: Deeds) -> None:
    """A program of 1 MiB, one that prints 16 MiB, one that never ends, one that takes all memory."""
    page.put("#(ps,(" + "abcdefg \n" * 116508 + "))'")
    page.run()
    check("of 1,048,572" in page.text("output-note"), "1 MiB is printed: " + page.text("output-note"))
    page.unit("byte")
    page.script("document.getElementById('back').click()")
    page.at(15, "a step back over 1 MiB")
    page.put(DOUBLED.format("#(cl,D)" * 17) + "#(ps,##(cl,A))'" * 8)
    page.run()
    check("of 16,777,216" in page.text("output-note"), "16 MiB are printed: " + page.text("output-note"))
    page.put(open(os.path.join(TOP, "programs", "examples", "endless.trac")).read())
    page.run()
    check("After 2,000,000 steps: it was stopped there, and could go on" in page.text("ending"), page.text("ending"))
    page.click("document.querySelector('#ending button')")
    page.until("document.getElementById('ending').textContent.startsWith('After 4,000,000 steps')", "it goes on")
    page.put(DOUBLED.format("#(cl,D)" * 15) + "#(ds,L,(#(ds,B,##(cl,A)##(cl,A))#(cl,L)))'#(cl,L)'")
    page.click("document.getElementById('run')")
    page.until("!document.getElementById('stop').hidden", "it runs on")
    page.click("document.getElementById('stop')")
    page.until("document.getElementById('note').textContent === 'stopped'", "Stop ends the run")
    page.put(DOUBLED.format("#(cl,D)" * 19) + "#(ds,L,(#(ds,N,##(cl,A))#(cl,L,#(ad,N,1))))'#(ss,L,N)'#(cl,L,1)'")
    page.run()
    check("memory was refused" in page.text("ending").lower(), "memory: " + page.text("ending"))
    check_too_long(page)
    page.type("#(ps,again)'")
    page.run()
    check(page.text("output") == "again", "the page goes on: " + page.text("output"))


def check_too_long(page: Deeds) -> None:
    """A program of more bytes than the processor takes."""
    page.type("#(ps,before)'")
    page.run()
    # (where it is not seen, no browser lays it out)
    fill = ("(() => {{ const box = document.getElementById('source'); document.getElementById('editor').hidden = {}; "
            "box.value = {}; "
            "box.dispatchEvent(new Event('input')); }})()")
    page.script(fill.format("true", "'a'.repeat(33554433)"))
    page.run()
    page.script(fill.format("false", "''"))
    said = "A limit is passed: a program and its input may have at most 33,554,432 bytes. The run before is shown. "
    check(page.text("ending").startswith(said), "a long program: " + page.text("ending"))


def check_hostile(page: Deeds) -> None:
    """A program whose texts look like parts of a page."""
    page.type(HOSTILE)
    page.run()
    check("<script>window.hostile=1</script>" in page.text("output"), "a text like a page: " + page.text("output"))
    page.go(60)


def factorial(page: Deeds) -> None:
    """A run of the wrong factorial."""
    page.type(open(FACTORIAL).read())
    page.run()


TRIED = (opening(check_newcomer) + rows(check_moves, before=factorial) + rows(check_large, where=ONE, seconds=15)
         + rows(check_states, check_input, check_doubts, check_examples, check_files, check_unseen, check_wide,
                check_dropped, check_hostile))
