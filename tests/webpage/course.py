"""The course in the page: its lessons, their programs, and what a check of an exercise says."""
import glob
import json
import os
import re

from webpage.pages import TOP, Deeds, check
from webpage.rows import ONE, rows

COURSE = os.path.join(TOP, "programs", "course")
# What a lesson says of a terminal: the page says something else.
OF_TERMINAL = re.compile(r"\./trac|^trac:|Ctrl-C|\bshell\b")
# A check that is stopped after a minute tells no more than how slow the machine is: so it may take an hour.
PATIENT = """(() => {
  const set = window.setTimeout;
  window.setTimeout = (does, time, ...words) => set(does, time === 60000 ? 3600000 : time, ...words);
})()"""
# Programs for exercise 5.1, and what a check says of each, as trac course says it.
CHECKED = (
    ("#(ds,down,(#(cl,down)))'", "Run 1 of 2: it has not ended within 10,000,000 steps"),
    ("#(ds,down,(#(ps,x)#(cl,down)))'", "Run 1 of 2: it prints more than 65,536 bytes"),
    ("#(ds,down,(#(cl,down)#(cl,down)#(ds,x,#(cl,x)#(cl,x))))#(ds,x,12345678)'", "Run 1 of 2: it "),
    ("", "it prints something elseIs printednothing"),
    ("#(ds,down,(#(ps,3 2 1 stop)))'", "They differ from line 1, character 7 on."),
    ("#(ds,down,(#(eq,N,0,(#(ps,(go\n\n))),(#(ps,N )#(cl,down,#(su,N,1))))))#(ss,down,N)'", "It is solved"),
    ("#(ds,down,(#(eq,N,0,(#(ps,go)),(#(ps,N )#(cl,down,#(su,N,1))))))#(ss,down,N)'", "It is solved"),
)


def read(name: str) -> str:
    """The text of a file of the course."""
    with open(os.path.join(COURSE, name), encoding="utf-8", newline="") as file:
        return file.read()


def has_words(shown: str, text: str) -> bool:
    """Whether all words of a text are shown."""
    return all(word in shown for word in text.replace("`", "").replace("*", "").split())


def shows(page: Deeds, title: str) -> None:
    """Opens a lesson or an exercise from the list."""
    page.script("(() => {{ const list = document.getElementById('course'); "
                "list.value = [...list.options].find((one) => one.text.trim().split(': ')[0] === {}).value; "
                "list.dispatchEvent(new Event('change')); }})()".format(json.dumps(title)))


def press(page: Deeds, word: str) -> None:
    """Presses a button of what is open."""
    page.script("[...document.querySelectorAll('#lesson-text button')].find((one) => one.textContent === '{}').click()"
                .format(word))


def judged(page: Deeds, program: str) -> str:
    """What a check says of a program."""
    page.put(program)
    page.script("document.querySelector('.judged').replaceChildren()")
    press(page, "Check")
    page.until("!['', 'It is checked ..'].includes(document.querySelector('.judged').textContent)",
               "a check says something")
    said: str = page.script("document.querySelector('.judged').textContent")
    return said


def check_lines(page: Deeds) -> None:
    """In the list each lesson has a line beside its title that says what it shows, and each exercise its title."""
    listed = page.script("[...document.getElementById('course').options].map((one) => one.text.trim())")
    texts = [(read(os.path.relpath(path, COURSE)).split("\n")[0].lstrip("# "), path.endswith("lesson.md"))
             for folder in sorted(glob.glob(os.path.join(COURSE, "[0-9]*")))
             for path in [os.path.join(folder, "lesson.md"),
                          *sorted(glob.glob(os.path.join(folder, "[0-9]*", "exercise.md")))]]
    check(len(listed) == 1 + len(texts), "so many are listed: {}".format(len(listed)))
    for said, (title, is_lesson) in zip(listed[1:], texts):
        name, _, line = said.partition(": ")
        check(name == title and (len(line) > 20) == is_lesson, "what is listed of {}: {}".format(title, said))


def check_lessons(page: Deeds) -> None:
    """Each lesson has its text, and its programs can be opened."""
    for path in sorted(glob.glob(os.path.join(COURSE, "[0-9]*", "lesson.md"))):
        text = read(path)
        shows(page, text.split("\n")[0].lstrip("# "))
        names = page.script("[...document.querySelectorAll('#lesson-text .program button')]"
                            ".map((it) => it.textContent)")
        there = [os.path.basename(file) for file in glob.glob(os.path.join(os.path.dirname(path), "*.trac"))]
        check(sorted(names) == sorted("Open " + name for name in there), "{} has its programs: {}".format(path, names))
        shown = page.text("lesson-text").replace("\n", " ")
        own = [line for line in text.split("\n## Exercises\n")[0].split("\n") if not OF_TERMINAL.search(line)]
        last = [line for line in own if line and line[0].isalpha()][-1]
        check(has_words(shown, last), "{} is shown to its end".format(path))
        is_broken = page.script("[...document.querySelectorAll('#lesson-text code.short')]"
                                ".some((it) => it.getClientRects().length > 1)")
        check(not is_broken, "{}: short code is not broken".format(path))
        check("```" not in shown, "{}: each block is one".format(path))
        check("./trac" not in shown and "shell" not in shown,
              "{} takes no terminal for what the page does".format(path))
    shows(page, "3. Forms")
    page.put("")
    press(page, "Open scan.trac")
    page.until("document.getElementById('program-name').textContent === 'scan.trac'",
               "a program of the lesson is opened")
    page.run()
    check(page.text("output").strip() == "5 is #(ad,2,3)", "what it prints: " + page.text("output"))
    page.click("document.getElementById('lesson-next')")
    check(page.text("lesson-title").startswith("Exercise 3.1 "),
          "after a lesson its exercise: " + page.text("lesson-title"))


def check_exercises(page: Deeds) -> None:
    """Of each exercise the solution is right, and the wrong one is not."""
    for folder in sorted(glob.glob(os.path.join(COURSE, "[0-9]*", "[0-9]*", ""))):
        shows(page, read(os.path.join(folder, "exercise.md")).split("\n")[0].lstrip("# "))
        runs = page.script("document.querySelectorAll('#lesson-text .run').length")
        check(runs == len(glob.glob(os.path.join(folder, "*.out"))), "{}: {} runs".format(folder, runs))
        for name in ("solution.trac", "wrong.trac", "start.trac"):
            if os.path.exists(os.path.join(folder, name)):
                said = judged(page, read(os.path.join(folder, name)))
                check(("It is solved" in said) == (name == "solution.trac"), "{}{}: {}".format(folder, name, said))
        press(page, "Hint")
        press(page, "Hint")
        hints = page.script("[...document.querySelectorAll('.unfolded')].map((one) => one.textContent)")
        hint = read(os.path.join(folder, "hint.md"))
        check(len(hints) == 1 and ("./trac" in hint or has_words(hints[0], hint)),
              "{}: its hint: {}".format(folder, hints))
        check("./trac" not in page.text("lesson-text"), "{} takes no terminal".format(folder))
    shows(page, "5.1 A countdown")
    for program, part in CHECKED:
        said = judged(page, program)
        check(part in said, "a check of {!r} says {!r}".format(program, said[:300]))
    press(page, "Hint")
    press(page, "A solution")
    press(page, "Hint")
    unfolded = page.script("[...document.querySelectorAll('.unfolded')].map((one) => one.textContent)")
    hint = read("05/1/hint.md").replace("`", "").split("\n")[0]
    check(len(unfolded) == 2 and unfolded[0].startswith(hint) and "`" not in "".join(unfolded),
          "a hint: {}".format(unfolded))
    check("#(ds,down," in unfolded[-1], "a solution: {}".format(unfolded))


def check_failure(page: Deeds) -> None:
    """A run that fails can be walked through: on its input, and from its start."""
    shows(page, "8.1 " + read("08/1/exercise.md").split("\n")[0].split(" ", 2)[2])
    said = judged(page, read("08/1/wrong.trac").rstrip("\n"))
    check("Is printed" in said, "the wrong one fails: " + said)
    press(page, "Run it on this input")
    page.until("/^(Done a|A)fter /.test(document.getElementById('ending').textContent)", "it is run on the input")
    printed = page.script("document.querySelector('.judged .block').textContent").strip()
    check(page.text("output").strip() == printed, "it prints what the check said: " + page.text("output"))
    page.click("document.getElementById('lesson-close')")
    check(page.script("document.getElementById('lesson').hidden"), "the lesson is closed")


def patient(page: Deeds) -> None:
    """No check is stopped for its time."""
    page.script(PATIENT)


TRIED = rows(check_lines, check_lessons, check_exercises, check_failure, before=patient, where=ONE, seconds=10)
