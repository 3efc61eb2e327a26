"""What the page says is true and the same everywhere: blanks, messages with what to do, one counting, line ends, and
places that are lit in any browser."""
import json
import os
import tempfile

from webpage.pages import FACTORIAL, IS_GATHERED, Deeds, check
from webpage.rows import rows

# How far a character of the list of calls goes, and the commas with the blanks after them.
BLANKS = """(() => {

  const width = (element) => element.getBoundingClientRect().width;
  const of = (text) => [...document.querySelectorAll('#tree .row')].map((it) => it.querySelector('.code'))
    .find((it) => it.textContent === text);
  const [one, other] = [of('#(ds,a, x)'), of('#(ds,b,x)')];
  const comma = document.querySelector('#tree .comma');
  return [width(one) - width(other), width(comma)];
})()"""
# The texts that are seen.
SEEN = """[...document.querySelectorAll(
  '#tree, #rules, #tape, #way-list, #mark-label, #note, #forms, #begun, #doubts, #output, #given')]
  .map((it) => it.textContent).join(' ')"""


def check_blanks(page: Deeds) -> None:
    """In the list of calls a blank is there where one was written, and nowhere else."""
    page.type("#(ds,a, x)'#(ds,b,x)'#(ds,c,(p,q))'")
    page.tab("tree")
    page.run()
    page.until("document.querySelector('#tree .quote') !== null", "the calls are listed")
    more, one = page.script(BLANKS)
    check(abs(more - one) < 0.5, "a blank is as wide as a comma: {} and {}".format(more, one))


def check_messages(page: Deeds) -> None:
    """Messages say what is so, and what to do: mixed line ends, a division by 0, a blank after #, an apostrophe within
    a word."""
    with tempfile.TemporaryDirectory(prefix="trac-webpage-test-") as room:
        path = os.path.join(room, "mixed.trac")
        with open(path, "wb") as out:
            out.write(b"#(ps,(a\r\nb\n))'")
        page.choose_file("#file", path)
        page.until("document.getElementById('program-name').textContent.startsWith('mixed.trac')", "a file is opened")
    said = page.text("program-name")
    check("line ends are of two kinds" in said and "no text" not in said, "of mixed line ends: " + said)
    page.click("document.getElementById('mend')")
    page.until("!document.getElementById('source').readOnly", "a button makes them one kind")
    page.run()
    check(page.text("output") == "a\nb\n", "what it prints then: " + ascii(page.text("output")))
    for program, words in (("#(ps,#(dv,7,0))'", "this divides by 0"),
                           ("# (ps,Hello)'", "a blank stands between # and ("),
                           ("#(ps,it's)'", "this ' ends the text"),
                           ("#(ds,down,x)'#(cl,dwon)'", "no form is named dwon: did you mean down?"),
                           ("#(cl,dwon)#(ds,down,x)'", "dwon: did you mean down?"),
                           ("#(pr,a)'", "no primitive is named pr: did you mean ps or pf?"),
                           ("#(ds,Double,x)#(Duoble,2)'", "no primitive is named Duoble: did you mean #(cl,Double)?"),
                           ("#(print,a)'", "no primitive is named print: did you mean ps?"),
                           ("#(IF,a,b,c,d)'", "no primitive is named IF: did you mean eq or gr?"),
                           ("#(ps,a)'\n print(hello)'", "no # stands before this, so no call begins here: "
                            "did you mean #(ps,?line 2, column 2"),
                           ("ds(a,b)'", "no call begins here: did you mean #(ds,?line 1, column 1")):
        page.type(program)
        page.run()
        page.until("document.getElementById('doubts').textContent.includes(\"{}\")".format(words),
                   "{}: {}".format(program, words))
        check("does not fit" not in page.text("doubts"), "nothing else is said: " + page.text("doubts"))
        if "it's" in program:
            check("line 1, column 8" in page.text("doubts"), "where it stands: " + page.text("doubts"))
            check("the ' at line 1, column 8 ended its text" in page.text("doubts")
                  and "a ) may be missing" not in page.text("doubts"),
                  "why the call never ended: " + page.text("doubts"))


def check_marked(page: Deeds) -> None:
    """What is doubted is marked whole: a name, an argument, a sign that begins no call."""
    marked = "[...CSS.highlights.get('doubtful') ?? []].map((range) => range.toString()).join('')"
    for program, wanted in (("#(prnt,a)'", "prnt"), ("#(ps,Hello, big world)'", " big world"), ("# (ps,Hello)'", "# ("),
                            ("#(ds,a,b)'#(cl,a,(x,y))'", "x,y"), ("#(ps,ä#(cl,größer))'", "größer")):
        page.type(program)
        page.run()
        page.until("document.querySelector('#doubts .doubt') !== null", "a doubt is listed")
        page.until(marked + " === " + json.dumps(wanted),
                   "of {} what is marked: {}".format(program, page.script(marked)))


def check_counting(page: Deeds) -> None:
    """The box, the sentence and the slider have one number; elsewhere than at the end it is said where one is."""
    page.type(open(FACTORIAL).read())
    page.run()
    page.until(IS_GATHERED, "the calls are listed")
    for step in (79, 80, 200):
        page.go(step)
        said = page.text("next")
        check(said.startswith("Next, step {}: ".format(step)), "the sentence at {}: {}".format(step, said[:60]))
        check(not any(char.isdigit() for char in page.text("last").split(":")[0]),
              "no other number: " + page.text("last")[:60])
        check(page.text("ending").startswith("Step {} of 276 is shown. At the end: done after 276 steps".format(step)),
              page.text("ending"))
    page.press("End")
    page.script("document.activeElement.blur()")
    page.press("End")
    page.at(276)
    check(page.text("ending").startswith("Done after 276 steps"), "at the end: " + page.text("ending"))


def check_line_ends(page: Deeds) -> None:
    """A line end that is no end of a line is shown as LF in a frame, everywhere."""
    page.type("#(ds,A,(x\ny))'\n#(ps,##(cl,A))'#(ps,##(cl,A))'")
    page.tab("tree")
    page.run()
    page.until("document.querySelectorAll('#tree .row').length === 5", "the calls are listed")
    seen = page.script(SEEN)
    for step in range(0, int(page.script("document.getElementById('slider').max")) + 1, 7):
        page.go(step)
        seen += page.script(SEEN)
    page.script("document.getElementById('marks').focus()")
    seen += page.script(SEEN)
    page.script("document.activeElement.blur()")
    page.press("End")
    page.press("y")
    page.until("document.querySelectorAll('#way-list .way-row').length > 0", "a way")
    seen += page.script(SEEN)
    check("\\x0a" not in seen and "\u2039" not in seen and "LF" in seen, "line ends: {}".format(
        [seen[max(at - 30, 0):at + 30] for at in (seen.find("\\x0a"), seen.find("\u2039")) if at >= 0]))


def check_lights(page: Deeds) -> None:
    """Where the browser has no highlights, what is lit has a box under its sign, in the program and in the output."""
    page.script("delete window.Highlight")
    page.type("#(ps,(wxyz\nabc))'")
    page.run()
    page.click("document.querySelector('#output [data-byte]')")
    page.until("document.querySelector('#editor .light.read') !== null "
               "&& document.querySelector('#output .light.followed') !== null",
               "what is lit has boxes")
    sign = page.script("document.getElementById('way-list').textContent")
    places = page.script("""(() => {
      const column = Number(/column (\\d+)$/.exec(document.getElementById('way-list').textContent)[1]);
      const [line, text] = [document.querySelector('#paint .line'), document.createRange()];
      let left = column - 1;
      for (const { firstChild: part } of line.children) {
        if (left < part.length) {
          text.setStart(part, left);
          text.setEnd(part, left + 1);
          break;
        }
        left -= part.length;
      }
      const [sign, box] = [text, document.querySelector('#editor .light.read')].map((it) => it.getBoundingClientRect());
      return [sign.left - box.left, sign.top - box.top, sign.width - box.width];
    })()""")
    check(all(abs(place) < 2 for place in places), "the box stands under the sign: {}, {}".format(places, sign))
    page.go(5)
    page.script("document.getElementById('source').focus()")
    page.insert("a")
    check(page.script("document.querySelectorAll('.light.read').length") == 0, "after an edit nothing is lit")


TRIED = rows(check_blanks, check_messages, check_marked, check_counting, check_line_ends, check_lights)
