"""What newcomers stumbled over: what can be clicked looks so, one button is the main one, and a doubt stands under its
sign."""
from webpage.pages import Deeds, check
from webpage.rows import rows

MAIN = """(() => {
  const { accentColor } = getComputedStyle(document.getElementById('slider'));
  const isMain = (it) => it.getClientRects().length && getComputedStyle(it).backgroundColor === accentColor;
  return [...document.querySelectorAll('button')].filter(isMain).map((it) => it.textContent).join();
})()"""
LOOKS = """(() => {{
  const it = document.querySelector('#way-list .way-row:last-child {}');
  const {{ textDecorationLine, color }} = getComputedStyle(it);
  return [textDecorationLine, color].join();
}})()"""
# Opens an exercise.
EXERCISE = """(() => {
  const list = document.getElementById('course');
  list.value = '1';
  list.dispatchEvent(new Event('change'));
})()"""
DOUBTED = "[...CSS.highlights.get('doubtful') ?? []].map((range) => range.toString()).join('')"
# Whether two elements stand side by side.
BESIDE = """(([one, other]) => one.top < other.bottom && other.top < one.bottom)(
  ['{}', '{}'].map((id) => document.getElementById(id).getBoundingClientRect()))"""
# How far the first letter of what a step did reaches out to the left, and how much room it has there.
REACH = """(() => {
  const word = document.querySelector('#last b'), pen = document.createElement('canvas').getContext('2d');
  pen.font = getComputedStyle(word).font;
  const left = (it) => it.getBoundingClientRect().left;
  return [pen.measureText('J').actualBoundingBoxLeft, left(word) - left(document.getElementById('rules'))];
})()"""


def check_arguments(page: Deeds) -> None:
    """The arguments of a call that made a byte look like what can be clicked, as the links beside them do."""
    page.followed()
    argument, link = [page.script(LOOKS.format(it)) for it in (".argument:not(.name)", "[data-go]")]
    is_same = argument == link and argument.startswith("underline")
    check(is_same, "an argument is {}, and a link {}".format(argument, link))


def check_main(page: Deeds) -> None:
    """One button is the main one: Run, and in an exercise Check."""
    check(page.script(MAIN) == "Run", "the main buttons: " + page.script(MAIN))
    page.script(EXERCISE)
    page.until("document.getElementById('lesson-title').textContent.startsWith('Exercise')", "an exercise is open")
    page.until(MAIN + " === 'Check'", "the main button is Check")


def check_stray(page: Deeds) -> None:
    """A `)` that ends no call is marked itself, and its place is the one that is told."""
    page.type("#(ps,it's)'")
    page.run()
    page.until("document.querySelectorAll('#doubts .doubt').length === 3", "its doubts are listed")
    said = page.text("doubts")
    check(said.count("line 1, column 10") == 2 and "column 9" not in said, "where it stands: " + said)
    marked = page.script(DOUBTED)
    check(")" in marked, "what is marked: " + marked)


def check_both(page: Deeds) -> None:
    """What a step did and what the next one does are seen at once, where a call gave a text of two lines."""
    page.followed()
    page.go(78)
    seen = page.script("[...document.querySelectorAll('.rule')].map((it) => it.getBoundingClientRect().bottom "
                       "<= document.getElementById('rules').getBoundingClientRect().bottom + 1)")
    check(seen == [True, True], "both sentences are seen: {}".format(seen))


def check_idle(page: Deeds) -> None:
    """A byte of the idle program, which stands there once a run is done, comes from that."""
    page.type("#(ps,a)'")
    page.run()
    page.click("document.querySelector('#neutral [data-byte]')")
    page.until("document.getElementById('way-list').textContent === 'step 15the idle program begins, which has it'",
               "where it comes from")


def check_letter(page: Deeds) -> None:
    """The J of "Just done" is not cut off; in the large view neither."""
    page.type("#(ps,a)'")
    page.run()
    for view in ("one window", "the large view"):
        reach, room = page.script(REACH)
        check(0 < reach <= room, "{}: it reaches {} pixels out, and has {}".format(view, reach, room))
        page.script("document.getElementById('big').click()")


def check_heads(page: Deeds) -> None:
    """On a phone and in a small window Run stands beside the name of the program, and the buttons of a lesson beside
    its title."""
    page.script(EXERCISE)
    page.until("document.getElementById('lesson-title').textContent.startsWith('Exercise')", "an exercise is open")
    for one, other in (("lesson-title", "lesson-before"), ("lesson-before", "lesson-close")):
        check(page.script(BESIDE.format(one, other)), "{} stands beside {}".format(other, one))
    page.script("document.querySelector('#tries button').click()")
    page.until("!document.getElementById('undo').hidden", "what was there can be brought back")
    check(page.script(BESIDE.format("program-title", "run")), "Run stands beside the name of the program")


def check_end(page: Deeds) -> None:
    """The end of what is printed is in view where the line of input takes some of its room."""
    page.type("#(ps,(" + "".join("{}\n".format(number) for number in range(1, 14)) + "))#(ps,##(rs))'")
    page.run()
    page.until("document.activeElement.id === 'input'", "it waits for input")
    page.until("(() => { const it = document.getElementById('output'); return it.scrollHeight > it.clientHeight + 2 "
               "&& it.scrollTop + it.clientHeight >= it.scrollHeight - 2; })()", "the last lines are in view")


def check_doubted(page: Deeds) -> None:
    """On a phone, where the tabs are out of the window, doubts are told beside the output, and lead to the list; and of
    what is done without printing it is not said that nothing is printed yet."""
    page.type("#(prnt,Hello)'")
    page.run()
    button = "document.getElementById('doubted')"
    page.until(button + ".textContent === '1 doubt' && " + button + ".checkVisibility()", "it is told")
    check(page.text("output-note") == "nothing is printed", "what is said: " + page.text("output-note"))
    check(page.script(button + ".getBoundingClientRect().bottom < innerHeight"), "it is in the window")
    page.click(button)
    page.until("document.activeElement.id === 'tab-doubts' && document.getElementById('doubts').checkVisibility()",
               "the list is shown")
    page.type("#(ps,Hello)'")
    page.run()
    check(page.script(button + ".hidden"), "without doubts nothing is told")


def check_tabs(page: Deeds) -> None:
    """In a small window the tabs stand in one row, where many calls are listed and a byte is followed, too."""
    page.put("#(nosuch)'#(ds,L,(#(ps,x)#(cl,L)))'#(cl,L)'")
    page.run()
    page.click("document.querySelector('#neutral [data-byte]:last-child')")
    page.until("/^\\d{2,3},/.test(document.querySelector('#tab-tree .count').textContent) && "
               "document.querySelector('#tab-doubts .alarm') && document.querySelector('#tab-way .count').textContent",
               "all is counted")
    tops = page.script("[...document.querySelectorAll('#tabs button')].map((it) => it.getBoundingClientRect().top)")
    check(len(tops) == 5 and len(set(tops)) == 1, "where they stand: {}".format(tops))


def check_lines(page: Deeds) -> None:
    """On a phone some lines of output are seen without scrolling them."""
    page.type("#(ps,(1\n2\n3\n4\n5))'")
    page.run()
    page.until("(() => { const it = document.getElementById('output'); "
               "return it.textContent.length === 9 && it.scrollHeight <= it.clientHeight + 1; })()", "all are seen")


TRIED = (rows(check_arguments, check_main, check_stray, check_idle, check_letter)
         + rows(check_both, width=1280, height=800) + rows(check_end, check_tabs, width=1024, height=700)
         + rows(check_heads, name="-small", width=1024, height=700)
         + rows(check_heads, check_doubted, check_lines, width=390, height=844))
