"""A run of more steps than the processor keeps: a move over a call, and the way of a byte, go on where the steps end
that are kept."""
from webpage.pages import Deeds, check
from webpage.rows import rows

# 86 steps for each of 20,000 turns, of which the 60th alone sets a form; before them a name is set.
PROGRAM = ("#(ds,toll,3)#(ds,name,(Ann))'\n"
           "#(ds,count,(#(eq,D,60,(#(ds,toll,2)))#(eq,D,20000,,(#(cl,count,#(ad,D,1),#(ad,S,#(cl,toll)))))))'\n"
           "#(ss,count,D,S)'\n"
           "#(cl,count,1,0)#(ps,[##(cl,toll)##(cl,name)])'\n")
KEPT_STEPS = 1_048_576
ACTIVE = "[...document.querySelectorAll('#active [data-byte]')].map((cell) => cell.textContent).join('')"
# Where a sign of the output is.
PLACE = """(() => {{
  const text = document.querySelector('#output [data-byte]').firstChild, at = text.data.indexOf('{0}');
  const range = document.createRange();
  range.setStart(text, at);
  range.setEnd(text, at + 1);
  const box = range.getBoundingClientRect();
  return [box.x + box.width / 2, box.y + box.height / 2];
}})()"""
STEPS = "[...document.querySelectorAll('#way-list [data-go]')].map((link) => Number(link.dataset.go))"


def place_of(text: str, before: str) -> str:
    """Line and column of what stands in the program after some signs."""
    lines = PROGRAM.split("\n")
    line, place = next((at, row.index(before) + len(before)) for at, row in enumerate(lines) if before in row)
    check(lines[line][place:].startswith(text), "what stands there")
    return "line {}, column {}".format(line + 1, place + 1)


def begin(page: Deeds) -> None:
    """Runs it."""
    page.put(PROGRAM)
    page.run()
    check(page.text("output") == "[2Ann]", "what it prints: " + page.text("output"))
    end = int(page.script("document.getElementById('slider').max"))
    check(end > KEPT_STEPS * 1.5, "so many steps: {}".format(end))


def check_over(page: Deeds) -> None:
    """N leads from where the value of a call ends to where it began, over all steps that it took."""
    page.script("document.activeElement.blur()")
    page.press("r")
    page.until("document.getElementById('next').textContent.includes('[2Ann]')", "the last call of ps")
    for key, front in (("O", "#(ps,["), ("N", "#(cl,count,1,0)#(ps,[")):
        page.press(key)
        page.until("{}.startsWith('{}')".format(ACTIVE, front), "{} leads to {}".format(key, front))
    check(int(page.script("document.getElementById('slider').value")) < 200, "the call began early")
    page.press("N")
    said = "document.getElementById('note').textContent === 'the value of no call ends here'"
    page.until(said, "no value ends there")


def check_ways(page: Deeds) -> None:
    """The signs of forms that were set long before are followed to where they were written."""
    for sign, before in (("2", "60,(#(ds,toll,"), ("A", "name,(")):
        place = place_of(sign, before)
        page.click_at(*page.script(PLACE.format(sign)))
        ends = "document.getElementById('way-list').textContent.endsWith('reads it: {}')".format(place)
        page.until(ends, "{} comes from {}".format(sign, place))
        steps = page.script(STEPS)
        is_once = len(steps) >= 4 and steps == sorted(set(steps), reverse=True)
        check(is_once, "each call stands there once: {}".format(steps))


TRIED = rows(check_over, check_ways, before=begin, seconds=10)
