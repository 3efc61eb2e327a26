"""The colours of the editor, and the parentheses that one stands in."""
from __future__ import annotations

from webpage.pages import Deeds, check
from webpage.rows import rows

# Programs, and their parts in order, each with what it is of.
PARTS = (
    ("#(ps,a)'", "call #( primitive ps call , plain a call ) ending '"),
    ("##(cl,F)'", "neutral ##( primitive cl neutral , plain F neutral ) ending '"),
    ("#(PS,x)'", "call #( primitive PS call , plain x call ) ending '"),
    ("#(nosuch,-12,007)'", "call #( plain nosuch call , number -12 call , number 007 call ) ending '"),
    ("#(ps)'", "call #( primitive ps call ) ending '"),
    ("#(pst)'", "call #( plain pst call ) ending '"),
    ("(ps,b(c)3)'", "protected (ps,b(c) number 3 protected ) ending '"),
    ("#(ds,A,(#(ad,X,1)))'",
     "call #( primitive ds call , plain A call , protected ( call #( primitive ad call , protected X call , number 1 "
     "call ) protected ) call ) ending '"),
    ("a)b'", "plain a stray ) plain b ending '"),
    ("#(ps,it's)'", "call #( primitive ps call , plain it ending ' plain s stray ) ending '"),
    ("#(ps,##(ps,a))'",
     "call #( primitive ps call , neutral ##( primitive ps neutral , plain a neutral ) call ) ending '"),
)
PAINTED = ("[...document.querySelectorAll('#paint .line span')]"
           ".map((it) => [it.className.replace('of-', '') || 'plain', it.textContent].join(' ')).join(' ')")
# How a part of each kind looks.
LOOKS = """Object.fromEntries(['call', 'neutral', 'primitive', 'protected', 'number', 'ending', 'stray'].map((of) => {
  const { color, fontWeight, fontStyle } = getComputedStyle(document.querySelector(`#paint .of-${of}`));
  return [of, [color, fontWeight, fontStyle].join()];
}))"""
PLAIN = ("(({ color, fontWeight, fontStyle }) => [color, fontWeight, fontStyle].join())"
         "(getComputedStyle(document.getElementById('paint')))")
# A program, and for places of the caret which parentheses are lit.
PAIRED = "#(ds,a,(b(c)d))'\n(e'"
PAIRS = ((3, "1 14"), (9, "7 13"), (10, "9 11"), (12, "9 11"), (13, "7 13"), (15, "1 14"), (1, ""), (16, ""), (19, ""))
LIT = ("[...CSS.highlights.get('pair') ?? []].map((range) => { const front = document.createRange(); "
       "front.setStart(document.getElementById('paint'), 0); front.setEnd(range.startContainer, range.startOffset); "
       "return front.toString().length; }).join(' ')")


def check_parts(page: Deeds) -> None:
    """Calls, neutral calls, names of primitives, protected text, numbers, apostrophes that end texts, and stray
    parentheses: each has its kind."""
    for text, wanted in PARTS:
        page.put(text)
        painted = page.script(PAINTED)
        check(painted == wanted, "{}: {}".format(text, painted))


def check_looks(page: Deeds) -> None:
    """Each kind looks like no other, and not like plain text."""
    page.put("#(ps,1)##(nosuch,(b))')'")
    looks = page.script(LOOKS)
    looks["plain"] = page.script(PLAIN)
    check(len(set(looks.values())) == len(looks), "how they look: {}".format(looks))


def check_pair(page: Deeds) -> None:
    """The parentheses around the caret are lit, those next to it first; outside all, none."""
    page.type(PAIRED)
    for place, wanted in PAIRS:
        page.script("document.getElementById('source').setSelectionRange({0}, {0})".format(place))
        page.until("{} === '{}'".format(LIT, wanted), "at {}: {}".format(place, wanted or "none"))
    page.script("document.getElementById('source').setSelectionRange(3, 3)")
    page.until(LIT + " === '1 14'", "they are lit again")
    page.script("document.getElementById('source').setSelectionRange(3, 5)")
    page.until(LIT + " === ''", "none is lit while signs are chosen")


TRIED = rows(check_parts, check_looks, check_pair)
