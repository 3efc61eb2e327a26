"""How the page looks, as far as it can be computed: contrast, widths, large type, the colours of a system, and no
motion."""
import os

from webpage.pages import KEPT, Deeds, check
from webpage.rows import CHROMIUM, rows

# Colours that a person sees: of text on what is behind it, of controls' borders, and of the ring around what has the
# focus. The worst pairs whose contrast is less than it should be.
CONTRAST = """(() => {
  const parse = (text) => {
    const numbers = text.match(/[\\d.]+/g).map(Number);
    const isOfOne = text.startsWith("color(srgb");
    const [red, green, blue] = numbers.slice(0, 3).map((one) => (isOfOne ? one * 255 : one)), alpha = numbers[3] ?? 1;
    return { red, green, blue, alpha };
  };
  const over = (top, under) => {
    const part = (one) => [one, top[one] * top.alpha + under[one] * (1 - top.alpha)];
    return Object.fromEntries([...["red", "green", "blue"].map(part), ["alpha", 1]]);
  };
  const light = (colour) => {
    const [red, green, blue] = ["red", "green", "blue"].map((one) => colour[one] / 255)
      .map((part) => (part <= 0.04045 ? part / 12.92 : ((part + 0.055) / 1.055) ** 2.4));
    return 0.2126 * red + 0.7152 * green + 0.0722 * blue;
  };
  const ratio = (one, other) => {
    const [more, less] = [light(one), light(other)].sort((a, b) => b - a);
    return (more + 0.05) / (less + 0.05);
  };
  const behind = (it) => {
    const papers = [];
    for (let at = it; at; at = at.parentElement) papers.unshift(parse(getComputedStyle(at).backgroundColor));
    return papers.reduce((under, top) => over(top, under), { red: 255, green: 255, blue: 255, alpha: 1 });
  };
  const low = [];
  const said = (what, it, value) => {
    low.push(`${what} of ${it.id || it.className || it.tagName}: ${value.toFixed(2)}`);
  };
  const texts = (what, it, style, paper, least = 4.5) => {
    const ink = parse(style.color);
    if (ink.alpha === 0) return;
    const value = ratio(over(ink, paper), paper);
    if (value < least) said(what, it, value);
  };
  let count = 0;
  for (const it of document.body.querySelectorAll("*")) {
    if (!it.checkVisibility() || it.closest("script, noscript, .unseen, option")) continue;
    const hasText = [...it.childNodes].some((node) => node.nodeType === 3 && node.data.trim() !== "");
    const isControl = it.matches("button, select, textarea, input:not([type=range], [type=checkbox])");
    const style = getComputedStyle(it), paper = behind(it);
    if (hasText || isControl) {
      count++;
      texts("text", it, style, paper);
      if (it.placeholder) texts("placeholder", it, getComputedStyle(it, "::placeholder"), paper);
    }
    if ((isControl || it.id === "editor") && parseFloat(style.borderTopWidth) > 0) {
      const outer = behind(it.parentElement), border = over(parse(style.borderTopColor), outer);
      const value = Math.max(ratio(border, outer), ratio(paper, outer));
      if (value < 3) said("border", it, value);
    }
    if (isControl && it.id !== "source") {
      it.focus({ preventScroll: true });
      const ring = getComputedStyle(it), outer = behind(it.parentElement);
      if (it.matches(":focus-visible") && ratio(over(parse(ring.outlineColor), outer), outer) < 3) said("ring", it, 1);
    }
  }
  document.activeElement.blur();
  for (const name of ["lit", "read", "chosen", "followed"]) {
    const on = name === "lit" || name === "read" ? document.getElementById("paint") : document.body;
    const style = getComputedStyle(on, `::highlight(${name})`), paper = over(parse(style.backgroundColor), behind(on));
    texts(name, on, style, paper);
  }
  return [count, low];
})()"""

# What is wider than the page, or stands beside it, and is not cut or scrolled within what it is in.
WIDE = """(() => {
  const isHeld = (it) => {
    for (let at = it.parentElement; at && at !== document.body; at = at.parentElement) {
      if (getComputedStyle(at).overflowX !== "visible") return true;
    }
    return false;
  };
  // (an old width may be remembered: all is laid out anew)
  document.body.hidden = true;
  document.documentElement.getBoundingClientRect();
  document.body.hidden = false;
  const most = document.documentElement.clientWidth;
  const wide = [...document.body.querySelectorAll("*")].filter((it) => {
    if (!it.checkVisibility() || it.closest(".unseen, #drop")) return false;
    const box = it.getBoundingClientRect();
    return box.width > 0 && (box.right > most + 1 || box.left < -1) && !isHeld(it);
  }).map((it) => `${it.id || it.className || it.tagName} to ${Math.round(it.getBoundingClientRect().right)}`);
  const { scrollWidth } = document.documentElement;
  const scrolls = scrollWidth > most ? [`the page to ${scrollWidth}`] : [];
  return [...wide, ...scrolls].slice(0, 6);
})()"""

# What of the large view stands over what comes after it, or out of what can be scrolled in view.
OVER = """(() => {
  const player = document.getElementById("player");
  const parts = ["rules", "tape", "tape-key", "controls"];
  const boxes = parts.map((id) => document.getElementById(id).getBoundingClientRect());
  const over = boxes.flatMap((box, index) => (index && box.top < boxes[index - 1].bottom - 1 ? [index] : []));
  player.scrollTop = player.scrollHeight;
  const end = document.getElementById("end").getBoundingClientRect();
  player.scrollTop = 0;
  return end.bottom > innerHeight + 1 ? [...over, `the end stands at ${end.bottom}`] : over;
})()"""

# States, each beside what looks the same but for them. Where the system chooses colours, lines, shapes or words tell
# them apart.
STATES = [
    ("#neutral .moved", "#neutral [data-place]"), ("#active .put", "#active .line > :last-child"),
    (".gone", "#neutral [data-place]"), (".coming", "#active .line > :last-child"), ("#mark", "#neutral"),
    (".row[aria-current]", ".row:not([aria-current])"), ("tr.changed th", "tr:not(.changed) th"),
    (".gap", "#forms [data-per]"), (".pointer", "#forms [data-per]"), (".gathered", ".argument.name"),
    ("#help-button[aria-expanded=true]", "#theme"), ("#run", "#open"), ("[aria-disabled]", "#theme"),
    ("#rest .changed", "#rest div:not(.changed)"),
]
LINES = """((selector) => {
  const it = document.querySelector(selector);
  if (!it) return null;
  const style = getComputedStyle(it);
  const border = (side) => `${style[`border${side}Style`]} ${style[`border${side}Width`]}`;
  const sides = ["Top", "Right", "Bottom", "Left"].map(border);
  const outline = style.outlineStyle === "none" ? "" : style.outlineWidth;
  return [...sides, outline, style.textDecorationLine, style.textDecorationStyle, style.fontWeight].join();
})"""


def to_middle(page: Deeds) -> None:
    """The wrong factorial in a run, at a step that performs a call, with where its 0 comes from."""
    page.followed()
    page.go(90)
    page.until("document.getElementById('program-note').textContent.startsWith('here: ')", "the place in the program")


def check_contrast(page: Deeds) -> None:
    """Text 4.5, borders of controls and rings 3: as it is opened, in a run with the help, and with doubts at the first
    step."""
    looks = "dark" if page.script("matchMedia('(prefers-color-scheme: dark)').matches") else "light"
    counts = []
    for state in ("opened", "run", "doubts"):
        if state == "run":
            to_middle(page)
            page.script("document.getElementById('help-button').click()")
        if state == "doubts":
            page.script("document.getElementById('help-button').click()")
            page.type("#(pr,a)'\n#(ps,Hello, \x01world)'\n#(ps,##(rs))'")
            page.run()
            page.until("document.querySelector('#doubts .doubt') !== null", "doubts are listed")
            page.tab("doubts")
            page.go(0)
        # (a border that changes little by little has other colours until then)
        page.until("document.getAnimations().length === 0", "nothing changes any more")
        count, low = page.script(CONTRAST)
        counts.append(count)
        check(low == [], "contrast, {}, {}: {}".format(looks, state, low[:8]))
    check(counts[1] > 150 and counts[0] > 10, "texts that are looked at: {}".format(counts))


def check_widths(page: Deeds) -> None:
    """Nothing is wider than the page, from 320 to 2,560 pixels, with type of 100 and 200 percent."""
    to_middle(page)
    page.script("document.getElementById('help-button').click()")
    for size in (16, 32):
        page.call("Page.setFontSizes", fontSizes={"standard": size, "fixed": size * 13 // 16})
        for width in (320, 390, 640, 1024, 1280, 1920, 2560):
            page.resize(width, 800)
            wide = page.script(WIDE)
            check(wide == [], "{} pixels, letters of {}: too wide are {}".format(width, size, wide))
            page.script("document.getElementById('big').click()")
            wide, over = page.script(WIDE), page.script(OVER)
            check(wide == [] and over == [],
                  "large view, {} pixels, letters of {}: {}, {}".format(width, size, wide, over))
            page.script("document.getElementById('big').click()")
    grown = page.script("getComputedStyle(document.getElementById('note')).fontSize")
    check(grown == "32px", "letters are large: " + grown)
    page.call("Page.setFontSizes", fontSizes={"standard": 16, "fixed": 13})
    page.script("document.getElementById('help-button').click()")


def check_forced(page: Deeds) -> None:
    """Where the system chooses the colours, each state is told by lines too, and what is lit has lines."""
    check(page.script("matchMedia('(forced-colors: active)').matches"), "the system chooses the colours")
    to_middle(page)
    page.script("document.getElementById('help-button').click()")
    lines: dict[str, str] = {}
    for step in (90, 8, 24, 13, 0):
        page.go(step)
        for selector in {selector for pair in STATES for selector in pair} - set(lines):
            said = page.script("{}('{}')".format(LINES, selector))
            if said is not None:
                lines[selector] = said
    missing = [pair for pair in STATES if not set(pair) <= set(lines)]
    check(missing == [], "states that were not met: {}".format(missing))
    same = [pair for pair in STATES if pair not in missing and lines[pair[0]] == lines[pair[1]]]
    check(same == [], "states that only a colour tells: {}".format(same))
    for name in ("lit", "read"):
        drawn = page.script("getComputedStyle(document.getElementById('paint'), '::highlight({})').textDecorationLine"
                            .format(name))
        check(drawn == "underline overline", "a {} byte has lines: {}".format(name, drawn))
    page.go(90)
    page.picture(os.path.join(KEPT, "forced.png"))


def check_still(page: Deeds) -> None:
    """For whom motion harms, nothing moves but what plays."""
    to_middle(page)
    moving = page.script("[...document.querySelectorAll('*')].filter((it) => { const style = getComputedStyle(it); "
                         "return style.scrollBehavior !== 'auto' "
                         "|| !['0s', ''].includes(style.transitionDuration) || style.animationName !== 'none'; "
                         "}).map((it) => it.id || it.tagName)")
    check(moving == [] and page.script("document.getAnimations().length") == 0, "what moves: {}".format(moving))
    page.go(10)
    page.script("document.getElementById('play').click()")
    page.until("document.getElementById('slider').value > 12", "it plays")
    page.script("document.getElementById('play').click()")


# The looks of a page, and what is tried of each.
TRIED = (rows(check_contrast, check_widths, where=CHROMIUM)
         + rows(check_contrast, where=CHROMIUM, name="-dark", dark=True)
         + rows(check_forced, where=CHROMIUM, forced=True) + rows(check_still, where=CHROMIUM, still=True))
