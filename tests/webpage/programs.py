"""All programs of tests/data/programs in the page: each prints there what it is to print; and so does each that comes
with the page, opened by its title."""
from __future__ import annotations

import glob
import json
import os
import unicodedata

from support.unseen import unseen_in
from webpage.pages import TOP, Deeds, check
from webpage.rows import rows
from webpage.share import body, follow, link

CONTROLS = ("NUL SOH STX ETX EOT ENQ ACK BEL BS TAB LF VT FF CR SO SI "
            "DLE DC1 DC2 DC3 DC4 NAK SYN ETB CAN EM SUB ESC FS GS RS US").split()
# So many steps may each take.
MOST = 1_999_999


def sign(data: bytes) -> str | None:
    """The sign of UTF-8 that stands first, and has a shape of its own; or nothing."""
    width = 4 if data[0] >= 0xf0 else 3 if data[0] >= 0xe0 else 2
    try:
        text = data[:width].decode()
    except UnicodeDecodeError:
        return None
    kind = unicodedata.category(text[0])
    return text if len(text) == 1 and kind[0] != "C" and not unseen_in(text) else None


def shown(data: bytes) -> str:
    """Bytes as the page shows what was printed."""
    text, at = "", 0
    while at < len(data):
        byte, found = data[at], sign(data[at:]) if data[at] > 127 else None
        if found:
            text += found
        elif byte > 126:
            text += "DEL" if byte == 127 else "{:x}".format(byte)
        else:
            text += chr(byte) if byte >= 32 or byte in (9, 10) else CONTROLS[byte]
        at += len(found.encode()) if found else 1
    return text


def check_programs(page: Deeds) -> None:
    """Each with its input at an end, by a link."""
    wrong, paths = [], sorted(glob.glob(os.path.join(TOP, "tests", "data", "programs", "*.trac")))
    for path in paths:
        with open(path, "rb") as program, open(path[:-len("trac")] + "out", "rb") as out:
            tape, wanted = program.read(), shown(out.read())
        follow(page, link(body(tape, [], True, MOST)))
        page.until("document.getElementById('note').textContent.startsWith('the link is to step')", path + " is run")
        if page.text("output") != wanted:
            wrong.append((os.path.basename(path), page.text("output")[:100], wanted[:100]))
    check(len(paths) > 50 and not wrong, "programs: {}".format(wrong[:3]))


# Opens what a list has under a title, and says all that stands there.
OPEN = """((title) => {{
  const list = document.getElementById('library');
  const option = [...list.options].find((one) => one.text.startsWith(title + ': '));
  if (!option) return null;
  list.value = option.value;
  list.dispatchEvent(new Event('change'));
  return option.text;
}})({})"""


def titles() -> dict[str, str]:
    """The programs that come with the page, as files, by their titles."""
    folder = os.path.join(TOP, "programs")
    with open(os.path.join(TOP, "web", "examples.txt"), encoding="utf-8") as lines:
        named = [line.split("|") for line in lines]
    found = {title: os.path.join(folder, "examples", name) for name, title, _ in named}
    for path in sorted(glob.glob(os.path.join(folder, "library", "*.trac"))):
        with open(path[:-len("trac")] + "md", encoding="utf-8") as text:
            found[text.readline().lstrip("# ").rstrip().replace("`", "")] = path
    return found


def check_titles(page: Deeds) -> None:
    """Each that comes with the page is opened by its title, beside which stands what it shows; run, it prints what it
    is to print, or as much of it as it prints before it waits for input."""
    paths = titles()
    there = sorted(glob.glob(os.path.join(TOP, "programs", "library", "*.trac"))
                   + glob.glob(os.path.join(TOP, "programs", "examples", "*.trac")))
    check(sorted(paths.values()) == there and len(there) > 30, "all have a title: {}".format(len(there)))
    for title, path in paths.items():
        line = page.script(OPEN.format(json.dumps(title))) or ""
        check(len(line) > len(title) + 10, "{} says what it shows: {}".format(title, line))
        name = os.path.basename(path)
        page.until("document.getElementById('program-name').textContent === '{}'".format(name), name + " is opened")
        with open(path, encoding="utf-8") as program:
            check(page.script("document.getElementById('source').value") == program.read(), name + " is its text")
        page.run()
        out, printed, ending = path[:-len("trac")] + "out", page.text("output"), page.text("ending")
        if not os.path.exists(out):
            continue
        with open(out, "rb") as wanted:
            text = shown(wanted.read())
        is_whole = ending.startswith("Done after ") and not os.path.exists(path[:-len("trac")] + "in")
        check(text == printed if is_whole else text.startswith(printed),
              "{} prints {!r}, and is to print {!r}".format(name, printed[:80], text[:80]))


TRIED = rows(check_programs, check_titles, seconds=20)
