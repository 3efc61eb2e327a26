"""Links that the page makes and opens: there and back with any bytes, cut, wrong and hostile ones. Here they are packed
and unpacked a second time, as web/link.js says."""
from __future__ import annotations

import base64
import functools
import http.server
import os
import random
import threading
import zlib
from collections.abc import Sequence

from webpage.pages import FACTORIAL, Deeds, check, ready
from webpage.rows import file_of, rows

ASKING = "#(ps,(Who? ))#(ps,Hello ##(rs)!)'"
# Programs whose bytes are to stay as they are.
PROGRAMS = {
    "no text": b"#(ps,\xff\xfe\x80)'", "NUL": b"#(ps,a\x00b)'", "CR LF": b"#(ps,(a\r\nb))'\r\n",
    "CR alone": b"#(ps,(a\rb))'\r", "both line ends": b"#(ps,(a\r\nb\n))'\n\r",
    "a mark of order": b"\xef\xbb\xbf#(ps,a)'", "letters": "#(ps,äöü→𝄞)'".encode(),
    "empty": b"", "any": random.Random(62).randbytes(3000), "every": bytes(range(256)) * 3,
    "long": b"#(ps,(" + b"0123456789 \n" * 5000 + b"))'",
}
# How high the lines of the link are, by its letters.
LINE = """(({ lineHeight, fontSize }) => parseFloat(lineHeight) / parseFloat(fontSize))(
  getComputedStyle(document.getElementById('share-text')))"""
# That a link is wrong is said.
SAID = "document.getElementById('ending').textContent.endsWith(' Nothing is opened.')"


def number(value: int) -> bytes:
    """A whole number in parts of seven bits, the lowest first."""
    rest = b""
    while value > 127:
        rest, value = rest + bytes([value % 128 + 128]), value // 128
    return rest + bytes([value])


def sum_of(data: bytes) -> bytes:
    """FNV-1a with 32 bits."""
    value = 2166136261
    for byte in data:
        value = (value ^ byte) * 16777619 % (1 << 32)
    return value.to_bytes(4, "big")


def signs(data: bytes) -> str:
    """Bytes in signs of an address."""
    return base64.urlsafe_b64encode(data).decode().rstrip("=")


def packed(data: bytes) -> bytes:
    """Bytes without a head, as deflate has them."""
    pack = zlib.compressobj(9, zlib.DEFLATED, -15)
    return pack.compress(data) + pack.flush()


def body(program: bytes, lines: Sequence[tuple[int, bytes]] = (), is_closed: bool = False,
         step: int | None = None) -> bytes:
    """What a link holds."""
    parts = [number(0 if step is None else step + 1), number(len(program)), program, number(2 * len(lines) + is_closed)]
    for at, line in lines:
        parts += [number(at), number(len(line)), line]
    return b"".join(parts)


def link(data: bytes, is_packed: bool = True) -> str:
    """A link that holds these bytes, with their sum."""
    whole = sum_of(data) + data
    return "#1d" + signs(packed(whole)) if is_packed else "#1s" + signs(whole)


def held(text: str) -> bytes:
    """What a link holds, without its sum."""
    kind, rest = text[1:3], text[3:]
    data = base64.urlsafe_b64decode(rest + "=" * (-len(rest) % 4))
    if kind == "1d":
        data = zlib.decompressobj(-15).decompress(data)
    check(kind in ("1d", "1s") and data[:4] == sum_of(data[4:]), "the form and the sum of a link: " + text[:40])
    return data[4:]


def shared(page: Deeds) -> str:
    """What Share gives."""
    page.until("document.getElementById('stop').hidden", "nothing goes on")
    page.click("document.getElementById('share')")
    page.until("document.getElementById('share-box').open", "Share opens its box")
    text: str = page.script("document.getElementById('share-text').value")
    page.click("document.getElementById('share-close')")
    return text


def follow(page: Deeds, text: str) -> None:
    """Follows a link within the page."""
    page.script("(() => {{ for (const name of ['program-name', 'ending']) "
                "document.getElementById(name).textContent = ''; "
                "location.hash = {!r}; }})()".format(text))
    page.until("document.getElementById('program-name').textContent !== ''", "a link is opened: " + text[:40])


def check_run(page: Deeds, file: str) -> None:
    """A run with its input and its step: shared, and opened anew."""
    page.type(ASKING)
    page.run()
    page.script("document.getElementById('input').focus()")
    page.insert("Ann'")
    page.press("Enter")
    page.until("document.getElementById('output').textContent === 'Who? Hello Ann!'", "it reads a line")
    page.go(29)
    text = shared(page)
    words = page.text("share-words")
    check("holds the program, a line of input and step 29" in words and "file on your disk" in words,
          "what is shared: " + words)
    data = held(text)
    check(data[:2] == number(30) + number(len(ASKING)) and data.endswith(number(5) + b"Ann'\n")
          and ASKING.encode() in data,
          "what the link holds: {}".format(data))
    check(36 <= len(text) <= 300, "a link of {} signs".format(len(text)))
    check((page.script(LINE) or 0) >= 1.35, "lines are so high that no _ is hidden: {}".format(page.script(LINE)))
    check(page.script("location.hash") == "", "the address stays as it is")
    page.well("sharing")
    page.load(file, text)
    page.at(29, "the link goes")
    page.until("document.getElementById('slider').max !== '29'", "the whole run is there")
    check(page.script("document.getElementById('source').value") == ASKING, "the program of the link")
    page.press("End")
    page.until("document.getElementById('output').textContent === 'Who? Hello Ann!'", "the input of the link")
    check(held(shared(page))[2:] == data[2:], "the same is shared again, but for the step")
    follow(page, link(body(open(FACTORIAL, "rb").read(), [], True, 5000)))
    page.until("document.getElementById('note').textContent "
               "=== 'the link is to step 5,000, and the run ends before it'",
               "a step that the run has not")
    check("the input has ended" in page.text("ending"), "the input has ended: " + page.text("ending"))


def check_bytes(page: Deeds) -> None:
    """Programs of any bytes, there and back."""
    for name, program in PROGRAMS.items():
        follow(page, link(body(program), len(program) % 2 == 0))
        back = held(shared(page))
        check(back == body(program), "{}: {}".format(name, back[:60]))
    page.type("#(ps,(Hello, world.))'")
    text = shared(page)
    check(held(text) == body(b"#(ps,(Hello, world.))'") and 36 <= len(text) <= 300, "the smallest link: " + text)


def check_wrong(page: Deeds, file: str) -> None:
    """Cut, changed, foreign and hostile links: a sentence, and an empty editor."""
    good = link(body(open(FACTORIAL, "rb").read(), [(3, b"a\n")], False, 7))
    stored = link(body(b"#(ps,a)'"), False)
    changed = [good[:at] + ("A" if good[at] != "A" else "B") + good[at + 1:] for at in (3, 20, len(good) - 20)]
    changed += [stored[:at] + ("A" if stored[at] != "A" else "B") + stored[at + 1:] for at in (4, 12)]
    cut = [good[:length] for length in (3, 10, 50, len(good) - 30, len(good) - 4)] + [stored[:-3], stored[:12]]
    false = [link(body(b"a") + b"more"), link(number(0) + number(9) + b"a"), link(b"\xff" * 12), link(b""), "#1d",
             "#1s"]
    rows = [(text, "cut off or changed") for text in changed + cut + false]
    rows += [(text, "not one that this page made") for text in ("#help", "#1d*", "#29")]
    rows += [("#2d00", "a later version")]
    large = link(body(bytes(1 << 20) + b"a")), "#1d" + signs(packed(bytes(1 << 25)))
    rows += [(text, "more than 1 MiB") for text in large]
    # (a page would be at work on so many lines for minutes)
    rows.append((link(body(b"a", [(0, b"x'")] * 10001)), "more than 10,000 lines of input"))
    for text, words in rows:
        follow(page, link(body(b"before")))
        follow(page, text)
        page.until(SAID, "it is said: " + text[:40])
        check(words in page.text("ending"), "{}: {}".format(text[:60], page.text("ending")))
        check(page.script("document.getElementById('source').value") == "", "the editor is empty after " + text[:60])
    page.load(file, good[:-9])
    page.until(SAID, "a cut link in the address")
    page.well("wrong links")


def check_pasted(page: Deeds) -> None:
    """Open takes the text in a box, also broken into lines, and says if it is wrong."""
    good = link(body(b"#(ps,pasted)'", [], False, 4))
    page.click("document.getElementById('open')")
    page.script("document.getElementById('paste').focus()")
    page.insert("wrong")
    page.press("Enter")
    page.until(SAID.replace("ending", "open-note"), "what is wrong in the box")
    page.script("document.getElementById('paste').select()")
    page.insert("https://example.org/trac.html" + good[:20] + " " + good[20:])
    page.press("Enter")
    page.at(4, "what was pasted goes")
    check(page.script("document.getElementById('source').value") == "#(ps,pasted)'", "what was pasted is opened")
    check(not page.script("document.getElementById('open-box').open"), "the box is closed")


def check_without_packing(page: Deeds) -> None:
    """Where nothing packs, a link is not packed; and one that is packed is not opened, which is said."""
    page.script("(delete window.CompressionStream, delete window.DecompressionStream)")
    page.type("#(ps,(aaaaaaaaaaaaaaaaaaaaaaaaaaaaaaaaaaaaaaaaaaaaaaaaaaaaaaaaaaaaaaaaaa))'")
    text = shared(page)
    check(text.startswith("#1s") and b"aaaa" in held(text), "a link that is not packed: " + text)
    follow(page, text)
    check(page.script("document.getElementById('source').value").endswith("aaa))'"), "it is opened")
    follow(page, link(body(b"a")))
    check("This browser cannot unpack links" in page.text("ending"), "a packed one is refused: " + page.text("ending"))


def check_served(page: Deeds, file: str) -> None:
    """The page from a server: a whole link."""
    serve = functools.partial(Quiet, directory=os.path.dirname(file))
    server = http.server.ThreadingHTTPServer(("127.0.0.1", 0), serve)
    threading.Thread(target=server.serve_forever, daemon=True).start()
    address = "http://127.0.0.1:{}/{}".format(server.server_port, os.path.basename(file))
    try:
        page.load(address)
        ready(page)
        page.type("#(ps,(served))'")
        page.run()
        text = shared(page)
        check(text.startswith(address + "#1"), "a whole link: " + text)
        page.click("document.getElementById('share')")
        page.until("document.getElementById('share-box').open", "the box of Share")
        page.click("document.getElementById('share-copy')")
        page.until("document.getElementById('share-note').textContent !== ''", "Copy says what it did")
        chosen = page.script("(() => { const box = document.getElementById('share-text'); "
                             "return box.value.slice(box.selectionStart, box.selectionEnd) === box.value; })()")
        check(page.text("share-note") == "Copied." or chosen, "Copy: " + page.text("share-note"))
        page.load(text)
        page.until("document.getElementById('output').textContent === 'served'", "the whole link is opened")
        page.well("from a server")
    finally:
        server.shutdown()
        server.server_close()


def check_far(page: Deeds, file: str) -> None:
    """A link to a step after the first 2,000,000 is run so far only if that is wanted."""
    endless = b"#(ds,L,(#(cl,L)))'#(cl,L)'"
    for answer, step in (("no", 2000000), ("yes", 3000000)):
        page.load(file, link(body(endless, [], True, 3000000)))
        page.until("document.getElementById('question').open", "a far link asks first")
        check("The link is to step 3,000,000." in page.text("question-text"),
              "what it asks: " + page.text("question-text"))
        check(page.text("output") == "" and page.script("document.getElementById('slider').value") != "3000000",
              "nothing runs before")
        page.click("document.getElementById('question-{}')".format(answer))
        page.at(step, "a far link goes")
    page.well("far links")


def check_large_file(page: Deeds) -> None:
    """A file that is too long is refused by its size: it is not read."""
    page.type("#(ps,kept)'")
    page.script("""(() => {
      window.wasRead = false;
      File.prototype.arrayBuffer = async () => { window.wasRead = true; return new ArrayBuffer(0); };
      const given = new DataTransfer();
      given.items.add(new File([new Uint8Array(33554433)], 'large.trac'));
      const box = document.getElementById('file');
      box.files = given.files;
      box.dispatchEvent(new Event('change'));
    })()""")
    said = "large.trac has 33,554,433 bytes: a program may have at most 33,554,432."
    page.until("document.getElementById('ending').textContent.startsWith('{}')".format(said),
               "it is said that a file is too long")
    check(not page.script("window.wasRead || document.getElementById('question').open"),
          "it is not read, and nothing is asked")
    check(page.script("document.getElementById('source').value") == "#(ps,kept)'", "the program stays")


def check_two(page: Deeds) -> None:
    """Of two links that are followed at once, or one soon after the other, the later one is opened, also where the
    first takes longer; that is there to be brought back."""
    value = "document.getElementById('source').value"
    # (hardly anything of it is packed, so it takes long)
    slow = b"#(ps,(" + random.Random(77).randbytes(150000).hex().encode() + b"))'"
    for number, pause in enumerate(("", "await new Promise((done) => setTimeout(done));")):
        quick = "#(ps,quick {})'".format(number)
        page.script("(async () => {{ location.hash = {!r}; {} location.hash = {!r}; }})()".format(
            link(body(slow)), pause, link(body(quick.encode()), False)))
        page.until("{} === {!r}".format(value, quick), "the later one is opened")
        page.rest(300)
        check(page.script(value) == quick, "it stays: " + page.script(value)[:40])
        page.click("document.getElementById('undo')")
        check(page.script(value).encode() == slow, "the first is brought back: " + page.script(value)[:40])


def check_asked(page: Deeds) -> None:
    """A link that is followed while something is asked of another one takes its place, and only its program is run."""
    endless, question = b"#(ds,L,(#(cl,L)))'#(cl,L)'", "document.getElementById('question').open"
    follow(page, link(body(endless, [], True, 3000000)))
    page.until(question, "a far link asks first")
    follow(page, link(body(endless + b" ", [], True, 4000000)))
    page.until("document.getElementById('question-text').textContent.startsWith('The link is to step 4,000,000.')",
               "another far link asks in its place")
    page.rest(100)
    check(page.script(question), "that is asked still")
    follow(page, link(body(b"#(ps,later)'", [], False, 4)))
    page.until("!" + question, "of one that is not far nothing is asked, nor of those before it")
    page.at(4, "it goes")
    check(page.script("document.getElementById('source').value") == "#(ps,later)'", "its program is there")
    page.script("document.activeElement.blur()")
    page.press("End")
    page.until("document.getElementById('output').textContent === 'later'", "and its run")


class Quiet(http.server.SimpleHTTPRequestHandler):
    """A server that says nothing."""

    def log_message(self, *words: object) -> None:
        """Nothing."""


TRIED = (rows(check_bytes, check_pasted, check_without_packing, check_large_file, check_two, check_asked)
         + rows(check_run, check_wrong, check_far, check_served, given=file_of))
