"""What the page asks of the processor: whole programs, runs that are stopped, answers that come late, and forms under
any names."""
from __future__ import annotations

import base64
import glob
import json
import os

from webpage.pages import TOP, Deeds, check
from webpage.rows import ONE, rows

LONG = os.path.join(TOP, "programs", "examples", "long-way-back.trac")
ENDLESS = os.path.join(TOP, "programs", "examples", "endless.trac")
# Counts how many Workers are ended. Those that are left running then tell of their late answers.
WATCH = """(() => {{
  const end = Worker.prototype.terminate;
  Worker.prototype.terminate = function () {{
    window.ended++;
    if ({leaves}) this.addEventListener('message', () => window.late++);
    else end.call(this);
  }};
}})()"""
# Presses Stop. What it does at once is told: its time is measured by bench/webpage.
STOP = """(() => {
  [window.ended, window.late] = [0, 0];
  document.getElementById('stop').click();
  return [window.ended, document.getElementById('ending').textContent];
})()"""
# Notes each step that is shown.
SHOWN = """(() => {
  const slider = document.getElementById('slider');
  window.shown = [];
  new MutationObserver(() => window.shown.push(slider.value)).observe(slider, { attributeFilter: ['aria-valuetext'] });
})()"""
# Forms under names that no command line takes, and the call that changed each last.
CHANGED = (
    ("a b", "#(CC,a b)"), ("c,\"d", "#(ss,“c,\"d”,1)"), ("", "#(ds,empty,5)"), ("#8 \\", "#(in,#8 \\,8)"),
    ("LF", "#(fb,B)"),
)
CHANGING = ("#(ds,a b,xyz)#(ds,(c,\"d),1)#(ds,(#8 \\),98765)#(ds,(\n),line)#(CC,a b)#(ss,(c,\"d),1)#(ds,,5)'"
            "#(ds,a b c,2)#(cl,a b)#(sb,B,(\n))#(fb,B)#(in,(#8 \\),8)#(cc,a)#(in,(#8 \\),8)'")
# Runs the module as the page's Worker does, without it.
MODULE = """(async () => {
  const signs = atob(document.getElementById('module').textContent.trim());
  const bytes = Uint8Array.from(signs, (sign) => sign.charCodeAt(0));
  const stream = new Blob([bytes]).stream().pipeThrough(new DecompressionStream('deflate'));
  const module = await WebAssembly.compile(await new Response(stream).arrayBuffer());
  window.ranAs = (text, decimals) => {
    const { trac_web_allocate: room, trac_web_run: run, memory } = new WebAssembly.Instance(module, {}).exports;
    const input = Uint8Array.from(atob(text), (sign) => sign.charCodeAt(0));
    const at = room(BigInt(input.length || 1)), output = room(1n << 22n), counts = room(16n);
    new Uint8Array(memory.buffer).set(input, Number(at));
    const status = run(at, BigInt(input.length), 1000000000n, BigInt(decimals), output, 1n << 22n, counts, counts + 8n);
    const length = Number(new DataView(memory.buffer).getBigUint64(Number(counts), true));
    const printed = new Uint8Array(memory.buffer, Number(output), length);
    return [status, btoa(Array.from(printed, (byte) => String.fromCharCode(byte)).join(''))];
  };
  return true;
})()"""


def read(name: str, otherwise: bytes | None = None) -> bytes:
    """The bytes of a file."""
    if otherwise is not None and not os.path.exists(name):
        return otherwise
    with open(name, "rb") as file:
        return file.read()


def check_programs(page: Deeds) -> None:
    """Whole programs, with what they print, by both widths of numbers."""
    page.script(MODULE)
    wrong = []
    for path in sorted(glob.glob(os.path.join(TOP, "tests", "data", "programs", "*.trac"))):
        name = path[:-len(".trac")]
        wanted, wide = int(read(name + ".status", b"0")), read(name + ".out")
        for decimals, output in ((128, wide), (64, read(name + ".64", wide))):
            status, printed = page.script("ranAs('{}', {})".format(base64.b64encode(read(path)).decode(), decimals))
            if [status, base64.b64decode(printed)] != [wanted, output]:
                wrong.append((name, decimals, status))
    check(not wrong, "whole programs: {}".format(wrong))


def check_stop(page: Deeds) -> None:
    """Stop ends a run at once, and what comes late of it is dropped."""
    page.script(WATCH.format(leaves="false"))
    for _ in range(3):
        page.put(read(ENDLESS).decode())
        page.click("document.getElementById('run')")
        page.until("!document.getElementById('stop').hidden", "it runs")
        ended, said = page.script(STOP)
        check(ended > 0 and "stopped" in said, "Stop ends {} Workers, and says: {}".format(ended, said))
        page.until("document.getElementById('stop').hidden", "it is stopped")
    page.script(WATCH.format(leaves="true"))
    page.click("document.getElementById('run')")
    page.until("!document.getElementById('stop').hidden", "it runs")
    page.script(STOP)
    page.type("#(ps,again)'")
    page.run()
    page.until("window.late > 0", "a late answer comes")
    said = [page.text(name)
            for name in ("output", "ending", "place")] + [page.script("document.getElementById('slider').max")]
    check(said[0] == "again" and said[1].startswith("Done after 2") and said[3] == "27",
          "a late answer is dropped: {}".format(said))


def check_jumps(page: Deeds) -> None:
    """Of some jumps at once the last one counts."""
    page.put(read(LONG).decode())
    page.run()
    page.script(SHOWN)
    page.script("[1000000, 999000, 5, 700000, 7].forEach((step) => { const box = document.getElementById('place'); "
                "box.value = String(step); box.dispatchEvent(new Event('change')); })")
    page.at(7, "the last jump")
    # (states are fetched in the order in which they are asked for: what is dropped could come no later than this)
    page.go(8)
    shown = page.script("window.shown")
    check(shown[-2:] == ["7", "8"], "after the last jump no other is shown: {}".format(shown))
    page.script("(() => { const box = document.getElementById('place'); box.value = '900000'; "
                "box.dispatchEvent(new Event('change')); "
                "document.getElementById('stop').click(); })()")
    shown = page.script("['place', 'slider'].map((id) => document.getElementById(id).value).join()")
    check(shown == "8,8", "where it stands after a jump that is stopped: {}".format(shown))


def check_changes(page: Deeds) -> None:
    """The call that changed a form last, whatever its name."""
    page.type(CHANGING)
    page.run()
    end = page.script("document.getElementById('slider').value")
    for name, call in CHANGED:
        page.go(end)
        page.script("[...document.querySelectorAll('#forms tr')]"
                    ".find((row) => row.querySelector('th span').textContent === {})"
                    ".querySelector('[data-who]').click()".format(json.dumps(name)))
        page.until("document.getElementById('slider').value !== '{}'".format(end), "who changed {!r}".format(name))
        check(call in page.text("next"), "{!r} was changed by {}: {}".format(name, call, page.text("next")))


TRIED = rows(check_programs, check_jumps, check_changes, check_stop, where=ONE)
