#!/usr/bin/env python3
"""Times how long `trac lsp` takes to tell the doubts of a text after a change, and prints a table.

Each number is the least time of all rounds, on the clock: other work on the machine can only add to it.

    python3 bench/editors/run.py [--program TRAC_WALK] [ROUNDS]
"""
import pathlib
import sys
import time

ROOT = pathlib.Path(__file__).resolve().parent.parent.parent
sys.path.insert(0, str(ROOT / "tests"))

from support.framed import Exchange  # noqa: E402

FILE = "file:///it.trac"
ENDLESS = "#(ds,a,(#(cl,a)))'#(cl,a)'"


def rows():
    """Each text with its name: 200 lines; programs without end, which take a budget of steps."""
    example = (ROOT / "programs/examples/wrong-factorial.trac").read_text(encoding="utf-8")
    yield "200 lines", "".join(example.replace("Factorial", f"F{it}") for it in range(67))
    yield "a call without end", ENDLESS
    yield "the same, printing", ENDLESS.replace("#(cl,a))", "#(ps,x)#(cl,a))")


def told_after_change(server, version, text):
    """Changes the text, and waits for its doubts; the time that this takes."""
    start = time.perf_counter()
    server.tell("textDocument/didChange", {"textDocument": {"uri": FILE, "version": version},
                                           "contentChanges": [{"text": text}]})
    server.message()
    return time.perf_counter() - start


def main():
    words = sys.argv[1:]
    program = ROOT / "out" / "trac-walk"
    if words[:1] == ["--program"]:
        program, words = pathlib.Path(words[1]).resolve(), words[2:]
    rounds = int(words[0]) if words else 9
    print("| | the doubts after a change |")
    print("|---|---|")
    for name, text in rows():
        server = Exchange((program, "--lsp"))
        server.asked("initialize", {"capabilities": {}}, 0)
        document = {"uri": FILE, "languageId": "trac", "version": 0, "text": text}
        server.tell("textDocument/didOpen", {"textDocument": document})
        server.message()
        least = min(told_after_change(server, it, text + " " * it) for it in range(1, rounds + 1))
        server.end()
        print(f"| {name} | {1000 * least:.0f} ms |")


if __name__ == "__main__":
    main()
