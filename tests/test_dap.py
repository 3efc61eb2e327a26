"""What `trac dap` replies to an editor, byte for byte.

Each NAME.in of tests/data/dap has the messages of an exchange, one in each line, and NAME.out what is replied, worked
by hand but for the steps that progress tells. All exchanges end by `disconnect`. Then messages and bytes that are not
understood, and ends that are not asked for; what it shows after random moves, beside what `trac debug` shows of the
same steps; and a debugger in Emacs, where its dap-mode is installed."""
from __future__ import annotations

import json
import os
import random
import re
import shutil
from typing import Any

from support.cases import DATA, EXAMPLES, TOP, TRAC, WALK, Case, each, lined, near, ran, scratch, stems, tests
from support.exchanges import exchange, is_stored, unframed
from support.framed import framed

HERE = DATA / "dap"
REFUSAL = (b'{"body":{"error":{"format":"%s","id":1,"showUser":true}},"command":"","message":"%s","request_seq":0,'
           b'"seq":1,"success":false,"type":"response"}')
# Bytes, and why they are refused, if anything is replied; the editor goes away without a word.
HOSTILE = (
    (b"", b""), (b"Content-Length: 5\r\n\r\n{}", b""), (b"{}", b""),
    (b"Length: 2\r\n\r\n", b"this header has no Content-Length"),
    (b"Content-Length: 1073741824\r\n\r\n{}", b"this message has more than 16777216 bytes"),
    (framed(b"{}"), b"this is no request"), (framed(b"[]"), b"this is no request"),
    (framed(b"null"), b"this is no request"), (framed(b"{"), b"this is no JSON"), (framed(b""), b"this is no JSON"),
    (framed(b"[" * 1000), b"this is no JSON"), (framed(b'{"seq":1}'), b"this is no request"),
    (framed(b'{"command":"threads"}'), b"this is no request"),
    (framed(b'{"seq":-1,"command":"threads"}'), b"this is no request"),
    (framed(b'{"seq":1,"command":7}'), b"this is no request"),
    (framed(b'{"seq":1,"type":"response","command":"runInTerminal"}'), b""),
    (framed(b'{"seq":1,"type":"event","event":"x"}'), b""),
    (framed(b'{"seq":"1","command":"threads"}'), b"this is no request"),
    (framed(b'{"seq":1.5,"command":"threads"}'), b"this is no request"),
    (framed(b'{"seq":18446744073709551616,"command":"threads"}'), b"this is no request"),
    (framed(b'{"seq":null,"command":"threads"}'), b"this is no request"),
    (framed(b'{"seq":1,"command":"\\ud800"}'), b"this is no JSON"),
    (framed(b'{"seq":1,"command":"\xff"}'), b"this is no JSON"),
    (framed(b'{"seq":1,"command":"threads"} {}'), b"this is no JSON"),
    (framed(b'{"a":' * 1000), b"this is no JSON"),
    (framed(b"\0" * 9), b"this is no JSON"),
)
# Requests with numbers, paths and texts of all kinds, none of which ends an exchange.
GREAT = 2 ** 64 - 1
STRANGE: tuple[tuple[str, dict[str, Any]], ...] = (
    ("stackTrace", {"startFrame": GREAT, "levels": GREAT}), ("stackTrace", {"startFrame": 1, "levels": 0}),
    ("scopes", {"frameId": GREAT}), ("variables", {"variablesReference": GREAT}), ("variables", {}),
    ("setBreakpoints", {"source": {"path": "\0"}, "breakpoints": [{"line": GREAT}, {"line": 0}, {}, 7, None]}),
    ("setBreakpoints", {"breakpoints": {"line": 1}}), ("setBreakpoints", {"source": 7, "breakpoints": [[]]}),
    ("setFunctionBreakpoints", {"breakpoints": [{"name": "\U0010ffff"}, {"name": 7}, {"name": "\\"}]}),
    ("setDataBreakpoints", {"breakpoints": [{"dataId": "byte " + str(GREAT)}, {"dataId": "byte -1"}]}),
    ("setExceptionBreakpoints", {"filters": "doubts"}), ("dataBreakpointInfo", {"name": "#" + str(GREAT)}),
    ("evaluate", {"expression": "\n\0'", "context": "repl"}), ("evaluate", {"expression": [], "context": "repl"}),
    ("evaluate", {"expression": "g " + str(GREAT), "context": "repl"}), ("evaluate", {"context": "hover"}),
    ("evaluate", {"expression": "x" * 70000, "context": "repl"}), ("launch", {"program": "/"}),
    ("restart", {"arguments": {"program": "\0"}}), ("restart", {}), ("next", {"granularity": 7}), ("terminate", {}),
)
# Moves, and how far commands of the console go; a program of the examples; of how many frames arguments are asked for.
RULE = {"granularity": "instruction"}
MOVES: tuple[tuple[str, dict[str, Any]], ...] = (
    ("stepIn", {}), ("stepIn", {}), ("stepIn", RULE), ("next", {}), ("next", RULE), ("stepOut", {}), ("stepBack", {}),
    ("stepBack", {}), ("stepBack", RULE), ("continue", {}), ("reverseContinue", {}),
    *(("evaluate", {"context": "repl", "expression": "g {}".format(step)}) for step in (0, 30, 120, 200, 270)),
)
PROGRAM = EXAMPLES / "wrong-factorial.trac"
FRAMES = 16
# What a person sees in Emacs: where the program waits, a step back with the form there, and where the breakpoint is.
SEEN = (
    "#(rs): line 0 column 0",
    "#(ml,5,0): line 1 column 31",
    "Factorial: [^]#(eq,[1],1,0,(#(ml,[1],#(cl,Factorial,#(su,[1],1)))))",
    "#(eq,1,1,0,(#(ml,1,#(cl,Factorial,#(su..): line 1 column 19",
    "245  #(cl,Factorial,1)            gives it",
    "23  #(ds,Factorial,(#(eq,X,1,0,(#(ml,X,#(cl,Fa..  sets it",
    "7  #(rs)                          reads it: line 1, column 26",
    "FILE    #(ds,Factorial,(#(eq,X,1,0,(#(ml,X,#(cl,Factorial,#(su,X,1)))))))'",
    "                                 ^",
    "here: 7  #(rs)",
)


class Asked:
    """Requests, and what is replied to them."""

    def __init__(self) -> None:
        self.messages: list[bytes] = []

    def ask(self, command: str, **arguments: Any) -> int:
        """Asks for something; the number of the request."""
        self.messages.append(json.dumps({"seq": len(self.messages) + 1, "type": "request", "command": command,
                                         "arguments": arguments}).encode())
        return len(self.messages)

    def replies(self) -> dict[int, Any]:
        """The body of each reply, by the number of its request."""
        run = exchange("dap", b"".join(map(framed, self.messages)))
        told = map(json.loads, unframed(run.output))
        return {it["request_seq"]: it["body"] for it in told if it["type"] == "response" and it["success"]}


def pairs_in(body: Any) -> list[tuple[str, str]]:
    """Variables, as names with values."""
    return [(it["name"], it["value"]) for it in body["variables"]]


def escaped(text: str) -> str:
    """A text as `trac debug` shows it."""
    return re.sub(r"[^ -~]|[][\\]", lambda it: "\\x{:02x}".format(ord(it[0])), text)


@tests
class Stored(Case):
    """The stored exchanges."""

    suite = "dap"

    @each(stems(HERE, ".in"))
    def test(self, name: str) -> None:
        is_stored(self, "dap", HERE, name)

    def test_hostile(self) -> None:
        """Bytes that are no messages, or none that are understood."""
        for given, why in HOSTILE:
            replied = framed(REFUSAL % (why, why)) if why else b""
            self.ends(repr(given), exchange("dap", given), replied, 1)

    def test_strange(self) -> None:
        """Requests that mean nothing: each gets one response, before a program is launched, while it stands, and after
        it is ended."""
        asked = Asked()
        asked.ask("initialize")
        for stage in range(3):
            for command, arguments in STRANGE:
                asked.ask(command, **arguments)
            if stage == 0:
                asked.ask("launch", program=near(PROGRAM), stopOnEntry=True)
                asked.ask("configurationDone")
        asked.ask("disconnect")
        run = exchange("dap", b"".join(map(framed, asked.messages)))
        told = [json.loads(it) for it in unframed(run.output)]
        numbers = [it["request_seq"] for it in told if it["type"] == "response"]
        self.same("the responses", str(numbers), str(list(range(1, len(asked.messages) + 1))))
        self.same("the numbers", str([it["seq"] for it in told]), str(list(range(1, len(told) + 1))))
        self.status("strange requests", run, 0)

    def test_states(self) -> None:
        """What is shown after 300 random moves."""
        asked, chance, seen = Asked(), random.Random(84), []
        asked.ask("initialize")
        asked.ask("launch", program=near(PROGRAM), stopOnEntry=True)
        asked.ask("configurationDone")
        for _ in range(300):
            command, arguments = chance.choice(MOVES)
            asked.ask(command, **arguments)
            seen.append([asked.ask("variables", variablesReference=it) for it in (3, 1, *range(9, 9 + FRAMES))])
        asked.ask("disconnect")
        replies = asked.replies()
        wanted = self.states([dict(pairs_in(replies[one[0]]))["step"] for one in seen])
        for number, (machine, forms, *frames) in enumerate(seen):
            self.same("state {}".format(number), state_of(
                dict(pairs_in(replies[machine])), pairs_in(replies[forms]),
                [[value for _, value in pairs_in(replies[it])] for it in frames]), wanted[number])

    def states(self, steps: list[str]) -> list[str]:
        """The states after these numbers of steps, by `trac debug`: what is compared of them."""
        commands = "".join("b 999999\ns {}\np\n".format(step) for step in steps) + "q\n"
        run = ran([TRAC, "debug", PROGRAM], commands.encode())
        blocks = re.split(r"^(?=active )", run.output.decode(), flags=re.M)[1:]
        return ["".join(re.findall(r"^(?:active|call|form|meta|trace) .*\n", block, re.M)) for block in blocks]


def state_of(machine: dict[str, str], forms: list[tuple[str, str]], frames: list[list[str]]) -> str:
    """What is shown of a state, as `trac debug` shows it."""
    lines = ["active [{}]".format(escaped(machine["active text"]))]
    lines += ["call # " + "".join("[{}]".format(escaped(it)) for it in frame) for frame in frames if frame]
    for name, text in forms:
        lines.append("form [{}] [{}]".format(name, re.sub(r"\[(\^|\d+)\]", r"<\1>", text)))
    lines += ["meta [{}]".format(machine["meta"]), "trace " + machine["trace"]]
    return "".join(line + "\n" for line in lines)


@tests
class Clients(Case):
    """Editors that speak with it."""

    suite = "dap"

    def test_emacs(self) -> None:
        """Emacs runs the wrong factorial to its end, steps back, and goes back to a breakpoint."""
        emacs, home = shutil.which("emacs"), scratch(self)
        wants = "(progn (package-initialize) (require 'dap-mode))"
        with_home = {**os.environ, "HOME": str(home)}
        if not emacs or ran([emacs, "--batch", "--eval", wants], env=with_home).status:
            self.skipTest("there is no emacs with dap-mode")
        run = ran([emacs, "--batch", "-L", TOP / "share" / "editors" / "emacs", "-l",
                   TOP / "tests" / "support" / "debugging.el", WALK, PROGRAM], env=with_home)
        self.same("what is seen in Emacs", run.output, lined(SEEN))
