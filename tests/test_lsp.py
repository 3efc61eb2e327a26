"""What `trac lsp` replies to an editor, byte for byte.

Each NAME.in of tests/data/lsp has the messages of an exchange, one in each line, and NAME.out what is replied, worked
by hand. Where a line is empty, the editor waits for all that is replied so far. All exchanges end by `exit`. Then
messages that come in pieces, headers that lie, ends that are not asked for, and random edits."""
from __future__ import annotations

import itertools
import json
import random
from typing import Any

from support.cases import DATA, WALK, Case, Ran, each, near, ran, stems, tests
from support.framed import Exchange, framed

HERE = DATA / "lsp"
SERVER = WALK, "--lsp"
FILE = "file:///it.trac"
INVALID = b'{"error":{"code":%d,"message":"%s"},"id":null,"jsonrpc":"2.0"}'
NO_HEADER = INVALID % (-32600, b"this header has no Content-Length")
TOO_LONG = INVALID % (-32600, b"this message has more than 16777216 bytes")
NO_REQUEST = INVALID % (-32600, b"this is no request")
NO_JSON = INVALID % (-32700, b"this is no JSON")
FIRST = b'{"error":{"code":-32002,"message":"initialize has to come first"},"id":%s,"jsonrpc":"2.0"}'
# Bytes, and the messages that are replied to them; the editor goes away without a word.
HOSTILE: tuple[tuple[bytes, tuple[bytes, ...]], ...] = (
    (b"", ()), (b"Content-Length: 5\r\n\r\n{}", ()), (b"{}", ()), (b"\r\n", ()), (b"Content-Length: 2", ()),
    (b"Length: 2\r\n\r\n", (NO_HEADER,)), (b"\r\n\r\n", (NO_HEADER,)), (b"x" * 4096, (NO_HEADER,)),
    (b"Content-Length: -2\r\n\r\n", (NO_HEADER,)), (b"Content-Length: two\r\n\r\n", (NO_HEADER,)),
    (b"Content-Length: 1073741824\r\n\r\n{}", (TOO_LONG,)),
    (b"Content-Length: 16777217\r\n\r\n{}", (TOO_LONG,)),
    (framed(b"{}"), (NO_REQUEST,)), (framed(b""), (NO_JSON,)), (framed(b"\0"), (NO_JSON,)),
    (framed(b"\xff\xfe"), (NO_JSON,)), (framed(b'"\\ud800"'), (NO_JSON,)), (framed(b"[" * 1000), (NO_JSON,)),
    (framed(b"[" * 100 + b"]" * 100), (NO_REQUEST,)), (framed(b'{"method":5}'), (NO_REQUEST,)),
    (framed(b'{"id":1,"result":2}'), ()), (framed(b'{"id":1,"error":{}}'), ()),
    (framed(b'{"method":"x"}'), ()), (framed(b'{"method":"exit"}'), ()),
    (framed(b'{"method":"exit"}') + framed(b"{"), ()), (framed(b'{"method":"shutdown","id":1}'), (FIRST % b"1",)),
    (framed(b'{"method":"x","id":-1}'), (FIRST % b"-1",)), (framed(b'{"method":"x","id":"1"}'), (FIRST % b'"1"',)),
    (framed(b'{"method":"x","id":{"a":[1]}}'), (FIRST % b'{"a":[1]}',)),
    (framed(b'{"method":"x","id":null}'), (FIRST % b"null",)),
    (framed(b'{"method":"$/cancelRequest","params":{"id":1}}'), ()),
    (framed(b'{"method":"textDocument/didOpen","params":{"textDocument":{}}}'), ()),
)


def exchange(given: bytes, piece: int = 65536) -> Ran:
    """What the server does with these bytes, as they come in pieces."""
    return ran(SERVER, given, piece)


def opened(text: str) -> Exchange:
    """A server that has begun, with a text open."""
    server = Exchange(SERVER)
    server.asked("initialize", {"capabilities": {}}, 0)
    document = {"uri": FILE, "languageId": "trac", "version": 0, "text": text}
    server.tell("textDocument/didOpen", {"textDocument": document})
    return server


def found(server: Exchange) -> Any:
    """The doubts that it tells next."""
    return json.loads(server.message())["params"]["diagnostics"]


@tests
class Stored(Case):
    """The stored exchanges."""

    suite = "lsp"

    @each(stems(HERE, ".in"))
    def test(self, name: str) -> None:
        wanted = HERE / (name + ".out")
        turns = list(itertools.zip_longest((HERE / (name + ".in")).read_bytes().split(b"\n\n"),
                                           wanted.read_bytes().split(b"\n\n"), fillvalue=b""))
        for piece in (65536,) if name == "late" else (65536, 7):
            server = Exchange(SERVER)
            for given, replies in turns:
                text = b"".join(map(framed, given.splitlines()))
                for at in range(0, len(text), piece):
                    server.give(text[at:at + piece])
                for reply in replies.splitlines():
                    self.same("{}, in pieces of {}".format(near(wanted), piece), server.message(), reply)
            self.same(name + ": nothing more", server.message(), b"")
            self.holds(name + ": the status is 0", server.end() == 0)

    def test_hostile(self) -> None:
        """Bytes that are no messages, or none that are understood."""
        for given, replies in HOSTILE:
            for piece in 65536, 3:
                self.ends(repr(given[:80]), exchange(given, piece), b"".join(map(framed, replies)), 1)

    def test_random_edits(self) -> None:
        """The server's text is the editor's after 1,000 edits: the doubts are those of the text opened anew."""
        draw = random.Random(84)
        text = "#(ps,1)\n"
        server = opened(text)
        found(server)
        turn = 0
        while turn < 1000:
            start, end = sorted(draw.randrange(len(text) + 1) for _ in range(2))
            end = min(end, start + 20)
            new = "".join(draw.choice(["#(pr)'", "\n", "\r\n", "\U0001f600", "é", "x", "#(cl,", ")", "'"])
                          for _ in range(draw.randrange(4)))
            places = [{"line": text.count("\n", 0, at), "character": units(text[text.rfind("\n", 0, at) + 1:at])}
                      for at in (start, end)]
            if text[:start].endswith("\r") or text[:end].endswith("\r") or len(text) > 400 and len(new) > end - start:
                continue
            turn += 1
            text = text[:start] + new + text[end:]
            server.tell("textDocument/didChange", {
                "textDocument": {"uri": FILE, "version": turn},
                "contentChanges": [{"range": {"start": places[0], "end": places[1]}, "text": new}]})
            told = found(server)
            if turn % 20 == 0:
                server.tell("textDocument/didOpen", {"textDocument": {"uri": "file:///other", "text": text}})
                anew = json.dumps(found(server)).replace("file:///other", FILE)
                self.same("after edit {}".format(turn), json.dumps(told), anew)
        server.end()

    def test_changes_that_are_late(self) -> None:
        """Of changes that come together the last one alone is run."""
        server = opened("#(cl,a)'")
        found(server)
        changes = [framed(json.dumps({"jsonrpc": "2.0", "method": "textDocument/didChange", "params": {
            "textDocument": {"uri": FILE, "version": version},
            "contentChanges": [{"text": "#(cl,{})'".format(version)}]}}).encode()) for version in range(5)]
        server.give(b"".join(changes))
        self.same("one reply", found(server)[0]["message"], "no form is named 4 (step 13)")
        server.tell("textDocument/foldingRange", {"textDocument": {"uri": FILE}}, 1)
        self.same("and no other", server.message(), b'{"id":1,"jsonrpc":"2.0","result":[]}')
        server.end()


def units(text: str) -> int:
    """How many code units of UTF-16 a text has."""
    return len(text.encode("utf-16-le")) // 2
