"""The parts of a text of the course, which is Markdown: headings, paragraphs, items, and blocks of code in fences.
`trac course` lays them out for a terminal, and web/assemble puts them into the page."""
from __future__ import annotations

import re
from typing import NamedTuple

TYPE_CHECKING = False
if TYPE_CHECKING:
    from collections.abc import Iterator

FENCE = re.compile(r"```(\w*) ?(\S*)$")
ITEM = re.compile(r"([0-9]+\.|-) +")
HEADING = re.compile(r"#+ +")
# A piece of code, bold, slanted, or a link.
MARKED = re.compile(r"(?P<code>`[^`]+`)|\*\*(?P<strong>[^*]+)\*\*|\*(?P<em>[^*]+)\*|\[(?P<link>[^]]+)\]\([^)]*\)")


class Part(NamedTuple):
    """A part: `heading`, `p`, `ol` or `ul` of an item, or of a block what its fence says; of such a one its name. An
    item has a mark. A block has lines, all others words."""

    kind: str
    name: str = ""
    mark: str = ""
    lines: list[str] = []

    @property
    def is_item(self) -> bool:
        """Whether it is an item of a list."""
        return bool(self.mark)

    @property
    def words(self) -> str:
        """Its words in a line."""
        return " ".join(self.lines)


class Span(NamedTuple):
    """A piece of words: `code`, `strong`, `em`, or unmarked; and its text, of code without its signs."""

    kind: str
    text: str


def parts(text: str) -> Iterator[Part]:
    """The parts of a text."""
    part: Part | None = None
    is_block = False
    for line in [*text.split("\n"), ""]:
        fence, item, heading = FENCE.match(line), ITEM.match(line), HEADING.match(line)
        if is_block and part and not fence:
            part.lines.append(line)
            continue
        if part and (is_block or fence or item or heading or not line):
            yield part
            part = None
        if is_block or not line:
            is_block = False
        elif fence:
            part, is_block = Part(fence[1], fence[2], lines=[]), True
        elif heading:
            yield Part("heading", lines=[line[heading.end():]])
        elif item:
            part = Part("ul" if item[1] == "-" else "ol", mark=item[0], lines=[line[item.end():]])
        elif part:
            part.lines.append(line.strip())
        else:
            part = Part("p", lines=[line.strip()])


def spans(words: str) -> Iterator[Span]:
    """The pieces of words; of a link its text is unmarked."""
    at = 0
    for found in MARKED.finditer(words):
        if found.start() > at:
            yield Span("", words[at:found.start()])
        kind = found.lastgroup or ""
        yield Span("" if kind == "link" else kind, found[kind].strip("`"))
        at = found.end()
    if at < len(words):
        yield Span("", words[at:])
