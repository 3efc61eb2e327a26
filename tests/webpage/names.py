"""The tree of roles and names that screen readers are given, as lines of text, and what lacks a name."""
from collections.abc import Iterable, Iterator
from typing import Any, Optional

from webpage.pages import Deeds


# A node of the tree; of a row its depth, what is told of a node there, and else a text of the page.
Node = dict[str, Any]
Row = tuple[int, Optional[str], Optional[str]]
# What says nothing by itself: its children stand in its place.
SILENT = {"none", "generic", "InlineTextBox", "LineBreak", "RootWebArea", "LayoutTable", "ListMarker"}
# What a person presses, types into or moves along by keys.
CONTROLS = {"button", "checkbox", "combobox", "link", "searchbox", "slider", "textbox", "tree", "treeitem", "switch"}
# What has only what the page offers: its list of programs is not told.
CLOSED = {"combobox"}
# What is named by the text that stands in it.
NAMED = {"button", "heading", "rowheader", "term", "treeitem"}
# What of a node is told beside its role and name.
TOLD = ("level", "expanded", "disabled", "checked", "readonly")


def nodes(page: Deeds) -> dict[str, Node]:
    """All nodes of the accessibility tree of Chromium, by their numbers; the first is its root."""
    page.call("Accessibility.enable")
    return {node["nodeId"]: node for node in page.call("Accessibility.getFullAXTree")["nodes"]}


def value(node: Node, key: str) -> str:
    """A value of a node, as text."""
    return str(node.get(key, {}).get("value", "")).strip()


def told(node: Node) -> str:
    """What is told of a node: its role, its name, and its state."""
    states = {state["name"]: state["value"].get("value") for state in node.get("properties", [])}
    words = ["{}={}".format(name, str(states[name]).lower()) for name in TOLD
             if states.get(name) not in (None, False, "false")
             or name == "expanded" and name in states]
    name = value(node, "name")
    return " ".join([value(node, "role")] + (['"{}"'.format(name)] if name else []) + words)


def rows(tree: dict[str, Node], node: Node, depth: int = 0) -> Iterator[Row]:
    """What is told of a node and of those within it, each with its depth; a text of the page has a name alone."""
    role = value(node, "role")
    is_silent = node.get("ignored") or role in SILENT
    if role == "StaticText" and not node.get("ignored"):
        yield depth, None, str(node.get("name", {}).get("value", ""))
    elif not is_silent:
        yield depth, told(node), None
    for child in node.get("childIds", []):
        if child in tree and role not in CLOSED | {"StaticText"}:
            yield from rows(tree, tree[child], depth + (not is_silent))


def joined(told_rows: Iterable[Row]) -> list[Row]:
    """Those rows, with texts that stand beside each other as one."""
    out: list[Row] = []
    for depth, said, words in told_rows:
        if words is not None and out and out[-1][0] == depth and out[-1][1] is None:
            out[-1] = (depth, None, (out[-1][2] or "") + words)
        else:
            out.append((depth, said, words))
    return out


def text(page: Deeds) -> str:
    """The tree as text. A text that is the name of what it stands in is not told again."""
    tree = nodes(page)
    out, above = "", {}
    for depth, said, words in joined(rows(tree, next(iter(tree.values())))):
        above[depth] = said or ""
        plain = " ".join((words or "").split())
        outside = above.get(depth - 1, "")
        is_named = outside.split(" ")[0] in NAMED and "".join(plain.split()) in "".join(outside.split())
        if said is not None or plain and not is_named:
            out += "  " * depth + " ".join((said or plain).split()) + "\n"
    return out


def nameless(page: Deeds) -> list[str]:
    """The controls, and what else takes the focus, that have no name."""
    def is_focusable(node: Node) -> bool:
        return any(one["name"] == "focusable" and one["value"].get("value") for one in node.get("properties", []))

    return [told(node) for node in nodes(page).values() if not node.get("ignored") and not value(node, "name")
            and (value(node, "role") in CONTROLS or is_focusable(node))
            and value(node, "role") not in ("RootWebArea", "MenuListPopup")]
