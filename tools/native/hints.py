#!/usr/bin/env python3
"""hints.py TOP KIT FROM.ll TO.ll: puts the hints on inlining that stand in the sources into LLVM's text of a program.

A function is known by its crate, its module and its name. A type of one module may have methods in another, so a name
that is marked once in a crate is enough.
"""
from __future__ import annotations

import glob
import os
import re
import sys

TOP, KIT, SOURCE, TARGET = sys.argv[1:5]
WORDS = {"inline(always)": "alwaysinline", "inline(never)": "noinline", "inline": "inlinehint", "cold": "cold"}
HINT = re.compile(r"\s*#\[(inline(?:\((?:always|never)\))?|cold)\]")
FUNCTION = re.compile(r"\s*(?:pub(?:\([a-z]+\))?\s+)?(?:const\s+)?(?:unsafe\s+)?(?:final\s+)?fn\s+(\w+)")


def hints() -> dict[tuple[str, str], list[tuple[list[str], str]]]:
    """By crate and name: the modules with a function of that name that has a hint, and the hint."""
    found: dict[tuple[str, str], list[tuple[list[str], str]]] = {}
    for folder in glob.glob(f"{TOP}/crates/*/src") + glob.glob(f"{KIT}/rattle/*/src"):
        crate = folder.split("/")[-2]
        for path in glob.glob(folder + "/**/*.rt", recursive=True):
            module = os.path.relpath(path, folder)[:-3].split("/")
            if module[-1] in ("lib", "main", "mod"):
                module = module[:-1]
            hint = None
            for line in open(path, encoding="utf-8"):
                marked, named = HINT.match(line), FUNCTION.match(line)
                if marked:
                    hint = WORDS[marked.group(1)]
                elif named:
                    if hint:
                        found.setdefault((crate, named.group(1)), []).append((module, hint))
                    hint = None
    return found


def hint_of(found: dict[tuple[str, str], list[tuple[list[str], str]]], symbol: str) -> str | None:
    """The hint of the function that this symbol names, if it has one."""
    parts = re.sub(r"::<.*$", "", symbol).split("::")
    marked = found.get((parts[0], parts[-1]), [])
    for module, hint in marked:
        if parts[1 : 1 + len(module)] == module or len(marked) == 1:
            return hint
    return None


def main() -> None:
    found = hints()
    with open(SOURCE, encoding="utf-8") as lines, open(TARGET, "w", encoding="utf-8") as out:
        for line in lines:
            symbol = re.search(r'^define internal .*?@"([^"]+)"\(', line)
            hint = symbol and hint_of(found, symbol.group(1))
            out.write(line.replace(") #0 {", f") {hint} #0 {{") if hint else line)


main()
