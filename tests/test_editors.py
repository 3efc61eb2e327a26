"""The files for editors in share/editors: what Vim and the TextMate grammar take each character of a program for, over
rows by hand and all programs of this repository; that both know the primitives; how each reads a line of trac lint;
that ./install puts the Vim files where Vim finds them, and nothing over a user's.

Vim is that on PATH, in batch mode; where it is not, its tests are skipped. The grammar is read by a small reader here,
which takes what that grammar uses."""
from __future__ import annotations

import functools
import json
import os
import pathlib
import re
import shutil
from collections.abc import Iterator
from typing import Any

from support.cases import DATA, TOP, Case, lined, near, ran, scratch

EDITORS = TOP / "share" / "editors"
# A rule of a grammar.
Rule = dict[str, Any]

# Each character as one sign: of an active and a neutral call what begins and ends it (A, N), a primitive, another
# name, the name of a form (P, U, F), a comma between arguments, a decimal, an octal string (D, O), a protecting
# parenthesis and what it protects ((, p), the end of a text (E), a parenthesis that ends nothing (!), all else (.).
ROWS = (
    ("#(ps,Hello)'", "AAPP,.....AE"),
    ("##(cl,a b,-5)'", "NNNPP,FFF,DDNE"),
    ("#(ds,x,(a, #(AD,1,b)))'", "AAPP,F,(pppAAPP,D,.A(AE"),
    ("#(bu,17,x7)##(BS,-1,9)'", "AAPP,OO,.OANNNPP,DD,.NE"),
    ("#(br,12,12)#(ml,+07,a8)'", "AAPP,DD,OOAAAPP,DDD,.DAE"),
    ("a)#(note,x,y5z)'", ".!AAUUUU,.,...AE"),
    ("#(ps,((a'#(rs)'", "AAPP,((pEAAPPAE"),
    ("#(#(ps),2)(5) 5'", "AAAAPPA,DA(p(..E"),
    ("###(ps)#.# (a)'", ".NNNPPN....(p(E"),
    ("#(cl,f (x),3)#( ps,x)'", "AAPP,..(p(,DAAAUUU,.AE"),
    ("#(eq,(,),#(rc),,)'", "AAPP,(p(,AAPPA,,AE"),
    ("#()'#(PF,Ab)'", "AAAEAAPP,FFAE"),
)
GROUPS = {
    "tracActiveMark": "A", "tracNeutralMark": "N", "tracPrimitive": "P", "tracUnknown": "U", "tracForm": "F",
    "tracComma": ",", "tracDecimal": "D", "tracPlaces": "D", "tracOctal": "O", "tracParenthesis": "(",
    "tracProtected": "p", "tracEnd": "E",
    "tracStray": "!",
}
SCOPES = {
    "keyword.operator.call.active.trac": "A", "keyword.operator.call.neutral.trac": "N",
    "support.function.primitive.trac": "P", "comment.unknown.trac": "U", "entity.name.function.form.trac": "F",
    "punctuation.separator.argument.trac": ",", "constant.numeric.decimal.trac": "D",
    "constant.numeric.octal.trac": "O", "punctuation.section.parens.begin.trac": "(",
    "punctuation.section.parens.end.trac": "(", "string.quoted.other.protected.trac": "p",
    "punctuation.terminator.text.trac": "E", "invalid.illegal.stray.trac": "!",
}
# The primitives whose first argument is no form's name, and those of octal strings.
FORMLESS = set("ps rs rc cm hl tn tf eq gr ad su ml dv bu bi bc bs br da ln".split())
BITS = {"bu", "bi", "bc", "bs", "br"}
LINTED = "some file.trac:3:5: no primitive is named pr (step 124)"
MORE = ".. and 4711 more places"
# What VS Code is told of tests/data/lint/names.trac beside its doubts.
IN_VS_CODE = (
    "symbol greeting 2:1-2:18", "symbol s 5:1-5:10", "hover true", "completion true", "debug TRAC true", "dap", "",
)


@functools.lru_cache(None)
def primitives() -> set[str]:
    """The names of primitives, as docs/language.md lists them."""
    text = (TOP / "docs" / "language.md").read_text(encoding="utf-8")
    rows = re.findall(r"^\| (`[^|]*) \|", text.split("## All names\n")[1].split("\n## ")[0], re.M)
    return {name for row in rows for name in re.findall("`([a-z]{2})`", row)}


def model(text: str) -> str:
    """What each character of a text is, by a walk over it with the calls and parentheses that are begun."""
    names = primitives()
    with_form = names - FORMLESS
    signs: list[str] = []
    begun: list[tuple[str, bool]] = []
    at = 0
    while at < len(text):
        sign, size = ".", 1
        rest = text[at:]
        if begun and begun[-1][0] == "(":
            sign = "p"
        if rest[0] == "\n":
            sign = "\n"
        elif rest[0] == "'":
            sign, begun = "E", []
        elif rest.startswith(("##(", "#(")):
            size = rest.index("(") + 1
            sign = "AN"[size - 2]
            named = re.match(r"[^,()#'\n]+(?=[,)])", rest[size:])
            name = named[0] if named else ""
            known = name.lower() in names
            begun.append((sign, name.lower() in BITS))
            signs += sign * size + ("P" if known else "U") * len(name)
            at += size + len(name)
            after = text[at:]
            if name.lower() in with_form and after[0] == ",":
                form = re.match(r",([^,()#'\n]+)(?=[,)])", after)
            elif name.lower() in ("bs", "br") and after[0] == ",":
                form = re.match(r",([+-]?[0-9]+)(?=[,)])", after)
            else:
                form = None
            if form:
                signs += "," + ("F" if name.lower() in with_form else "D") * len(form[1])
                at += len(form[0])
            continue
        elif rest[0] == "(":
            sign = "("
            begun.append(("(", False))
        elif rest[0] == ")":
            sign = begun.pop()[0] if begun else "!"
        elif begun and begun[-1][0] != "(":
            number = re.match("[0-7]+(?=[,)])" if begun[-1][1] else r"[+-]?[0-9]+(?=[,)])", rest)
            if number:
                sign, size = "DO"[begun[-1][1]], len(number[0])
            elif rest[0] == ",":
                sign = ","
        signs += sign * size
        at += size
    return "".join(signs)


class Grammar:
    """A reader of a TextMate grammar, for what ours uses: of all that matches first from here, the end of the rule
    that is begun comes before its patterns, and these in their order."""

    def __init__(self, file: pathlib.Path) -> None:
        self.whole: Rule = json.loads(file.read_text(encoding="utf-8"))
        self.expressions: dict[str, re.Pattern[str]] = {}

    def find(self, expression: str, line: str, at: int) -> re.Match[str] | None:
        """Where an expression matches, from here on."""
        return self.expressions.setdefault(expression, re.compile(expression)).search(line, at)

    def rules(self, patterns: list[Rule]) -> Iterator[Rule]:
        """The rules of a list of patterns."""
        for pattern in patterns:
            if "include" in pattern:
                yield from self.rules(self.inside(self.whole["repository"][pattern["include"][1:]]))
            else:
                yield pattern

    def inside(self, rule: Rule) -> list[Rule]:
        """A rule of the repository as patterns: itself, or those that it lists."""
        if "begin" in rule or "match" in rule:
            return [rule]
        patterns: list[Rule] = rule["patterns"]
        return patterns

    def scope(self, rule: Rule, kind: str) -> str:
        """The scope of what begins or ends a rule."""
        name: str = (rule.get(kind) or rule["captures"])["0"]["name"]
        return name

    def signs(self, text: str) -> str:
        """What each character of a text is."""
        stack: list[tuple[Rule, str | None]] = [(self.whole, None)]
        done: list[str | None] = []
        for line in text.split("\n"):
            at = 0
            while True:
                rule, scope = stack[-1]
                found = [(self.find(rule["end"], line, at), rule)] if "end" in rule else []
                found += [(self.find(each.get("match") or each["begin"], line, at), each)
                          for each in self.rules(rule["patterns"])]
                met = [(match.start(), number, match, each) for number, (match, each) in enumerate(found) if match]
                if not met:
                    break
                start, number, match, each = min(met, key=lambda one: one[:2])
                done += [scope] * (start - at)
                at = match.end()
                if number == 0 and "end" in rule:
                    done += [self.scope(rule, "endCaptures")] * (at - start)
                    stack.pop()
                elif "begin" in each:
                    done += [self.scope(each, "beginCaptures")] * (at - start)
                    stack.append((each, each.get("contentName") or each["name"]))
                else:
                    done += [each["name"]] * (at - start)
            done += [stack[-1][1]] * (len(line) - at) + ["\n"]
        return "".join(SCOPES.get(name or "", "\n" if name == "\n" else ".") for name in done[:-1])


def text_of(file: pathlib.Path) -> str:
    """The bytes of a file, each as a character."""
    return file.read_bytes().decode("latin-1")


@functools.lru_cache(None)
def programs() -> list[pathlib.Path]:
    """All programs of the repository. (Vim gives up colours in very long lines.)"""
    files = sorted(file for folder in (TOP / "programs", DATA / "programs") for file in folder.rglob("*.trac"))
    return [file for file in files
            if "\0" not in text_of(file) and max(map(len, text_of(file).split("\n"))) < 1000]


class Editors(Case):
    """Both editors."""

    suite = "editors"

    def setUp(self) -> None:
        self.room = scratch(self)
        self.rows = self.room / "rows.trac"
        self.rows.write_bytes("\n".join(row for row, _ in ROWS).encode("latin-1"))

    def tool(self) -> None:
        """Vim, if it is there."""
        if not shutil.which("vim"):
            self.skipTest("there is no vim")

    def test_model(self) -> None:
        """The model by which programs are looked at takes the rows as they are by hand."""
        self.holds("docs/language.md has 33 names, and not {}".format(len(primitives())), len(primitives()) == 33)
        for row, signs in ROWS:
            self.same("the row " + row, model(row), signs)

    def test_grammar(self) -> None:
        """What the TextMate grammar takes each character for."""
        grammar = Grammar(EDITORS / "vscode" / self.gives()["grammars"][0]["path"])
        for file in [self.rows, *programs()]:
            self.same(near(file), grammar.signs(text_of(file)).rstrip("\n"), model(text_of(file)).rstrip("\n"))
        rules = [rule for rule in grammar.rules([{"include": "#words"}]) if rule["name"].startswith("support")]
        self.knows({name for rule in rules for name in re.findall("[a-z]{2}", rule["match"][4:])})

    def gives(self) -> Rule:
        """What the extension for VS Code says that it gives."""
        gives: Rule = json.loads((EDITORS / "vscode" / "package.json").read_text(encoding="utf-8"))["contributes"]
        return gives

    def knows(self, known: set[str]) -> None:
        """These are the names of primitives."""
        self.same("the names of docs/language.md", "\n".join(sorted(known)), "\n".join(sorted(primitives())))

    def test_extension(self) -> None:
        """The other files for VS Code."""
        gives = self.gives()
        grammar, language = gives["grammars"][0], gives["languages"][0]
        for part in grammar["path"], language["configuration"]:
            self.holds(part, json.loads((EDITORS / "vscode" / part).read_text(encoding="utf-8")))
        scope = Grammar(EDITORS / "vscode" / grammar["path"]).whole["scopeName"]
        self.same("the grammar is that of its language", scope, grammar["scopeName"])
        pattern = gives["problemMatchers"][0]["pattern"]
        match = re.match(pattern["regexp"], LINTED)
        parts = [match[pattern[part]] for part in ("file", "line", "column", "message")] if match else []
        self.holds("the problem matcher takes a line of trac lint: {}".format(parts),
                   parts == ["some file.trac", "3", "5", "no primitive is named pr (step 124)"])
        self.holds("and none else", not re.match(pattern["regexp"], MORE))

    def test_extension_in_node(self) -> None:
        """What VS Code is told by the extension, over a stand-in for VS Code, of a program with doubts."""
        node, program = shutil.which("node"), DATA / "lint" / "names.trac"
        if not node:
            self.skipTest("there is no node")
        run = ran([node, TOP / "tests" / "support" / "extension.js", EDITORS / "vscode" / "extension.js", TOP / "trac",
                   program])
        found = re.findall("^names.trac:([0-9]+:[0-9]+): (.*)$", program.with_suffix(".out").read_text("utf-8"), re.M)
        told = run.output.decode().split("\n")
        seen = [re.sub(r"^(\S+)-\S+ (.*) \(step [0-9]+\)$", r"\1 \2", line) for line in told[:len(found)]]
        self.same("the doubts", lined(seen), lined(" ".join(it) for it in found))
        self.same("all else", lined(told[len(found):]), lined(IN_VS_CODE))

    def read_by_vim(self, files: list[pathlib.Path]) -> None:
        """Has Vim write what it takes each character of these files for; the places in two lines of trac lint; and
        what `:make` calls."""
        script, names = self.room / "read.vim", ("shown", "list", "make")
        shown, places, make = (self.room / name for name in names)
        lines = ["set nocompatible encoding=latin1 fileencodings=latin1 fileformats=unix nomodeline synmaxcol=0",
                 "set runtimepath^={}".format(EDITORS / "vim"), "filetype on", "syntax on", "let shown = []"]
        for number, file in enumerate(files):
            lines += ["edit {}".format(file), "call add(shown, '{} ' . &filetype)".format(number),
                      "for at in range(1, line('$'))",
                      "call add(shown, join(map(range(1, col([at, '$']) - 1), "
                      "'synIDattr(synID(at, v:val, 1), \"name\")'), ' '))", "endfor"]
        lines += ["call writefile(shown, '{}')".format(shown), "compiler! trac",
                  "cgetexpr ['{}', '{}']".format(LINTED, MORE),
                  "call writefile(map(getqflist(), 'bufname(v:val.bufnr) . \" \" . v:val.lnum . \" \" . v:val.col . "
                  "\" \" . v:val.text'), '{}')".format(places),
                  "call writefile([&makeprg], '{}')".format(make), "qall!"]
        script.write_text("\n".join(lines) + "\n", encoding="utf-8")
        ran(["vim", "-es", "-n", "-i", "NONE", "-u", "NONE", "-S", script])

    def test_vim(self) -> None:
        """What Vim takes each character for."""
        self.tool()
        files = [self.rows, *programs()]
        self.read_by_vim(files)
        shown: dict[pathlib.Path, list[str]] = {}
        for line in (self.room / "shown").read_text(encoding="utf-8").split("\n")[:-1]:
            head = re.fullmatch("([0-9]+) (.*)", line)
            if head:
                self.same("what kind of file it is", head[2], "trac")
                signs = shown.setdefault(files[int(head[1])], [])
            else:
                signs.append("".join(GROUPS.get(name, ".") for name in line.split(" ")) if line else "")
        for file in files:
            self.same(near(file), "\n".join(shown.get(file, [])).rstrip("\n"), model(text_of(file)).rstrip("\n"))
        lines = (EDITORS / "vim" / "syntax" / "trac.vim").read_text(encoding="utf-8").split("\n")
        lines = [line for line in lines if line.startswith("syntax match tracPrimitive")]
        self.knows({name for line in lines for name in re.findall(r"(?<=[(|])([a-z]{2})(?=\\)", line)})

    def test_vim_and_the_lines_of_trac_lint(self) -> None:
        self.tool()
        self.read_by_vim([])
        self.same("a line is a place, and no other", (self.room / "list").read_text(encoding="utf-8"),
                  LINTED.replace(":3:5: ", " 3 5 ") + "\n")
        make = (self.room / "make").read_text(encoding="utf-8")
        self.holds(":make calls trac lint: " + make, make.startswith("trac lint "))


class InstalledForEditors(Case):
    """What ./install does with the Vim files of a user, and whether Vim finds them."""

    suite = "editors"

    def setUp(self) -> None:
        self.room = scratch(self)
        self.home = self.room / "home"
        self.vim = self.home / ".vim" / "pack" / "trac" / "start" / "trac"
        self.mine = self.vim / "syntax" / "trac.vim"
        self.home.mkdir()

    def install(self, *words: str | pathlib.Path) -> str:
        """What ./install says."""
        run = ran([TOP / "install", *words], env={"PATH": "/usr/bin:/bin", "HOME": os.fspath(self.home)})
        return (run.output + run.error).decode()

    def there(self) -> str:
        """The Vim files that are there, a line each."""
        return "\n".join(sorted(os.fspath(file.relative_to(self.vim)) for file in self.vim.glob("*/*")))

    def put_mine(self) -> None:
        """Puts a file of the user's in the place of ours."""
        self.mine.parent.mkdir(parents=True, exist_ok=True)
        self.mine.write_text('" mine\n', encoding="utf-8")

    def test_install(self) -> None:
        self.install()
        self.same("the Vim files go into ~/.vim", self.there(), "compiler/trac.vim\nftdetect/trac.vim\nsyntax/trac.vim")
        self.holds("those of VS Code go into share/",
                   (self.home / ".local" / "share" / "trac" / "editors" / "vscode" / "package.json").exists())
        if shutil.which("vim"):
            self.check_vim()
        self.install("--remove")
        left = sorted(it.name for it in self.home.iterdir() if it.name != ".vimrc")
        self.holds("--remove takes them away, and the folders that were made for them: {}".format(left), not left)

    def check_vim(self) -> None:
        """Vim finds them there."""
        program, found = self.room / "x.trac", self.room / "found"
        program.write_text("#(ps,a)'\n", encoding="utf-8")
        (self.home / ".vimrc").write_text("syntax on\n", encoding="utf-8")
        asked = "call writefile([&ft, synIDattr(synID(1, 3, 1), 'name')], '{}')".format(found)
        ran(["vim", "--not-a-term", "-n", "-i", "NONE", "-c", asked, "-c", "qall!", program],
            env={**os.environ, "HOME": os.fspath(self.home), "TERM": "dumb"})
        self.same("what Vim finds", found.read_text(encoding="utf-8"), "trac\ntracPrimitive\n")

    def test_file_of_the_user(self) -> None:
        """It stays as it was, which is said, and the others are put there and taken away."""
        for words in (), ("--remove",):
            self.put_mine()
            said = self.install(*words)
            self.same("a file of the user's", self.mine.read_text(encoding="utf-8"), '" mine\n')
            self.holds("it is named: " + said, os.fspath(self.mine) in said)
        self.same("what is left", self.there(), "syntax/trac.vim")

    def test_no_folder(self) -> None:
        """Where nothing can be written there, the rest is installed."""
        (self.home / ".vim").touch()
        said = self.install()
        self.holds("it is said: " + said,
                   "cannot be written" in said and (self.home / ".local" / "bin" / "trac").exists())

    def test_elsewhere(self) -> None:
        """What is installed elsewhere has nothing in ~/.vim."""
        self.put_mine()
        self.install(self.room / "elsewhere")
        self.same("what is there", self.there(), "syntax/trac.vim")
        self.install("--remove", self.room / "elsewhere")
        self.same("what is left", self.there(), "syntax/trac.vim")
        self.holds("nothing is left elsewhere", not (self.room / "elsewhere").exists())
