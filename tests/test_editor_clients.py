"""The language server in the editors themselves, as share/editors says to have it: Neovim without a window, and Emacs
with eglot in batch mode. Each opens the wrong factorial, misspells `cl` and takes that back, and says what the server
told it. Where an editor is not installed, its test is skipped."""
from __future__ import annotations

import glob
import os
import shutil

from support.cases import EXAMPLES, TESTS, TOP, WALK, Case, ran, scratch

EDITORS, SCRIPTS = TOP / "share" / "editors", TESTS / "editors"
HINT = "#(cl,Factorial,X){0}#(eq,<1>,1,0,(#(ml,<1>,#(cl,Factorial,#(su,<1>,1))))){0}Defined: line 1, column 6"
CALL = "#(cl,N,X1,X2,..){0}calls form N: gives its text, with X1 in the gaps of number 1, and so on{0}" \
       "Example: #(ds,F,Cat)#(cl,F) gives Cat"
NEOVIM = "\n".join((
    'ready: true', 'diagnostics: { { 2, 2, "no primitive is named xl (step 77)", "no-primitive" } }', 'diagnostics: 0',
    'hover: "' + CALL.format("\\n") + '"', 'hover: "' + HINT.format("\\n") + '"',
    'definition: { character = 5, line = 0 }', 'references: 4', 'completion: { "Factorial" }', ''))
EMACS = "\n".join((
    'mode: trac-mode', 'diagnostics: ((89 "trac [no-primitive]: no primitive is named xl (step 77)"))',
    'hover: "' + HINT.format("\n") + '"', 'definition: (:character 5 :line 0)', 'references: 4',
    'completion: ("Factorial")', ''))


class Clients(Case):
    """Both editors."""

    suite = "editors"

    def setUp(self) -> None:
        self.room = scratch(self)
        (self.room / "trac").write_text('#!/bin/sh\nexec "{}" "--$@"\n'.format(WALK), encoding="utf-8")
        (self.room / "trac").chmod(0o755)
        shutil.copy(EXAMPLES / "wrong-factorial.trac", self.room)

    def is_told(self, name: str, words: list[str], wanted: str) -> None:
        """What an editor says that is begun so."""
        if not shutil.which(words[0]):
            self.skipTest("there is no " + words[0])
        run = ran(words, folder=self.room, env={
            **os.environ, "PATH": "{}:{}".format(self.room, os.environ["PATH"]), "HOME": os.fspath(self.room),
            "TRAC_FILE": os.fspath(self.room / "wrong-factorial.trac")})
        self.same(name, run.output, wanted.encode())

    def test_neovim_with_the_server(self) -> None:
        commands = ("set runtimepath+={}".format(EDITORS / "nvim"), "runtime plugin/trac.lua",
                    "luafile {}".format(SCRIPTS / "neovim.lua"))
        words = [word for command in commands for word in ("-c", command)]
        self.is_told("Neovim", ["nvim", "--headless", "-u", "NONE", *words], NEOVIM)

    def test_emacs_with_the_server(self) -> None:
        # Debian's packages of Emacs are found by its own start alone, which `-Q` leaves out.
        packages = glob.glob("/usr/share/emacs/site-lisp/elpa-src/*")
        if not any("/eglot-" in it for it in packages) and not glob.glob("/usr/share/emacs/*/lisp/progmodes/eglot.el*"):
            self.skipTest("there is no eglot")
        libraries = [word for it in (os.fspath(EDITORS / "emacs"), *packages) for word in ("-L", it)]
        self.is_told("Emacs", ["emacs", "-Q", "--batch", *libraries, "-l", os.fspath(SCRIPTS / "eglot.el")], EMACS)
