"""The page where modules of WebAssembly do not run: it says what is lacking, and programs can be read and written."""
import os
import tempfile

from webpage.given import Maker
from webpage.pages import FACTORIAL, Deeds, check, opened, ready
from webpage.rows import ONE, opening

NOT_RUN = "This takes the processor, which does not run in this browser."


def check_writing(page: Deeds, words: str) -> None:
    """What is lacking is said; a program can be typed, and that it is not run is said too."""
    check(words in page.text("lacking"), "what is lacking: " + page.text("lacking"))
    page.type("#(ps,other)'")
    page.run()
    check(page.text("ending") == NOT_RUN, "a program is not run: " + page.text("ending"))
    check(page.script("document.getElementById('source').value") == "#(ps,other)'", "the program stays")


def check_lacking(kind: type[Deeds], file: str) -> None:
    """Without WebAssembly; the page of a program shows that program."""
    with opened(kind, file, modules=False) as page, tempfile.TemporaryDirectory(prefix="trac-webpage-test-") as room:
        check_writing(page, "has no WebAssembly")
        page.load(Maker(room, file).make(FACTORIAL))
        ready(page)
        check(page.text("ending") == NOT_RUN, "the program of a page is not run: " + page.text("ending"))
        with open(FACTORIAL) as text:
            check(page.script("document.getElementById('source').value") == text.read(), "the program of a page")
        page.well("without WebAssembly")


def check_forbidden(kind: type[Deeds], file: str) -> None:
    """A policy forbids modules, or the Worker."""
    with open(file) as whole, tempfile.TemporaryDirectory(prefix="trac-webpage-test-") as room:
        text = whole.read()
        copies = [os.path.join(room, "{}.html".format(number)) for number in range(2)]
        for copy, words in zip(copies, ("'wasm-unsafe-eval' ", "worker-src blob:; ")):
            with open(copy, "w") as out:
                out.write(text.replace(words, "", 1))
        with opened(kind, copies[0]) as page:
            check_writing(page, "does not take the module")
            page.load(copies[1])
            ready(page)
            check_writing(page, "does not take the module")


TRIED = opening(check_lacking) + opening(check_forbidden, where=ONE)
