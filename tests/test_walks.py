"""Walks through programs with `trac walk`, and what they print.

Each NAME.trac of tests/data/walks is a program, NAME.in what is typed, and NAME.options, where it is there, has further
words of the command line. Standard output must be NAME.out, the exit status 0, and standard error empty. Each is run
twice: with the lines as a file, and byte by byte through a pipe. Five of the programs have a planted bug, and their
lines find it: these are at most five. NAME.found.in finds it by `y`, in at most three lines beside those that feed
and run the program, and its output names the bug. Five more programs have one that is found in as many lines. Then
the walks that README and docs/walking.md show, and the launcher at a pseudo-terminal, ended by Ctrl-C too."""
from __future__ import annotations

import pathlib
import re
from collections.abc import Iterator

from support.cases import (DATA, EXAMPLES, TESTS, TOP, TRAC, WALK, Case, Place, Ran, each, lined, near, ran, scratch,
                           stems, tests, words_in)
from support.pages import Walk, walks_of

HERE = DATA / "walks"
FACTORIAL, DAYS = EXAMPLES / "wrong-factorial.trac", EXAMPLES / "long-way-back.trac"
# By each way to a bug: the call with the wrong arguments, or the place in the program.
BUGS = {
    "hanoi": b"#(cl,hanoi,1,B,A,C)",  # the third and the fourth argument are exchanged
    "sort": b"#(gr,9,15,(15;",  # what it gives loses 15
    "squares": b"line 2, column 46",  # a 0 for the 1
    "adventure": b"line 5, column 20",  # `rom` for `room`
    "endless": b"#(ad,46206,2)",  # 2 for 1
}
# Five more, which are found in as many lines.
FOUND = {
    "misspelt": b"line 3, column 35",  # `cuont` for `count`
    "past": b"line 1, column 19",  # a 5 for the 4
    "gap": b"line 2, column 10",  # the word `a` cuts `ad` too
    "table": b"line 1, column 48",  # a 30 for the 31 of March
    "default": b"line 3, column 19",  # its second argument is scanned before there is need for it
}
WAITS = b"the program waits for input: i TEXT feeds a line, e ends the input\n"
MUCH = b"""\
not met; the program waits for input: i TEXT feeds a line, e ends the input
m goes to step 157, where the search ended
0  "#(" begins a call: #(ps,#(rs))
the program waits for input: i TEXT feeds a line, e ends the input
steps before 63 are forgotten, to make room for the output
157  #(rs)
that was printed before the first step that is kept, step 63
157  #(rs)
81  #(ps,xxxxxxxxxxxxxxxxxxxxxxxxxxxxxxxxxxxxx..  prints it
69  #(rs)                         reads it: line 1, column 4000057
FILE    ..l,A)1)'#(ps,##(cl,A)2)'#(ps,##(cl,A)3)'#(ps,##(cl,A)4)'#(ps,##(cl,A)..
                                              ^
here: 69  #(rs)
the program waits for input: i TEXT feeds a line, e ends the input
157  #(rs)
81  #(ps,xxxxxxxxxxxxxxxxxxxxxxxxxxxxxxxxxxxxxxxxxxxxxxxxxxxxxxxxxxxxxxxxxxxxx..
"""
HEAVY = b"""\
39  #(ps,)
not met; the program waits for input: i TEXT feeds a line, e ends the input
m goes to step 71, where the search ended
39  #(ps,)
this is the first step that is kept, step 0
0  "#(" begins a call: #(ps,#(rs))
39  #(ps,)
steps before 20 are forgotten, to take no more memory; --keep keeps more
40  nothing is left: the idle program is loaded
the program waits for input: i TEXT feeds a line, e ends the input
71  #(rs)
this is the first step that is kept, step 62
62  #(ps,)
"""
FOREVER = b"""\
34  "l" is taken as it is: l,A))
not met after 10000000 steps; an empty line goes on
m goes to step 10000034, where the search ended
34  "l" is taken as it is: l,A))
33  "c" is taken as it is: cl,A))
34  "l" is taken as it is: l,A))
not met after 10000000 steps; an empty line goes on
m goes to step 10000034, where the search ended
34  "l" is taken as it is: l,A))
not met after 10000000 steps; an empty line goes on
m goes to step 20000034, where the search ended
34  "l" is taken as it is: l,A))
steps before 9961472 are forgotten; --journal keeps more
10000034  "#(" begins a call: #(cl,A))
20000034  "A" is taken as it is: A))
"""
# Programs of which something grows without end.
THOUSAND = b"x" * 1000
GROWING = {
    "form": b"#(ds,A,x)'#(ds,g,(#(ds,A,##(cl,A)%s)#(cl,g)))'#(cl,g)'\n" % THOUSAND,
    "form-that-is-doubled": b"#(ds,A,x)'#(ds,g,(#(ds,A,##(cl,A)##(cl,A))#(cl,g)))'#(cl,g)'\n",
    "output": b"#(ds,g,(#(ps,%s)#(cl,g)))'#(cl,g)'\n" % THOUSAND,
    "number-of-begun-calls": b"#(ds,g,(#(eq,#(cl,g))))'#(cl,g)'\n",
    "journal": b"#(ds,A," + b"x" * 100000 + b")'#(ds,g,(#(eq,##(cl,A))#(cl,g)))'#(cl,g)'",
    "number-of-blocks": b"#(ds,B,%s)'#(ds,g,(#(ds,A,##(cl,B))#(sb,b,A)#(cl,g)))'#(cl,g)'\n" % THOUSAND,
}


class Walker(Case):
    """A test that walks through programs."""

    suite = "walks"

    def setUp(self) -> None:
        self.room = scratch(self)

    def file(self, text: bytes) -> pathlib.Path:
        """A file that holds a program."""
        file = self.room / "program"
        file.write_bytes(text)
        return file

    def walk(self, program: bytes | pathlib.Path, lines: bytes, *options: str, piece: int | None = None) -> Ran:
        """A walk through a program, or its file: these lines are typed."""
        return ran([WALK, *options, self.file(program) if isinstance(program, bytes) else program], lines, piece)

    def finds(self, what: str, run: Ran, pattern: bytes, wanted: bytes) -> None:
        """Checks of a walk that ends well: what is found in its lines is this; the first groups are kept."""
        self.status(what, run, 0)
        self.same(what + ": standard error", run.error, b"")
        self.same(what, b"".join(it + b"\n" for it in re.findall(pattern, run.output, re.M)), wanted)


@tests
class Walks(Walker):
    """The stored walks."""

    @each(stems(HERE))
    def test(self, name: str) -> None:
        file = HERE / (name + ".trac")
        lines, wanted, options = (file.with_suffix(it) for it in (".in", ".out", ".options"))
        for piece in None, 1:
            run = self.walk(file, lines.read_bytes(), *words_in(options), piece=piece)
            self.ends(name + (", in pieces" if piece else ""), run, wanted.read_bytes(), place=Place(near(wanted)))

    @each(BUGS)
    def test_bug_by_y(self, name: str) -> None:
        file = HERE / (name + ".trac")
        lines, wanted = (HERE / (name + it) for it in (".found.in", ".found.out"))
        self.holds(name + ": at most five lines", file.with_suffix(".in").read_bytes().count(b"\n") <= 5)
        run = self.walk(file, lines.read_bytes())
        self.ends(name + ", by y", run, wanted.read_bytes(), place=Place(near(wanted)))
        typed = [line for line in lines.read_bytes().splitlines() if line[:2] not in (b"i ", b"s ")]
        self.holds(name + ": by y at most three lines", len(typed) <= 3)
        self.holds("{}: y shows the bug, {}".format(name, BUGS[name]), BUGS[name] in run.output)

    @each(FOUND)
    def test_bug_of(self, name: str) -> None:
        file = HERE / (name + ".trac")
        self.holds(name + ": at most five lines", file.with_suffix(".in").read_bytes().count(b"\n") <= 5)
        said = file.with_suffix(".out").read_bytes()
        self.holds("{}: the bug is shown, {}".format(name, FOUND[name]), FOUND[name] in said)

    def test_where_the_input_may_go_on(self) -> None:
        """The program of README waits there; where the input has ended it takes 11 steps more, as in the debugger for
        scripts."""
        run = self.walk(FACTORIAL, b"s end\ne\ns end\n")
        self.finds("it waits, and ends 11 steps later", run, rb"^.*\(rs\)$", b"276  #(rs)\n276  #(rs)\n287  #(rs)\n")
        run = ran([TRAC, "debug", FACTORIAL], b"s 99999\n")
        self.ends("and so it does for trac debug", run, b"forward 287 Ended\n")


def pages_with_walks() -> Iterator[tuple[str, tuple[str, int, Walk]]]:
    """The pages whose walks are tried, and each of these."""
    for page in "README.md", "docs/walking.md":
        for number, walk in enumerate(walks_of(page, "./trac walk "), 1):
            yield "{}-{}".format(page.rsplit("/", 1)[-1], number), (page, number, walk)


PAGES = dict(pages_with_walks())


@tests
class Pages(Walker):
    """The walks that the pages show, each from its command line to its `q`: of the indented lines between, those with
    `>` are typed."""

    @each(PAGES)
    def test(self, name: str) -> None:
        page, number, walk = PAGES[name]
        run = ran([WALK, *walk.words], lined(walk.typed))
        self.ends("walk {} of {}".format(number, page), run, lined(walk.replies), place=Place(page, walk.places))

    def test_of_pages(self) -> None:
        """Both pages have walks. The session of docs/debugger.md and the third walk of docs/walking.md go through the
        same program. The walk takes at most half as many lines."""
        for page in "README.md", "docs/walking.md":
            self.holds(page + " has walks", walks_of(page, "./trac walk "))
        typed = re.findall("^    > ", (TOP / "docs" / "debugger.md").read_text(encoding="utf-8"), re.M)
        walk = walks_of("docs/walking.md", "./trac walk ")[2]
        self.holds("a walk takes at most half as many lines as the session of docs/debugger.md",
                   2 * len(walk.typed) <= len(typed))


@tests
class Kept(Walker):
    """What is kept of long runs, and what is forgotten."""

    def test_form_that_keeps_its_text_as_one(self) -> None:
        """It is cut and pointed, and is as before again on the way back."""
        long = b"abcdefghij" * 3
        run = self.walk(b"#(ds,A,%s)#(ss,A,j)#(ds,B,%s)#(cc,B)'" % (long, long), lined(
            ["u ss", "f A", "s 1", "f A", "b 1", "f A", "u cc", "f B", "s 1", "f B", "b 1", "f B"]))
        cut = b"[^]abcdefghi[1]abcdefghi[1]abcdefghi[1]"
        forms = [b"[^]" + long, cut, b"[^]" + long, b"[^]" + long, b"a[^]" + long[1:], b"[^]" + long]
        self.finds("a long text, there and back", run, rb"^form *(.*)$", b"".join(it + b"\n" for it in forms))

    def test_program_that_prints_more_than_is_kept(self) -> None:
        """Six calls of ps, at step 37 and each 22nd after it, print 4,000,001 bytes each, and only four of these fit
        beside one another. So before the fifth, at step 125, the older half of the steps is forgotten, with what the
        first two calls have printed. A search that meets nothing forgets none of them."""
        calls = b"".join(b"#(ps,##(cl,A)%d)'" % digit for digit in range(1, 7))
        run = self.walk(b"#(ds,A,(" + b"x" * 4000000 + b"))'" + calls,
                        lined(["u cl AB", "s 1000", "w #8000002", "y #12000003", "s 1000", "w #8000003"]))
        self.ends("a program that prints more than is kept", run, MUCH)

    def test_printed_byte_that_is_forgotten(self) -> None:
        """That is said of the last byte too."""
        run = self.walk(FACTORIAL, b"s 1000\ny #1\ny #\n", "--journal", "10")
        self.holds("y # of what is forgotten",
                   run.output.count(b"printed before the first step that is kept, step ") == 2)

    def test_journal_that_weighs_too_much(self) -> None:
        """Steps are forgotten where their records take more memory than is wanted: a MiB here, and 12 bytes for each
        that they weigh, so 87,381. `ds` by step 15 weighs 50,005, which are its arguments with a comma each, and by
        step 38 as much: so before step 39 is taken the older half of 39 steps is forgotten, but not by a search that
        meets nothing. By step 61 it weighs the form that was there too, so then all but that step are, and after it
        that one."""
        run = self.walk(b"#(ds,A,(" + b"x" * 50000 + b"))'#(ds,B,##(cl,A))'#(ds,B,##(cl,A))'",
                        lined(["s 39", "u cl AB", "b 40", "s 39", "s", "s end", "b start"]), "--keep", "1")
        self.ends("a journal that weighs too much", run, HEAVY)

    def test_search_that_meets_nothing(self) -> None:
        """It leaves the state as it was, also if it goes half a million steps further than is kept."""
        wanted = self.walk(DAYS, b"s 500000\np all\n").output.split(b"\n", 2)[2]
        run = self.walk(DAYS, b"s 500000\nu cl AB\np all\n")
        self.holds("such a search says where it ended",
                   b"\nm goes to step 1024773, where the search ended\n" in run.output)
        self.same("and the state is as before", run.output.split(b"\n", 5)[5], wanted)

    def test_search_whose_steps_are_spent(self) -> None:
        """The state is as before, though more steps were taken than are kept; then an empty line goes on from there.
        Each call here takes 6 steps, for `#(`, three bytes, a comma and `)`, and its value is the same call: so
        10,000,000 steps, which are 4 more than a multiple of 6, lead from its `l` to a `#(`, and as many more to an
        `A`. Each time when 65,536 steps are kept, 32,768 are forgotten."""
        program = b"#(ds,A,(#(cl,A)))'#(cl,A)'\n"
        run = self.walk(program, lined(["s 34", "u ps", "b", "s", "u ps", "", "g 10000034", "m"]))
        self.ends("a search whose steps are spent", run, FOREVER)
        wanted = self.walk(program, b"s 34\np all\n").output.split(b"\n", 2)[2]
        run = self.walk(program, b"s 34\nd\np all\n")
        self.same("and the state is as before", run.output.split(b"\n", 5)[5], wanted)

    @each(GROWING)
    def test_growing(self, name: str) -> None:
        """With 1,000,000 KiB of memory a walk over what grows without end ends well, and keeps a way back, or says
        that there is no memory."""
        bounded = ["bash", "-c", 'ulimit -v 1000000; exec "$@"', "-"]
        run = ran([*bounded, WALK, "--journal", "1048576", self.file(GROWING[name])], b"s 5000000\nb 1\np\n", 4096)
        self.status("the {} grows without end".format(name), run, 0)
        self.same("and no word on standard error", run.error, b"")
        self.holds("and a way back", re.search(rb"^step    [0-9]+, back to [0-9]+; ", run.output, re.M))
        moves = re.findall(rb"^(?:[0-9]+  .*|there is no memory for this)$", run.output, re.M)
        self.holds("and each move is made, or memory is refused: {}".format(len(moves)), len(moves) >= 2)

    def test_searches_that_are_spent(self) -> None:
        """`u` goes on by an empty line, and `n` and `o` would be about another call then."""
        endless = EXAMPLES / "endless.trac"
        for lines, count, wanted in (
                (b"s end\n\n", 2, b"the program goes on after 10000000 steps; an empty line goes on"),
                (b"u none\n\n", 2, b"not met after 10000000 steps; an empty line goes on"),
                (b"g 45\nn\n", 1, b"the call has not ended after 10000000 steps; s N goes on by N steps"),
                (b"g 46\no\n", 1, b"the call has not ended after 10000000 steps; s N goes on by N steps")):
            found = re.findall(rb"^.*after 10000000 steps.*$", self.walk(endless, lines).output, re.M)
            self.same("the lines {}".format(lines), b"\n".join(found), b"\n".join([wanted] * count))

    def test_search_that_is_spent_stays(self) -> None:
        """So it does where as many steps are kept as can be; an empty line goes on from where it ended, and meets
        what comes later."""
        run = self.walk(EXAMPLES / "endless.trac", b"g 45\nu none\n\nm\n", "--journal", "1048576")
        self.finds("a search that is spent stays", run, rb"^([0-9]+)  .*$", b"45\n45\n45\n20000045\n")
        program = b"#(ds,L,(#(eq,N,0,(#(ps,end)),(#(cl,L,#(su,N,1))))))'\n#(ss,L,N)'\n#(cl,L,300000)'\n"
        run = self.walk(program, b"u ps end\n\ni #(ps,A)'\nu ps end\np\n")
        met = re.findall(rb"^(?:not met after 10000000 steps; an empty line goes on|[0-9]*  #\(ps,end\))$", run.output,
                         re.M)
        self.holds("and is met by an empty line, also after input: {}".format(met), len(met) == 4)

    def test_as_many_steps_as_can_be_kept(self) -> None:
        """Then no option is named that keeps more."""
        run = self.walk(EXAMPLES / "endless.trac", b"s 1048577\n", "--journal", "1048576")
        self.same("the first line", run.output.split(b"\n")[0], b"steps before 524288 are forgotten")
        self.same("standard error", run.error, b"")

    def test_name_that_is_older_than_what_is_kept(self) -> None:
        """A doubt about it says at which step it was there."""
        run = self.walk(b"#(ds,F,(#(pr)))'#(ps,%60s)'#(cl,F)'" % b"", b"d\np\n", "--journal", "30")
        first = re.search(rb"^step .*, back to ([0-9]*);", run.output, re.M)
        self.holds("the first step that is kept is told", first)
        said = b"no primitive is named pr: there at step " + (first[1] if first else b"")
        self.holds("and that the name was there", said in run.output.splitlines())


@tests
class Terminal(Walker):
    """At a terminal the launcher prompts, and replies to what is typed there as to lines of a file."""

    @each(("hanoi", "sort", "squares", "adventure", "endless", "moves"))
    def test_at_a_terminal(self, name: str) -> None:
        """A tab is a key of the line editor."""
        file = HERE / (name + ".trac")
        lines, wanted = (file.with_suffix(it) for it in (".in", ".out"))
        typed = lines.read_bytes().replace(b"\t", b" ")
        run = ran([TESTS / "support" / "at-a-terminal", TOP / "trac", "walk", file], typed)
        self.ends(name + ", at a terminal", run, wanted.read_bytes(), place=Place(near(wanted)))

    @each(("at-the-prompt", "during-a-long-move", "by-quit-at-the-prompt", "by-quit-during-a-long-move"))
    def test_interrupted(self, when: str) -> None:
        """Ctrl-C ends all that the launcher has begun, and so does Ctrl-\\; the terminal is as before."""
        words = ["--quit"] if when.startswith("by-quit") else []
        words += ["--line", "s 999999999999"] if when.endswith("during-a-long-move") else []
        run = ran([TESTS / "support" / "interrupted", *words, TOP / "trac", "walk", EXAMPLES / "endless.trac"])
        self.status(when, run, 0)
