"""What trac-walk replies to single lines, how it shows what is large, and how it ends."""
import os
import re
import subprocess

from support.cases import WALK, lined, patience, ran
from test_walks import FACTORIAL, WAITS, Walker

AB = b"AB'"
START = b'0  "#(" begins a call: #(ps,#(rs))\n'
ENDED = b"19  #(rs)\n"
UNMET = b"not met; " + WAITS + b"m goes to step 19, where the search ended\n"
UNMET_BACK = b"not met since the first step that is kept, step 0\n"
HINT = b"no primitive has this name; a form is met by its call: u cl NAME, r cl NAME\n"
NO_EARLIER = b"no earlier place is kept\n"
# What is said of lines that are not understood, and such lines.
REFUSED = (
    (b"h lists the commands", (b"x", b"S 1", b"Exit", b"HELP", rb'"\\q"', rb'"\\x4"', rb"\xff", rb"\x00")),
    (rb'quotes end with ", and \ in them begins \n, \xHH, \" or \\', (b'"s', rb'"\q"', rb'"\x4"', b'u "', b's "\\')),
    (b"s takes a number of 12 digits at most, end, or nothing",
     (b"s -1", b"s 1 2", b"s 1234567890123", b"s start", b"s end 1")),
    (b"b takes a number of 12 digits at most, start, or nothing; break stops at a call", (b"b x", b"b 1 2", b"b end")),
    (b"g takes a number of 12 digits at most", (b"g", b"g x")),
    (b"t takes a number from 1 on, of 12 digits at most, and all after it, or nothing",
     (b"t x", b"t 0", b"t all", b"t 0 all", b"t 1 x")),
    (b"a call is named by its first arguments, and stands on both sides of |",
     (b"u |", b"u cl |", b"r | cl", b"u cl | | ds", b"break", b"break |")),
    (b'u set takes NAME; a NAME with blanks stands in quotes: u set "a b"',
     (b"u set", b"u set a b", b"until set a b", b"watch", b"watch a b")),
    (b"unbreak takes the number of a call that breaks lists", (b"unbreak", b"unbreak x", b"unbreak 1 2", b"delete")),
    (b"restart takes FILE, or nothing", (b"restart a b",)),
    (b'w takes NAME, set "NAME", #K or "TEXT"', (b"w", b"w a b", b"w #", b"w #x", b"w set a b")),
    (b'y takes "TEXT", #K, #, NAME K, . A K, . A, or nothing', (b"y x", b"y #x", b"y . 1 x", b"y a 1 2", b"y 1 2 3 4")),
    (b"i takes TEXT, or one word in quotes, or nothing", (b'i "a" b',)),
    (b"p takes all, or nothing; f NAME shows a form", (b"p x", b"p all x")),
    (b'f takes NAME, or nothing; a NAME with blanks stands in quotes: f "a b"', (b"f a b", b"print a b")),
    (b"where lists the begun calls; O goes back to where one began, o on to its end", (b"up", b"down", b"up 1")),
    (b"this command takes no words after it",
     (b"n 1", b"N 1", b"o 1", b"O 1", b"d 1", b"D 1", b"l 1", b"m 1", b"e 1", b"q 1", b"quit 1", b"h 1", b"help x",
      b"? 1", b"where 1", b"bt 1", b"breaks 1", b"c 1")),
)
COMMANDS = ("s", "b", "s end", "b start", "n", "N", "o", "O", "u", "r", "d", "D", "m", "w", "y", "l", "g", "i", "e",
            "p all", "f", "t", "h", "q", "where", "break", "restart", "u set")


class Lines(Walker):
    """Lines over `AB'`, and what they are replied to."""

    suite = "walk-lines"

    def says(self, lines: bytes, replies: bytes, *options: str) -> None:
        """These lines are replied to so."""
        self.ends("the lines {}".format(lines), self.walk(AB, lines, *options), replies)

    def test_not_understood(self) -> None:
        """Each of these lines is not understood, and changes nothing."""
        for reply, lines in REFUSED:
            for line in lines:
                said = b"not understood; " + reply + b"\n"
                self.says(line, said)
                self.says(line + b"\ns\n", said + b'1  "p" is taken as it is: ps,#(rs))\n')

    def test_empty_lines(self) -> None:
        self.says(b"", b"")
        self.says(b"\n\r\n \t\n", START * 3)

    def test_empty_line_after_y(self) -> None:
        """It repeats `y` too: three of them go as far as to type it three times more."""
        again = b"y . 2 1\n"
        wanted = self.walk(FACTORIAL, b"s 1000\ny #\n" + again * 4)
        run = self.walk(FACTORIAL, b"s 1000\ny #\n" + again + b"\n\n\n")
        self.ends("an empty line after y", run, wanted.output)
        self.holds("and they come to the place in the program", b"reads it: line 1, column 26" in run.output)

    def test_blanks(self) -> None:
        self.says(b"  s   2  \r\n\n", b'2  "s" is taken as it is: s,#(rs))\n4  "#(" begins a call: #(rs))\n')

    def test_ends_by_word(self) -> None:
        for word in b"q", b"quit", b"exit":
            self.says(word + b"\nx", b"")

    def test_calls_that_are_not_met(self) -> None:
        """Where no primitive has the name, how a form is met is said too."""
        for line in b"u AB", b"u #(cl,AB", b"u p", b"u psx", b'u ""', b"u AB cl":
            self.says(line, UNMET + HINT + START)
        for line in b"u cl AB", b"u CL AB", b"u ds", b"u Ps AB C":
            self.says(line, UNMET + START)
            self.says(line + b"\nm\nm\n", UNMET + START + ENDED + NO_EARLIER + ENDED)
        self.says(b"s 19\nr AB", ENDED + UNMET_BACK + HINT + ENDED)
        self.says(b"s 19\nr cl AB", ENDED + UNMET_BACK + ENDED)

    def test_without_a_doubt(self) -> None:
        """Then `d` and `D` stay."""
        self.says(b"d\nm\n", UNMET + START + ENDED)
        self.says(b"s 19\nD\n\n", ENDED + (UNMET_BACK + ENDED) * 2)

    def test_input_that_does_not_end_the_text(self) -> None:
        """Of a line of input that does not end the text that rs reads that is said; not where FILE has a text yet
        that rs reads first."""
        self.says(b"s 19\ni xy\ni z'\n", ENDED + b"no ' in this line: rs reads on until one comes\n" + ENDED * 2)
        self.says(b"i xy\n", START)
        self.says(b"s 7\ni xy\n", b"7  #(rs)\n" * 2)

    def test_bytes_that_are_not_there(self) -> None:
        """Byte 0, and a text that has no byte."""
        for line in b"w #0", b"y #0", b"y A 0", b"y . 0 0":
            self.says(b"s 19\n" + line + b"\n", ENDED + b"bytes are counted from 1\n" + ENDED)
        for line in b'w ""', b'y ""':
            self.says(b"s 19\n" + line + b"\n", ENDED + b"an empty text has no last byte\n" + ENDED)

    def test_to_the_end_and_back(self) -> None:
        """To where the program waits and back to the start, and what there is to go back to."""
        self.says(b"s end\nb start\nm\nm\nm\n", WAITS + ENDED + START + ENDED + START + NO_EARLIER + START)
        self.says(b"b start\nm\n", START + NO_EARLIER + START)

    def test_prompt(self) -> None:
        self.says(b"s\n", b'0> 1  "p" is taken as it is: ps,#(rs))\n1> ', "--prompt")

    def test_most_memory_that_may_be_kept(self) -> None:
        self.says(b"s\n", b'1  "p" is taken as it is: ps,#(rs))\n', "--keep", "1048576")

    def test_many_doubts_of_a_step(self) -> None:
        """Of 40 doubts 30 are said. Argument 2 begins in column 18, and each further one two columns after that
        before it."""
        run = self.walk(b"#(ds,F,ab)#(ss,F" + b",x" * 40 + b")'", b"d\n")
        line = "argument {} of ss is nowhere in the form F: line 1, column {}"
        wanted = [line.format(k, 14 + 2 * k) for k in range(2, 32)]
        self.status("40 doubts of a step", run, 0)
        self.same("standard error", run.error, b"")
        self.same("40 doubts of a step", run.output.split(b"\n", 1)[1], lined(wanted + [".. 10 more .."]))

    def test_what_scanning_deletes(self) -> None:
        wanted = (b"8  a tab is deleted, before: A\\x0d\\x0aB)\n" b'9  "A" is taken as it is: A\\x0d\\x0aB)\n'
                  b"10  a line end is deleted, before: \\x0aB)\n" b"11  a line end is deleted, before: B)\n")
        self.ends("tabs and line ends", self.walk(b"\tA\r\nB'", b"s 8\ns\ns\ns\n"), wanted)

    def test_commands(self) -> None:
        """The commands, by each of their three words: they fit the screen, and all are there."""
        commands = self.walk(AB, b"h\n").output
        for word in b"h", b"help", b"?":
            self.ends("the line {}".format(word), self.walk(AB, word + b"\n"), commands)
        lines = commands.decode().splitlines()
        self.holds("the commands take at most 24 lines", len(lines) <= 24)
        self.holds("and at most 80 columns", max(map(len, lines)) <= 80)
        for name in COMMANDS:
            there = re.search("(^|  )" + re.escape(name) + " ", commands.decode(), re.M)
            self.holds(name + " is among the commands", there)

    def test_long_lines(self) -> None:
        """A line of any length is not understood, and the next one is."""
        for size in 4095, 4096, 4097, 8192, 1048576:
            run = self.walk(AB, b"x" * size + b"\nq\n", piece=65536)
            self.ends("a line of {} bytes".format(size), run, b"not understood; h lists the commands\n")
        self.status("any bytes", self.walk(AB, os.urandom(1000000)), 0)

    def test_line_without_end(self) -> None:
        """A line of 4 GiB ends the walk, and so one without end."""
        said = b"this line has more than 4,294,967,296 bytes: it ends the walk\n"
        with open("/dev/zero", "rb") as zeros:
            run = subprocess.run([WALK, self.file(AB)], stdin=zeros, capture_output=True, timeout=patience(60))
        ended = run.stdout, run.stderr, run.returncode
        wanted = b"not understood; h lists the commands\n" + said, b"trac: budget spent\n", 3
        self.holds("it ends so: {}".format(ended), ended == wanted)

    def fits(self, what: str, program: bytes, steps: int) -> None:
        """After so many steps the state fits the screen."""
        run = self.walk(program, b"s %d\np\n" % steps, "--journal", "1000")
        lines = run.output.decode().splitlines()
        self.status(what, run, 0)
        self.holds(what + ": there is a state", len(lines) > 2)
        self.holds(what + ": at most 24 lines", len(lines) <= 24)
        self.holds(what + ": at most 80 columns", max(map(len, lines), default=0) <= 80)

    def test_many_begun_functions(self) -> None:
        self.fits("64,000 begun functions", b"#(" * 64000 + b"'\n", 64005)

    def test_large_form(self) -> None:
        self.fits("a form of 4 MB", b"#(ds,A," + b"[" * 4000000 + b")'#(ps,##(cl,A))'\n", 5000000)

    def test_long_line_of_a_program(self) -> None:
        self.fits("a line of 1 MiB", b"#(ps," + b"," * 1048576 + b")'\n", 500000)


class Restarts(Walker):
    """Walks that begin anew."""

    suite = "walk-lines"

    def test_over_what_was_typed(self) -> None:
        """The program reads what was typed again, and an end of the input stays one. No place from before is kept."""
        run = self.walk(b"#(ps,[#(rs)])'", b"s end\ni ab'\ns end\nrestart\nm\ns end\ne\nrestart\ni c'\n")
        wanted = re.sub(rb"(?m)^.*waits.*\n", b"", run.output)
        first = re.findall(rb"(?m)^([0-9]+)  ", wanted)
        self.holds("it begins anew at step 0: {}".format(first), first[3:5] == [b"0", b"0"])
        self.holds("and comes as far as before: {}".format(first), first[2] == first[5])
        self.holds("no earlier place is kept", NO_EARLIER in run.output)
        self.holds("the input has ended", run.output.endswith(b"the input has ended\n"))

    def test_file_that_changed(self) -> None:
        """FILE is read anew, and the walk says if it changed; a file that is not there is said, and changes
        nothing."""
        file, other = self.file(AB), self.room / "other program"
        other.write_bytes(b"C'")
        pipe = subprocess.PIPE
        with subprocess.Popen([WALK, file], stdin=pipe, stdout=pipe, cwd=self.room) as walk:
            assert walk.stdin and walk.stdout
            typed, replied = walk.stdin, walk.stdout

            def says(line: bytes, replies: bytes) -> None:
                """This line is replied to so."""
                typed.write(line + b"\n")
                typed.flush()
                said = b"".join(replied.readline() for _ in replies.splitlines())
                self.same("the line {}".format(line), said, replies)

            at_a, at_b = (b'8  "%s" is taken as it is: %s)\n' % (it[:1], it) for it in (b"AB", b"BA"))
            says(b"s 8", at_a)
            says(b"restart", START)
            file.write_bytes(b"BA'")
            says(b"s 8", at_a)
            says(b"restart", b"FILE has changed, and is read anew\n" + START)
            says(b"s 8", at_b)
            says(b"restart", START)
            says(b'restart "other program"', b"FILE is other program\n" + START)
            says(b"s 8", b'8  "C" is taken as it is: C)\n')
            other.write_bytes(b"D'")
            says(b"restart", b"FILE has changed, and is read anew\n" + START)
            says(b"s 8", b'8  "D" is taken as it is: D)\n')
            for name in b"none", bytes(self.room), b'"\\xff"':
                says(b"restart " + name, b"this file cannot be read\n" + b'8  "D" is taken as it is: D)\n')
            other.write_bytes(bytes(33554433))
            says(b"restart", b"a limit is passed: too much text, or too many arguments, forms or blocks\n"
                 b'8  "D" is taken as it is: D)\n')
            typed.close()


class Endings(Walker):
    """How trac-walk ends."""

    suite = "walk-lines"

    def test_no_file(self) -> None:
        run = ran([WALK, self.room / "none"])
        self.status("no FILE", run, 6)
        wanted = "trac walk: {} cannot be read".format(self.room / "none")
        self.holds("and which one: {}".format(run.error), wanted in run.error.decode().splitlines())
        run = ran([WALK, ""])
        self.status("a FILE of an empty name", run, 6)
        self.holds("and which one", b"trac walk: '' cannot be read" in run.error.splitlines())

    def test_long_file(self) -> None:
        self.status("a long FILE", self.walk(bytes(33554433), b""), 4)

    def test_closed_streams(self) -> None:
        file = self.file(AB)
        self.status("no standard input", ran([WALK, file], preexec_fn=lambda: os.close(0)), 6)
        self.status("no standard output", ran([WALK, file], b"s\n", 9, preexec_fn=lambda: os.close(1)), 7)

    def test_no_file_named(self) -> None:
        lines: tuple[list[str], ...] = [], ["--prompt"]
        for words in lines:
            run = ran([WALK, *words])
            self.status("no FILE named", run, 2)
            self.holds("and the usage", b"Usage: trac walk [OPTIONS] <FILE>" in run.error.splitlines())

    def test_memory_that_may_not_be_kept(self) -> None:
        for size in "0", "1048577":
            run = self.walk(AB, b"", "--keep", size)
            self.status("--keep " + size, run, 2)
            wanted = "invalid value '{0}' for '--keep <SIZE>': {0} is not in 1..=1048576".format(size)
            self.holds("and from where to where: {}".format(run.error), wanted in run.error.decode())

    def test_file_whose_name_begins_with_a_sign(self) -> None:
        run = ran([WALK, "-file"])
        lines = run.error.decode().splitlines()
        self.status("a FILE whose name begins with -", run, 2)
        self.holds("and how it is written: {}".format(lines),
                   "  tip: a FILE whose name begins with - is written so: trac walk ./-file" in lines)
        self.holds("and no other tip", sum("tip:" in line for line in lines) == 1)
