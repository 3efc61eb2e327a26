"""Random programs: the built program must run them as the plain processor of interpreter/processor.py does. Output,
standard error and exit status are compared byte for byte, with numbers of both widths. Of every 10th program, so are
the replies of `trac debug` to random commands, with the states that it shows, by interpreter/session.py. Before them
the plain processor must do what was worked by hand for tests/data/programs, and the model whose bytes carry where they
come from must print what the plain processor prints.

SEED in the environment chooses other programs."""
import os
import pathlib
import re
import signal
import tempfile

from interpreter import author, processor, session
from model.machine import Machine, plain
from support.cases import DATA, TRAC, Case, Place, each, near, patience, stems, tests, words_in

SEED = int(os.environ.get("SEED", "1"))
# So many programs are tried, so many in a test; one of so many is debugged; one of so many, that of this number,
# grows up to a limit.
COUNT, PART, DEBUGGED, GROWN, GROWING = 10000, 500, 10, 5000, 17
ENDINGS = {0: b"", 3: b"trac: budget spent\n", 4: b"trac: limit passed\n"}
# So many programs are tried with the model, which is slow: those that take at most so many steps.
MODELLED, MODEL_STEPS = 200, 2000


def started(room: str, words: list[str], tape: bytes) -> tuple[bytes, bytes, int]:
    """What the built program does with an input: its output, standard error and exit status. (This is as cheap as a
    start can be.)"""
    place = [os.path.join(room, name) for name in ("in", "out", "err")]
    with open(place[0], "wb") as file:
        file.write(tape)
    modes = [os.O_RDONLY] + [os.O_WRONLY | os.O_CREAT | os.O_TRUNC] * 2
    actions = [(os.POSIX_SPAWN_OPEN, number, place[number], modes[number], 0o600) for number in range(3)]
    process = os.posix_spawn(TRAC, [str(TRAC)] + words, os.environ, file_actions=actions)
    status = waited(process)
    output, error = (pathlib.Path(file).read_bytes() for file in place[1:])
    return output, error, os.WEXITSTATUS(status) if os.WIFEXITED(status) else -os.WTERMSIG(status)


def waited(process: int) -> int:
    """The status of a process that ends; one that does not is killed."""
    def kill(_signal: int, _frame: object) -> None:
        os.kill(process, signal.SIGKILL)

    signal.signal(signal.SIGALRM, kill)
    signal.alarm(int(patience()))
    _, status = os.waitpid(process, 0)
    signal.alarm(0)
    return status


def told(output: bytes, error: bytes, status: int) -> bytes:
    """These as one text, to be compared."""
    return b"%s\n(standard error) %s\n(status) %d\n" % (output, error, status)


@tests
class Interpreter(Case):
    """The built program beside the plain processor."""

    suite = "interpreter"

    def __init__(self, method: str = "runTest") -> None:
        super().__init__(method)
        # (those with a program that grows take longest)
        self.seconds = 40 if re.search("-[05]*000-", method) else 5

    @each("{}-to-{}".format(first, first + PART - 1) for first in range(0, COUNT, PART))
    def test_programs(self, numbers: str) -> None:
        first, last = map(int, numbers.split("-to-"))
        with tempfile.TemporaryDirectory() as room:
            for number in range(first, last + 1):
                self.try_program(number, room)

    def try_program(self, number: int, room: str) -> None:
        """A program: its runs with both widths, and a session over some of them."""
        writer = author.Author(SEED, number)
        tape, budget = writer.program(), writer.budget()
        if number % GROWN == GROWING:
            tape, budget = writer.doubling().encode(), 2000
        faults = len(self.faults) + self.cut
        for bits in 128, 64:
            output, _, status = processor.run(tape, bits, budget)
            words = ["run", "--budget", str(budget)] + (["--decimals", "64"] if bits == 64 else [])
            self.compare(number, tape, words, (output, ENDINGS[status], status), started(room, words, tape))
        if number % DEBUGGED == 0:
            self.try_session(number, tape, writer, room)
        if len(self.faults) + self.cut == faults:
            self.well()

    def test_limit(self) -> None:
        """Steps and a search that come to a limit are said to, and the way back from there goes."""
        tape = b"#(ds,E,(#(ds,D,##(cl,D)##(cl,D))#(cl,E)))'#(ds,D,x)#(cl,E)'"
        commands = ["s 999999999", "u zz 9", "b 3", "s 9"]
        with tempfile.TemporaryDirectory() as room:
            self.debugged(0, tape, 128, 65536, commands, room)
        replies = session.replies(tape, 128, 65536, commands)
        self.holds("three replies say so: {!r}".format(replies), replies.count(b"TooLong\n") == 3)

    def try_session(self, number: int, tape: bytes, writer: author.Author, room: str) -> None:
        """A session over a program."""
        bits, journal = writer.pick([128, 64]), writer.pick([5, 40, 65536, 65536])
        self.debugged(number, tape, bits, journal, writer.commands(), room)

    def debugged(self, number: int, tape: bytes, bits: int, journal: int, commands: list[str], room: str) -> None:
        """The replies to commands over a program."""
        words = ["debug", "--decimals", str(bits), "--journal", str(journal), os.path.join(room, "program")]
        pathlib.Path(words[-1]).write_bytes(tape)
        given = started(room, words, "".join(line + "\n" for line in commands).encode())
        wanted = session.replies(tape, bits, journal, commands), b"", 0
        self.compare(number, tape, words[:-1] + ["with {}".format(commands)], wanted, given)

    def compare(self, number: int, tape: bytes, words: list[str], wanted: tuple[bytes, bytes, int],
                given: tuple[bytes, bytes, int]) -> None:
        """The built program does what the plain processor does."""
        if wanted != given:
            what = "program {} of seed {}, {!r}: trac {}".format(number, SEED, tape[:2000], " ".join(words))
            self.same(what, told(*given), told(*wanted), None, "by the built program")


@tests
class Worked(Case):
    """What was worked by hand for tests/data/programs, done by the plain processor."""

    suite = "interpreter"

    @each(stems(DATA / "programs"))
    def test_worked(self, name: str) -> None:
        file = DATA / "programs" / (name + ".trac")
        status = int((words_in(file.with_suffix(".status")) or ["0"])[0])
        for bits in 128, 64:
            narrow = file.with_suffix(".64")
            wanted = narrow if bits == 64 and narrow.exists() else file.with_suffix(".out")
            output, _, ending = processor.run(file.read_bytes(), bits, 1000000000)
            given = "printed by the plain processor"
            self.same("with {} bits".format(bits), output, wanted.read_bytes(), Place(near(wanted)), given)
            self.holds("status {}, and not {}".format(ending, status), ending == status)

    def test_model(self) -> None:
        """The model prints what the plain processor prints, with both widths."""
        for number in range(MODELLED):
            tape = author.Author(SEED, number).program()
            for bits in 128, 64:
                output, steps, status = processor.run(tape, bits, MODEL_STEPS)
                if status != 4:
                    machine = Machine(tape, bits)
                    machine.run(steps)
                    what = "program {}, {!r}, {} bits".format(number, tape[:2000], bits)
                    self.same(what, plain(machine.output), output, None, "printed by the model")
