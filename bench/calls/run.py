#!/usr/bin/env python3
"""Times programs that call much, against a yardstick where one is given, and walks over them there and back; prints
two tables.

The yardstick is a processor for the same language that keeps what a way back needs (`YARDSTICK run --undo`), as the
plain Rust program does that is handed around beside this repository. Both run in turn, each round on the same input,
and their outputs are compared. Each time is the least processor time of all rounds: other work on the machine can only
add to it. With `--count` the instructions of one run are counted instead, by valgrind, so that other work changes
nothing.

Walks are made in the debugger, with a journal of 1,048,576 records, the most that there may be: the time of a session
that goes forward, less that of one which does nothing, and the time of one that goes back too, less that. What the
journal takes is how much more memory the session holds at most that goes forward than the one that does nothing, by
the steps that it took.

    python3 bench/calls/run.py [--count] [--program TRAC] [ROUNDS [YARDSTICK]]
"""
import pathlib
import re
import resource
import subprocess
import sys
import tempfile

ROOT = pathlib.Path(__file__).resolve().parent.parent.parent
TRAC = ROOT / "crates" / "trac" / "out" / "trac"
WORDS = "the quick brown fox jumps over a lazy dog while seven wizards make toxic brew for an evil queen and jack"
JOURNAL = 1 << 20
STEPS = 1_000_000
CELL = b'#(ds,cell,(<td class="KK">VV</td>))\'#(ss,cell,KK,VV)\''
ROW = b"#(ds,row,(<tr>#(cl,cell,no,NO)#(cl,cell,name,AA)#(cl,cell,total,#(ml,QQ,PP))</tr>))'#(ss,row,NO,AA,QQ,PP)'"


def words(count):
    """A text of so many bytes, of English words."""
    line = (WORDS + " ").encode()
    return (line * (count // len(line) + 1))[:count]


def counted(first, body):
    """A program that does this so many times; `N` in it is how many times are left."""
    return b"#(ds,L,(#(eq,N,0,,(" + body + b"#(cl,L,#(su,N,1))))))'#(ss,L,N)'#(cl,L,%d)'" % first


def factorials(count):
    """12 times 11 times .. to 1, by recursion, so many times."""
    return b"#(ds,F,(#(eq,X,0,1,(#(ml,X,#(cl,F,#(su,X,1)))))))'#(ss,F,X)'" + counted(count, b"#(ps,#(cl,F,12);)")


def fibonacci(n):
    """The number of this place, by two calls for each that is greater."""
    return b"#(ds,F,(#(gr,2,N,N,(#(ad,#(cl,F,#(su,N,1)),#(cl,F,#(su,N,2)))))))'#(ss,F,N)'#(ps,#(cl,F,%d))'" % n


def counting(count):
    """So many different words, each read from a form and counted in one of its own."""
    text = b" ".join(b"w%d" % (i * 7919 % count) for i in range(count))
    return (
        b"#(ds,T,(" + text + b"))'#(ss,T, )'#(ds,C,(#(eq,^,.,,(#(ds,w:^,#(ad,##(cl,w:^),1))#(cl,W)))))'#(ss,C,^)'"
        b"#(ds,W,(#(cl,C,##(cs,T,.))))'#(cl,W)'#(ps,##(ln,(,)))'"
    )


def filled(count):
    """So many rows of a table through two templates."""
    rows = b"".join(b"#(ps,#(cl,row,%d,fox,%d,%d))'" % (i, i % 97 + 1, i % 991 + 1) for i in range(count))
    return CELL + ROW + rows


def protected(count):
    """A text of 64 KiB in parentheses, printed and defined anew so many times."""
    return b"#(ds,A,(" + words(1 << 16) + b"))'" + counted(count, b"#(ps,##(cl,A))#(ds,B,##(cl,A))#(ds,A,##(cl,B))")


def rescanned(count):
    """A plain text of 64 KiB that is called and scanned again so many times."""
    return b"#(ds,A,(" + words(1 << 16) + b"))'" + counted(count, b"#(ps,#(cl,A))")


ROWS = [
    ("factorials, 2,000", factorials(2_000)),
    ("factorials, 4,000", factorials(4_000)),
    ("the 20th Fibonacci number", fibonacci(20)),
    ("2,000 different words counted", counting(2_000)),
    ("4,000 different words counted", counting(4_000)),
    ("10,000 rows of a table", filled(10_000)),
    ("64 KiB defined anew 200 times", protected(200)),
    ("64 KiB scanned 200 times", rescanned(200)),
]
WALKS = ["factorials, 4,000", "the 20th Fibonacci number", "4,000 different words counted", "10,000 rows of a table"]


def timed(command, given):
    """The processor time of a program with this on its standard input, in milliseconds, and what it prints."""
    before = resource.getrusage(resource.RUSAGE_CHILDREN)
    done = subprocess.run([str(part) for part in command], input=given, capture_output=True, check=False)
    after = resource.getrusage(resource.RUSAGE_CHILDREN)
    if done.returncode != 0:
        sys.exit(f"{command}: status {done.returncode}: {done.stderr.decode()}")
    return (after.ru_utime + after.ru_stime - before.ru_utime - before.ru_stime) * 1000, done.stdout


def instructions(command, given):
    """How many million instructions a program takes with this on its standard input, and what it prints."""
    valgrind = ["valgrind", "--tool=callgrind", "--callgrind-out-file=/dev/null"]
    done = subprocess.run([*valgrind, *map(str, command)], input=given, capture_output=True, check=True)
    return int(re.search(rb"Collected : (\d+)", done.stderr)[1]) / 1e6, done.stdout


def held(command, given):
    """The most bytes that a program holds with this on its standard input."""
    with tempfile.NamedTemporaryFile("r") as told:
        line = ["/usr/bin/time", "-q", "-f", "%M", "-o", told.name, *map(str, command)]
        subprocess.run(line, input=given, stdout=subprocess.DEVNULL, check=True)
        return int(told.read()) * 1024


def runs(program, measure, unit, rounds, yardstick):
    """A line for each row: our least figure, and that of the yardstick with the ratio."""
    print("| | `trac` | yardstick | ratio |\n|---|---|---|---|")
    for name, given in ROWS:
        ours, theirs = [], []
        for _ in range(rounds):
            figure, said = measure([program, "run"], given)
            ours.append(figure)
            if yardstick:
                figure, other = measure([yardstick, "run", "--undo"], given)
                theirs.append(figure)
                if said != other:
                    sys.exit(f"{name}: the outputs differ")
        row = f"| {name} | {min(ours):.1f} {unit} |"
        row += f" {min(theirs):.1f} {unit} | {min(ours) / max(min(theirs), 0.001):.1f} |" if yardstick else " | |"
        print(row, flush=True)


def walks(program, measure, unit, rounds):
    """A line for each walk: the least figure forward, and back, and what the journal takes a step."""
    print("\n| | steps | forward | back | bytes a step |\n|---|---|---|---|---|")
    for name in WALKS:
        with tempfile.NamedTemporaryFile() as file:
            file.write(dict(ROWS)[name])
            file.flush()
            command = [program, "debug", file.name, "--journal", JOURNAL]
            there = f"s {STEPS}\n".encode()
            lines = (b"", there, there + f"b {STEPS}\n".encode())
            least, told = [], b""
            for each in lines:
                figures = [measure(command, each) for _ in range(rounds)]
                least.append(min(figure for figure, _ in figures))
                told = figures[0][1]
            steps = [int(n) for n in re.findall(rb"(\d+)", told.splitlines()[-1])][:1] or [STEPS]
            more = held(command, there) - held(command, b"")
        taken = f"{least[1] - least[0]:.1f} {unit} | {least[2] - least[1]:.1f} {unit}"
        print(f"| {name} | {steps[0]:,} | {taken} | {more / max(steps[0], 1):.0f} |", flush=True)


def main():
    words_given = sys.argv[1:]
    counts = "--count" in words_given
    program = TRAC
    if "--program" in words_given:
        at = words_given.index("--program")
        program = pathlib.Path(words_given[at + 1])
        del words_given[at : at + 2]
    given = [word for word in words_given if word != "--count"]
    if not program.exists():
        sys.exit("the program is not built: run ./build first")
    measure, unit = (instructions, "M") if counts else (timed, "ms")
    rounds = 1 if counts else int(given[0]) if given else 5
    yardstick = given[1] if len(given) > 1 else None
    runs(program, measure, unit, rounds, yardstick)
    walks(program, measure, unit, rounds)


if __name__ == "__main__":
    main()
