#!/usr/bin/env python3
"""Times scanning by the built program, against a yardstick where one is given, and going back over it; prints two
tables.

The yardstick is a processor for the same language that keeps what a way back needs (`YARDSTICK run --undo`), as the
plain Rust program does that is handed around beside this repository. Both run in turn, each round on the same input,
and their outputs are compared. Each figure is the least processor time of all rounds: other work on the machine can
only add to it. Going back is timed in the debugger, with a journal of 1,048,576 records, the most that there may be:
the time of a session that goes forward, less that of one which does nothing, and the time of one that goes back too,
less that.

    python3 bench/scanning/run.py [ROUNDS [YARDSTICK]]
"""
import pathlib
import resource
import subprocess
import sys
import tempfile

ROOT = pathlib.Path(__file__).resolve().parent.parent.parent
TRAC = ROOT / "crates" / "trac" / "out" / "trac"
WORDS = "the quick brown fox jumps over a lazy dog while seven wizards make toxic brew for an evil queen and jack"
MIB = 1 << 20
JOURNAL = MIB


def words(count):
    """A text of so many bytes, of English words."""
    line = (WORDS + " ").encode()
    return (line * (count // len(line) + 1))[:count]


def protected(count):
    """A text in parentheses that stands for so many bytes."""
    return b"(" + words(count) + b")"


ROWS = [
    ("plain text of 4 MiB", words(4 * MIB)),
    ("plain text of 8 MiB", words(8 * MIB)),
    ("a text of 4 MiB in parentheses", protected(4 * MIB)),
    ("a text of 8 MiB in parentheses", protected(8 * MIB)),
    ("1 MiB in one line, in pieces of 4,096 bytes", words(MIB)),
    ("2 MiB in one line, in pieces of 4,096 bytes", words(2 * MIB)),
]
WALKS = [
    ("1,000,000 steps over plain text", words(1_000_000), 1_000_000),
    ("11 steps over a text of 4 MiB in parentheses", protected(4 * MIB), 11),
]


def timed(command, given):
    """The processor time of a program with this on its standard input, and what it prints."""
    before = resource.getrusage(resource.RUSAGE_CHILDREN)
    done = subprocess.run([str(part) for part in command], input=given, capture_output=True, check=False)
    after = resource.getrusage(resource.RUSAGE_CHILDREN)
    if done.returncode != 0:
        sys.exit(f"{command}: status {done.returncode}: {done.stderr.decode()}")
    return after.ru_utime + after.ru_stime - before.ru_utime - before.ru_stime, done.stdout


def in_milliseconds(seconds):
    return f"{max(seconds, 0) * 1000:.1f} ms"


def scanning(rounds, yardstick):
    """A line for each row: our least time, and that of the yardstick with the ratio."""
    print("| | `trac` | yardstick | ratio |\n|---|---|---|---|")
    for name, text in ROWS:
        given = text + b"'"
        ours, theirs = [], []
        for _ in range(rounds):
            time, said = timed([TRAC, "run"], given)
            ours.append(time)
            if yardstick:
                time, other = timed([yardstick, "run", "--undo"], given)
                theirs.append(time)
                if said != other:
                    sys.exit(f"{name}: the outputs differ")
        row = f"| {name} | {in_milliseconds(min(ours))} |"
        if yardstick:
            row += f" {in_milliseconds(min(theirs))} | {min(ours) / max(min(theirs), 0.001):.1f} |"
        else:
            row += " | |"
        print(row, flush=True)


def walks(rounds):
    """A line for each walk: the least time forward, and back."""
    print("\n| | forward | back |\n|---|---|---|")
    for name, text, steps in WALKS:
        with tempfile.NamedTemporaryFile() as file:
            file.write(text + b"'")
            file.flush()
            command = [TRAC, "debug", file.name, "--journal", JOURNAL]
            least = []
            for lines in (b"", f"s {steps}\n".encode(), f"s {steps}\nb {steps}\n".encode()):
                least.append(min(timed(command, lines)[0] for _ in range(rounds)))
        there, back = in_milliseconds(least[1] - least[0]), in_milliseconds(least[2] - least[1])
        print(f"| {name} | {there} | {back} |", flush=True)


def main():
    if not TRAC.exists():
        sys.exit("the program is not built: run ./build first")
    rounds = int(sys.argv[1]) if len(sys.argv) > 1 else 5
    yardstick = sys.argv[2] if len(sys.argv) > 2 else None
    scanning(rounds, yardstick)
    walks(rounds)


if __name__ == "__main__":
    main()
