#!/usr/bin/env python3
"""Times whole runs of the built program, and prints a table with the most memory of each.

Each run has at most 60 seconds and 4 GB of address space (`ulimit -v`), and is timed by GNU `time`. Each figure is the
least of all rounds: other work on the machine can only add to it. KB and MB are 1,000 and 1,000,000 bytes.

    python3 bench/runs/run.py [ROUNDS] [PROGRAM]
"""
import pathlib
import subprocess
import sys
import tempfile

ROOT = pathlib.Path(__file__).resolve().parent.parent.parent
SECONDS = 60
# in units of 1,024 bytes
SPACE = 4 << 20
WORDS = ("the quick brown fox jumps over a lazy dog while seven wizards make toxic brew for an evil queen "
         "and jack").split()
LOOP = b"#(ds,L,(#(eq,N,100000,,(#(cl,L,#(ad,N,1))))))'#(ss,L,N)'#(cl,L,0)'"
ENDLESS = b"#(ds,L,(#(cl,L)))'#(cl,L)'"


def words(count):
    """A text of so many bytes, of English words."""
    line = (" ".join(WORDS) + " ").encode()
    return (line * (count // len(line) + 1))[:count]


def protected(count):
    """A text in parentheses that stands for so many bytes."""
    return b"(" + words(count) + b")"


def form(count, after):
    """A program that defines a form of so many bytes, and then has this text."""
    return b"#(ds,F," + protected(count) + b")'" + after + b"'"


ROWS = [
    ("none", b"", []),
    ("10 KB of plain text, ended once by `'`", words(10_000) + b"'", []),
    ("32 KB of plain text", words(32_000) + b"'", []),
    ("100 KB of plain text", words(100_000) + b"'", []),
    ("200 KB of plain text", words(200_000) + b"'", []),
    ("1 MB of plain text", words(1_000_000) + b"'", []),
    ("16 MB of plain text", words(16_000_000) + b"'", []),
    ("1 MB of plain text, a `'` after each 99 bytes", (words(99) + b"'") * 10_000, []),
    ("1 MB of text in parentheses", protected(1_000_000) + b"'", []),
    ("4 MB of text in parentheses", protected(4_000_000) + b"'", []),
    ("16 MB of text in parentheses", protected(16_000_000) + b"'", []),
    ("a form of 100 KB, and 96 bytes of plain text", form(100_000, words(96)), []),
    ("a form of 1 MB, and 96 bytes of plain text", form(1_000_000, words(96)), []),
    ("a form of 4 MB, and 96 bytes of plain text", form(4_000_000, words(96)), []),
    ("a form of 8 MB, and 96 bytes of plain text", form(8_000_000, words(96)), []),
    ("a form of 32 KB, and 32 KB of plain text", form(32_000, words(32_000)), []),
    ("a form of 32 KB, and 32 KB of text in parentheses", form(32_000, protected(32_000)), []),
    ("a loop of 100,000 turns, each with a call of `eq`, `ad` and `cl`", LOOP, []),
    ("an endless loop of a form that only calls itself, 10,000,000 steps", ENDLESS, ["--budget", "10000000"]),
]


def run(program, options, path):
    """The status of one run, its seconds and the most kilobytes that it held; none where it was not done in time."""
    with tempfile.NamedTemporaryFile("r") as told, open(path, "rb") as given:
        line = f'ulimit -v {SPACE}; exec timeout {SECONDS} /usr/bin/time -q -f "%x %e %M" -o "$0" "$@"'
        command = ["bash", "-c", line, told.name, program, "run", *options]
        ended = subprocess.run(command, stdin=given, stdout=subprocess.DEVNULL, stderr=subprocess.DEVNULL)
        if ended.returncode == 124:
            return None
        status, seconds, kilobytes = told.read().split()
        return int(status), float(seconds), int(kilobytes)


def memory(kilobytes):
    """That much memory in MB."""
    megabytes = kilobytes * 1024 / 1e6
    return f"{megabytes:,.0f} MB" if megabytes >= 10 else f"{megabytes:.1f} MB"


def row(program, rounds, text, given, options):
    """A row of the table."""
    with tempfile.NamedTemporaryFile() as file:
        file.write(given)
        file.flush()
        found = []
        for _ in range(rounds):
            found.append(run(program, options, file.name))
            if found[-1] is None:
                return f"| {text} | not done after {SECONDS} s | |"
    status = found[0][0]
    held = memory(min(kilobytes for _, _, kilobytes in found))
    ending = "" if status == 0 else f", status {status}"
    return f"| {text} | {min(seconds for _, seconds, _ in found):.2f} s | {held}{ending} |"


def main():
    rounds = int(sys.argv[1]) if len(sys.argv) > 1 else 3
    program = sys.argv[2] if len(sys.argv) > 2 else str(ROOT / "out" / "trac")
    print("| Input | Time | Most memory |")
    print("|---|---|---|")
    for text, given, options in ROWS:
        print(row(program, rounds, text, given, options), flush=True)


if __name__ == "__main__":
    main()
