#!/usr/bin/env python3
"""Times `y` of trac walk beside going back over the same steps, and prints a table.

Each program defines a form and prints a byte first, and then calls much, for up to 1,000,000 steps. The way back of
that byte of the output, and of the form's byte, goes over all of them. In a second table a call prints a byte that
waited in its argument while a loop called itself last, or while functions were begun within one another, and a byte
that was not scanned meanwhile. In a third each level of a recursion hands a byte to the next as an argument, and the
innermost prints it. Walks are made with a journal of 1,048,576 records, the most that there may be: the time of a
session that goes forward and then back, or follows a byte, less that of one that only goes forward. Each is the least
processor time of all rounds: other work on the machine can only add to it. With `--count` the instructions of one run
are counted instead, by valgrind, so that other work changes nothing.

    python3 bench/origins/run.py [--count] [--program TRAC_WALK] [ROUNDS]
"""
import importlib.util
import pathlib
import re
import resource
import subprocess
import sys
import tempfile

ROOT = pathlib.Path(__file__).resolve().parent.parent.parent
STEPS = 1_000_000
FIRST = b"#(ds,keep,x)'\n#(ps,a)'\n"
LOOP = b"#(ds,Loop,(#(gr,N,0,(#(cl,Loop,##(su,N,1))),)))'\n#(ss,Loop,N)'\n#(ps,a#(cl,Loop,25000)b)'\n"
DEEP = b"#(ds,Deep,(#(eq,N,0,,(#(ad,1,#(cl,Deep,##(su,N,1)))))))'\n#(ss,Deep,N)'\n#(ps,a#(cl,Deep,18000)b)'\n"
HANDED = b"#(ds,Deep,(#(eq,N,0,(#(ps,W)),(#(ad,1,#(cl,Deep,##(su,N,1),W))))))'\n#(ss,Deep,N,W)'\n#(cl,Deep,%d,a)'\n"


def calls():
    """The programs of the benchmark of calls."""
    spec = importlib.util.spec_from_file_location("calls", ROOT / "bench" / "calls" / "run.py")
    module = importlib.util.module_from_spec(spec)
    spec.loader.exec_module(module)
    return module


def spent():
    """The processor time of all that this has run."""
    used = resource.getrusage(resource.RUSAGE_CHILDREN)
    return used.ru_utime + used.ru_stime


def seconds(program, path, commands):
    """The processor time of one session with these commands."""
    before = spent()
    done = subprocess.run([program, "--journal", "1048576", path], input=commands.encode(), stdout=subprocess.PIPE,
                          check=True)
    return spent() - before, done.stdout


def counted(program, path, commands):
    """The million instructions of one session with these commands."""
    words = ["valgrind", "--tool=callgrind", "--callgrind-out-file=/dev/null", program, "--journal", "1048576", path]
    done = subprocess.run(words, input=commands.encode(), capture_output=True, check=True)
    return int(re.search(rb"Collected : (\d+)", done.stderr).group(1)) / 1e6


def least(program, path, commands, rounds):
    """The least milliseconds of all rounds; with none, the million instructions of one run."""
    if rounds == 0:
        return counted(program, path, commands)
    return 1000 * min(seconds(program, path, commands)[0] for _ in range(rounds))


def row(program, text, forward, ways, rounds):
    """How many steps go back from where these commands lead, and how long that takes, and each of these ways."""
    with tempfile.NamedTemporaryFile(suffix=".trac") as file:
        file.write(text)
        file.flush()
        steps = int(seconds(program, file.name, forward)[1].splitlines()[-1].split()[0])
        alone = least(program, file.name, forward, rounds)
        return steps, [least(program, file.name, f"{forward}{way}\n", rounds) - alone for way in [f"b {STEPS}", *ways]]


def table(program, heads, rows, rounds):
    """Prints a row for each of these programs: its name, itself, and the ways to go back."""
    print(f"| | steps | back | {' | '.join(heads)} | over back |")
    print("|---|---|---|---|---|---|")
    for name, text, forward, ways in rows:
        steps, (back, *times) = row(program, text, forward, ways, rounds)
        spent_on = " | ".join(f"{time:.1f}{' ms' if rounds else ''}" for time in (back, *times))
        print(f"| {name} | {steps:,} | {spent_on} | {', '.join(f'{time / back:.1f}' for time in times)} |")


def main():
    words = sys.argv[1:]
    program = ROOT / "out" / "trac-walk"
    counts = words[:1] == ["--count"]
    words = words[1:] if counts else words
    if words[:1] == ["--program"]:
        program, words = pathlib.Path(words[1]).resolve(), words[2:]
    rounds = 0 if counts else int(words[0]) if words else 9
    made = calls()
    forward = f"s {STEPS}\n"
    printed = ["y #1", "y keep 1"]
    table(program, ["`y` of the output", "of a form"], [
        ("factorials, 4,000", FIRST + made.factorials(4000), forward, printed),
        ("the 20th Fibonacci number", FIRST + made.fibonacci(20), forward, printed),
        ("4,000 different words counted", FIRST + made.counting(4000), forward, printed),
    ], rounds)
    # back to the call that prints, before that of the idle program
    call = forward + "r ps\nr ps\n"
    print()
    table(program, ["`y` of an argument", "of the active text"], [
        ("a loop of 25,000 turns", LOOP, call, ["y . 1 1", "y . 1 2"]),
        ("18,000 functions within one another", DEEP, call, ["y . 1 1", "y . 1 7"]),
    ], rounds)
    print()
    table(program, ["`y` of the output"], [
        (f"{levels:,} levels hand it on", HANDED % levels, forward, ["y #1"]) for levels in (1_000, 4_000, 20_000)
    ], rounds)


if __name__ == "__main__":
    main()
