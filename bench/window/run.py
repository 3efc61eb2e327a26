#!/usr/bin/env python3
"""Times commits that keep a window of the last steps, small journals, and long runs; prints a table of each.

The program is $TRAC, or out/trac, which ./build keeps up to date. What is compared is timed in turn, in
one run. Each time is the least processor time of all rounds: other work on the machine can only add to it. MB are
1,000,000 bytes. What takes longer than 120 seconds is stopped, and has no figure.

With `--sessions` the same steps are also timed without a debugger around them: the program window_bench is built under
target/bench_window by `rt run`, which proves it and what it stands on. All crates are copied there, with what earlier
checks kept of them.

    python3 bench/window/run.py [--sessions] [ROUNDS]
"""
import os
import pathlib
import re
import resource
import shutil
import subprocess
import sys
import tempfile

HERE = pathlib.Path(__file__).resolve().parent
ROOT = HERE.parent.parent
TRAC = os.environ.get("TRAC", str(ROOT / "out" / "trac"))
WORK = ROOT / "target" / "bench_window"
BELOW = ["trac_rules", "trac_num", "trac_gap", "trac_text", "trac_forms", "trac_change", "trac_journal", "trac_prims",
         "trac_storage", "trac_step", "trac_session"]
SECONDS = 120
JOURNAL = 65_536
WINDOW = b"c 1000\n"
WIDE_WINDOW = b"c 60000\n"
# the debugger reads 1,048,576 lines at most, so no more pairs of them
STEPS = 500_000
LONG = 8_000_000
ENDLESS = (ROOT / "programs" / "examples" / "endless.trac").read_bytes()
APPENDING = b"#(ds,acc,)'#(ds,L,(#(eq,N,%d,,(#(ds,acc,##(cl,acc)line N;)#(cl,L,#(ad,N,1))))))'#(ss,L,N)'#(cl,L,0)'"
READING = b"#(ds,L,(#(rc)#(cl,L)))'#(cl,L)'"
PRINT = b"#(ps,.)"


def ran(command, given):
    """What a program prints with this on its standard input, and nothing where it was not done in time."""
    try:
        done = subprocess.run(command, input=given, capture_output=True, timeout=SECONDS, check=False)
    except subprocess.TimeoutExpired:
        return None
    if done.returncode != 0:
        sys.exit(f"{' '.join(command)}: status {done.returncode}: {done.stderr.decode()}")
    return done.stdout


def timed(command, given):
    """The processor time in milliseconds that a program takes with this on its standard input; none where it was
    not done."""
    before = resource.getrusage(resource.RUSAGE_CHILDREN)
    said = ran(command, given)
    after = resource.getrusage(resource.RUSAGE_CHILDREN)
    # each walk forward is to take all of its steps, but one that fills the journal
    if said and re.search(rb"^forward \d+ (?!JournalFull)", said, re.MULTILINE):
        sys.exit(f"{' '.join(command)}: a walk ended early")
    return None if said is None else (after.ru_utime + after.ru_stime - before.ru_utime - before.ru_stime) * 1000


def held(command, given):
    """The most bytes that a program holds with this on its standard input; none where it was not done."""
    with tempfile.NamedTemporaryFile("r") as told:
        said = ran(["/usr/bin/time", "-q", "-f", "%M", "-o", told.name, *command], given)
        return None if said is None else int(told.read()) * 1024


def least(rounds, runs):
    """The least time of each of these runs, which take turns."""
    found = [[timed(*run) for run in runs] for _ in range(rounds)]
    return [None if None in times else min(times) for times in zip(*found)]


def shown(time):
    """A time in a table."""
    return f"over {SECONDS} s" if time is None else f"{time:,.1f} ms"


def ratio(one, other):
    """How many times the other time one takes."""
    return "" if one is None or other is None else f"{one / max(other, 0.001):.2f}"


def memory(held_bytes):
    """That much memory in MB."""
    return "" if held_bytes is None else f"{held_bytes / 1e6:,.1f} MB"


class Files:
    """Files that the debugger is given, as long as a table is made."""

    def __init__(self):
        self.folder = tempfile.TemporaryDirectory()

    def __enter__(self):
        return self

    def __exit__(self, *_):
        self.folder.cleanup()

    def session(self, name, text, commands):
        """A run of the debugger over this text, with these commands."""
        path = pathlib.Path(self.folder.name) / name
        path.write_bytes(text)
        return [TRAC, "debug", str(path)], commands


def windows(rounds):
    """The steps of a loop, with a commit after each, and with one where the journal is full."""

    def until_full(step):
        journals, rest = divmod(STEPS, JOURNAL)
        return (step * JOURNAL + b"c\n") * journals + step * rest

    lines = [
        ("`s 1`, and a `c` where the journal is full", until_full(b"s 1\n")),
        ("`s 1` and `b 0`, which does nothing, and a `c` where the journal is full", until_full(b"s 1\nb 0\n")),
        ("`s 1` and `c 1000`", (b"s 1\n" + WINDOW) * STEPS),
        ("`s 1` and `c`", b"s 1\nc\n" * STEPS),
    ]
    with Files() as files:
        times = least(rounds, [files.session("endless", ENDLESS, commands) for _, commands in lines])
    print(f"| {STEPS:,} steps of a loop in the debugger | time | to the first | to the second |\n|---|---|---|---|")
    for (text, _), time in zip(lines, times):
        print(f"| {text} | {shown(time)} | {ratio(time, times[0])} | {ratio(time, times[1])} |", flush=True)


def definitions(rounds):
    """Many forms, with the least journal and with the default one."""
    print("\n| forms defined | journal of 8,192 | journal of 1 | ratio |\n|---|---|---|---|")
    for count in (8_000, 65_533):
        given = b"".join(b"#(ds,name%d,value)'" % i for i in range(count))
        default, small = least(rounds, [([TRAC, "run"], given), ([TRAC, "run", "--journal", "1"], given)])
        print(f"| {count:,} | {shown(default)} | {shown(small)} | {ratio(small, default)} |", flush=True)


def runs(rounds):
    """Runs that are long or lose much, with their time and the most memory that they take."""
    there = b"s 50000\nc 10000\n" * 100
    print("\n| | time | most memory |\n|---|---|---|")
    with Files() as files:
        rows = [
            ("`run`: 5,000 turns append a line each to a form", ([TRAC, "run"], APPENDING % 5_000)),
            ("10,000 turns", ([TRAC, "run"], APPENDING % 10_000)),
            ("10,000 turns, with `--journal 100`", ([TRAC, "run", "--journal", "100"], APPENDING % 10_000)),
            ("`debug`: `s 50000` and `c 10000`, 100 times", files.session("there", ENDLESS, there)),
            ("the same, and then `b 10000`", files.session("back", ENDLESS, there + b"b 10000\n")),
        ]
        for text, run in rows:
            print(f"| {text} | {shown(least(rounds, [run])[0])} | {memory(held(*run))} |", flush=True)


def printing(long, count):
    """A text that prints a byte in each six steps, 10,000 times, then a long text at once, then so many bytes
    again; and the commands that go to right after the long one."""
    text = PRINT * 10_000 + b"#(ps,(" + b"." * long + b"))" + PRINT * count + b"'"
    # eight steps until the text is read
    return text, b"s 60008\ns 6\n" + WIDE_WINDOW


def reading(long, count):
    """A loop that reads a byte of the input in each eleven steps, with as many bytes of input as it reads and a
    long text after them; and the commands that go to where it has read some."""
    return READING + b"." * (long + count + 1_000), b"s 5000\n" + WINDOW


def kept(rounds):
    """What commits cost that release a byte each, with little after it and with much."""
    print("\n| | 5,000 | 10,000 | 20,000 |\n|---|---|---|---|")
    rows = [
        ("`s 6`, which prints a byte, and `c 60000`", printing, b"s 6\n" + WIDE_WINDOW),
        ("`s 11`, which reads a byte, and `c 1000`", reading, b"s 11\n" + WINDOW),
    ]
    for text, program, turn in rows:
        for long, after in ((1, "little"), (LONG, f"{LONG // 1_000_000} MB")):
            cells = []
            for count in (5_000, 10_000, 20_000):
                given, there = program(long, count)
                # both end with a commit that shows all, so that both write as much
                ends = [there + turns + b"c\n" for turns in (b"", turn * count)]
                with Files() as files:
                    none, turns = least(rounds, [files.session("kept", given, commands) for commands in ends])
                cells.append(shown(None if none is None or turns is None else turns - none))
            print(f"| {text}; {after} after it | {' | '.join(cells)} |", flush=True)


def built():
    """The program window_bench, built from the sources as they are now."""
    crates = WORK / "crates"
    crates.mkdir(parents=True, exist_ok=True)
    lines = [line for line in (ROOT / "crates.txt").read_text().splitlines() if line.split(":")[0] in BELOW]
    (WORK / "crates.txt").write_text("\n".join(lines) + "\nwindow_bench: " + " ".join(BELOW) + "\n")
    for name, source in [(name, ROOT / "crates" / name) for name in BELOW] + [("window_bench", HERE / "window_bench")]:
        if (source / "out").is_dir() and not (crates / name / "out").exists():
            shutil.copytree(source / "out", crates / name / "out", symlinks=True)
        for part in ("src", "specs", "proofs"):
            shutil.rmtree(crates / name / part, ignore_errors=True)
            if (source / part).is_dir():
                shutil.copytree(source / part, crates / name / part)
    # the gate reads each .rt file as a part of a crate, so the program's file has another ending here
    for file in (crates / "window_bench").rglob("*.txt"):
        file.rename(file.with_suffix(""))
    told = subprocess.run(["rt", "run"], cwd=crates / "window_bench", capture_output=True, text=True, check=False)
    said, program = told.stdout + told.stderr, crates / "window_bench" / "out" / "window_bench"
    if not program.exists() or ("logic=proved" not in said and "since the last proved build" not in said):
        sys.exit(said)
    return program


def sessions(rounds):
    """A million steps of a session, with a commit after each, and with one where the journal is full."""
    program, found = built(), {}
    for _ in range(rounds):
        for line in subprocess.run([str(program)], check=True, capture_output=True, text=True).stdout.splitlines():
            name, nanos = line.split()
            found.setdefault(name, []).append(int(nanos) / 1e6)
    rows = [("full", "where the journal is full"), ("window", "`commit(1000)` after each"),
            ("none", "`commit(0)` after each")]
    print("\n| 1,000,000 steps of a session | time | ratio |\n|---|---|---|")
    for name, text in rows:
        print(f"| {text} | {shown(min(found[name]))} | {ratio(min(found[name]), min(found['full']))} |")


def main():
    given = [word for word in sys.argv[1:] if word != "--sessions"]
    rounds = int(given[0]) if given else 5
    if not pathlib.Path(TRAC).exists():
        sys.exit("the program is not built: run ./build first")
    windows(rounds)
    definitions(rounds)
    runs(rounds)
    kept(rounds)
    if "--sessions" in sys.argv:
        sessions(rounds)


if __name__ == "__main__":
    main()
