#!/usr/bin/env python3
"""Times the gap buffer against a plain, safe gap buffer in Rust, and prints a table.

Both programs are built first, under target/bench: the Rattle one by `rt run`, which proves it
and the crate below it, the Rust one by `rustc -O`. Then they run in turn, so that both meet the
same machine. Each figure is the median of all rounds of all runs.

    python3 bench/gap/run.py [RUNS]
"""
import pathlib
import shutil
import statistics
import subprocess
import sys

HERE = pathlib.Path(__file__).resolve().parent
ROOT = HERE.parent.parent
WORK = ROOT / "target" / "bench"

# What is timed, how many calls or copies that is, and how a row of the table reads.
ROWS = [
    ("push_left", 1 << 20, "push a byte on the left"),
    ("push_right", 1 << 20, "push a byte on the right"),
    ("pop_left", 1 << 20, "pop a byte on the left"),
    ("pop_right", 1 << 20, "pop a byte on the right"),
    ("cross_bytes", 2 << 20, "move a byte across the gap"),
    ("cross_runs", 128, "move 64 KiB across a wide gap"),
    ("cross_runs_tight", 128, "move 64 KiB across a gap of one place"),
    ("grow", 1, "grow to 64 MiB by 4 KiB at a time"),
]


def build():
    """The two programs, built from the sources as they are now."""
    crates = WORK / "crates"
    crates.mkdir(parents=True, exist_ok=True)
    (WORK / "crates.txt").write_text("trac_gap: core std_alloc\ngap_bench: trac_gap\n")
    for name, source in (("trac_gap", ROOT / "crates" / "trac_gap"), ("gap_bench", HERE / "gap_bench")):
        for part in ("src", "specs", "proofs"):
            shutil.rmtree(crates / name / part, ignore_errors=True)
            if (source / part).is_dir():
                shutil.copytree(source / part, crates / name / part)
    # the gate reads each .rt and .antt file as a part of a crate, so the program's files have another ending here
    for file in (crates / "gap_bench").rglob("*.txt"):
        file.rename(file.with_suffix(""))
    program = crates / "gap_bench" / "out" / "gap_bench"
    built = subprocess.run(["rt", "run"], cwd=crates / "gap_bench", capture_output=True, text=True)
    said = built.stdout + built.stderr
    if not program.exists() or ("logic=proved" not in said and "since the last proved build" not in said):
        sys.exit(said)
    baseline = WORK / "baseline"
    subprocess.run(["rustc", "-O", "-o", str(baseline), str(HERE / "baseline" / "main.rs")], check=True)
    return program, baseline


def measure(program, found):
    """Adds the nanoseconds that each line of the program's output gives."""
    for line in subprocess.run([str(program)], check=True, capture_output=True, text=True).stdout.splitlines():
        name, nanos = line.split()
        found.setdefault(name, []).append(int(nanos))


def shown(nanos, calls):
    """The time of one call."""
    one = nanos / calls
    return f"{one / 1e6:.1f} ms" if one > 1e6 else f"{one / 1e3:.2f} µs" if one > 900 else f"{one:.2f} ns"


def main():
    runs = int(sys.argv[1]) if len(sys.argv) > 1 else 5
    program, baseline = build()
    ours, theirs = {}, {}
    for _ in range(runs):
        measure(program, ours)
        measure(baseline, theirs)
    print("| | `GapBuf` | Rust | ratio |")
    print("|---|---|---|---|")
    for name, calls, text in ROWS:
        a, b = statistics.median(ours[name]), statistics.median(theirs[name])
        print(f"| {text} | {shown(a, calls)} | {shown(b, calls)} | {a / b:.2f} |")
    a, b = statistics.median(ours["cross_runs"]), statistics.median(theirs["bare_copies"])
    what = "the same 64 KiB across a wide gap, against a bare copy"
    print(f"| {what} | {shown(a, 128)} | {shown(b, 128)} | {a / b:.2f} |")


if __name__ == "__main__":
    main()
