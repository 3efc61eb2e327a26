#!/usr/bin/env python3
"""Times the machine over one block (`GapBuf`) against the same core over two vectors (`PlainEnds`), and prints a
table.

The program is built under target/bench_machine, by `rt run`, which proves it and what it stands on. All crates are
copied there, with what earlier checks kept of them (2 GB). Each step makes its record, which is let go. Each figure is
the median of all rounds of all runs; both representations are timed in turn, in one run.

    python3 bench/machine/run.py [RUNS]
"""
import pathlib
import shutil
import statistics
import subprocess
import sys

HERE = pathlib.Path(__file__).resolve().parent
ROOT = HERE.parent.parent
WORK = ROOT / "target" / "bench_machine"
BELOW = ["trac_rules", "trac_num", "trac_gap", "trac_text", "trac_forms", "trac_change", "trac_journal", "trac_prims",
         "trac_storage"]

# What is timed, how many steps that is, and how a row of the table reads.
ROWS = [
    ("plain_short", 64 * 256, "scan a byte of plain text, of 256"),
    ("plain_middle", 65536, "scan a byte of plain text, of 64 KiB"),
    ("protected", 1, "a protected text of 1 MiB, in one step"),
    ("crossing_narrow", 1, "its way across a gap of one place, once the match is found"),
    ("crossing_wide", 1, "the same across a gap of 1 MiB"),
    ("calls", 16 * 64, "a call of `eq`, in ten steps"),
]


def place(source, target):
    """A copy of a crate's files, where their endings are those that rt reads."""
    for part in ("src", "specs", "proofs"):
        if (source / part).is_dir():
            shutil.copytree(source / part, target / part, dirs_exist_ok=True)
            for file in (target / part).rglob("*.txt"):
                file.rename(file.with_suffix(""))


def build():
    """The program, built from the sources as they are now."""
    crates = WORK / "crates"
    crates.mkdir(parents=True, exist_ok=True)
    for name in BELOW + ["trac_step"]:
        if not (crates / name).exists():
            shutil.copytree(ROOT / "crates" / name, crates / name, symlinks=True)
    lines = (ROOT / "crates.txt").read_text().splitlines()
    kept = [line for line in lines if line.split(":")[0] in BELOW + ["trac_step"]]
    (WORK / "crates.txt").write_text("\n".join(kept + ["machine_bench: " + " ".join(BELOW + ["trac_step"])]) + "\n")
    for name in BELOW + ["trac_step", "machine_bench"]:
        for part in ("src", "specs", "proofs"):
            shutil.rmtree(crates / name / part, ignore_errors=True)
        place(ROOT / "crates" / name, crates / name)
    place(HERE / "machine_bench", crates / "machine_bench")
    program = crates / "machine_bench" / "out" / "machine_bench"
    built = subprocess.run(["rt", "run"], cwd=crates / "machine_bench", capture_output=True, text=True)
    said = built.stdout + built.stderr
    if not program.exists() or ("logic=proved" not in said and "since the last proved build" not in said):
        sys.exit(said)
    return program


def measure(program, found):
    """Adds the nanoseconds that each line of the program's output gives."""
    for line in subprocess.run([str(program)], check=True, capture_output=True, text=True).stdout.splitlines():
        name, over, nanos = line.split()
        found.setdefault((name, over), []).append(int(nanos))


def shown(nanos, calls):
    """The time of one call."""
    one = nanos / calls
    return f"{one / 1e6:.1f} ms" if one > 1e6 else f"{one / 1e3:.2f} µs" if one > 900 else f"{one:.2f} ns"


def row(text, calls, ours, other):
    """A row of a table: what was timed, the two times, and how they compare."""
    ratio = f"{ours / other:.2f}" if ours * 100 >= other else "under 0.01"
    print(f"| {text} | {shown(ours, calls)} | {shown(other, calls)} | {ratio} |")


def main():
    runs = int(sys.argv[1]) if len(sys.argv) > 1 else 3
    program = build()
    found = {}
    for _ in range(runs):
        measure(program, found)
    middle = {key: statistics.median(nanos) for key, nanos in found.items()}
    print("| | `GapBuf` | `PlainEnds` | ratio |")
    print("|---|---|---|---|")
    for name, calls, text in ROWS:
        row(text, calls, middle[name, "block"], middle[name, "vectors"])
    print("\n| | `GapBuf` | a bare copy | ratio |")
    print("|---|---|---|---|")
    for name, calls, text in ROWS:
        if name.startswith("crossing"):
            row(text, calls, middle[name, "block"], middle["bare_copy", "copy"])


if __name__ == "__main__":
    main()
