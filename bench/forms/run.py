#!/usr/bin/env python3
"""Times forms over the gap buffer against forms over two plain vectors, and prints tables.

Two copies of the crates are built under target/bench/forms, by `rt run`, which proves them first: one as they are, one
with the alias `Items` of trac_forms naming PlainEnds. What earlier checks kept of the crates is copied with them. Then
both programs run in turn, so that both meet the same machine. Each figure is the least of all rounds of all runs:
other work on the machine can only add to it. The second table says what a doubling of the length costs.

    python3 bench/forms/run.py [RUNS]
"""
import pathlib
import shutil
import subprocess
import sys

HERE = pathlib.Path(__file__).resolve().parent
ROOT = HERE.parent.parent
WORK = ROOT / "target" / "bench" / "forms"
CRATES = ("trac_rules", "trac_gap", "trac_forms")

ROWS = [
    ("define", "define a form of 1 MiB"),
    ("call", "call it, two of each sixteen bytes cut out"),
    ("point", "move its pointer to the end and back"),
    ("point_without_gaps", "the same for a form without gaps"),
    ("read_few", "read one of 16 KiB byte by byte"),
]

DOUBLED = [
    ("read", "read_twice", "read a form byte by byte, 1 MiB and 2 MiB"),
    ("grow", "grow_twice", "grow a text byte by byte, to 8 MiB and to 16 MiB"),
]


def build(name, kind):
    """The program over forms whose items this type holds."""
    root = WORK / name
    crates = root / "crates"
    crates.mkdir(parents=True, exist_ok=True)
    lines = [line for line in (ROOT / "crates.txt").read_text().splitlines() if line.split(":")[0] in CRATES]
    (root / "crates.txt").write_text("\n".join(lines) + "\nforms_bench: trac_gap trac_forms\n")
    sources = [(crate, ROOT / "crates" / crate) for crate in CRATES] + [("forms_bench", HERE / "forms_bench")]
    for crate, source in sources:
        for part in ("src", "specs", "proofs"):
            shutil.rmtree(crates / crate / part, ignore_errors=True)
            if (source / part).is_dir():
                shutil.copytree(source / part, crates / crate / part)
        if (source / "out").is_dir() and not (crates / crate / "out").exists():
            shutil.copytree(source / "out", crates / crate / "out", symlinks=True)
    # the gate reads each .rt file as a part of a crate, so the program's file has another ending here
    for file in (crates / "forms_bench").rglob("*.txt"):
        file.rename(file.with_suffix(""))
    form = crates / "trac_forms" / "src" / "form.rt"
    text = form.read_text()
    if text.count("GapBuf") != 2:
        sys.exit("the representation is no longer named in one place")
    form.write_text(text.replace("GapBuf", kind))
    built = subprocess.run(["rt", "run"], cwd=crates / "forms_bench", capture_output=True, text=True)
    program = crates / "forms_bench" / "out" / "forms_bench"
    said = built.stdout + built.stderr
    if not program.exists() or ("logic=proved" not in said and "since the last proved build" not in said):
        sys.exit(said)
    return program


def measure(found, *command):
    """Adds the nanoseconds that each line of the program's output gives."""
    for line in subprocess.run(command, check=True, capture_output=True, text=True).stdout.splitlines():
        name, nanos = line.split()
        found.setdefault(name, []).append(int(nanos))


def shown(nanos):
    """A time in milliseconds."""
    return f"{nanos / 1e6:.2f} ms" if nanos > 1e4 else "under 0.01 ms"


def ratio(ours, other):
    """How two times compare."""
    return f"{ours / other:.2f}" if ours * 100 >= other else "under 0.01"


def main():
    runs = int(sys.argv[1]) if len(sys.argv) > 1 else 5
    programs = build("gap", "GapBuf"), build("plain", "PlainEnds")
    ours, theirs, doubled = {}, {}, {}
    for _ in range(runs):
        measure(ours, programs[0])
        measure(theirs, programs[1])
        measure(doubled, programs[0], "doubling")
    print("| | `GapBuf` | `PlainEnds` | ratio |")
    print("|---|---|---|---|")
    for name, text in ROWS:
        a, b = min(ours[name]), min(theirs[name])
        print(f"| {text} | {shown(a)} | {shown(b)} | {ratio(a, b)} |")
    print("\n| over `GapBuf` | once | twice as long | ratio |")
    print("|---|---|---|---|")
    for once, twice, text in DOUBLED:
        a, b = min(doubled[once]), min(doubled[twice])
        print(f"| {text} | {shown(a)} | {shown(b)} | {ratio(b, a)} |")


if __name__ == "__main__":
    main()
