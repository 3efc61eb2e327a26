#!/usr/bin/env python3
"""Times `d` of trac walk, the way to the first doubtful step, beside `s` over the same steps, and prints a table.

In each program the first doubt comes after about 1,000,000 steps. Each number is the least processor time of all
rounds, less that of a session that stays at the start: other work on the machine can only add to it.

    python3 bench/doubts/run.py [--program TRAC_WALK] [ROUNDS]
"""
import pathlib
import resource
import subprocess
import sys
import tempfile

ROOT = pathlib.Path(__file__).resolve().parent.parent.parent
DOUBT = b"#(pr,x)'\n"
ROWS = [
    ("calls", b"#(ds,Loop,(#(eq,N,0,,(#(cl,Loop,#(su,N,1))))))'\n#(ss,Loop,N)'\n#(cl,Loop,26550)'\n"),
    ("protected texts", b"#(ds,Loop,(#(eq,N,0,,((a)(b)(c)(d)#(cl,Loop,#(su,N,1))))))'\n"
                        b"#(ss,Loop,N)'\n#(cl,Loop,24000)'\n"),
    ("plain text", b"a" * 1_000_000),
]


def session(program, path, commands):
    """The processor time of one session with these commands, and what it prints."""
    before = resource.getrusage(resource.RUSAGE_CHILDREN)
    printed = subprocess.run([program, path], input=commands.encode(), stdout=subprocess.PIPE, check=True).stdout
    after = resource.getrusage(resource.RUSAGE_CHILDREN)
    return after.ru_utime - before.ru_utime + after.ru_stime - before.ru_stime, printed


def main():
    words = sys.argv[1:]
    program = ROOT / "out" / "trac-walk"
    if words[:1] == ["--program"]:
        program, words = pathlib.Path(words[1]).resolve(), words[2:]
    rounds = int(words[0]) if words else 9
    print("| | steps | `s` | `d` | `d` over `s` |")
    print("|---|---|---|---|---|")
    for name, text in ROWS:
        with tempfile.NamedTemporaryFile(suffix=".trac") as file:
            file.write(text + DOUBT)
            file.flush()
            said = session(program, file.name, "d\n")[1].decode().splitlines()
            steps = next(int(line.split()[0]) for line in said if line.endswith("#(pr,x)"))
            ways = ["\n", f"s {steps}\n", "d\n"]
            times = [[session(program, file.name, way)[0] for way in ways] for _ in range(rounds)]
            start, plain, doubts = (1000 * min(row) for row in zip(*times))
            there, found = plain - start, doubts - start
            print(f"| {name} | {steps:,} | {there:.1f} ms | {found:.1f} ms | {found / there:.1f} |")


if __name__ == "__main__":
    main()
