"""Fifteen programs under twenty limits of memory each (`ulimit -v`).

Whatever the limit, a run prints a beginning of what the program prints, and ends with the program's own status, or
with 5 where memory was refused. With status 0 it has printed all. Standard error has the line of that status alone.
The smallest limit is the least under which the system still loads the program; under the largest each run has what it
needs. What a program prints follows from the rules."""
import functools
import resource

from support.cases import TRAC, Case, Ran, each, ran, tests

LINES = {0: b"", 4: b"trac: limit passed\n", 5: b"trac: no memory\n"}
MIB = 1 << 20
DOUBLED = b"#(ds,D,x)'" + b"#(ds,D,##(cl,D)##(cl,D))'" * 20

# The text, what it prints, and its status with memory enough. Where a limit of the rules ends it, it may print any
# beginning.
PROGRAMS = {
    "empty": (b"", b"", 0),
    "one-call": (b"#(ps,Hello)'", b"Hello", 0),
    "plain-text": (b"plain text " * 200_000 + b"'", b"plain text " * 200_000, 0),
    "parentheses-open": (b"(" * 2_000_000 + b"'", b"", 0),
    "parentheses-in-pairs": (b"(" * 1_000_000 + b")" * 1_000_000 + b"'", b"(" * 999_999 + b")" * 999_999, 0),
    "calls-open": (b"#(" * 300_000 + b"'", b"", 0),
    "commas": (b"#(ps,a" + b"," * 1_000_000 + b")'", b"a", 0),
    "output-of-20-mib": (DOUBLED + b"#(ds,D,##(cl,D)##(cl,D))'" * 2 + b"#(ps,##(cl,D))'" * 5, b"x" * (20 * MIB), 0),
    "form-doubles-without-end": (
        b"#(ds,E,(#(ps,.)#(ds,D,##(cl,D)##(cl,D))#(cl,E)))'#(ds,D,x)#(cl,E)'", b"." * 64, 4),
    "text-grows-without-end": (b"#(ds,E,(#(ps,.)" + b"x" * 240 + b"#(cl,E)#(cl,E)))'#(cl,E)'", b"." * 400_000, 4),
    "names": (
        b"#(ds,c,(#(ps,.)#(eq,N,30000,,(#(ds,name N,text of N)#(cl,c,#(ad,N,1))))))'#(ss,c,N)#(cl,c,1)'",
        b"." * 30_000, 0),
    "factorial": (
        b"#(ds,F,(#(eq,N,0,1,(#(ml,N,#(cl,F,#(su,N,1)))))))'#(ss,F,N)'" + b"#(ps,#(cl,F,10) )'" * 50,
        b"3628800 " * 50, 0),
    "gaps": (DOUBLED + b"#(ss,D,x)'#(ps,##(cl,D,y))'", b"y" * MIB, 0),
    "one-byte-at-a-time": (
        b"#(ds,E,(#(eq,##(cc,D,end),end,,(#(ps,x)#(cl,E)))))'" + b"#(ds,D," + b"x" * 3_000 + b")'#(cl,E)'",
        b"x" * 3_000, 0),
    "strings-read": (b"#(ds,E,(#(ds,L,##(cl,L)##(rs))#(cl,E)))'#(ds,L)'#(cl,E)'" + b"abcdefgh'" * 4_000, b"", 0),
}


def run(text: bytes, limit: int) -> Ran:
    """A run under a limit."""
    return ran([TRAC, "run"], text, preexec_fn=lambda: resource.setrlimit(resource.RLIMIT_AS, (limit, limit)))


@functools.lru_cache(None)
def limits() -> list[int]:
    """Twenty limits, which begin with the least, to 64 KiB, under which an empty input ends as it should."""
    low, high = 0, 64 * MIB
    while high - low > MIB // 16:
        middle = (low + high) // 2
        low, high = (low, middle) if run(b"", middle).status in (0, 5) else (middle, high)
    return [high + (1 << 14) * step ** 3 for step in range(19)] + [2048 * MIB]


@tests
class Limits(Case):
    """The programs under each limit."""

    @each(PROGRAMS)
    def test(self, name: str) -> None:
        text, whole, status = PROGRAMS[name]
        for limit in limits():
            done = run(text, limit)
            what = "under {} KiB".format(limit // 1024)
            self.holds("{}: it ends with {} or 5, and not {}: {!r}".format(what, status, done.status, done.error[:200]),
                       done.status in (status, 5))
            self.same(what + ": standard error", done.error, LINES.get(done.status, b""))
            count = len(whole) if done.status == 0 else len(done.output)
            self.same(what + ": what it printed", done.output, whole[:count])
        self.holds("it ends with {} under the last limit, and not {}".format(status, done.status),
                   done.status == status)
