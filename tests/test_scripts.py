"""The tests that are scripts of their own, each with its counts: those of the launcher, of ./build, ./check, ./install
and release/, in Bash, and of the page's module, in Node.

Each ends with a line `N passed, M failed`, with `K skipped, ` before it where some were, and says on other lines what
failed (`FAILED: ..`) and why something was skipped (`skipped: ..`)."""
import os
import re
import signal
import subprocess

from support.cases import TESTS, Case, each, patience, tests

# Each script, and about how many seconds it takes: the longest begin first.
SCRIPTS = {"building": 40, "checking": 40, "releasing": 30, "installing": 20, "web/run": 60}
COUNTS = re.compile(r"(?:([0-9]+) skipped, )?([0-9]+) passed, ([0-9]+) failed")
# How much is shown of what a script says that failed.
SHOWN = 40


def said_by(script: str) -> tuple[list[str], int]:
    """The lines that a script says, and its status. It says most at its end, so only what hangs takes ten times as
    long as it should. What it has begun ends with this process."""
    done = subprocess.Popen([TESTS / script], stdin=subprocess.DEVNULL, stdout=subprocess.PIPE,
                            stderr=subprocess.STDOUT, start_new_session=True)

    def end(*_: object) -> None:
        os.killpg(done.pid, signal.SIGTERM)
        os._exit(1)

    before = signal.signal(signal.SIGTERM, end)
    try:
        output, _ = done.communicate(timeout=patience(10 * SCRIPTS[script]))
    except BaseException:
        os.killpg(done.pid, signal.SIGTERM)
        raise
    finally:
        signal.signal(signal.SIGTERM, before)
    return output.decode("utf-8", "replace").splitlines() or [""], done.returncode


class Script(Case):
    """A script, which counts its checks by itself."""

    suite = "scripts"

    def __init__(self, method: str = "runTest") -> None:
        super().__init__(method)
        self.skips: list[str] = []
        name = method.replace("test_", "", 1)
        self.seconds = next((seconds for script, seconds in SCRIPTS.items() if name_of(script) == name), 0)

    def run_script(self, script: str) -> None:
        """Runs it, and takes its counts."""
        lines, status = said_by(script)
        counts = COUNTS.fullmatch(lines[-1])
        if not counts:
            self.bad("tests/{} did not end with its counts".format(script), lines[-SHOWN:])
            return
        skipped, self.held, self.failed = (int(count or 0) for count in counts.groups())
        why = [line[9:] for line in lines if line.startswith("skipped: ")]
        self.skips = (why + ["it does not say why"] * skipped)[:skipped]
        if self.failed or status:
            failed = max(self.failed, 1)
            what = "tests/{} failed {}, and ended with status {}".format(script, self.failed, status)
            self.bad(what, lines[:-1][-SHOWN:])
            self.failed = failed


def name_of(script: str) -> str:
    """The name of a script: its own, or its folder's."""
    return script.replace("/run", "")


@tests
class Scripts(Script):
    """All of them."""

    @each(map(name_of, SCRIPTS))
    def test(self, name: str) -> None:
        self.run_script(next(script for script in SCRIPTS if name_of(script) == name))
