"""How much memory a command holds at most."""
from __future__ import annotations

import pathlib
import sys
from collections.abc import Sequence

from support.cases import Word

# Runs a command, and says in a file how many KiB it held at most, or what it began. (It is a process of its own: what
# begins with much memory would be taken to hold that too.)
PEAK = """import resource, subprocess, sys
status = subprocess.run(sys.argv[2:]).returncode
with open(sys.argv[1], "w") as out:
    out.write(str(resource.getrusage(resource.RUSAGE_CHILDREN).ru_maxrss))
sys.exit(status)"""


def measured(words: Sequence[Word], file: pathlib.Path) -> list[Word]:
    """The words of a command that does this, and then says in a file how many KiB it held."""
    return [sys.executable, "-c", PEAK, file, *words]
