"""Where the launcher begins these commands, with: whether it has had Ctrl-C passed over while Python began, how it was
called, the file that it is, the folder of the programs, the command, and the words for that."""
import os
import signal
import sys

if sys.argv[1] == "taken":
    # (so long as Python loads what it needs, Ctrl-C ends it and says nothing)
    signal.signal(signal.SIGINT, signal.SIG_DFL)


def give_up(words: str, status: int) -> None:
    """Ends a command that cannot begin. A walk goes on without Python: then its lines are plain."""
    try:
        if sys.argv[5] == "walk":
            os.execv(os.path.join(sys.argv[4], "trac-walk"), ["trac-walk"] + sys.argv[6:])
        os.write(2, "trac {}: {}\n".format(sys.argv[5], words).encode("ascii", "backslashreplace"))
    finally:
        os._exit(status)


if sys.version_info < (3, 8):
    give_up("it takes Python 3.8 or later", 70)
try:
    import importlib

    sys.path[0] = sys.path[0].rpartition("/")[0]
    tool = importlib.import_module("trac_tools.tool")
    tool.start(sys.argv[2:5])
    name, words = sys.argv[5], sys.argv[6:]
    main = importlib.import_module("trac_tools." + name).main
except MemoryError:
    give_up("there is no memory", 5)
except (ImportError, OSError, SystemError):
    # (SystemError: where Python itself does not see why)
    give_up("Python lacks what it needs, or memory for it", 70)
tool.run("trac " + name, lambda: main(words))
