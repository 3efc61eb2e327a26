"""How scripts are written: what shellcheck says of those in Bash, flake8 and mypy of those in Python, and tsc of the
page's, where they are installed in the versions that are known here; that no line has more than 120 columns, of
scripts, documents and all else that a person writes; that four commands stand at the top, of which the launcher is
short; and that each folder there says what belongs there."""
import os
import pathlib
import re
import shutil
import subprocess
from collections.abc import Iterator

from support.cases import TOP, Case, near, ran

WIDTH, SOME = 120, 12
# The tools, and the versions of them whose findings are mended: others find other things.
KNOWN = {"shellcheck": r"version: 0\.9\.0$", "flake8": r"^5\.0\.", "mypy": r"^mypy 1\.0\.",
         "tsc": r"^Version 4\.8\."}
# The folders whose files are not looked at: Rattle, what is made, and the pages, which have their own measures.
ELSEWHERE = re.compile("^(?:crates|release|web|tests/web)/")
# The folders where functions do not say their types, and the modules that are looked at where others take them.
UNTYPED = re.compile(r"^(?!python/|tests/|tools/)|^tests/(?:web/|support/.*\.py$)")
# What is no script: texts, programs, what is wanted of them, and manual pages.
TEXTS = re.compile(r"\.(?:md|png|trac|out|in|err|64|words|txt|json|1|edit|vim|input)$|/edits-tried$|/LICENSE$")
# Where a line may be of any length: Rattle, which rt lays out; what is made; stored programs, what programs are given
# and print, and pages show; and the list of crates, of which each is a line. So is a row of a table in Markdown.
UNMEASURED = re.compile(r"^(?:crates|release|tests/data)/|\.(?:in|out|64|lint|walk|png)$|^crates\.txt$|/names\.txt$")
ROW = re.compile(r"\s*\|")
# What flake8 finds that is meant: blanks before a colon in slices, lambdas that have a name. (Lines are measured here.)
PASSED = "E203,E501,E731"
# What shellcheck finds that is meant: files that are sourced, and set what others use; words that are to be split.
MEANT = "SC1090,SC1091,SC2034,SC2064,SC2086,SC2128,SC2154,SC2164,SC2166,SC2178,SC2209,SC2217,SC2261"


def listed() -> list[str]:
    """The files of the repository, as git lists them; none where it does not."""
    try:
        found = subprocess.run(["git", "ls-files", "-z"], cwd=TOP, stdout=subprocess.PIPE, stderr=subprocess.DEVNULL,
                               check=False)
    except OSError:
        return []
    return [name for name in found.stdout.decode().split("\0") if name]


def scripts(elsewhere: re.Pattern[str] = ELSEWHERE) -> Iterator[tuple[pathlib.Path, str, str]]:
    """The scripts of the repository, but for those elsewhere, with their first lines and their texts."""
    files = [TOP / name for name in listed() if not elsewhere.match(name) and not TEXTS.search(name)]
    for file in files:
        if file.is_file() and not file.is_symlink():
            text = file.read_text(encoding="utf-8", errors="replace")
            yield file, text.split("\n", 1)[0], text


def is_python(file: pathlib.Path, first: str) -> bool:
    """Whether a script with this first line is in Python."""
    return file.suffix == ".py" or bool(re.match("#!.*python", first))


def long_lines(file: pathlib.Path) -> list[int]:
    """The numbers of the lines of a file that are too long; a row of a table cannot be broken."""
    lines = enumerate(file.read_text(encoding="utf-8").split("\n"), 1)
    return [at for at, line in lines if len(line) > WIDTH and not (file.suffix == ".md" and ROW.match(line))]


class Style(Case):
    """The style of scripts."""

    suite = "style"
    takes_programs = False

    def setUp(self) -> None:
        if not listed():
            self.skipTest("git does not list the files")

    def tool(self, name: str) -> str:
        """A tool, if it is there in a version that is known."""
        if not shutil.which(name):
            self.skipTest("there is no " + name)
        if not re.search(KNOWN[name], ran([name, "--version"]).output.decode(), re.M):
            self.skipTest("{} is of another version than {}".format(name, KNOWN[name]))
        return name

    def finds_nothing(self, words: list[str], files: list[pathlib.Path]) -> None:
        """A check that a tool finds nothing in files. It is given some at a time, and says nothing meanwhile."""
        for at in range(0, len(files), SOME):
            run = ran([*words, *map(near, files[at:at + SOME])])
            self.same(words[0], run.output, b"", None, "found")
            self.status(words[0], run, 0)
        self.holds("there are files to look at", len(files) > 10)

    def test_shell(self) -> None:
        tool = self.tool("shellcheck")
        files = [file for file, first, _ in scripts() if re.match("#!.*[ /]bash$", first)]
        self.finds_nothing([tool, "-S", "warning", "-f", "gcc", "-e", MEANT], files)

    def test_python(self) -> None:
        tool = self.tool("flake8")
        self.finds_nothing([tool, "--isolated", "--extend-ignore", PASSED],
                           [file for file, first, _ in scripts() if is_python(file, first)])

    def test_python_types(self) -> None:
        """The package, the tests and the tools by the types that they say themselves (pyproject.toml), and what of
        Python they take: python/README.md says so of the package."""
        tool = self.tool("mypy")
        names = [near(file) for file, first, _ in scripts(UNTYPED) if is_python(file, first)]
        package = [name for name in names if name.startswith("python/")]
        for files, version in ((package, "3.8"), ([name for name in names if name not in package], "3.9")):
            run = ran([tool, "--no-error-summary", "--python-version", version, *files])
            self.same(tool, run.output, b"", None, "found")
            self.status(tool, run, 0)
            self.holds("there are files to look at", len(files) > 5)

    def test_folders(self) -> None:
        """Each folder at the top says what belongs there; of docs README.md at the top does, of crates, where no other
        file may stand, crates.txt."""
        folders = {name.split("/")[0] for name in listed() if "/" in name} - {".ci", "crates", "docs"}
        for name in sorted(folders):
            file = TOP / name / "README.md"
            count = len(file.read_text(encoding="utf-8").splitlines()) if file.exists() else 0
            self.holds("{} has 1 to 10 lines, and not {}".format(near(file), count), 1 <= count <= 10)

    def test_top(self) -> None:
        there = sorted(it.name for it in TOP.iterdir() if it.is_file() and os.access(it, os.X_OK))
        self.same("the commands at the top", "\n".join(there), "build\ncheck\ninstall\ntrac")
        hidden = sorted({name.split("/")[0] for name in listed() if name.startswith(".")})
        self.same("hidden files at the top: of tools only one has its own", "\n".join(hidden),
                  ".ci\n.editorconfig\n.gitignore")
        count = len((TOP / "trac").read_text(encoding="utf-8").splitlines())
        self.holds("trac has at most 60 lines, and not {}".format(count), count <= 60)

    def test_types(self) -> None:
        """The modules of the page, by the types that they say themselves (web/tsconfig.json)."""
        run = ran([self.tool("tsc"), "--project", TOP / "web"])
        self.same("tsc", run.output, b"", None, "found")
        self.status("tsc", run, 0)

    def test_lines(self) -> None:
        for name in listed():
            file = TOP / name
            if not UNMEASURED.search(name) and file.is_file() and not file.is_symlink():
                long = long_lines(file)
                self.holds("{}: lines of at most {} columns, and not {}".format(name, WIDTH, long), not long)
