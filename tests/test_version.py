"""The version: all files have the one of the programs, and tools/set-version sets another one in all of them."""
import shutil

from support.cases import TOP, Case, ran, scratch

TOOL = "tools/set-version"
HEADINGS = b"## [Unreleased]\n\n## [9.8.7] - 2030-01-02\n"


class Version(Case):
    """The tool, here and in a copy of what has the version."""

    takes_programs = False

    def test_all_files_have_it(self) -> None:
        run = ran([TOP / TOOL, "--check"])
        self.status("tools/set-version --check", run, 0)
        self.holds("no file has another one: " + run.output.decode(), run.output.endswith(b" passed, 0 failed\n"))

    def test_another_version(self) -> None:
        room = scratch(self)
        shutil.copytree(TOP / "share", room / "share")
        for name in TOOL, "CHANGELOG.md", "crates/trac_words/src/help.rt":
            (room / name).parent.mkdir(parents=True, exist_ok=True)
            shutil.copy(TOP / name, room / name)
        before = (room / "CHANGELOG.md").read_bytes()
        run = ran([room / TOOL, "9.8.7", "2030-01-02"])
        self.status("it is set", run, 0)
        self.same("and said", ran([room / TOOL]).output, b"9.8.7\n")
        self.same("what was unreleased is its", (room / "CHANGELOG.md").read_bytes(),
                  before.replace(b"## [Unreleased]\n", HEADINGS, 1))
        page = (room / "share" / "man" / "trac-walk.1").read_text(encoding="utf-8").split("\n", 1)[0]
        self.same("a manual page has it", page, '.TH TRAC-WALK 1 2030-01-02 "trac 9.8.7" "User Commands"')
        action = (room / "share" / "packaging" / "action.yml").read_text(encoding="utf-8")
        self.holds("an example has it", "/share/packaging@v9.8.7\n" in action)
        log = (room / "share" / "packaging" / "debian" / "changelog").read_text(encoding="utf-8")
        self.holds("the package has it", log.startswith("trac-t64 (9.8.7-1) ") and "  Wed, 02 Jan 2030 " in log)

    def test_words_that_are_not_understood(self) -> None:
        for words in ["x"], ["1.2"], ["1.2.3", "today"], ["1.2.3", "2030-01-02", "x"], ["--fast"]:
            run = ran([TOP / TOOL, *words])
            self.holds("{} is not understood".format(words), run.status in (1, 2) and not run.output)
