"""The tools that keep edits, imports, words and documents in order."""

import shutil

from script_tests.common import TOP, Case, case, new_place, run


def with_tool(tool):
    """A folder in which this tool stands as in the repository."""
    folder = new_place()
    (folder / "tools").mkdir()
    for it in (tool, "tools/script_words.py"):
        shutil.copy(TOP / it, folder / "tools")
    return folder


class Edits(Case):
    """tools/check-edits, in a folder of one crate, whose file has three lines."""

    @case("an edit that can be tried", 0, "1 edits, 0 faults", "file: src/lib.rt", "old:     1", "new:     2")
    @case("an edit of two lines", 1, "a new text follows no old one", "file: src/lib.rt", "old:     1", "new:     2", "new:     3")
    @case("an edit of a text that stands nowhere", 1, "0 times, not once", "file: src/lib.rt", "old:     3", "new:     2")
    @case("an edit of no file", 1, "there is no file", "file: src/none.rt", "old:     1", "new:     2")
    @case("an edit without a new text", 1, "no new text", "file: src/lib.rt", "old:     1")
    def finds_in_edit(self, status, fault, *lines):
        folder = with_tool("tools/check-edits")
        crate = folder / "crates/one"
        (crate / "must-fail").mkdir(parents=True)
        (crate / "src").mkdir()
        (crate / "src/lib.rt").write_text("fn one() -> u8 {\n    1\n}\n")
        (crate / "must-fail/tried.edit").write_text("".join(f"{line}\n" for line in lines))
        done = run(folder / "tools/check-edits")
        self.ends(status, done)
        self.assertIn(fault, done.out)


class Documents(Case):
    """docs/check --text, of the documents with one page more."""

    @case("a page in order", 0, "0 faults", "# One\n\nBack to [the beginning](#one), on to [the moves](RULES.md#moves).\n")
    @case("a link to no page", 1, "links NONE.md, which is not there", "See [none](NONE.md).\n")
    @case("a link to no heading", 1, "links #two, where no heading is", "# One\n\nSee [two](#two).\n")
    @case("a link to no heading of another page", 1, "links RULES.md#none, where no heading is", "See [none](RULES.md#none).\n")
    @case("a path to nothing", 1, "names tools/none, which is not there", "Call `tools/none`.\n")
    @case("a long sentence", 1, "a sentence of 41 words", " ".join(["word"] * 41) + ".\n")
    @case("sentences that are long in the mean", 1, "19.0 words in the mean", " ".join(["word"] * 19) + ".\n")
    def finds_in_page(self, status, told, text):
        folder = new_place()
        for it in TOP.iterdir():
            if it.name not in (".git", "docs"):
                (folder / it.name).symlink_to(it)
        shutil.copytree(TOP / "docs", folder / "docs", ignore=shutil.ignore_patterns("pictures"))
        (folder / "docs/pictures").symlink_to(TOP / "docs/pictures")
        (folder / "docs/ADDED.md").write_text(text)
        done = run(folder / "docs/check", "--text")
        self.ends(status, done)
        self.assertIn(told, done.out + done.notes)


class Repository(Case):
    @case("the text of the documents", "docs/check", "--text")
    @case("the edits of the repository", "tools/check-edits")
    @case("the words of the keys", "tools/make_words", "--check")
    @case("the imports of the proofs", "tools/proof_imports", "--check")
    def is_in_order(self, *words):
        self.ends(0, run(*words))


PASSED_ON = "pub use Rattle.std.First.{sum as total}\n"


class Imports(Case):
    """tools/proof_imports, for a crate with as many proofs as have to share names before it takes them to one place."""

    def setUp(self):
        self.folder = with_tool("tools/proof_imports")
        self.proofs = self.folder / "crates/one/proofs"
        self.proofs.mkdir(parents=True)
        (self.folder / "crates.txt").write_text("one:\n")
        names = (("First", "sum"), ("Second", "product as times"), ("Third", "difference"))
        for letter in "abcdefghijklmn":
            (self.proofs / f"{letter}.antt").write_text("".join(f"use Rattle.std.{module}.{{{name}}}\n" for module, name in names))
        with open(self.proofs / "c.antt", "a") as file:
            file.write(PASSED_ON)

    def moves(self, *words):
        return run(self.folder / "tools/proof_imports", *words)

    def files(self):
        return {it.name: it.read_text() for it in self.proofs.iterdir()}

    @case("tools/proof_imports moves what proofs share, and nothing the second time")
    def moves_imports(self):
        self.ends(0, self.moves())
        once = self.files()
        self.assertEqual(once["c.antt"], "use Rattle.one.proofs.Common.{sum, product as times, difference}\n" + PASSED_ON)
        self.assertIn("pub use Rattle.std.Second.{product}", once["Common.antt"].splitlines())
        self.assertIn("pub mod Common", once["Lib.antt"].splitlines())
        self.ends(0, self.moves())
        self.assertEqual(self.files(), once)
        self.ends(0, self.moves("--check"))

    @case("tools/proof_imports --check finds a name that none takes and one beside Common")
    def finds_imports(self):
        self.ends(0, self.moves())
        with open(self.proofs / "Common.antt", "a") as file:
            file.write("pub use Rattle.std.Fourth.{quotient}\n")
        (self.proofs / "a.antt").write_text(
            "use Rattle.one.proofs.Common.{sum, product as times}\nuse Rattle.std.Third.{difference}\n"
        )
        done = self.moves("--check")
        self.ends(1, done)
        self.assertRegex(done.out, r"(?s)no proof takes quotient.*difference is in Common.*2 faults$")
