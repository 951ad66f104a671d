"""What is installed and packed. Nothing is built, since TSUMEGO or --programs names the programs."""

import functools
import hashlib
import os
import re
import shutil
import tarfile
import time

from script_tests.common import PROGRAMS, SCRIPTS, TOP, Case, Setting, case, example, new_place, place, program, run, version


def has_packages(test):
    """Leaves a test out where no package can be made."""
    if not shutil.which("dpkg-deb"):
        test.skipTest("dpkg-deb is not there")


def contents(folder):
    """The files below a folder, and their bytes; folders have none."""
    return {it.relative_to(folder): it.read_bytes() if it.is_file() else None for it in folder.rglob("*")}


class Installing(Case):
    """Installs into a folder of its own, whose name has a blank."""

    def setUp(self):
        self.prefix = new_place() / "a prefix"

    def installs(self, *words):
        done = run("contrib/install", *words, self.prefix)
        self.ends(0, done)

    @case("the changelog has a dated version")
    def changelog_has_version(self):
        self.assertRegex((TOP / "CHANGELOG.md").read_text(), rf"(?m)^## {re.escape(version())}, \d{{4}}-\d\d-\d\d$")

    @case("contrib/install puts programs, pages, completions")
    def puts_all(self):
        self.installs()
        for name in [*PROGRAMS, *SCRIPTS]:
            self.assertTrue(os.access(self.prefix / "bin" / name, os.X_OK), name)
            for file in (f"man/man1/{name}.1", f"zsh/site-functions/_{name}", f"bash-completion/completions/{name}",
                         f"fish/vendor_completions.d/{name}.fish"):
                self.assertGreater((self.prefix / "share" / file).stat().st_size, 0, file)

    @case("what contrib/install has put runs")
    def installed_runs(self):
        folder = new_place() / "plain"
        self.ends(0, run("contrib/install", folder))
        self.assertEqual(run(folder / "bin/tsumego", "within", "0", stdin=example("seki")).out, "neither")
        env = {"PATH": f"{folder}/bin:{os.environ['PATH']}", "TSUMEGO": None}
        done = run(folder / "bin/solve-folder", "--steps", "20000", "examples", folder / "answers", env=env)
        self.assertRegex(done.said, "(?m)^9 records: 9 solved")

    @case("contrib/install --remove leaves nothing")
    def removes_all(self):
        self.installs()
        self.installs("--remove")
        self.assertFalse(self.prefix.exists())

    @case("contrib/install --remove leaves what is not its own")
    def keeps_others(self):
        self.installs()
        (self.prefix / "share/other").mkdir()
        (self.prefix / "bin/other").touch()
        self.installs("--remove")
        left = sorted(str(it.relative_to(self.prefix)) for it in self.prefix.rglob("*"))
        self.assertEqual(left, ["bin", "bin/other", "share", "share/other"])

    @case("contrib/install --helpers with a program alone")
    def lacks_program(self):
        """A program that is not there is named before anything is installed."""
        alone = shutil.copy(program("tsumego"), new_place() / "tsumego")
        self.refuses(4, "there is no program", "contrib/install", "--helpers", self.prefix, env={"TSUMEGO": str(alone)})
        self.assertFalse(self.prefix.exists())

    @case("contrib/install without a folder")
    @case("contrib/install with a wrong option", "--nothing")
    def has_bad_words(self, *words):
        self.refuses(3, "usage", "contrib/install", *words)


@functools.cache
def packed(mask):
    """A folder with the packages, made with this mask for the modes of new files; and how that ended."""
    folder = new_place() / "packages"
    done = run("bash", "-c", f'umask {mask} && contrib/package --programs "$0" "$1"', Setting.programs, folder)
    return folder, done


class Packing(Case):
    def name(self):
        return f"tsumego-{version()}-linux-x86_64"

    @case("contrib/package gives the same bytes twice")
    def packs(self):
        """A while apart, and with other modes of new files."""
        has_packages(self)
        one, done = packed("022")
        self.ends(0, done)
        time.sleep(1)
        two, done = packed("077")
        self.ends(0, done)
        files, others = contents(one), contents(two)
        self.assertEqual(sorted(files), sorted(others))
        self.assertEqual([str(it) for it in files if files[it] != others[it]], [])
        sums = [line.split() for line in (one / "SHA256SUMS").read_text().splitlines()]
        for digest, name in sums:
            self.assertEqual(hashlib.sha256((one / name).read_bytes()).hexdigest(), digest, name)
        for name in (f"tsumego_{version()}_amd64.deb", f"{self.name()}.tar.gz"):
            self.assertTrue((one / name).is_file(), name)
            self.assertIn(name, [it for _, it in sums])

    @case("PROOF.txt says no more than is known")
    def proof_file_is_modest(self):
        has_packages(self)
        with tarfile.open(packed("022")[0] / f"{self.name()}.tar.gz") as archive:
            proof = archive.extractfile(f"{self.name()}/PROOF.txt").read().decode()
        before, _, sources = proof.partition("\nThe sources")
        self.assertIn("nothing is known here of how they were made", proof)
        self.assertNotIn("proved", before.lower())
        sums = [line.split(maxsplit=1) for line in sources.split("\n")[1:] if line]
        self.assertTrue(sums)
        for digest, name in sums:
            self.assertEqual(hashlib.sha256((TOP / name).read_bytes()).hexdigest(), digest, name)

    @case("the pages work with a package")
    def pages_work_with_package(self):
        """As somebody pastes them who has the package: nothing of the repository is there."""
        has_packages(self)
        folder = new_place() / "package"
        with tarfile.open(packed("022")[0] / f"{self.name()}.tar.gz") as archive:
            archive.extractall(folder)
        self.ends(0, run("docs/check", "--installed", folder / self.name()))

    @case("docs/check with no package")
    def wants_package(self):
        self.refuses(3, "usage", "docs/check", "--installed", place("nothing"))

    @case("contrib/package without a folder")
    def wants_folder(self):
        self.refuses(3, "usage", "contrib/package")

    @case("contrib/package with no programs")
    def wants_programs(self):
        self.refuses(4, "there is no program", "contrib/package", "--programs", Setting.work, place("three"))

    @case("contrib/package --kept of programs that nobody says are of this text")
    def wants_this_text(self):
        has_packages(self)
        kept = new_place()
        for name in PROGRAMS:
            (kept / "crates" / name / "out").mkdir(parents=True)
            shutil.copy(program(name), kept / "crates" / name / "out" / name)
        self.refuses(4, "out/tsumego is not of this text", "contrib/package", "--kept", kept, place("three"))
        self.refuses(3, "usage", "contrib/package", "--kept", kept, "--programs", kept / "crates", place("three"))
