"""What all cases share: how a case is written, the programs, and how a script is run."""

import functools
import os
import pathlib
import re
import subprocess
import tempfile
import typing
import unittest
from collections.abc import Callable

TOP = pathlib.Path(__file__).resolve().parent.parent.parent
EXAMPLES = TOP / "examples"
PROGRAMS = (TOP / "contrib/programs").read_text().split()
SCRIPTS = (TOP / "contrib/scripts").read_text().split()
# The variables by which scripts find programs.
VARIABLES = {"TSUMEGO": "tsumego", "SHORT_CLAIMS": "short_claims", "PROBLEM_TOOLS": "problem_tools", "GROUP_STATUS": "group_status"}


class Setting:
    """What the cases are run with: the folder of programs, whether they were compiled without the proofs, and a new folder."""

    programs = pathlib.Path()
    is_unproved = False
    work = pathlib.Path()

    @classmethod
    def begin(cls, programs: pathlib.Path, is_unproved: bool, work: str) -> None:
        cls.programs, cls.is_unproved, cls.work = programs.resolve(), is_unproved, pathlib.Path(work)
        os.environ.update({name: program(it) for name, it in VARIABLES.items()})
        os.chdir(TOP)


def program(name: str) -> str:
    return str(Setting.programs / name / "out" / name)


def place(name: str) -> pathlib.Path:
    """A place in the new folder."""
    return Setting.work / name


def new_place() -> pathlib.Path:
    """A new folder in the new folder."""
    return pathlib.Path(tempfile.mkdtemp(dir=Setting.work))


class Done(typing.NamedTuple):
    """How a script ended, and what it wrote: `raw` is all of its standard output; the others have no ends of last lines."""

    status: int
    raw: str
    notes: str

    @property
    def out(self) -> str:
        return self.raw.rstrip("\n")

    @property
    def said(self) -> str:
        return "\n".join(filter(None, (self.out, self.notes)))

    def lines(self) -> list[str]:
        return self.out.split("\n")


def run(*words: str | os.PathLike, stdin: str = "", env: dict[str, str | None] | None = None, timeout: float | None = None) -> Done:
    """Runs a script from the top of the repository. `env` has variables that are set, and with None such that are not there."""
    variables = {name: value for name, value in {**os.environ, **(env or {})}.items() if value is not None}
    done = subprocess.run(words, input=stdin, capture_output=True, encoding="utf-8", errors="surrogateescape", env=variables,
                          timeout=timeout, check=False)
    return Done(done.returncode, done.stdout, done.stderr.rstrip("\n"))


def example(name: str) -> str:
    return (EXAMPLES / f"{name}.sgf").read_text()


def executable(file: pathlib.Path, text: str) -> pathlib.Path:
    file.write_text(text)
    file.chmod(0o755)
    return file


@functools.cache
def version() -> str:
    return run("tools/version").out


def case(name: str, *words: typing.Any) -> Callable:
    """Makes a case of a method: its name, and what the method is called with. A method may have several."""

    def mark(method: Callable) -> Callable:
        method.cases = [(name, words), *getattr(method, "cases", [])]
        return method

    return mark


class Case(unittest.TestCase):
    """Cases of one kind. Each is a test of its own, and its name is what `case` says."""

    maxDiff = None
    longMessage = True

    def __init_subclass__(cls) -> None:
        for method in [it for it in vars(cls).values() if hasattr(it, "cases")]:
            for name, words in method.cases:
                cls.add(name, method, words)

    @classmethod
    def add(cls, name: str, method: Callable, words: tuple) -> None:
        """Adds a test of this name."""

        def test(self: Case) -> None:
            method(self, *words)

        test.__doc__ = name
        setattr(cls, f"test_{re.sub('[^a-z0-9]+', '_', name.lower()).strip('_')}", test)

    @classmethod
    def tests(cls) -> list[unittest.TestCase]:
        """All tests, in the order in which they are written."""
        return [cls(name) for name in vars(cls) if name.startswith("test_")]

    def ends(self, status: int, done: Done) -> None:
        self.assertEqual(done.status, status, done.said)

    def refuses(self, status: int, text: str, *words: str | os.PathLike, **how: typing.Any) -> None:
        """The command ends with this status, and writes one line, which has this text."""
        done = run(*words, **how)
        self.ends(status, done)
        self.assertEqual(done.said.count("\n"), 0, done.said)
        self.assertIn(text, done.said)
