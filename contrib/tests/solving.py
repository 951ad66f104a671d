"""What the parts of contrib/test-folders share: a part is a test that runs in a new folder, in a process of its own."""

import contextlib
import functools
import hashlib
import os
import pathlib
import re
import shutil
import subprocess
import time
import unittest
from collections.abc import Callable, Iterator

TOP = pathlib.Path(__file__).resolve().parent.parent.parent
SOLVE_FOLDER = TOP / "contrib/solve-folder"

# The program, but it leaves a mark where it was called that it has begun, and then waits as many seconds as the record's GN says.
SLOW = """#!/bin/bash
record=$(mktemp)
cat >"$record"
touch begun
sleep "$(sed -n 's/.*GN\\[\\([0-9.]*\\)\\].*/\\1/p' "$record" | grep . || echo 0)"
"$REAL" "$@" <"$record"
status=$?
rm "$record"
exit "$status"
"""
Word = str | os.PathLike


def record(mover: str, seconds: str | float = 0, after: str = "") -> str:
    """A record whose winner is the rules': who is to move captures the one stone, or the stone stays. More may follow it."""
    return f"(;GN[{seconds}]SZ[3]AB[ab]AW[aa]PL[{mover}]TR[aa]SQ[ba])\n{after}"


def write(path: Word, text: str) -> None:
    pathlib.Path(path).write_text(text)


def executable(path: Word, text: str) -> None:
    write(path, text)
    os.chmod(path, 0o755)


def read(path: Word) -> str:
    return pathlib.Path(path).read_text(errors="surrogateescape")


def wait_for(condition: Callable[[], object]) -> bool:
    """Whether it comes to hold within ten seconds."""
    for _ in range(200):
        if condition():
            return True
        time.sleep(0.05)
    return False


def sum_of(folder: Word) -> str:
    """A hash of all that is below a folder: of modes, sizes, times, links and contents."""
    told = hashlib.sha256()
    for path in [pathlib.Path(folder), *sorted(pathlib.Path(folder).rglob("*"))]:
        state = path.lstat()
        link = os.readlink(path) if path.is_symlink() else ""
        told.update(repr((os.fsencode(path), state.st_mode, state.st_size, state.st_mtime_ns, link)).encode())
        if path.is_file() and not path.is_symlink():
            told.update(path.read_bytes())
    return told.hexdigest()


def rows(answers: Word, *columns: int) -> list[tuple[str, ...]]:
    """These columns of the table of a folder of answers, counted from 1."""
    return table(pathlib.Path(answers, "answers.tsv"), *columns)


def table(file: Word, *columns: int) -> list[tuple[str, ...]]:
    lines = read(file).split("\n")[:-1]
    return [tuple(line.split("\t")[it - 1] for it in columns) for line in lines]


def column(answers: Word, number: int) -> list[str]:
    return [it for it, in rows(answers, number)]


def digest(path: Word) -> str:
    return hashlib.sha256(pathlib.Path(path).read_bytes()).hexdigest()


def names(folder: Word, pattern: str = "*") -> list[str]:
    return sorted(it.name for it in pathlib.Path(folder).glob(pattern))


class Part(unittest.TestCase):
    """A part of the test. `said` is what the last call wrote to both outputs, `status` how it ended."""

    maxDiff = None
    work = pathlib.Path()
    said, status = "", 0

    def setUp(self) -> None:
        self.work = pathlib.Path(os.environ["WORK"])
        self.slow, self.real = str(self.work / "slow"), os.environ["REAL"]
        folder = self.work / self._testMethodName
        folder.mkdir()
        os.chdir(folder)

    def call(self, words: list[Word], env: dict[str, str | None] | None = None) -> None:
        variables = {name: value for name, value in {**os.environ, **(env or {})}.items() if value is not None}
        done = subprocess.run(words, env=variables, stdin=subprocess.DEVNULL, stdout=subprocess.PIPE, stderr=subprocess.STDOUT)
        self.said, self.status = done.stdout.decode(errors="surrogateescape").rstrip("\n"), done.returncode

    def solve(self, *words: Word, **env: str | None) -> None:
        """Runs solve-folder."""
        self.call([SOLVE_FOLDER, *words], env)

    def start(self, *words: Word) -> None:
        """Runs solve-folder until the slow program has begun; what it writes is in the file `said`."""
        pathlib.Path("begun").unlink(missing_ok=True)
        with open("said", "wb") as out:
            self.run_of = subprocess.Popen([SOLVE_FOLDER, *words], stdin=subprocess.DEVNULL, stdout=out, stderr=subprocess.STDOUT)
        wait_for(lambda: os.path.exists("begun"))

    def finish(self) -> None:
        self.status = self.run_of.wait()
        self.said = read("said")

    @contextlib.contextmanager
    def expects(self, what: str) -> Iterator[None]:
        """An expectation, which is counted; the others are tried where it fails."""
        with self.subTest(what):
            yield

    def expect(self, what: str, holds: object) -> None:
        with self.expects(what):
            self.assertTrue(holds, f"status {self.status}, said:\n{self.said}")

    def ended(self, what: str, status: int) -> None:
        with self.expects(what):
            self.assertEqual(self.status, status, f"said:\n{self.said}")

    def says(self, what: str, text: str) -> None:
        with self.expects(what):
            self.assertIn(text, self.said)

    def same(self, what: str, came: object, wanted: object) -> None:
        with self.expects(what):
            self.assertEqual(came, wanted, f"status {self.status}, said:\n{self.said}")

    def refused(self, status: int, what: str, text: str) -> None:
        """The last call ended so, with one line that has this text."""
        self.ended(f"{what}: status {status}", status)
        with self.expects(f"{what}: one line"):
            self.assertEqual(self.said.count("\n"), 0, self.said)
        self.says(f"{what}: the line says {text}", text)

    def left_out(self, what: str) -> None:
        """Says what could not be tried here."""
        print(f"left out: {what}", flush=True)


def kill(number: int, how: int) -> None:
    """Sends a signal to a process, if it is still there."""
    try:
        os.kill(number, how)
    except ProcessLookupError:
        pass


@functools.cache
def guide(text: str) -> str:
    """The one line of docs/GUIDE.md that has this text, without what stands before the command or the value."""
    lines = [line for line in read(TOP / "docs/GUIDE.md").splitlines() if text in line]
    assert len(lines) == 1, f"{len(lines)} lines of the guide have {text!r}"
    return re.sub(r"^    (\$ |[a-z_]+ *= )", "", lines[0])


def copy_examples(folder: Word) -> None:
    """The problems of examples/, without its subfolders, in a new folder."""
    pathlib.Path(folder).mkdir()
    for file in (TOP / "examples").glob("*.sgf"):
        shutil.copy(file, folder)
