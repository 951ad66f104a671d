"""Programs of the repository that are compiled and not proved: the toolchain's `rt try` compiles one in about a minute, with checks
in place of the proofs, and with `--cases` runs it on many inputs, each of which has many calls here. It keeps nothing.
"""

import functools
import pathlib
import re
import shutil
import subprocess
import tempfile
import threading
from collections.abc import Iterator
from typing import NamedTuple

from replay import NEW_FOLDER

TOP = pathlib.Path(__file__).resolve().parent.parent
PROGRAMS = tuple((TOP / "contrib/programs").read_text().split())

# What one compilation takes, with room to spare.
MEGABYTES_OF_MEMORY = 2000
MEGABYTES_OF_DISK = 500

# The `main` of the program in a copy of the tree.
MAIN = """fn main(rt: HostRuntime) -> ExitCode {
    let alloc = rt.alloc();
    let code = tool_parts::answer_calls(&rt, rt.stdin(), |words, reader, writer, _notes| {
        run(alloc, words, reader, writer).code()
    });
    ExitCode::from(code)
}
"""


class Call(NamedTuple):
    """A run of a program: its words and what comes on standard input. The word NEW_FOLDER is an empty folder."""

    program: str
    words: tuple[str, ...]
    stdin: bytes


class Answer(NamedTuple):
    """What a run wrote, and its exit status; none where it did not end by itself, and then the notes say why. Where it was given
    a new folder, the contents of its files by their names; and the texts say NEW_FOLDER for it."""

    status: int | None
    stdout: bytes
    notes: bytes
    files: dict[str, bytes] = {}


def free_memory() -> int:
    """Returns how many megabytes of memory are free."""
    sizes = dict(re.findall(r"^(\w+): +(\d+) kB", pathlib.Path("/proc/meminfo").read_text(), re.MULTILINE))
    return (int(sizes["MemAvailable"]) + int(sizes["SwapFree"])) // 1024


def what_is_missing() -> str | None:
    """Returns what keeps a program from being compiled here, in a line, or nothing."""
    folder = tempfile.gettempdir()
    if shutil.which("rt") is None:
        return "the command 'rt' of the toolchain Rattle is not on the PATH; it compiles the program"
    if free_memory() < MEGABYTES_OF_MEMORY:
        return f"{MEGABYTES_OF_MEMORY} MB of memory are wanted, and {free_memory()} are free"
    free = shutil.disk_usage(folder).free // 1_000_000
    if free < MEGABYTES_OF_DISK:
        return f"{MEGABYTES_OF_DISK} MB of disk are wanted in {folder}, and {free} are free"
    return None


TREE = threading.Lock()


def tree() -> pathlib.Path:
    """Returns the folder that `new_tree` made; there is one for all threads."""
    with TREE:
        return pathlib.Path(new_tree().name)


@functools.cache
def new_tree() -> tempfile.TemporaryDirectory:
    """Makes a copy of the crates' code in which each program answers the calls that come on standard input, and makes no call of
    its own: `rt try` needs half a second for each run, whatever is asked."""
    folder = tempfile.TemporaryDirectory(prefix="tree-")
    top = pathlib.Path(folder.name)
    for code in (TOP / "crates").glob("*/src"):
        shutil.copytree(code, top / "crates" / code.parent.name / "src")
    shutil.copy(TOP / "tools/many_calls.rt.txt", top / "crates/tool_parts/src/program.rt")
    # The helpers' `main` calls `exit_code`, which stands there now; that of the program that people call does not.
    change(top / "crates/tool_parts/src/lib.rt", "program::exit_code", "program::{answer_calls, exit_code}")
    main = top / "crates/tsumego/src/main.rt"
    change(main, main.read_text()[main.read_text().index("fn main(") :], MAIN)
    shutil.copy(TOP / "crates.txt", top)
    change(top / "crates.txt", "\ntsumego:", "\ntsumego: tool_parts")
    return folder


def change(file: pathlib.Path, old: str, new: str) -> None:
    """Puts another text for one that a file has once."""
    text = file.read_text()
    assert text.count(old) == 1, f"{file} has '{old}' {text.count(old)} times"
    file.write_text(text.replace(old, new))


def is_written(status: pathlib.Path) -> bool:
    """Whether the last file of an answer is there, with all its bytes."""
    return status.exists() and status.read_bytes().endswith(b"\n")


def counted(text: bytes) -> bytes:
    """Returns the bytes after how many they are."""
    return f"{len(text)}\n".encode() + text


class Run:
    """One call of `rt try --cases`: it compiles a program and asks it each call, in order. A case of `rt try` makes some calls, one
    after another; where one of them does not end, those after it have no answer."""

    def __init__(self, program: str, calls: list[Call], seconds: int, calls_of_case: int) -> None:
        self.calls, self.calls_of_case = calls, calls_of_case
        self.ends, self.last_words, self.told = {}, None, threading.Condition()
        self.folder = tempfile.TemporaryDirectory(prefix="calls-")
        cases = self.place("cases")
        for it in ("cases", "answers", "new"):
            self.place(it).mkdir()
        for first in range(0, len(calls), calls_of_case):
            asked = [self.asked(number) for number in range(first, min(first + calls_of_case, len(calls)))]
            text = counted(str(self.place("answers")).encode()) + b"".join(asked)
            (cases / str(first // calls_of_case)).write_bytes(text)
        self.process = subprocess.Popen(
            ["rt", "try", "--seconds", str(seconds), "--cases", str(cases)],
            cwd=tree() / "crates" / program, stdin=subprocess.DEVNULL, stdout=subprocess.DEVNULL, stderr=subprocess.PIPE,
        )
        threading.Thread(target=self.read_ends, daemon=True).start()

    def place(self, *names: str) -> pathlib.Path:
        return pathlib.Path(self.folder.name, *names)

    def asked(self, number: int) -> bytes:
        """Returns the call as `many_calls.rt.txt` reads it: its number, how many words it has, these, and its input."""
        call = self.calls[number]
        words = [call.program, *call.words]
        if NEW_FOLDER in words:
            self.place("new", str(number)).mkdir()
            words = [str(self.place("new", str(number))) if it == NEW_FOLDER else it for it in words]
        parts = [counted(it.encode()) for it in words] + [counted(call.stdin)]
        return f"{number}\n{len(words)}\n".encode() + b"".join(parts)

    def read_ends(self) -> None:
        """Keeps what was said of each case until it ended."""
        before = b""
        for line in self.process.stderr:
            before += line
            case = re.match(rb"case=(\d+) run=", line)
            if case:
                with self.told:
                    self.ends[int(case[1])], before = before, b""
                    self.told.notify_all()
        with self.told:
            self.last_words = before or b"rt try gave no answer\n"
            self.told.notify_all()

    def answers(self) -> Iterator[Answer]:
        """Yields the answer of each call, in order, as soon as it is there."""
        for number in range(len(self.calls)):
            yield self.answer(number)
        self.process.wait()
        self.folder.cleanup()

    def answer(self, number: int) -> Answer:
        """Waits for one answer. It says nothing of where its new folder was."""
        status, case = self.place("answers", f"{number}.status"), number // self.calls_of_case
        with self.told:
            while not is_written(status) and case not in self.ends and self.last_words is None:
                self.told.wait(0.05)
        if not is_written(status):
            return Answer(None, b"", self.ends.get(case, self.last_words))
        texts = [status.with_suffix(it).read_bytes() for it in (".stdout", ".notes")]
        new = self.place("new", str(number))
        files = {it.name: it.read_bytes() for it in new.iterdir()} if new.exists() else {}
        return Answer(int(status.read_text()), *(it.replace(str(new).encode(), NEW_FOLDER.encode()) for it in texts), files)


def ask(program: str, calls: list[Call], seconds: int = 600, calls_of_case: int = 1) -> Iterator[Answer]:
    """Compiles a program and yields its answer to each call. A case of so many calls has this time."""
    return Run(program, calls, seconds, calls_of_case).answers()
