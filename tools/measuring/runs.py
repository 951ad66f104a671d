"""One run of a program: its processor time and memory, what it wrote, and how it ended."""

import collections.abc
import contextlib
import os
import pathlib
import resource
import signal
import subprocess
import tempfile
import threading
import typing

Input = bytes | pathlib.Path | collections.abc.Iterable[bytes]
Words = collections.abc.Sequence[str | os.PathLike]


class Run(typing.NamedTuple):
    """Seconds of the processor, user and system, with those of the processes that it started and waited for; the greatest memory in
    kB; the standard output; and the exit code, negative for a signal. The memory of what starts a program counts with it."""

    seconds: float
    memory: int
    output: bytes
    status: int

    def text(self) -> str:
        return self.output.decode(errors="replace")


def timed(
    words: Words,
    stdin: Input = b"",
    *,
    is_kept: bool = True,
    limits: dict[int, int] | None = None,
    clock: float | None = None,
) -> Run:
    """Runs a program. Its standard input is a file with these bytes, this file, or a pipe into which these parts are written. What
    it writes goes nowhere unless `is_kept`. `limits` are those of `resource`; by the clock a run has `clock` seconds."""

    def limit() -> None:
        for kind, most in (limits or {}).items():
            resource.setrlimit(kind, (most, most + (kind == resource.RLIMIT_CPU)))

    with tempfile.TemporaryFile() as out, opened(stdin) as given:
        process = subprocess.Popen(words, stdin=given or subprocess.PIPE, stdout=out if is_kept else subprocess.DEVNULL,
                                   stderr=subprocess.DEVNULL, preexec_fn=limit if limits else None)
        timer = threading.Timer(clock, os.kill, (process.pid, signal.SIGKILL)) if clock else None
        if timer:
            timer.start()
        if process.stdin:
            write(process.stdin, stdin)
        _, status, used = os.wait4(process.pid, 0)
        if timer:
            timer.cancel()
        process.returncode = os.waitstatus_to_exitcode(status)
        out.seek(0)
        return Run(used.ru_utime + used.ru_stime, used.ru_maxrss, out.read(), process.returncode)


class opened:
    """The file that a program reads as its standard input; None where parts are written into a pipe."""

    def __init__(self, stdin: Input) -> None:
        self.file = None
        if isinstance(stdin, bytes):
            self.file = tempfile.TemporaryFile()
            self.file.write(stdin)
            self.file.seek(0)
        elif isinstance(stdin, pathlib.Path):
            self.file = open(stdin, "rb")

    def __enter__(self) -> typing.IO[bytes] | None:
        return self.file

    def __exit__(self, *_: object) -> None:
        if self.file:
            self.file.close()


def write(pipe: typing.IO[bytes], parts: collections.abc.Iterable[bytes]) -> None:
    """Writes the parts, as long as they are read."""
    with contextlib.suppress(BrokenPipeError):
        for part in parts:
            pipe.write(part)
    with contextlib.suppress(BrokenPipeError):
        pipe.close()


def least(words: Words, stdin: Input, turns: int) -> Run:
    """The run of the least seconds of so many; what they write is not kept."""
    return min((timed(words, stdin, is_kept=False) for _ in range(turns)), key=lambda it: it.seconds)
