"""Asks the program on this machine, as many records at once as there are processors.

A program's input and output are files in memory, and this process alone writes answers; so one that outlives the run could
write over nothing. Nor does it outlive it: all programs are in the process group of a watcher, which ends the group when its
input ends, as it does however this process ends. (To ask the kernel for that, each process would have to be forked with
the interpreter's memory, which costs 2 ms a record.)
"""

import os
import signal
import subprocess
import time
from collections.abc import Iterator

from .records import Record
from .run import Run
from .words import FAILED, TIMED_OUT, Stop, shown

WATCH = "read line; kill -KILL 0"


class Job:
    """A program at work on a record, as `Run.due` gives it."""

    def __init__(self, words: list[str], group: int, found: tuple[Record, bytes, bytes]) -> None:
        self.found, self.start, self.is_late = found, time.monotonic(), False
        self.answer = os.memfd_create("answer")
        source = os.memfd_create("record")
        try:
            with open(source, "wb", closefd=False) as file:
                file.write(found[1])
            os.lseek(source, 0, os.SEEK_SET)
            plugged = [(os.POSIX_SPAWN_DUP2, source, 0), (os.POSIX_SPAWN_DUP2, self.answer, 1)]
            self.pid = os.posix_spawn(words[0], words, os.environ, file_actions=plugged, setpgroup=group, setsigmask=[])
        except OSError as error:
            raise Stop(FAILED, f"{shown(words[0])} cannot be run: {error.strerror}") from None
        finally:
            os.close(source)

    def seconds(self) -> float:
        return time.monotonic() - self.start

    def end(self) -> None:
        """Ends it, being out of time."""
        self.is_late = True
        os.kill(self.pid, signal.SIGKILL)

    def keep(self, run: Run, status: int) -> None:
        """Keeps what it wrote, now that it has ended."""
        with open(self.answer, "rb") as file:
            file.seek(0)
            text = file.read()
        record, _, checksum = self.found
        code = os.WEXITSTATUS(status) if os.WIFEXITED(status) else 128 + os.WTERMSIG(status)
        run.keep(record, checksum, TIMED_OUT if self.is_late else code, text, self.seconds())


def solve_here(run: Run) -> None:
    """Asks the due records."""
    given, due, jobs = run.given, run.due(), {}
    words = [given.program, *given.asked]
    signal.pthread_sigmask(signal.SIG_BLOCK, [signal.SIGCHLD])
    watcher = subprocess.Popen(["sh", "-c", WATCH], stdin=subprocess.PIPE, preexec_fn=os.setpgrp)
    try:
        while True:
            while len(jobs) < given.jobs and (found := next(due, None)):
                job = Job(words, watcher.pid, found)
                jobs[job.pid] = job
            if not jobs:
                return
            for pid, status in ended(jobs, given.timeout):
                jobs.pop(pid).keep(run, status)
    finally:
        watcher.stdin.close()
        watcher.wait()


def ended(jobs: dict[int, Job], timeout: float | None) -> Iterator[tuple[int, int]]:
    """Waits until a program has ended, or one is out of time, which is ended then. The signal is blocked, so none is missed."""
    if timeout is None:
        signal.sigwaitinfo([signal.SIGCHLD])
    else:
        left = min((timeout - job.seconds() for job in jobs.values() if not job.is_late), default=timeout)
        signal.sigtimedwait([signal.SIGCHLD], max(0, left))
    for job in list(jobs.values()):
        pid, status = os.waitpid(job.pid, os.WNOHANG)
        if pid:
            yield pid, status
        elif timeout is not None and not job.is_late and job.seconds() >= timeout:
            job.end()
