"""The programs that answer, and one run of one of them."""

import asyncio
import os
import re
import shutil
import signal
import subprocess
import sys

from .words import FAILED, Stop

NAMES = ("tsumego", "group_status", "first_moves", "short_claims", "problem_tools")
CONTRIB = os.path.dirname(os.path.dirname(os.path.realpath(__file__)))
MEGABYTE = 1 << 20
# The most bytes of an answer, and of what a program says on standard error.
MOST_ANSWER = 32 * MEGABYTE
VARIABLES = {"LC_ALL": "C", "PATH": "/usr/bin:/bin"}
# Bytes of standard error that are handed on: a web server that comes first may take no more than 4 kB of headers.
MOST_NOTES = 2000


def program_of(name):
    """The whole path of a program: the one that the environment names by capitals, that of the PATH, or one that was built here."""
    built = os.path.join(os.path.dirname(CONTRIB), f"crates/{name}/out/{name}")
    named = os.environ.get(name.upper()) or shutil.which(name) or built
    found = shutil.which(named)
    if found is None:
        hint = f"; contrib/install --helpers installs it, or {name.upper()} names it" if named == built else ""
        raise Stop(FAILED, f"there is no command {named if named != built else name}{hint}")
    return os.path.abspath(found)


def version_of(name, path):
    """What `--version` says, which shows that the program runs."""
    try:
        done = subprocess.run([path, "--version"], stdin=subprocess.DEVNULL, stdout=subprocess.PIPE, timeout=60)
    except (OSError, subprocess.TimeoutExpired) as error:
        raise Stop(FAILED, f"{path} does not run: {type(error).__name__}") from None
    found = re.fullmatch(r"\w+ ([\w.+-]+)\n", done.stdout.decode(errors="replace"))
    if not found:
        raise Stop(FAILED, f"{path} --version does not say a version of {name}")
    return found[1]


class Ended(Exception):
    """A question that was ended: its time was up, or nobody waits for it."""


class Run:
    """One run of a program. Standard input and both outputs are files in memory, so no slow reader or writer holds the process, and
    nothing is written to a disk."""

    def __init__(self, words, record):
        self.files = [os.memfd_create(name, os.MFD_CLOEXEC) for name in ("record", "answer", "notes")]
        try:
            os.write(self.files[0], record)
            os.lseek(self.files[0], 0, os.SEEK_SET)
            stdin, stdout, stderr = self.files
            self.process = subprocess.Popen(
                words, stdin=stdin, stdout=stdout, stderr=stderr, cwd="/", env=VARIABLES, start_new_session=True
            )
        except BaseException:
            self.close()
            raise

    async def ended(self, seconds):
        """Waits for its end and returns its status, negative for a signal. Where the time is up, or the waiting is cancelled, the
        process is killed, and has ended when this returns."""
        loop, done = asyncio.get_running_loop(), asyncio.Event()
        handle = os.pidfd_open(self.process.pid)
        loop.add_reader(handle, done.set)
        try:
            await asyncio.wait_for(done.wait(), seconds)
        except asyncio.TimeoutError:
            raise Ended from None
        finally:
            loop.remove_reader(handle)
            if not done.is_set():
                os.killpg(self.process.pid, signal.SIGKILL)
            os.close(handle)
            self.process.wait()
        return self.process.returncode

    def size(self):
        return os.fstat(self.files[1]).st_size

    def part(self, at, count):
        return os.pread(self.files[1], count, at)

    def notes(self):
        return os.pread(self.files[2], MOST_NOTES, 0)

    def close(self):
        for file in self.files:
            os.close(file)
        self.files = []


class Programs:
    """All programs, with their versions, and what bounds a process of them."""

    def __init__(self, given):
        self.paths = {name: program_of(name) for name in NAMES}
        self.versions = {name: version_of(name, path) for name, path in self.paths.items()}
        bounds = {"as": given.memory * MEGABYTE, "cpu": given.timeout + 1, "fsize": MOST_ANSWER, "core": 0}
        # The command sets the limits of its own process, which then becomes the program.
        self.bounded = [shutil.which("prlimit"), *(f"--{which}={most}" for which, most in bounds.items()), "--"]

    def start(self, words, record):
        return Run([*self.bounded, self.paths[words[0]], *words[1:]], record)


def check_system():
    """What is asked of the system beside the programs."""
    if shutil.which("prlimit") is None:
        raise Stop(FAILED, "there is no command prlimit (of the package util-linux)")
    if sys.version_info < (3, 9) or not hasattr(os, "memfd_create"):
        raise Stop(FAILED, "it needs Python 3.9 on Linux")
