"""The folder of answers and its tables: `man solve-folder`, under FILES.

An answer's line is written before the answer takes its name, and a former answer is removed before that. So wherever a
run is cut off, an answer has the line of the bytes that it answers, or there is no answer, and the record is asked again.
"""

import errno
import fcntl
import os
import re
import secrets
from collections.abc import Iterable
from typing import NamedTuple

from .records import Record
from .words import BAD_WORDS, FAILED, SOLVED, Stop, escaped, shown, unescaped

LINE = re.compile(rb"([^\t]+)\t(\d+)\t([^\t]*)\t(\d+)\t(\d+\.\d\d)\t([0-9a-f]{64}|-)")
TABLE = re.compile(rb"answers(?:\.\d+-of-(\d+))?\.tsv")
PART = re.compile(rb"(answers(?:\.\d+-of-\d+)?\.tsv)\.[0-9a-f]{16}")


class Line(NamedTuple):
    name: bytes
    status: int
    answer: bytes
    steps: int
    seconds: float
    checksum: bytes

    def text(self) -> bytes:
        numbers = self.status, escaped(self.answer), self.steps, self.seconds, self.checksum
        return escaped(self.name) + b"\t%d\t%b\t%d\t%.2f\t%b\n" % numbers


def read_table(path: bytes) -> dict[bytes, Line]:
    """The lines of a table by name, the last of each. Where a run was cut off, its last line has no end and does not count."""
    with open(path, "rb") as file:
        texts = file.read().split(b"\n")[:-1]
    lines = {}
    for number, text in enumerate(texts, 1):
        found = LINE.fullmatch(text)
        if not found:
            raise Stop(BAD_WORDS, f"{shown(path)}: line {number} is not one of solve-folder's, so the file is left as it is")
        name, status, answer, steps, seconds, checksum = found.groups()
        lines[unescaped(name)] = Line(unescaped(name), int(status), unescaped(answer), int(steps), float(seconds), checksum)
    return lines


class Answers:
    """A folder of answers: those of a shard, as (2, 8), have a table of their own."""

    def __init__(self, folder: bytes, shard: tuple[int, int] | None = None) -> None:
        self.folder, self.shard = folder, shard
        self.own = b"answers.%d-of-%d.tsv" % shard if shard else b"answers.tsv"
        self.parts = os.path.join(folder, b".part")
        self.part = os.path.join(self.parts, b"%s.%s" % (self.own, secrets.token_hex(8).encode()))
        self.lines, self.table, self.locks = {}, None, []

    def path(self, name: bytes) -> bytes:
        return os.path.join(self.folder, name)

    def has(self, name: bytes) -> bool:
        """Whether an answer is there: an empty file is none, as a machine that lost its power may leave it."""
        try:
            return os.stat(self.path(name)).st_size > 0
        except OSError:
            return False

    def tables(self) -> list[bytes]:
        """The names of all tables, the joined one first: those of shards hold what is later."""
        names = os.listdir(self.folder) if os.path.isdir(self.folder) else []
        return sorted((it for it in names if TABLE.fullmatch(it)), key=lambda it: (it != b"answers.tsv", it))

    def load(self) -> None:
        self.lines = {}
        for table in self.tables():
            self.lines.update(read_table(self.path(table)))

    def unclaimed(self, records: Iterable[Record]) -> bytes | None:
        """The first file that has the name of an answer, though no line says that it is one."""
        for record in records:
            line = self.lines.get(record.name)
            if (line is None or line.status != SOLVED) and os.path.lexists(self.path(record.name)):
                return self.path(record.name)
        return None

    def take(self) -> None:
        """Makes the folder, or this share of it, the run's own."""
        try:
            os.makedirs(self.parts, exist_ok=True)
            self.lock(b"lock", fcntl.LOCK_SH if self.shard else fcntl.LOCK_EX)
            if self.shard:
                self.lock(b"lock.%d-of-%d" % self.shard, fcntl.LOCK_EX)
                self.claim_share()
            for left in filter(None, map(PART.fullmatch, os.listdir(self.parts))):
                if not self.shard or left[1] == self.own:
                    os.unlink(os.path.join(self.parts, left[0]))
            self.join()
            self.load()
        except OSError as error:
            raise Stop(FAILED, f"the answers cannot be written to {shown(self.folder)}: {error.strerror}") from None

    def claim_words(self, words: list[str] | None) -> None:
        """Answers of several programs are not mixed in one folder."""
        path = os.path.join(self.parts, b"run")
        wanted = "\n".join(words or []).encode()
        found = b""
        if os.path.exists(path):
            with open(path, "rb") as file:
                found = file.read()
        elif not self.lines and wanted:
            with open(path, "wb") as file:
                file.write(wanted)
            return
        if found != wanted:
            asked = shown(found.replace(b"\n", b" ") or b"tsumego solve")
            raise Stop(BAD_WORDS, f"{shown(self.folder)} has answers of {asked}")

    def lock(self, name: bytes, how: int) -> None:
        self.locks.append(os.open(os.path.join(self.parts, name), os.O_RDWR | os.O_CREAT | os.O_CLOEXEC, 0o666))
        try:
            fcntl.flock(self.locks[-1], how | fcntl.LOCK_NB)
        except BlockingIOError:
            raise Stop(FAILED, f"another run is at work in {shown(self.folder)}") from None

    def claim_share(self) -> None:
        """Makes the table of a share, and only then looks for others: of two runs at once neither may miss the other."""
        path = self.path(self.own)
        open(path, "ab").close()
        try:
            self.refuse_other_shards()
        except Stop:
            if os.stat(path).st_size == 0:
                os.unlink(path)
            raise

    def refuse_other_shards(self) -> None:
        """Of two numbers of shards each has its own shares, and no table would say which line of a name is the later."""
        for table in self.tables():
            parts = TABLE.fullmatch(table)[1]
            if self.shard and parts and int(parts) != self.shard[1]:
                path, folder = shown(self.path(table)), shown(self.folder)
                raise Stop(BAD_WORDS, f"{path} is of another number of shards: solve-folder --totals {folder} joins it")

    def join(self) -> None:
        """Writes the run's table anew, sorted, a line a name; where it is no shard's, with those of all shards."""
        joined = [self.own] if self.shard else self.tables()
        lines = {}
        for table in joined:
            lines.update(read_table(self.path(table)))
        with open(self.part, "wb") as file:
            file.writelines(lines[name].text() for name in sorted(lines))
        os.rename(self.part, self.path(self.own))
        for table in set(joined) - {self.own}:
            os.unlink(self.path(table))
        if self.table is not None:
            os.close(self.table)
        self.table = os.open(self.path(self.own), os.O_WRONLY | os.O_APPEND | os.O_CLOEXEC)

    def add(self, line: Line) -> None:
        """Adds a line, whole or not at all."""
        text, end = line.text(), os.lseek(self.table, 0, os.SEEK_END)
        try:
            if os.write(self.table, text) < len(text):
                raise OSError(errno.ENOSPC, os.strerror(errno.ENOSPC))
        except OSError:
            os.ftruncate(self.table, end)
            raise
        self.lines[line.name] = line

    def store(self, line: Line, answer: bytes) -> None:
        """Adds a line; and the answer, or else takes a former one away."""
        path, before = self.path(line.name), self.lines.get(line.name)
        if line.status == SOLVED:
            with open(self.part, "wb") as file:
                file.write(answer)
            os.makedirs(os.path.dirname(path), exist_ok=True)
        if before and before.status == SOLVED and os.path.lexists(path):
            os.unlink(path)
        self.add(line)
        if line.status == SOLVED:
            os.rename(self.part, path)

    def discard(self) -> None:
        """Takes away what was being written."""
        if os.path.lexists(self.part):
            os.unlink(self.part)
