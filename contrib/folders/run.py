"""A run: which records are asked, what is kept of each, and the totals."""

import errno
import hashlib
import os
import re
from argparse import Namespace
from collections.abc import Iterable, Iterator

from .records import Record, count_trees
from .tables import Answers, Line
from .words import FAILED, REFUSED, SOLVED, TIMED_OUT, UNKNOWN, Stop, shown, tell

WINNER = re.compile(rb"C\[(Black|White) wins\]")
# Where a write fails for one of these, it fails for the next record too.
NO_ROOM = (errno.ENOSPC, errno.EDQUOT, errno.EROFS, errno.EIO)


class Run:
    """The records of a call, those that still wait, and those that failed."""

    def __init__(self, given: Namespace, answers: Answers, records: list[Record]) -> None:
        self.given, self.answers, self.records = given, answers, records
        self.waiting, self.failed, self.further_games = {it.name for it in records}, {}, 0

    def is_due(self, name: bytes, checksum: bytes) -> bool:
        """Whether a record has to be asked: it has no answer, or it has changed, or there is more to spend on it."""
        line = self.answers.lines.get(name)
        if line is None or line.checksum != checksum:
            return True
        if line.status == SOLVED:
            return not self.answers.has(name)
        if line.status == UNKNOWN:
            return self.given.steps > line.steps
        if line.status == TIMED_OUT:
            return self.given.timeout is None or self.given.timeout > line.seconds
        return line.status != REFUSED

    def due(self) -> Iterator[tuple[Record, bytes, bytes]]:
        """The records to be asked, each with its bytes and their checksum, read as it comes."""
        for record in self.records:
            try:
                content = record.read()
            except OSError as error:
                self.fail(record, "cannot be read: " + error.strerror)
                continue
            checksum = hashlib.sha256(content).hexdigest().encode()
            self.further_games += record.content is None and count_trees(content) > 1
            if not self.is_due(record.name, checksum):
                self.waiting.discard(record.name)
            elif record.refusal:
                self.keep(record, checksum, REFUSED, b"refused: " + record.refusal, 0)
            else:
                yield record, content, checksum

    def keep(self, record: Record, checksum: bytes, status: int, text: bytes, seconds: float) -> None:
        """Keeps what came of a record: the status, and what the program wrote."""
        said = text.split(b"\n")[0].strip()
        if status == SOLVED and not self.given.run:
            winner = WINNER.search(text)
            if not winner:
                return self.fail(record, "the program names no winner")
            said = b"wins " + winner[1]
        elif status == TIMED_OUT:
            said, seconds = b"timeout: %g seconds" % self.given.timeout, self.given.timeout
        elif status not in (SOLVED, UNKNOWN, REFUSED):
            return self.fail(record, f"the program ended with status {status}" + f" ({shown(said)})" * bool(said))
        try:
            self.answers.store(Line(record.name, status, said, self.given.steps, seconds, checksum), text)
            self.waiting.discard(record.name)
        except OSError as error:
            self.answers.discard()
            why = f"{shown(self.answers.path(record.name))} cannot be written: {error.strerror}"
            if error.errno in NO_ROOM:
                raise Stop(FAILED, f"{why}; the next call goes on") from None
            self.fail(record, why)

    def fail(self, record: Record, why: str) -> None:
        """What failed says nothing of the record: the next call asks it again, and no former answer is taken away."""
        tell(f"{shown(record.path)}: {why}")
        self.waiting.discard(record.name)
        self.failed[record.name] = line = Line(record.name, FAILED, os.fsencode("failed: " + why), self.given.steps, 0, b"-")
        before = self.answers.lines.get(record.name)
        if before is None or before.status != SOLVED:
            try:
                self.answers.add(line)
            except OSError as error:
                raise Stop(FAILED, f"{shown(self.answers.folder)} cannot be written to: {error.strerror}") from None

    def lines(self) -> Iterator[Line]:
        """The line of each record that was asked, now or before."""
        for record in self.records:
            if record.name not in self.waiting:
                yield self.failed.get(record.name) or self.answers.lines[record.name]


def totals(count: int, lines: Iterable[Line]) -> tuple[str, int]:
    """The totals in words, and the status that they give."""
    lines = list(lines)
    by_status = {status: sum(it.status == status for it in lines) for status in (SOLVED, UNKNOWN, TIMED_OUT, REFUSED, FAILED)}
    black, white = (sum(it.answer == answer for it in lines) for answer in (b"wins Black", b"wins White"))
    solved, unknown, late, refused, failed = by_status.values()
    winners = f"solved ({black} Black, {white} White)" if black + white == solved else "answered"
    text = (
        f"{count} records: {solved} {winners}, {unknown} unknown, {late} timed out, "
        f"{refused} refused, {failed} failed, {count - len(lines)} not asked; {sum(it.seconds for it in lines):.1f} s"
    )
    return text, 0 if solved == count else FAILED if failed or len(lines) < count else 1
