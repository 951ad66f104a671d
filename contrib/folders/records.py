"""The records of a folder: files, or the game trees of files."""

import errno
import hashlib
import os
import re
import stat
import subprocess
import tempfile
from typing import NamedTuple

from .words import FAILED, REFUSED, SOLVED, Stop, shown


class Record(NamedTuple):
    """A record, by its name below the folder. A game tree of a file has its bytes here, or why it cannot be read."""

    name: bytes
    path: bytes
    content: bytes | None = None
    refusal: bytes | None = None

    def read(self) -> bytes:
        return read_file(self.path) if self.content is None else self.content


def read_file(path: bytes | str) -> bytes:
    """The bytes of a file. A pipe or a device might never end."""
    with open(os.open(path, os.O_RDONLY | os.O_NONBLOCK | os.O_CLOEXEC), "rb") as file:
        if not stat.S_ISREG(os.fstat(file.fileno()).st_mode):
            raise OSError(errno.EINVAL, "Not a regular file")
        return file.read()


def find_files(folder: bytes, is_recursive: bool) -> tuple[list[bytes], int]:
    """The names of the records' files, and how many subfolders were left out: links to folders always are."""
    found, left_out, waiting = [], 0, [b""]
    while waiting:
        below = waiting.pop()
        with os.scandir(os.path.join(folder, below)) as entries:
            for entry in entries:
                name = os.path.join(below, entry.name)
                if not entry.is_dir():
                    found += [name] if name.lower().endswith(b".sgf") else []
                elif is_recursive and not entry.is_symlink():
                    waiting.append(name)
                else:
                    left_out += 1
    return sorted(found), left_out


def count_trees(content: bytes) -> int:
    """How many game trees a text seems to have, by its brackets outside of values."""
    depth = count = 0
    for bracket in re.sub(rb"\[[^\\\]]*(?:\\.[^\\\]]*)*\]|[^()\[]+|\[", b"", content, flags=re.DOTALL):
        depth = max(depth + (1 if bracket == ord("(") else -1), 0)
        count += depth == 0 and bracket == ord(")")
    return count


def split_file(tools: str, name: bytes, path: bytes) -> list[Record]:
    """The game trees of a file, as records NAME.0001.sgf, NAME.0002.sgf and so on."""
    stem, suffix = os.path.splitext(name)

    def named(number: int) -> bytes:
        return b"%s.%04d%s" % (stem, number, suffix)

    try:
        content = read_file(path)
    except OSError:
        return [Record(named(1), path)]  # it is read again when its turn comes, and then told
    with tempfile.TemporaryDirectory() as folder, tempfile.TemporaryFile() as source:
        source.write(content)
        source.seek(0)
        done = subprocess.run([tools, "split", "--into", folder], stdin=source, capture_output=True)
        if done.returncode not in (SOLVED, REFUSED):
            said = shown((done.stdout + done.stderr).strip())
            raise Stop(FAILED, f"{tools} split --into cannot take {shown(path)} apart: {said}")
        trees = {int(it[:-4]): read_file(os.path.join(folder, it)) for it in os.listdir(folder)}
    records = {number: Record(named(number), path, tree) for number, tree in trees.items()}
    for number, why in re.findall(rb"tree (\d+) (at byte \d+: .*)", done.stderr):
        records[int(number)] = Record(named(int(number)), path, content, why)
    return [records[number] for number in sorted(records)] or [Record(named(1), path, content)]


def find_records(folder: bytes, is_recursive: bool, tools: str | None) -> tuple[list[Record], list[str]]:
    """All records, of which each game tree is one where `tools`, the program problem_tools, is given; and what is to be told."""
    files, left_out = find_files(folder, is_recursive)
    notes = []
    if left_out:
        notes.append(f"subfolders left out: {left_out} ({'links to folders' if is_recursive else '--recursive takes them'})")
    if not files:
        notes.append(f"no file of {shown(folder)} has a name in .sgf")
    records = []
    for name in files:
        path = os.path.join(folder, name)
        records += split_file(tools, name, path) if tools else [Record(name, path)]
    return records, notes


def is_of_shard(record: Record, part: int, parts: int) -> bool:
    """Shares go by name, so that each run knows its own without knowing of the others."""
    return int(hashlib.sha256(record.name).hexdigest(), 16) % parts == part - 1
