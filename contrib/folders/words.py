"""What all parts share: statuses, what ends a run, and how names and bytes are shown."""

import os
import re

SOLVED, UNKNOWN, REFUSED, BAD_WORDS, FAILED, TIMED_OUT = 0, 1, 2, 3, 4, 124


class Stop(Exception):
    """Ends the run with a status and a line."""

    def __init__(self, status: int, text: str) -> None:
        super().__init__(text)
        self.status = status


class Interrupted(Exception):
    """A signal asked for the end."""


def escaped(name: bytes) -> bytes:
    """A name as tables have it."""
    return name.replace(b"\\", b"\\\\").replace(b"\t", b"\\t").replace(b"\n", b"\\n")


def unescaped(text: bytes) -> bytes:
    return re.sub(rb"\\(.)", lambda found: {b"t": b"\t", b"n": b"\n"}.get(found[1], found[1]), text)


def shown(path: str | bytes) -> str:
    """A path, for a message of one line."""
    return os.fsdecode(escaped(os.fsencode(path)))


def tell(text: str) -> None:
    os.write(2, os.fsencode(f"solve-folder: {text}\n"))
