#!/usr/bin/env -S python3 -SE
"""Stands in for a program whose answers are known: it gives the answer that the real one gave to the same words and input.

  replay.py FOLDER PROGRAM WORD..

FOLDER/answers has a file for each known call, under a hash of it: the status, the bytes of standard output, those of standard
error, and the files that the call wrote; those that are given are named in FOLDER/used. A call that is not known is kept in
FOLDER/missed, to be asked, but for one whose input came from such a call; what came of either is never judged.

A call that writes into a new folder is known whatever the folder is called.
"""

import hashlib
import os
import pickle
import sys

# Stands for the name of the folder that a call writes into, which is empty or not there: scripts call it otherwise each time.
NEW_FOLDER = "{new folder}"

# Stands for the answer of a call that is not known, in what comes of it.
UNKNOWN = b"\x01not known yet\x01\n"

# From so many unknown calls on, further ones fail.
MOST_MISSED = 30


def without_folder(words: tuple[str, ...]) -> tuple[tuple[str, ...], str | None]:
    """Returns the words of a call with no name for the new folder that it writes into, and that name, or nothing."""
    for at in range(1, len(words)):
        if words[at - 1] == "--into" and is_new(words[at]):
            return (*words[:at], NEW_FOLDER, *words[at + 1 :]), words[at]
    return words, None


def is_new(folder: str) -> bool:
    """Whether the folder is empty, or not there."""
    return not os.path.lexists(folder) or os.path.isdir(folder) and not os.listdir(folder)


def key_of(program: str, words: tuple[str, ...], stdin: bytes) -> str:
    return hashlib.sha256(repr((program, tuple(words), stdin)).encode()).hexdigest()


def stand_in(root, folder, program: str):
    """Makes the file that is called in place of a program: it stands where one that was built would."""
    place = root / program / "out" / program
    place.parent.mkdir(parents=True)
    place.write_text(f'#!/bin/sh\nexec python3 -SE "{os.path.abspath(__file__)}" "{folder}" {program} "$@"\n')
    place.chmod(0o755)
    return place


def main(folder: str, program: str, *words: str) -> None:
    stdin = b"" if sys.stdin.isatty() else sys.stdin.buffer.read()
    words, new_folder = without_folder(words)
    key = key_of(program, words, stdin)
    files = {}
    try:
        with open(f"{folder}/answers/{key}", "rb") as file:
            status, stdout, notes, files = pickle.load(file)
        with open(f"{folder}/used/{key}", "wb"):
            pass
    except FileNotFoundError:
        # A script that stops at the first failure goes on and calls the rest too; one that goes on until a failure ends.
        status, stdout, notes = 99 if len(os.listdir(f"{folder}/missed")) >= MOST_MISSED else 0, UNKNOWN, b""
        if UNKNOWN not in stdin:
            with open(f"{folder}/missed/{key}", "wb") as file:
                pickle.dump((program, words, stdin), file)
    if files:
        os.makedirs(new_folder, exist_ok=True)
    for name, content in files.items():
        with open(f"{new_folder}/{name}", "xb") as file:
            file.write(content)
    for stream, text in ((sys.stdout, stdout), (sys.stderr, notes)):
        stream.buffer.write(text.replace(NEW_FOLDER.encode(), (new_folder or NEW_FOLDER).encode()))
        stream.flush()
    sys.exit(status)


if __name__ == "__main__":
    main(*sys.argv[1:])
