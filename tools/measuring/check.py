"""Claims at the limits of the format, through the linked program; and its speed beside another checker.

    tools/measure check PROGRAM [PEER]
    tools/measure check PROGRAM PEER FILE..

Without files, each claim of those below goes to `PROGRAM check` on standard input, on a stack of 1,024 kB. Its answer has to be
the one stated here; seconds of processor time and the greatest memory are printed, and those of PEER, another checker of the
same format, where one is named. The claims: lines of play as deep as a claim may be, on 6 and 19 rows, right, wrong at the last
line, and one deeper; a claim without lemmas, cut at 1, at 10 and at 100 MB and at its 10,000,001st node; 1,000,000 listed
colourings of 19 rows, and one more. With files, each a record and a claim, both programs judge each of them nine times in turn:
the least seconds of both, their ratio and the greatest memory are printed.
"""

import argparse
import collections.abc
import os
import pathlib
import resource
import tempfile

import script_words
from measuring.claims import samples
from measuring.runs import Input, Run, timed

STACK = 1 << 20
TURNS = 9
PARTS_AT_ONCE = 2000


def in_bytes(parts: collections.abc.Iterable[str]) -> collections.abc.Iterator[bytes]:
    held = []
    for part in parts:
        held.append(part)
        if len(held) == PARTS_AT_ONCE:
            yield "".join(held).encode()
            held = []
    yield "".join(held).encode()


def judge(words: list[str], claim: Input) -> Run:
    return timed(words, claim, limits={resource.RLIMIT_STACK: STACK})


def judge_with_memory(words: list[str], claim: Input) -> Run:
    """The same with the program's own memory: GNU time starts it, since the memory of what starts it counts with it."""
    with tempfile.NamedTemporaryFile("r") as told:
        run = judge(["/usr/bin/time", "-o", told.name, "-f", "%M", *words], claim)
        return run._replace(memory=int(told.read().split("\n")[-2]))


def compare(program: str, peer: str, path: str) -> bool:
    """Both on one file, in turn; whether they answer alike."""
    text = pathlib.Path(path).read_bytes()
    words = [[program, "check"], [peer]]
    runs = [judge(words[number % 2], text) for number in range(2 * TURNS)]
    if len({it.output for it in runs}) > 1:
        print(f"{path}: DIFFERENT ANSWERS")
        return False
    ours, theirs = (min(it.seconds for it in runs[number::2]) for number in (0, 1))
    memory = [judge_with_memory(each, text).memory for each in words]
    print(f"{os.path.basename(path)}: {len(text) / 1e6:.2f} MB, {runs[0].text().strip()}: {ours:.3f} s and {theirs:.3f} s, "
          f"{ours / theirs:.1f} times as long; {memory[0] / 1024:.1f} MB and {memory[1] / 1024:.1f} MB", flush=True)
    return True


def judge_samples(programs: list[list[str]]) -> int:
    """How many answers are wrong."""
    wrong = 0
    for name, parts, wanted in samples():
        said = []
        for words in programs:
            run = judge_with_memory(words, in_bytes(parts()))
            if run.text() != wanted:
                wrong += 1
                said.append(f"WRONG: {run.text().strip()}")
            said.append(f"{run.seconds:.2f} s, {run.memory / 1024:.1f} MB")
        print(f"{name}: {wanted.strip()}; {'; '.join(said)}", flush=True)
    return wrong


def add_words(words: script_words.Words) -> None:
    words.add_argument("program", type=script_words.program, metavar="PROGRAM")
    words.add_argument("peer", type=script_words.program, nargs="?", metavar="PEER")
    words.add_argument("files", type=script_words.file, nargs="*", default=[], metavar="FILE")


def main(given: argparse.Namespace) -> int:
    script_words.need("/usr/bin/time:time")
    if given.files:
        return 0 if all([compare(given.program, given.peer, path) for path in given.files]) else 1
    return 1 if judge_samples([[given.program, "check"], *([[given.peer]] if given.peer else [])]) else 0
