"""Measures short claims beside claims, on the same problems with as many steps, in one run.

    tools/measure short [--steps N] TSUMEGO SHORT_CLAIMS FOLDER..

TSUMEGO and SHORT_CLAIMS are built programs. Each record of the folders is given to `tsumego solve --proof` and to `short_claims
prove`, and each claim that comes to its judge. It prints how many problems each proves, and, over those that both prove, the
medians and sums of the bytes of a claim, and of the processor seconds of finding and of judging one, with the ratio of short to
full. Then it names each problem whose winners differ and each claim that its own judge does not accept; the status is 1 where
there is one.
"""

import argparse
import os
import pathlib
import re
import statistics

import script_words
from measuring.runs import timed

WINNERS = {b"B": "Black", b"W": "White"}


class Found:
    """A claim that was found and judged, with what it took; `winner` is None where none was found."""

    def __init__(self, prove: list[str], check: list[str], word: bytes, record: bytes) -> None:
        found = timed(prove, record)
        self.finding = found.seconds
        claim = re.search(rb"^" + word + rb" \d+ \d+ ([BW])$", found.output, re.MULTILINE)
        self.winner = WINNERS[claim[1]] if claim else None
        if claim:
            self.bytes = len(found.output) - claim.start()
            judged = timed(check, found.output)
            self.said, self.judging = judged.text().strip(), judged.seconds


def line(what: str, full: list[float], short: list[float]) -> None:
    """A line of the table: medians, sums, and their ratios."""
    one, other = statistics.median(full), statistics.median(short)
    each = statistics.median(b / a for a, b in zip(full, short) if a)
    print(f"{what:22} {one:12.3f} {other:12.3f} {each:10.4f} {sum(full):14.3f} {sum(short):12.3f} {sum(short) / sum(full):8.4f}")


def faults_of(name: str, full: Found, short: Found) -> list[str]:
    faults = [f"{name}: not accepted: {it.said}" for it in (full, short) if it.winner and it.said != f"wins {it.winner}"]
    if full.winner and short.winner and full.winner != short.winner:
        faults.append(f"{name}: {full.winner} by a claim, {short.winner} by a short one")
    return faults


def add_words(words: script_words.Words) -> None:
    words.add_argument("--steps", type=script_words.a_number(1), default=10_000)
    words.add_argument("tsumego", type=script_words.program, metavar="TSUMEGO")
    words.add_argument("short_claims", type=script_words.program, metavar="SHORT_CLAIMS")
    words.add_argument("folders", type=script_words.file, nargs="+", metavar="FOLDER")


def main(given: argparse.Namespace) -> int:
    names = [(folder, name) for folder in given.folders for name in sorted(os.listdir(folder)) if name.endswith(".sgf")]
    records = [os.path.join(*it) for it in names]
    steps = ["--steps", str(given.steps)]
    faults, found = [], []
    for name in records:
        record = pathlib.Path(name).read_bytes()
        full = Found([given.tsumego, "solve", "--proof", *steps], [given.tsumego, "check"], b"tsucert", record)
        short = Found([given.short_claims, "prove", *steps], [given.short_claims, "check"], b"tsushort", record)
        found.append((full, short))
        faults += faults_of(name, full, short)
    pairs = [(full, short) for full, short in found if full.winner and short.winner]
    by_claims, by_short = (sum(it.winner is not None for it in each) for each in zip(*found)) if found else (0, 0)
    counts = f"{by_claims} proved by claims, {by_short} by short claims, {len(pairs)} by both"
    print(f"{len(records)} problems, {given.steps} steps: {counts}")
    if pairs:
        head = ("of those by both", "median full", "short", "ratio", "sum full", "short", "ratio")
        print("{:22} {:>12} {:>12} {:>10} {:>14} {:>12} {:>8}".format(*head))
        line("bytes", [a.bytes for a, _ in pairs], [b.bytes for _, b in pairs])
        line("seconds of finding", [a.finding for a, _ in pairs], [b.finding for _, b in pairs])
        line("seconds of judging", [a.judging for a, _ in pairs], [b.judging for _, b in pairs])
    for fault in faults:
        print(fault)
    return 1 if faults else 0
