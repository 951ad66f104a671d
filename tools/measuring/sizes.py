"""Times `within` and `solve` on one local fight, on boards of 9, 13, 19 and 25 rows.

    tools/measure sizes [TSUMEGO]     the built program, by default that of this repository

The fight is that of examples/bulky-five.sgf at the upper edge: on each board the same stones, marks and moves. It prints
the least processor time of several runs for each size, and how many times that of 9 rows it is; the greatest board has
7.7 times as many points.
"""

import argparse

import script_words
from measuring.runs import least

RUNS = 15
SIZES = (9, 13, 19, 25)
WORDS = (("within", "14", "--nodes", "4294967295"), ("solve",))
FIGHT = script_words.TOP / "examples/bulky-five.sgf"
TSUMEGO = str(script_words.TOP / "crates/tsumego/out/tsumego")


def record(rows: int) -> bytes:
    return FIGHT.read_bytes().replace(b"SZ[9]", b"SZ[%d]" % rows)


def add_words(words: script_words.Words) -> None:
    words.add_argument("program", nargs="?", type=script_words.program, default=TSUMEGO, metavar="TSUMEGO")


def main(given: argparse.Namespace) -> int:
    for words in WORDS:
        times = [least([given.program, *words], record(rows), RUNS).seconds for rows in SIZES]
        for rows, seconds in zip(SIZES, times):
            print(f"{words[0]}, {rows} rows: {seconds:.3f} s, {seconds / times[0]:.2f} times that of {SIZES[0]} rows")
    return 0
