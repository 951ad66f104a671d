"""Measures tsumego beside plain C++ programs that do the same work, in the same run.

    tools/measure peers [--instructions] [--problems FOLDER] [--search PEER] PROGRAM [ROW..]

PROGRAM is a built tsumego. The peers are tools/peers/*.cpp, which are compiled with `g++ -O2` first. Without rows, all of them:

    claims   `check`, on claims of 100 kB and more that `solve --proof` writes for the examples and the records of FOLDER
    nodes    `check`, on claims without lemmas: a wide tree, cut at 1, 4 and 16 MB
    within   `within`, on four fights and a larger one, with more than 10,000 states
    audit    `audit`, on answers of `solve` with 3,000 turns or more
    sgf      reading two records of a megabyte, of long nodes and of short ones
    search   10,000 steps on records of FOLDER that both leave unknown; PEER is a built program, called as
             `PEER run steps=10000 shrink=0 claim=0 FILE`
    gtp      a session of 20,000 commands, beside GNU Go where it is installed

It prints a table: for each row the inputs, the processor seconds of both (the least of nine alternating runs each, all inputs
together), and the median and the greatest ratio, ours to the peer's; with --instructions also those of the instructions that
valgrind counts in one run. For `sgf` the seconds of a small record are taken off, and megabytes a second are printed too. Both
have to give the same answer for each input, except to `gtp`; the status is 1 where one differs.
"""

import argparse
import itertools
import os
import pathlib
import re
import statistics
import subprocess
import sys
import tempfile
import typing
from collections.abc import Callable

import script_words
from measuring.claims import Wide
from measuring.gtp import commands, gnugo
from measuring.runs import timed
from measuring.sizes import SIZES, record as fight

NAME = "tools/measure peers"
ROWS = ("claims", "nodes", "within", "audit", "sgf", "search", "gtp")
TURNS = 9
MOST_INPUTS = 12
STATES = "4294967295"
STEPS = "10000"


def instructions(words: list[str], given: bytes) -> int:
    """How many instructions valgrind counts."""
    with tempfile.NamedTemporaryFile() as found:
        count = ["valgrind", "--tool=callgrind", f"--callgrind-out-file={found.name}"]
        done = subprocess.run([*count, *words], input=given, stdout=subprocess.DEVNULL, stderr=subprocess.PIPE)
        return int(re.search(rb"Collected : (\d+)", done.stderr)[1])


class Row:
    """The inputs of one row, each with the words of both programs and what both have to agree on."""

    def __init__(
        self,
        name: str,
        ours: list[str],
        peer: list[str] | None,
        inputs: list[bytes],
        part: bytes = rb".*",
        small: bytes = b"",
    ) -> None:
        self.name, self.ours, self.peer, self.inputs, self.part, self.small = name, ours, peer, inputs, part, small
        self.seconds, self.counted, self.differ = [], [], 0

    def measure(self, is_counted: bool) -> None:
        for given in self.inputs:
            runs = [timed(words, given) for _ in range(TURNS) for words in (self.ours, self.peer)]
            ours, peer = runs[::2], runs[1::2]
            if self.answer(ours[0].output) != self.answer(peer[0].output):
                self.differ += 1
                print(f"{self.name}: ours {ours[0].output[:80]!r}, the peer {peer[0].output[:80]!r}", file=sys.stderr)
            both = ((ours, self.ours), (peer, self.peer))
            self.seconds.append([min(it.seconds for it in runs) - self.start(words) for runs, words in both])
            if is_counted:
                self.counted.append([instructions(words, given) for words in (self.ours, self.peer)])

    def answer(self, output: bytes) -> bytes | None:
        """The part on which both have to agree; None where there is none."""
        found = re.search(self.part, output)
        return found[0] if found else None

    def start(self, words: list[str]) -> float:
        """The seconds of the small input, if there is one."""
        return min(timed(words, self.small).seconds for _ in range(TURNS)) if self.small else 0

    def print(self) -> None:
        ours, peer = (sum(each) for each in zip(*self.seconds))
        cells = [f"`{self.name}`", len(self.inputs), f"{ours:.3f}, {peer:.3f}", *ratios(self.seconds)]
        cells += ratios(self.counted) if self.counted else []
        if self.small:
            sizes = [len(given) / 1e6 for given in self.inputs]
            speeds = [(size / one, size / other) for size, (one, other) in zip(sizes, self.seconds)]
            cells.append(", ".join(f"{one:.1f} and {other:.1f} MB/s" for one, other in speeds))
        print("| " + " | ".join(map(str, cells)) + " |", flush=True)


def ratios(pairs: list[list[float]]) -> list[str]:
    """The median and the greatest ratio of pairs; times under a hundredth of a second say nothing."""
    each = [one / max(other, 0.001) for one, other in pairs]
    return [f"{statistics.median(each):.2f}", f"{max(each):.2f}"]


def records(folder: str | None) -> list[bytes]:
    paths = sorted((script_words.TOP / "examples").glob("*.sgf"))
    paths += sorted(pathlib.Path(folder).glob("**/*.sgf")) if folder else []
    return [path.read_bytes() for path in paths]


def solved(program: str, problems: list[bytes], words: list[str], is_wanted: Callable[[bytes], bool]) -> list[bytes]:
    """Answers of `solve` with these words, the largest ones first."""
    found = []
    for record in problems:
        answer = timed([program, "solve", "--steps", "100000", *words], record).output
        if is_wanted(answer):
            found.append(answer)
    return sorted(found, key=len, reverse=True)[:MOST_INPUTS]


def wide_claims() -> list[bytes]:
    """A record and the front of a wide claim, of three lengths; both checkers reject it where it is cut."""
    wide, parts, length = Wide(), [], 0
    for part in wide.claim():
        parts.append(part)
        length += len(part)
        if length > 16_000_000:
            break
    text = "".join(parts)
    return [(wide.record() + text[: text.rindex("\n", 0, size) + 1]).encode() for size in (1_000_000, 4_000_000, 16_000_000)]


def wide_fight() -> bytes:
    """Seven points apart, at which Black plays in any order while White passes."""
    return b"(;SZ[9]AW[aa]PL[B]TR[aa]SQ[bg][dg][fg][hg][ai][ci][ei])"


def long_nodes() -> bytes:
    node = ";B[aa]C[" + "a comment of some words, as records of games have them, " * 4 + "]"
    return ("(;SZ[9]AW[aa]PL[B]TR[aa]" + ("(" + node + ";W[bb])") * 3_800 + ")").encode()


def short_nodes() -> bytes:
    return ("(;SZ[9]AW[aa]PL[B]TR[aa]" + "(;B[ba];W[ca];B[da];W[ea];B[fa];W[ga];B[ha];W[ia])" * 9_000 + ")").encode()


def unsolved(ours: list[str], peer: list[str], problems: list[bytes]) -> list[bytes]:
    """Records that both leave unknown."""
    left = (record for record in problems if all(b"unknown" in timed(words, record).output for words in (ours, peer)))
    return list(itertools.islice(left, MOST_INPUTS))


def row_of(name: str, program: str, peers: dict[str, str | None], problems: list[bytes]) -> Row:
    if name == "search":
        ours = [program, "solve", "--proof", "--steps", STEPS]
        peer = [peers["search"], "run", f"steps={STEPS}", "shrink=0", "claim=0", "/dev/stdin"]
        return Row(name, ours, peer, unsolved(ours, peer, problems) if peers["search"] else [], rb"unknown")
    if name == "gtp":
        return Row(name, [program, "gtp"], peer := gnugo(), [commands(19, 1)] if peer else [], rb"")
    if name == "claims":
        claims = solved(program, problems, ["--proof"], lambda answer: len(answer) > 100_000 and b"\nlemma " in answer)
        return Row(name, [program, "check"], [peers["checker"]], claims)
    if name == "nodes":
        return Row(name, [program, "check"], [peers["checker"]], wide_claims(), rb"rejected line \d+")
    if name == "within":
        inputs = [*map(fight, SIZES), wide_fight()]
        return Row(name, [program, "within", "9", "--nodes", STATES], [peers["within"], "9", STATES], inputs)
    if name == "audit":
        trees = solved(program, problems, [], lambda answer: answer.count(b";") > 3_000)
        return Row(name, [program, "audit"], [peers["audit"]], trees)
    small = b"(;SZ[9]AW[aa]PL[B]TR[aa])"
    return Row(name, [program, "within", "0"], [peers["sgf_reader"]], [long_nodes(), short_nodes()], rb"", small)


def compiled(folder: str) -> dict[str, str]:
    """The peers, compiled into this folder."""
    script_words.need("g++:g++")
    peers = {}
    for source in sorted((script_words.TOP / "tools/peers").glob("*.cpp")):
        peers[source.stem] = os.path.join(folder, source.stem)
        subprocess.run(["g++", "-std=c++17", "-O2", "-pthread", "-o", peers[source.stem], source], check=True)
    return peers


def show_head(is_counted: bool) -> None:
    columns = ["Row", "Inputs", "Seconds: ours, the peer", "Ratio: median", "Greatest"]
    columns += ["Instructions: median", "Greatest"] if is_counted else []
    print("| " + " | ".join([*columns, ""]) + " |\n|" + "---|" * (len(columns) + 1))


def add_words(words: script_words.Words) -> None:
    words.add_argument("--instructions", action="store_true")
    words.add_argument("--problems", metavar="FOLDER", type=script_words.file)
    words.add_argument("--search", metavar="PEER", type=script_words.program)
    words.add_argument("program", type=script_words.program, metavar="PROGRAM")
    words.add_argument("rows", nargs="*", default=[], metavar="ROW")


def main(given: argparse.Namespace) -> int:
    unknown = [name for name in given.rows if name not in ROWS]
    if unknown:
        script_words.refuse(NAME, f"there is no row {unknown[0]}")
    if given.instructions:
        script_words.need("valgrind:valgrind")
    differ = 0
    with tempfile.TemporaryDirectory() as folder:
        peers: dict[str, typing.Any] = {**compiled(folder), "search": given.search}
        problems = records(given.problems)
        show_head(given.instructions)
        for name in given.rows or ROWS:
            row = row_of(name, given.program, peers, problems)
            if not row.inputs:
                print(f"| `{name}` | nothing to measure with: --help says what it takes |", flush=True)
                continue
            row.measure(given.instructions)
            row.print()
            differ += row.differ
    return 1 if differ else 0
