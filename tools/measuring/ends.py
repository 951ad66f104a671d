"""Compares what group_status says of every group at the ends of games with GNU Go's final_status_list.

    tools/measure ends [--boards N] [--seed N] [--steps N] [--table FILE] GROUP_STATUS [FILE..]

GROUP_STATUS is the built program; it is called as `GROUP_STATUS --all --json [--steps N] < FILE`. Without files the games are
those of Debian's package goban-original-games that have a counted result, and N of them, 40 by default, are drawn by the seed,
1 by default, so that nobody has chosen them. For root, that package and gnugo are installed.

It prints for each word how many stones and chains have it, and their shares: proved alive, proved dead, dead while named stones
stand, other words, and none; then of how many stones and chains with each status and word GNU Go says the same, how many boards
have a word for each chain, the processor seconds of group_status for a board (median and most), and each disagreement: the game,
the chain's first stone, how many stones, and what both say. Chains that GNU Go calls alive or in seki should be alive, those that
it calls dead should be dead. FILE is given a line for each board. Interrupted, it prints what came of the boards that were asked.
The status is 1 where a proved word disagrees.
"""

import argparse
import collections
import json
import os
import pathlib
import random
import re
import shutil
import signal
import statistics
import subprocess
import sys
import time

import script_words
from measuring.runs import timed

NAME = "tools/measure ends"
GAMES, PACKAGE = pathlib.Path("/usr/share/goban"), "goban-original-games"
COUNTED = re.compile(rb"RE\[[BW]\+[0-9]+(\.[05])?\]")
COLUMNS = "ABCDEFGHJKLMNOPQRSTUVWXYZ"
GNUGO = ["gnugo", "--mode", "gtp", "--quiet", "--level", "10", "--chinese-rules", "--positional-superko", "--allow-suicide"]
ASKED = ["list_stones black", "list_stones white", *(f"final_status_list {it}" for it in ("alive", "dead", "seki"))]
WORDS = ["proved alive", "proved dead", "dead while stones stand", "other words", "none"]
SECONDS = 1_800  # for one board


def need_games() -> None:
    """Ends the script unless the games are there. For root they are installed."""
    if not GAMES.is_dir() and os.geteuid() == 0 and shutil.which("apt-get"):
        for words in (["update"], ["install", "-y", PACKAGE]):
            subprocess.run(["apt-get", *words], stdin=subprocess.DEVNULL, capture_output=True, check=False)
    if not GAMES.is_dir():
        print(f"{NAME}: there is no folder {GAMES} (of the package {PACKAGE})", file=sys.stderr)
        sys.exit(4)


def drawn(boards: int, seed: int) -> list[pathlib.Path]:
    """So many games with a counted result, by chance."""
    need_games()
    counted = [file for file in sorted(GAMES.iterdir()) if COUNTED.search(file.read_bytes())]
    return random.Random(seed).sample(counted, min(boards, len(counted)))


def vertices(text: str) -> list[str]:
    return re.findall(r"\b[A-HJ-Z][0-9]{1,2}\b", text)


def by_gnugo(file: pathlib.Path) -> tuple[dict[str, str], dict[str, str]] | None:
    """The stones at the end of a game, and what GNU Go says of each: two tables by vertex. None where it cannot read the game."""
    commands = "".join(f"{it}\n" for it in [f"loadsgf {file}", *ASKED, "quit"])
    said = subprocess.run(GNUGO, input=commands, capture_output=True, text=True, timeout=SECONDS, check=False).stdout
    answers = said.split("\n\n")[1 : 1 + len(ASKED)]
    if len(answers) < len(ASKED) or not all(it.startswith("=") for it in answers):
        return None
    stones = {vertex: colour for colour, text in zip("BW", answers) for vertex in vertices(text)}
    status = {vertex: word for word, text in zip(("alive", "dead", "seki"), answers[2:]) for vertex in vertices(text)}
    return stones, status


def beside(vertex: str) -> list[str]:
    column, row = COLUMNS.index(vertex[0]), int(vertex[1:])
    places = [(column - 1, row), (column + 1, row), (column, row - 1), (column, row + 1)]
    return [f"{COLUMNS[column]}{row}" for column, row in places if 0 <= column < len(COLUMNS)]


def chain_of(stones: dict[str, str], vertex: str) -> set[str]:
    chain, unvisited = {vertex}, [vertex]
    while unvisited:
        more = [it for it in beside(unvisited.pop()) if stones.get(it) == stones[vertex] and it not in chain]
        chain.update(more)
        unvisited += more
    return chain


def chains_of(stones: dict[str, str]) -> list[tuple[str, set[str]]]:
    """All chains, each by its first stone, row by row."""
    chains, left = [], dict(stones)
    for vertex in sorted(stones, key=lambda it: (-int(it[1:]), it[0])):
        if vertex in left:
            chains.append((vertex, chain_of(stones, vertex)))
            for it in chains[-1][1]:
                del left[it]
    return chains


def word_of(group: dict) -> str:
    """In which of WORDS a group is. A program that names no stones on which a proof stands has no such condition."""
    status, word, proof = group.get("status"), group.get("word"), group.get("proof") or {}
    if status not in ("alive", "dead", "unsettled"):
        return "none"
    supposed = proof.get("while") if isinstance(proof, dict) else None
    if status == "dead" and (supposed or group.get("while") or word == "while"):
        return "dead while stones stand"
    return f"proved {status}" if word == "proved" and status != "unsettled" else "other words"


def by_group_status(program: str, options: list[str], file: pathlib.Path) -> tuple[list[dict], float] | None:
    """What group_status says of each group, and its processor seconds. None where it refuses the game."""
    run = timed([program, "--all", "--json", *options], file)
    lines = run.text().splitlines()
    if run.status != 0:
        print(f"{file}: group_status ended with {run.status}: {lines[:1]}", file=sys.stderr)
        return None
    return [json.loads(line) for line in lines], run.seconds


class Agreement:
    """How many chains and stones have a status and a word, and of how many GNU Go says the same."""

    def __init__(self) -> None:
        self.chains, self.stones, self.agreeing_chains, self.agreeing_stones = 0, 0, 0, 0

    def add(self, stones: int, agrees: bool) -> None:
        self.chains, self.stones = self.chains + 1, self.stones + stones
        self.agreeing_chains, self.agreeing_stones = self.agreeing_chains + agrees, self.agreeing_stones + agrees * stones


class Tally:
    """What was said of all boards."""

    def __init__(self) -> None:
        self.stones, self.chains = collections.Counter(), collections.Counter()
        self.agreements = collections.defaultdict(Agreement)
        self.seconds, self.boards, self.differ, self.whole, self.is_wrong = [], [], [], 0, False

    def add_board(self, name: str, stones: dict[str, str], status: dict[str, str], groups: list[dict], seconds: float) -> None:
        """Each chain has the group that names one of its stones, or whose target is one of them."""
        of_stone = {vertex: group for group in groups for vertex in [*(group.get("stones") or []), group["target"]]}
        before = self.stones.copy()
        words = [self.add_chain(name, first, chain, status, of_stone) for first, chain in chains_of(stones)]
        self.whole += "none" not in words
        self.seconds.append(seconds)
        self.boards.append((name, *(self.stones[word] - before[word] for word in WORDS), f"{seconds:.2f}"))

    def add_chain(self, name: str, first: str, chain: set[str], status: dict[str, str], of_stone: dict[str, dict]) -> str:
        group = next((of_stone[vertex] for vertex in sorted(chain) if vertex in of_stone), {})
        word = word_of(group)
        self.stones[word] += len(chain)
        self.chains[word] += 1
        if word == "none":
            return word
        theirs, said = status.get(first, "not named"), f"{group['status']} ({group['word']})"
        agrees = group["status"] == ("dead" if theirs == "dead" else "alive")
        self.agreements[said].add(len(chain), agrees)
        if not agrees:
            self.differ.append((name, first, len(chain), said, theirs))
            self.is_wrong |= word.startswith("proved")
        return word

    def show(self) -> None:
        stones, chains = sum(self.stones.values()), sum(self.chains.values())
        print(f"{len(self.seconds)} boards, {stones:,} stones, {chains:,} chains; {self.whole} boards have a word for each chain")
        for word in WORDS:
            shares = 100 * self.stones[word] / max(stones, 1), 100 * self.chains[word] / max(chains, 1)
            print(f"{word:24} {self.stones[word]:6} stones {shares[0]:5.1f} %   {self.chains[word]:5} chains {shares[1]:5.1f} %")
        for said, it in sorted(self.agreements.items(), key=lambda item: -item[1].stones):
            agreed = f"{it.agreeing_stones} of {it.stones} stones, {it.agreeing_chains} of {it.chains} chains"
            print(f"{said:24} GNU Go agrees on {agreed}")
        if self.seconds:
            print(f"seconds a board: median {statistics.median(self.seconds):.2f}, most {max(self.seconds):.2f}")
        print(f"{len(self.differ)} disagreements with GNU Go")
        for name, first, count, ours, theirs in self.differ:
            print(f"    {name} {first}, {count} stones: {ours}, GNU Go {theirs}")

    def write(self, file: pathlib.Path) -> None:
        """A line for each board: the stones of each word, and the seconds."""
        about = f"# {time.strftime('%Y-%m-%d')}, stones of each word and seconds of the processor, load {os.getloadavg()[0]:.1f}\n"
        lines = [("Game", *WORDS, "Seconds"), *self.boards]
        file.write_text(about + "".join("\t".join(map(str, line)) + "\n" for line in lines))


def ask_all(tally: Tally, program: str, options: list[str], files: list[pathlib.Path]) -> None:
    """Asks about each board."""
    for number, file in enumerate(files, 1):
        judged = by_gnugo(file)
        answer = judged and by_group_status(program, options, file)
        if not answer:
            print(f"{file.name} is left out", file=sys.stderr)
            continue
        tally.add_board(file.name, *judged, *answer)
        print(f"{time.strftime('%H:%M:%S')} {number} of {len(files)}: {file.name}, {answer[1]:.1f} s", file=sys.stderr, flush=True)


def add_words(words: script_words.Words) -> None:
    words.add_argument("--boards", type=script_words.a_number(1), default=40)
    words.add_argument("--seed", type=int, default=1)
    words.add_argument("--steps", type=script_words.a_number(1))
    words.add_argument("--table", type=pathlib.Path, metavar="FILE")
    words.add_argument("program", type=script_words.program, metavar="GROUP_STATUS")
    words.add_argument("files", nargs="*", default=[], type=script_words.file, metavar="FILE")


def main(given: argparse.Namespace) -> int:
    os.environ["PATH"] += ":/usr/games"
    script_words.need("gnugo:gnugo")
    files = [pathlib.Path(it) for it in given.files] or drawn(given.boards, given.seed)
    tally, options = Tally(), ["--steps", str(given.steps)] if given.steps else []
    signal.signal(signal.SIGTERM, signal.default_int_handler)
    try:
        ask_all(tally, given.program, options, files)
    except KeyboardInterrupt:
        print(f"interrupted after {len(tally.seconds)} of {len(files)}", file=sys.stderr, flush=True)
    tally.show()
    if given.table:
        tally.write(given.table)
    return 1 if tally.is_wrong else 0
