"""Times `tsumego gtp` on lists of 20,000 commands for 5, 9 and 19 rows, beside GNU Go where it is installed, and plays 200
commands with it over two pipes, each sent only after the reply before it was read.

    tools/measure gtp [TSUMEGO]     the built program, by default that of this repository

Half of each list is `play` at random points, every tenth command a `showboard`, the others are `undo` and, rarely,
`clear_board`. It prints seconds of the processor and commands a second. Both programs get the same list, and what they answer
is compared by its length in replies alone, since they may differ on suicide.
"""

import argparse
import random
import shutil
import subprocess

import script_words
from measuring.runs import timed
from measuring.sizes import TSUMEGO

COMMANDS = 20_000
ROWS = (5, 9, 19)
TURNS = 3
LETTERS = "ABCDEFGHJKLMNOPQRSTUVWXYZ"


def gnugo() -> list[str] | None:
    """The words that start GNU Go with the rules of tsumego, where it is installed."""
    path = shutil.which("gnugo") or shutil.which("gnugo", path="/usr/games")
    return [path, "--mode", "gtp", "--positional-superko", "--allow-suicide"] if path else None


def commands(rows: int, seed: int) -> bytes:
    chance = random.Random(seed)
    lines = [f"boardsize {rows}", "clear_board"]
    while len(lines) < COMMANDS - 1:
        number = len(lines)
        if number % 10 == 9:
            lines.append("showboard")
        elif number % 2 == 0:
            lines.append(play(chance, rows))
        elif chance.random() < 0.004:
            lines.append("clear_board")
        elif chance.random() < 0.5:
            lines.append("undo")
        else:
            lines.append(play(chance, rows))
    return "\n".join([*lines, "quit", ""]).encode()


def play(chance: random.Random, rows: int) -> str:
    colour = chance.choice("bw")
    return f"play {colour} {chance.choice(LETTERS[:rows])}{chance.randint(1, rows)}"


def session(words: list[str], text: bytes) -> tuple[float, int]:
    """The least seconds of a few sessions, and the replies of one."""
    runs = [timed(words, text) for _ in range(TURNS)]
    replies = sum(1 for reply in runs[0].output.split(b"\n\n") if reply.strip())
    return min(it.seconds for it in runs), replies


def client(path: str) -> None:
    """A client that sends a command only after it has read the reply before it."""
    with subprocess.Popen([path, "gtp"], stdin=subprocess.PIPE, stdout=subprocess.PIPE) as engine:
        for number in range(200):
            engine.stdin.write(f"{number} play b {LETTERS[number % 19]}{number // 19 + 1}\n".encode())
            engine.stdin.flush()
            reply = engine.stdout.readline()
            assert reply == f"={number}\n".encode(), reply
            assert engine.stdout.readline() == b"\n"
        engine.stdin.write(b"quit\n")
        engine.stdin.flush()
        assert engine.stdout.read() == b"=\n\n"
    print("200 commands, each after the reply before it: answered")


def add_words(words: script_words.Words) -> None:
    words.add_argument("program", nargs="?", type=script_words.program, default=TSUMEGO, metavar="TSUMEGO")


def main(given: argparse.Namespace) -> int:
    client(given.program)
    peer = gnugo()
    engines = {"tsumego": [given.program, "gtp"], **({"gnugo": peer} if peer else {})}
    for rows in ROWS:
        text = commands(rows, rows)
        for name, words in engines.items():
            seconds, replies = session(words, text)
            print(f"{rows} rows: {name} {seconds:.2f} s, {COMMANDS / seconds:.0f} commands a second, {replies} replies")
    return 0
