"""Asks whether each search ends by its steps: many problems go to `tsumego solve`, each with a limit of time.

    tools/measure limits [OPTIONS] PROGRAMS

The programs are PROGRAMS/NAME/out/NAME. The problems are those of `random_problem` in tools/hostile_inputs.py, 12 to 18 empty
points on 7 to 9 rows; and, with `--games`, the questions of a list about positions of games: problem_tools puts up walls of
four kinds round 9, 12, 15 and 18 empty points. A list is a table with a line of names first (`id`, `file`, `node`, `target`,
`to play`), tabs between; a `file` is looked for below GAMES.

It prints a line for each kind of problem: how many were asked; how many were decided, decided with an answer tree that is too
large to be written, unknown by their steps, unknown by another limit, refused by problem_tools, ended by the limit of time, and
ended by the clock, because other work left them too little of a processor to reach that limit; the processor seconds of all runs,
those of the longest, and its name; and how many steps a second the runs made that ended by their steps. The status is 1 where a
run was ended by the limit of time or by the clock, or by a signal, or with a status other than 0 and 1. Each record of such a run,
and of a run of more than half of the limit, is written to the folder of `--keep`. Interrupted, it prints the table of what has
been asked.
"""

import argparse
import collections
import concurrent.futures
import csv
import os
import pathlib
import re
import resource
import signal
import subprocess
import sys
from collections.abc import Iterator

import hostile_inputs
import script_words
from measuring.runs import timed

NAME = "tools/measure limits"
POINTS, WALLS = (9, 12, 15, 18), ("natural", "hard", "race", "alone")
# How a run ended, and the column that counts those.
DECIDED, TREE, STEPS, OTHER, REFUSED, ENDED, CLOCK = ENDS = [
    "Decided", "Tree too large", "Out of steps", "Other limit", "Refused", "Out of time", "By the clock",
]
COLUMNS = ["Problems", "Asked", *ENDS, "Seconds in all", "Longest", "Which", "Steps a second"]
# How many times as long as the limit a run may take by the clock, on a machine that other work shares.
SHARED = 200


class Asked:
    """A problem: its kind, its name, and its record or the words with which problem_tools makes it from a file."""

    def __init__(
        self, kind: str, name: str, text: str = "", file: pathlib.Path | None = None, words: list[str] | None = None
    ) -> None:
        self.kind, self.name, self.text, self.file, self.words = kind, name, text, file, words

    def record(self, programs: dict[str, str]) -> bytes | None:
        """The bytes of the record. None where problem_tools refuses to make one."""
        if self.words is None:
            return self.text.encode()
        words = [programs["problem_tools"], *self.words]
        made = subprocess.run(words, input=self.file.read_bytes(), capture_output=True, check=False)
        return made.stdout if made.returncode == 0 else None


class Found:
    """What came of a problem: its kind and name, the record, how it ended, processor seconds, and what was written."""

    def __init__(self, asked: Asked, record: bytes, end: str, seconds: float = 0.0, said: str = "") -> None:
        self.kind, self.name, self.record, self.end, self.seconds, self.said = asked.kind, asked.name, record, end, seconds, said


def end_of(code: int, said: str) -> str:
    """How a run ended, by its status and what it wrote."""
    for words, end in (("unknown: step budget", STEPS), ("unknown: tree too large", TREE)):
        if code == 1 and said.startswith(words):
            return end
    if code == 0:
        return DECIDED
    return OTHER if code == 1 else ENDED


def find(programs: dict[str, str], given: argparse.Namespace, asked: Asked) -> Found:
    """Solves one problem. The limit is one of processor seconds, so that other work on the machine ends no run."""
    record = asked.record(programs)
    if record is None:
        return Found(asked, b"", REFUSED)
    words = [programs["tsumego"], "solve", "--steps", str(given.steps)]
    run = timed(words, record, limits={resource.RLIMIT_CPU: given.seconds}, clock=SHARED * given.seconds)
    said = run.output[:100].decode(errors="replace").strip()
    is_clock = run.status == -signal.SIGKILL and run.seconds < given.seconds
    return Found(asked, record, CLOCK if is_clock else end_of(run.status, said), run.seconds, said)


def random_problems(given: argparse.Namespace) -> Iterator[Asked]:
    for number in range(given.start, given.start + given.random):
        yield Asked("random", f"random-{number}", text=hostile_inputs.random_problem(number))


def questions(given: argparse.Namespace) -> Iterator[Asked]:
    """Each question with each number of points and each kind of walls."""
    with open(given.questions, newline="") as lines:
        rows = list(csv.DictReader(lines, delimiter="\t", quoting=csv.QUOTE_NONE))
    for row in rows[:: given.every]:
        for points in POINTS:
            for walls in WALLS:
                mover = {"B": "black", "W": "white"}[row["to play"]]
                words = ["mark", "--node", row["node"], "--target", row["target"], "--to-play", mover]
                words += ["--region", str(points), "--walls", walls]
                name = f"{row['id']}-{points}-{walls}"
                yield Asked(f"{points} points, {walls}", name, file=given.games / row["file"], words=words)


def keep(folder: pathlib.Path, found: Found) -> None:
    folder.mkdir(parents=True, exist_ok=True)
    (folder / f"{re.sub('[^A-Za-z0-9-]', '_', found.name)}.sgf").write_bytes(found.record)


def row_of(kind: str, all_found: list[Found], steps: int) -> list[str]:
    """The line of the table for a kind of problem."""
    ends = collections.Counter(it.end for it in all_found)
    longest = max(all_found, key=lambda it: it.seconds)
    spent = sum(it.seconds for it in all_found if it.end == STEPS)
    rate = f"{round(ends[STEPS] * steps / spent):,}" if spent else ""
    counts = [len(all_found), *(ends[it] for it in ENDS)]
    seconds = f"{sum(it.seconds for it in all_found):,.0f}"
    return [kind, *(f"{it:,}" for it in counts), seconds, f"{longest.seconds:.1f}", longest.name, rate]


def show(kinds: dict[str, list[Found]], steps: int) -> None:
    print("| " + " | ".join(COLUMNS) + " |\n" + "|---" * len(COLUMNS) + "|")
    for kind, all_found in kinds.items():
        print("| " + " | ".join(row_of(kind, all_found, steps)) + " |", flush=True)


def tell(found: Found, given: argparse.Namespace) -> None:
    """Names a run that was ended or took long, and keeps its record."""
    if found.end in (ENDED, CLOCK) or found.seconds > given.seconds / 2:
        print(f"{found.name}: {found.end}, {found.seconds:.1f} s, {found.said[:60]}", file=sys.stderr, flush=True)
        if given.keep:
            keep(given.keep, found)


def ask_all(programs: dict[str, str], given: argparse.Namespace, asked: list[Asked]) -> dict[str, list[Found]]:
    """What came of all, by kinds, up to an interrupt."""
    kinds = collections.defaultdict(list)
    signal.signal(signal.SIGTERM, signal.default_int_handler)
    with concurrent.futures.ThreadPoolExecutor(given.jobs) as pool:
        waiting = [pool.submit(find, programs, given, it) for it in asked]
        try:
            for done in concurrent.futures.as_completed(waiting):
                found = done.result()
                kinds[found.kind].append(found)
                tell(found, given)
        except KeyboardInterrupt:
            pool.shutdown(wait=False, cancel_futures=True)
            print(f"interrupted after {sum(map(len, kinds.values()))} of {len(asked)}", file=sys.stderr, flush=True)
    return kinds


def add_words(words: script_words.Words) -> None:
    some, any_ = script_words.a_number(1), script_words.a_number(0)
    words.add_argument("--random", type=any_, default=5_000, metavar="N", help="how many random problems [%(default)s]")
    words.add_argument("--start", type=any_, default=0, metavar="N", help="the number of the first of them [%(default)s]")
    words.add_argument("--steps", type=some, default=300_000, metavar="N", help="the steps of a search [%(default)s]")
    words.add_argument("--seconds", type=some, default=20, metavar="N", help="the limit, in seconds of a processor [%(default)s]")
    words.add_argument("--jobs", type=some, default=1, metavar="N", help="how many run at once [%(default)s]")
    words.add_argument("--questions", type=pathlib.Path, metavar="LIST", help="the list of questions about games")
    words.add_argument("--games", type=pathlib.Path, help="the folder with their records")
    words.add_argument("--every", type=some, default=1, metavar="K", help="only each K-th question [%(default)s]")
    words.add_argument("--keep", type=pathlib.Path, metavar="FOLDER", help="the folder for records that took long")
    words.add_argument("programs", type=pathlib.Path, metavar="PROGRAMS")


def check_words(given: argparse.Namespace) -> None:
    if (given.questions is None) != (given.games is None):
        script_words.refuse(NAME, "--questions and --games are given together")
    for path in filter(None, [given.questions, given.games]):
        if not path.exists():
            script_words.refuse(NAME, f"there is no {path}")


def main(given: argparse.Namespace) -> int:
    check_words(given)
    names = ["tsumego", *(["problem_tools"] if given.games else [])]
    programs = {it: str(given.programs.resolve() / it / "out" / it) for it in names}
    for path in programs.values():
        if not os.access(path, os.X_OK):
            script_words.refuse(NAME, f"there is no program {path}")
    asked = [*(questions(given) if given.games else []), *random_problems(given)]
    missing = next((it.file for it in asked if it.file and not it.file.exists()), None)
    if missing:
        script_words.refuse(NAME, f"there is no file {missing}")
    kinds = ask_all(programs, given, asked)
    if not kinds:
        script_words.refuse(NAME, "nothing is asked")
    show(kinds, given.steps)
    return 1 if any(it.end in (ENDED, CLOCK) for all_found in kinds.values() for it in all_found) else 0
