"""What contrib/solve-folder costs: processor time for each record, beside that of a plain loop of the shell, in one run.

    tools/measure folder PROGRAM [--records N] [--steps N] [--most MS]

The records are the problems of examples/, as many times over as asked for, each with a comment of its own. The program alone
is what the system counts for the started programs themselves; the loop adds what the shell needs to start them. The status is
1 where solve-folder costs more than --most milliseconds a record beyond the program alone, which are 5 by default.
"""

import argparse
import os
import pathlib
import shutil
import tempfile

import script_words
from measuring.runs import timed

LOOP = 'for record in "$1"/*.sgf; do "$0" solve --steps "$3" <"$record" >"$2/${record##*/}"; done'
TURNS = 3


def make_records(folder: pathlib.Path, count: int) -> None:
    problems = sorted((script_words.TOP / "examples").glob("*.sgf"))
    for number in range(count):
        text = problems[number % len(problems)].read_text().strip()
        (folder / f"problem {number:03}.sgf").write_text(f"{text[:-1]};C[{number}])\n")


def alone(program: str, records: pathlib.Path, steps: str) -> float:
    """The seconds of the program on each record in turn."""
    return sum(timed([program, "solve", "--steps", steps], it, is_kept=False).seconds for it in sorted(records.iterdir()))


def once(words: list, answers: pathlib.Path) -> float:
    """The seconds of a run; the answers of one before it are taken away, so that each asks all records."""
    shutil.rmtree(answers, ignore_errors=True)
    return timed(words, is_kept=False).seconds


def costs(program: str, steps: str, count: int) -> dict[str, float]:
    """The milliseconds of the processor for a record, of each way to solve them."""
    with tempfile.TemporaryDirectory() as folder:
        records, by_loop, by_folder = (pathlib.Path(folder, name) for name in ("records", "loop", "answers"))
        records.mkdir()
        by_loop.mkdir()
        make_records(records, count)
        loop = ["bash", "-c", LOOP, program, records, by_loop, steps]
        solve = [script_words.TOP / "contrib/solve-folder", "--program", program, "--steps", steps, records, by_folder]
        runs = {
            "the program alone": lambda: alone(program, records, steps),
            "a plain loop of the shell": lambda: timed(loop, is_kept=False).seconds,
            "contrib/solve-folder": lambda: once(solve, by_folder),
        }
        return {name: 1000 * min(run() for _ in range(TURNS)) / count for name, run in runs.items()}


def add_words(words: script_words.Words) -> None:
    words.add_argument("program", type=script_words.program, metavar="PROGRAM")
    words.add_argument("--records", type=script_words.a_number(1), default=90)
    words.add_argument("--steps", type=script_words.a_number(1), default=10_000)
    words.add_argument("--most", type=float, default=5)


def main(given: argparse.Namespace) -> int:
    cost = costs(given.program, str(given.steps), given.records)
    machine = f"{os.cpu_count()} processors, load {os.getloadavg()[0]:.1f}"
    print(f"{given.records} records, --steps {given.steps}, {machine}; least of {TURNS} runs")
    first = cost["the program alone"]
    for name, milliseconds in cost.items():
        print(f"{name}: {milliseconds:.2f} ms of processor time a record, {milliseconds - first:.2f} beyond the program")
    return int(cost["contrib/solve-folder"] - first > given.most)
