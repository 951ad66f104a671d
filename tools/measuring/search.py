"""Measures `tsumego solve --proof` on folders of problems beside other solvers of the same game, in one run.

    tools/measure search [OPTIONS] NAME=SOLVER.. --problems FOLDER..

A SOLVER is the path of a built tsumego, which is called as `SOLVER solve --proof --steps N < FILE`; or a command with `{steps}`
and `{file}` in it, which prints a line whose second field (after a tab) is Black, White or `unknown..`, as

    'stage B=./peer run steps={steps} shrink=0 claim=0 {file}'

Each problem is given to all solvers one after the other. For each number of steps it prints, a line a solver: how many are
solved, how many within so many seconds of processor time, the seconds in all and the greatest of a solved one, and the greatest
memory; for tsumego also how many claims were not confirmed or past a limit (the first has to stay 0) and the sizes of claims.
Then it names each problem that the first solver does not solve and another does, and each winner that differs between solvers
or from an index (`index.tsv` in a FOLDER: the name in the first column, the winner in the fourth).
"""

import argparse
import os
import pathlib
import re
import shlex
import statistics
import typing

import script_words
from measuring.runs import timed

WINNERS = {b"B": "Black", b"W": "White"}


class Answer(typing.NamedTuple):
    """Seconds and kB of a run, who wins (None where that is not known), what was said instead, and the bytes of its claim."""

    seconds: float
    memory: int
    winner: str | None
    said: str = ""
    bytes: int = 0


def by_tsumego(program: str, record: str, steps: str, table: int) -> Answer:
    words = [program, "solve", "--proof", "--steps", steps, *(["--table", str(table)] if table else [])]
    run = timed(words, pathlib.Path(record))
    claim = re.search(rb"^tsucert \d+ \d+ ([BW])$", run.output, re.MULTILINE)
    if claim:
        return Answer(run.seconds, run.memory, WINNERS[claim[1]], bytes=len(run.output) - claim.start())
    before = "" if run.status in (0, 1) else f"status {run.status}: "
    return Answer(run.seconds, run.memory, None, before + run.text().strip())


def by_peer(command: str, record: str, steps: str) -> Answer:
    run = timed([word.format(steps=steps, file=record) for word in shlex.split(command)])
    fields = run.text().split("\t")
    return Answer(run.seconds, run.memory, fields[1] if len(fields) > 1 and fields[1] in ("Black", "White") else None)


def ask(solver: str, record: str, steps: str, table: int) -> Answer:
    return by_peer(solver, record, steps) if "{file}" in solver else by_tsumego(solver, record, steps, table)


def records_of(folders: list[str], start: int, every: int) -> list[str]:
    records = []
    for folder in folders:
        names = sorted(name for name in os.listdir(folder) if name.endswith(".sgf"))
        records += [os.path.join(folder, name) for name in names[start::every]]
    return records


def winners_of(folders: list[str]) -> dict[str, str]:
    """The winners that the indexes of the folders name, by the names of records."""
    known = {}
    for folder in map(pathlib.Path, folders):
        for index in (folder / "index.tsv", folder.resolve().parent / "index.tsv"):
            rows = [line.split("\t") for line in index.read_text().splitlines()] if index.exists() else []
            known.update({row[0]: row[3] for row in rows if len(row) > 3 and row[3] in ("Black", "White")})
    return known


def tell(name: str, answers: list[Answer], limits: list[float]) -> None:
    solved = [it for it in answers if it.winner]
    seconds = [it.seconds for it in solved]
    within = ", ".join(f"{sum(1 for it in seconds if it <= limit)} within {limit:g} s" for limit in limits)
    median = statistics.median(seconds) if seconds else 0
    print(f"  {name}: {len(solved)} solved of {len(answers)} ({within}); {sum(it.seconds for it in answers):.1f} s in all, "
          f"{sum(seconds):.1f} s those solved, median {median:.2f}, greatest {max(seconds, default=0):.2f}; "
          f"{max(it.memory for it in answers) / 1024:.0f} MB")
    sizes = [it.bytes for it in solved if it.bytes]
    if sizes:
        said = [it.said for it in answers]
        print(f"    claims: median {statistics.median(sizes) / 1000:.0f} kB, greatest {max(sizes) / 1000:.0f} kB; "
              f"{sum('not confirmed' in it for it in said)} not confirmed, {sum('limit' in it for it in said)} past a limit, "
              f"{sum('memory' in it for it in said)} memory, {sum(it.startswith('status') for it in said)} ended otherwise")


def compare(answers: dict[str, list[Answer]], records: list[str], known: dict[str, str]) -> None:
    (first, of_first), *others = answers.items()
    for other, of_other in others:
        lost = [os.path.basename(r) for r, a, b in zip(records, of_first, of_other) if b.winner and not a.winner]
        print(f"  solved by {other} and not by {first}: {' '.join(lost) or 'none'}")
    differ = set()
    for record, *of_record in zip(records, *answers.values()):
        said = {it.winner for it in of_record} | {known.get(os.path.basename(record))}
        if len(said - {None}) > 1:
            differ.add(os.path.basename(record))
    print(f"  winners that differ: {' '.join(sorted(differ)) or 'none'}", flush=True)


def add_words(words: script_words.Words) -> None:
    words.add_argument("solvers", nargs="+", metavar="NAME=SOLVER")
    words.add_argument("--problems", nargs="+", type=script_words.file, required=True, metavar="FOLDER")
    words.add_argument("--steps", default="10000,100000", metavar="N,..", help="the steps of a search [%(default)s]")
    words.add_argument("--seconds", default="0.3,1,3", metavar="S,..", help="within how many seconds [%(default)s]")
    words.add_argument("--every", type=script_words.a_number(1), default=1, metavar="K", help="each K-th problem of a folder alone")
    words.add_argument("--from", dest="start", type=script_words.a_number(0), default=0, metavar="N", help="the first of them")
    words.add_argument("--table", type=script_words.a_number(0), default=0, metavar="N", help="the size of tsumego's table")
    words.add_argument("--verbose", action="store_true", help="a line for each problem and solver")


def main(given: argparse.Namespace) -> int:
    name = "tools/measure search"
    wrong = next((it for it in given.solvers if "=" not in it), None)
    if wrong:
        script_words.refuse(name, f"{wrong} is no NAME=SOLVER")
    solvers = dict(solver.split("=", 1) for solver in given.solvers)
    limits = [float(limit) for limit in given.seconds.split(",")]
    records = records_of(given.problems, given.start, given.every)
    if not records:
        script_words.refuse(name, f"there is no problem in {' '.join(given.problems)}")
    known = winners_of(given.problems)
    for steps in given.steps.split(","):
        answers = {name: [] for name in solvers}
        for record in records:
            for name, solver in solvers.items():
                answers[name].append(it := ask(solver, record, steps, given.table))
                if given.verbose:
                    print(f"    {os.path.basename(record)}\t{name}\t{it.winner or it.said}\t{it.seconds:.2f} s", flush=True)
        print(f"{steps} steps, {len(records)} problems")
        for name, its in answers.items():
            tell(name, its, limits)
        compare(answers, records, known)
    return 0
