"""Measures what docs/PERFORMANCE.md shows in tables, and writes these anew.

    tools/measure tables PROGRAMS [PART..]     PROGRAMS/NAME/out/NAME are built programs, as `crates` after a gate; by default
                                               all parts

Each part writes docs/measured/PART.tsv, and the page's table between the lines `<!-- measured PART -->` and `<!-- end -->`; the
line of text above a table says when, of what and on what machine. `docs/check` asks whether page and files are the same. Each
number is the best of several runs, programs in turn where there are two; processor time is that of the processes, user and
system. The first four parts take the inputs that `tools/measure inputs` writes, ask first for the answer that each has to have,
and take off the time of a run that only reads the problem. The parts:

    records    an SGF record of a megabyte read, and read and written (wants the program problem_tools too)
    deciding   states a second, on boards of five sizes, and after 999 positions
    claims     lines of claims judged a second
    trees      turns of answer trees read and audited a second
    sizes      one fight on boards of 9 to 25 rows
    lines      one long line of play
    opening    steps without squares, with their seconds and memory
    sessions   commands of GTP a second, beside GNU Go where it is installed
"""

import argparse
import os
import pathlib
import re
import subprocess
import sys
import time

import script_words
from measuring import inputs
from measuring.gtp import COMMANDS, ROWS, commands, gnugo
from measuring.runs import least, timed
from measuring.sizes import RUNS, SIZES, WORDS, record as fight

NAME = "tools/measure tables"
TOP = script_words.TOP
PAGE, FOLDER = TOP / "docs/PERFORMANCE.md", TOP / "docs/measured"
# Where the time of another run is taken off, which may be most of it.
MANY_TURNS = 60

Words = list[str]
Call = tuple[Words, bytes]
Rows = list[tuple[str, ...]]
# The first line of a table, and its rows.
Table = tuple[tuple[str, ...], Rows]
# The paths of the programs, by their names.
Programs = dict[str, str]


def demand(words: Words, text: bytes, wanted: str) -> None:
    """Runs a program once, and ends where the first line that it writes is another one."""
    came = timed(words, text).text()
    if came.partition("\n")[0] != wanted:
        sys.exit(f"{NAME}: {' '.join(words)} says {came[:80]!r}, not {wanted[:80]!r}")


def seconds_beyond(run: Call, start: Call) -> float:
    """The least processor seconds of a run, less those of one that has little to do; both in turn."""
    times = [[timed(*it, is_kept=False).seconds for it in (run, start)] for _ in range(MANY_TURNS)]
    least_run, least_start = (min(it) for it in zip(*times))
    return least_run - least_start


def read_run(programs: Programs, text: bytes) -> Call:
    """The run that reads a record, and does nothing with it."""
    return [programs["tsumego"], "within", "0"], text


def number(value: int) -> str:
    return f"{value:,}"


def measure_records(programs: Programs) -> Table:
    text = inputs.long_record()
    run = read_run(programs, text.encode())
    demand(*run, "neither")
    reading = seconds_beyond(run, read_run(programs, inputs.SHORT_RECORD.encode()))
    words = [programs["problem_tools"], "split", "1"]
    demand(words, text.encode(), text)
    both = seconds_beyond((words, text.encode()), (words, inputs.SHORT_RECORD.encode()))
    rows = [(name, number(round(len(text) / it))) for name, it in (("reading", reading), ("reading and writing", both))]
    return (f"A record of {number(len(text))} bytes", "Bytes a second"), rows


def measure_deciding(programs: Programs) -> Table:
    rows = []
    for corner in inputs.CORNERS:
        text = corner.record().encode()
        words = [programs["tsumego"], "within", str(corner.turns), "--nodes"]
        # One state fewer is too few for the tree, so it has exactly so many.
        demand([*words, str(corner.states)], text, corner.answer)
        demand([*words, str(corner.states - 1)], text, "limit")
        seconds = seconds_beyond(([*words, str(corner.states)], text), read_run(programs, text))
        board, speed = f"{corner.rows} by {corner.rows}", number(round(corner.states / seconds))
        rows.append((board, str(corner.past), str(corner.turns), number(corner.states), speed))
    return ("Board", "Positions before", "Turns", "States", "Decided a second"), rows


def measure_claims(programs: Programs) -> Table:
    rows, words = [], [programs["tsumego"], "check"]
    for claim in inputs.claims():
        text, lines = (claim.record + claim.text).encode(), claim.text.count("\n")
        demand(words, text, claim.answer)
        seconds = seconds_beyond((words, text), read_run(programs, claim.record.encode()))
        rows.append((claim.name, number(lines), number(round(lines / seconds))))
    return ("Claim", "Lines", "Judged, lines a second"), rows


def measure_trees(programs: Programs) -> Table:
    rows, words = [], [programs["tsumego"], "audit"]
    for places in inputs.PLACES:
        problem, text = (it.encode() for it in inputs.answer_tree(places))
        # The problem's two nodes are no turns.
        turns = text.count(b";") - 2
        demand(words, text, "wins White")
        start = read_run(programs, problem)
        audited = turns / seconds_beyond((words, text), start)
        read = turns / seconds_beyond(read_run(programs, text), start)
        rows.append((str(places), number(turns), number(round(audited)), number(round(read))))
    return ("Places", "Turns", "Read and audited, turns a second", "Read alone"), rows


def measure_sizes(programs: Programs) -> Table:
    rows = []
    for words in WORDS:
        times = [least([programs["tsumego"], *words], fight(size), RUNS).seconds for size in SIZES]
        rows.append((f"`{words[0]}`", *(f"{it:.3f} s" for it in times), f"{times[-1] / times[0]:.2f}"))
    return ("Command", *(f"{size} rows" for size in SIZES), "25 to 9 rows"), rows


def measure_lines(programs: Programs) -> Table:
    rows = []
    for kind, turns, words, what in (("audit", 2_500, ["audit"], "turns"), ("audit", 10_000, ["audit"], "turns"),
                                     ("past", 1, ["within", "0"], "turns before"), ("past", 370, ["within", "0"], "turns before"),
                                     ("past", 1_490, ["within", "0"], "turns before")):
        text = subprocess.run([TOP / "tools/long_line.py", str(turns), kind], stdout=subprocess.PIPE, check=True).stdout
        seconds = least([programs["tsumego"], *words], text, 20).seconds
        rows.append((f"`{' '.join(words)}`, {number(turns)} {what}", f"{1000 * seconds:.1f} ms"))
    return ("Run", "Time"), rows


def measure_opening(programs: Programs) -> Table:
    text = re.sub(r"SQ(\[[^]]*\])+", "", (TOP / "examples/bent-four.sgf").read_text()).encode()
    rows = []
    for steps in (10_000, 100_000, 1_000_000):
        run = least([programs["tsumego"], "solve", "--steps", str(steps)], text, 1 if steps == 1_000_000 else 3)
        rows.append((number(steps), f"{run.seconds:.2f}", f"{run.memory / 1000:.0f} MB"))
    return ("Steps", "Seconds", "Memory"), rows


def measure_sessions(programs: Programs) -> Table:
    peer = gnugo()
    engines = [[programs["tsumego"], "gtp"], *([peer] if peer else [])]
    rows = []
    for size in ROWS:
        text = commands(size, size)
        times = [[timed(engine, text, is_kept=False).seconds for engine in engines] for _ in range(3)]
        fastest = [min(it) for it in zip(*times)]
        cells = [f"{it:.2f} s, {number(round(COMMANDS / it))} commands a second" for it in fastest]
        rows.append((str(size), *cells, *([f"{fastest[1] / fastest[0]:.1f}"] if peer else ["not there", ""])))
    return ("Rows", "`tsumego`", "GNU Go", "Times as fast"), rows


PARTS = {
    "records": measure_records,
    "deciding": measure_deciding,
    "claims": measure_claims,
    "trees": measure_trees,
    "sizes": measure_sizes,
    "lines": measure_lines,
    "opening": measure_opening,
    "sessions": measure_sessions,
}


def table(head: tuple[str, ...], rows: Rows) -> str:
    lines = ["| " + " | ".join(it) + " |" for it in (head, *rows)]
    return "\n".join([lines[0], "|" + "---|" * len(head), *lines[1:]])


def machine() -> str:
    names = re.findall(r"^model name\s*: (.*)$", pathlib.Path("/proc/cpuinfo").read_text(), re.MULTILINE)
    return f"{len(names)} processors {names[0]}" if names else "an unknown machine"


def commit() -> str:
    return subprocess.run(["git", "-C", str(TOP), "rev-parse", "--short", "HEAD"], capture_output=True, text=True).stdout.strip()


def write(part: str, head: tuple[str, ...], rows: Rows) -> None:
    """Writes the file of a part, and its table into the page."""
    about = f"{time.strftime('%Y-%m-%d')}, commit {commit()}, {machine()}, load {os.getloadavg()[0]:.1f}"
    FOLDER.mkdir(exist_ok=True)
    text = "\n".join("\t".join(row) for row in [head, *rows])
    (FOLDER / f"{part}.tsv").write_text(f"# {about}\n{text}\n")
    page = PAGE.read_text()
    marks = re.compile(rf"(<!-- measured {part} -->\n).*?(<!-- end -->)", re.DOTALL)
    if not marks.search(page):
        sys.exit(f"{NAME}: {PAGE.name} has no place for {part}")
    PAGE.write_text(marks.sub(lambda it: f"{it.group(1)}\n*{about}*\n\n{table(head, rows)}\n\n{it.group(2)}", page))


def add_words(words: script_words.Words) -> None:
    words.add_argument("programs", type=pathlib.Path, metavar="PROGRAMS")
    words.add_argument("parts", nargs="*", default=[], metavar="PART")


def main(given: argparse.Namespace) -> int:
    unknown = [it for it in given.parts if it not in PARTS]
    if unknown:
        script_words.refuse(NAME, f"there is no part {unknown[0]}")
    parts = given.parts or list(PARTS)
    names = ["tsumego", *(["problem_tools"] if "records" in parts else [])]
    programs = {name: str(given.programs.resolve() / name / "out" / name) for name in names}
    for path in programs.values():
        if not os.access(path, os.X_OK):
            script_words.refuse(NAME, f"there is no program {path}")
    for part in parts:
        head, rows = PARTS[part](programs)
        write(part, head, rows)
        print(f"{part}\n{table(head, rows)}\n", flush=True)
    return 0
