"""Random records, and the comparison of answers, for the programs beside this file."""

import io
import re
import subprocess
import sys
from pathlib import Path

HERE = Path(__file__).resolve().parent
sys.path.insert(0, str(HERE))
import check  # noqa: E402
from reading import EMPTY, Board  # noqa: E402

SECONDS = 60  # for one run of a program
FAULTS = [f"C{number:02}" for number in [1, *range(3, 15), 16, 19]] + [f"A{number:02}" for number in range(1, 9)]
SHORT_FAULTS = ["C20"]


class Comparison:
    """The programs that are compared, and the numbers of cases that agree or not."""

    def __init__(self, program, short_claims=None):
        self.program, self.short_claims = program, short_claims
        self.passed = self.failed = 0
        self.faults = dict.fromkeys(FAULTS + (SHORT_FAULTS if short_claims else []), 0)

    def run(self, words, data):
        return run([self.program, *words], data)

    def judge(self, name, words, data, *answers):
        """Count a case: all answers, each with the name of its giver, must be equal."""
        if all(answer == answers[0][1] for _, answer in answers):
            self.passed += 1
            found = re.match(rb"rejected (?:line|node) \d+: ([CA]\d\d)", answers[0][1][0])
            fault = found.group(1).decode() if found else ""
            if fault in (SHORT_FAULTS if words == ["short"] else FAULTS):
                self.faults[fault] += 1
            return
        self.failed += 1
        print(f"{name}: {' '.join(words)}")
        for giver, (text, status) in answers:
            print(f"  {giver}: {text!r}, status {status}")
        print(f"  input: {data!r}", flush=True)

    def compare(self, name, words, data):
        self.judge(name, words, data, ("program", self.run(words, data)), ("check.py", answer_of_check(words, data)))

    def compare_short(self, name, data):
        theirs, ours = run([self.short_claims, "check"], data), answer_of_check(["short"], data)
        self.judge(name, ["short"], data, ("short_claims", theirs), ("check.py", ours))


def answer_of_check(words, data):
    text, status = check.answer(words, io.BytesIO(data))
    return text.encode() + b"\n", status


def run(command, data):
    done = subprocess.run(command, input=data, stdout=subprocess.PIPE, stderr=subprocess.DEVNULL, timeout=SECONDS)
    return done.stdout, done.returncode


# --- Random records --------------------------------------------------------


def point_name(point, size):
    return chr(97 + point % size) + chr(97 + point // size)


def some_points(chance, points, most):
    return chance.sample(points, min(len(points), chance.randint(1, most)))


def list_of(name, points, size):
    return name + "".join(f"[{point_name(point, size)}]" for point in points) if points else ""


def random_stones(chance, board, weights):
    """A colouring, from weights of `.XO`; almost always chains without liberty are taken off."""
    cells = chance.choices(".XO", weights, k=board.size**2)
    if chance.random() < 0.97:
        for point in board.points:
            if cells[point] != EMPTY and board.dead_chain(cells, point):
                cells[point] = EMPTY
    return cells


def random_past(chance, size, length):
    """Nodes of turns and setups, some of them refused."""
    nodes = []
    for _ in range(length):
        name = point_name(chance.randrange(size**2), size)
        colour = chance.choice("BW")
        kinds = [f"{colour}[{name}]"] * 8 + [f"{colour}[]", f"PL[{colour}]", f"A{colour}[{name}]", f"AE[{name}]"]
        nodes.append(";" + chance.choice(kinds))
    return "".join(nodes)


def spoil_record(chance, record):
    """A record with one byte deleted, doubled or changed."""
    place = chance.randrange(len(record))
    middle = chance.choice(["", record[place] * 2, chance.choice("()[];:\\ aABWPLtT1")])
    return record[:place] + middle + record[place + 1 :]


def random_record(chance, small_region):
    """A problem on 3 to 7 rows; a small region makes it easy to solve."""
    board = Board(chance.randint(3, 7))
    size = board.size
    cells = random_stones(chance, board, chance.choice([(5, 2, 2), (2, 3, 2), (2, 2, 3), (1, 2, 2)]))
    black, white, empty = ([point for point in board.points if cells[point] == colour] for colour in "XO.")
    stones = chance.choice([black, white]) or black or white or [0]
    target = chance.choice(stones)
    targets = [target] + [point for point in board.neighbours[target] if cells[point] == cells[target]]
    near = [p for p in empty if abs(p % size - target % size) + abs(p // size - target // size) <= 3]
    region = some_points(chance, near or empty or [0], 5)
    region += some_points(chance, list(board.points), 3) if chance.random() < 0.6 else []
    if not small_region and chance.random() < 0.4:
        region = []
    mark = ";" if chance.random() < 0.5 else ""
    past = random_past(chance, size, chance.choice([0, 0, 1, 2, 3, 4]))
    colour = chance.choice(["", "PL[B]", "PL[W]", "PL[White]"])
    if past and mark == "":
        mark = ";AE[%s]" % point_name(chance.choice(list(board.points)), size) if chance.random() < 0.3 else ";"
    return (
        f"(;GM[1]SZ[{size}]{list_of('AB', black, size)}{list_of('AW', white, size)}{past}{mark}"
        f"{colour}{list_of('TR', targets, size)}{list_of('SQ', region, size)})"
    )
