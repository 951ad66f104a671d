"""Problems of a real game, for `tools/hostile`: the region and its walls are put round stones of a game, as `group_status` asks."""

import pathlib
import re
import subprocess
from collections.abc import Iterator

GAME = pathlib.Path(__file__).resolve().parent.parent / "examples/unmarked/game.sgf"
# The nodes whose own move is the target.
NODES = range(9, 132, 14)
POINTS, WALLS = (9, 12, 15, 18), ("natural", "hard", "race", "alone")


def questions(problem_tools: str) -> Iterator[tuple[str, str]]:
    """The name and the record of each question: of a move at its node, whose side moves first by turns, with each number of empty
    points and each kind of walls. Those that problem_tools refuses are left out."""
    moves = re.findall(r";[BW]\[(\w\w)\]", GAME.read_text())
    for number, node in enumerate(NODES):
        for points in POINTS:
            for walls in WALLS:
                words = ["--node", str(node), "--target", moves[node - 1], "--to-play", ("black", "white")[number % 2]]
                words += ["--region", str(points), "--walls", walls]
                made = subprocess.run([problem_tools, "mark", *words], input=GAME.read_bytes(), capture_output=True, check=False)
                if made.returncode == 0:
                    yield f"node {node}, {points} points, {walls}", made.stdout.decode()
