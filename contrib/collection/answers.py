"""The answers to a problem: which first moves win, the line that shows it, how each other try is refuted, and a grade. All of it is
what `first_moves --grade` says; `man first_moves` has the rules and the formula."""

from typing import NamedTuple

from .boards import point_of

STEPS = 10_000


class Answers(NamedTuple):
    """`line` is the solution, and `tries` has a line for each wrong first move that a player would try: the move, then the refutation.
    `sacrifices` are stones that the winner loses on the line, `ko` says whether a ko is taken on any line."""

    line: list
    tries: list
    sacrifices: int
    ko: bool
    points: int = 0
    grade: int = 0


def answers_of(programs, problem):
    """The answers to a problem with one right first move, which is no pass; None for any other, and where no short claim is found."""
    found = programs.graded(problem, STEPS)
    if not found or "grade" not in found[-1] or any(it.get("turn") == "pass" and it["mover"] == "wins" for it in found):
        return None
    traps, last = [it for it in found if "trap" in it], found[-1]
    tries = [points_of(problem, [it["trap"], *it["variation"]]) for it in traps]
    line = points_of(problem, last["variation"])
    return Answers(line, tries, last["sacrifices"], last["ko"], last["points"], last["grade"])


def points_of(problem, names):
    return [point_of(problem.size, it) for it in names]


def has_one_answer(programs, problem):
    """Whether one first move wins, and every other loses."""
    found = programs.graded(problem, STEPS) or []
    winning = [it["turn"] for it in found if it.get("mover") == "wins"]
    return any(it.get("solution") == "unique" for it in found) and winning != ["pass"]
