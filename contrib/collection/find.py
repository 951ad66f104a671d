"""Finds the groups of a game that whoever moves first decides: a quick look at each."""

from typing import NamedTuple

from .boards import EMPTY, chains
from .cut import on_shown_board
from .problems import Problem
from .records import points_of, positions
from .regions import Board, closed
from .variations import taken_back

QUICK_STEPS = 1_000
# A problem for people lies at an edge: at least so many points of its region do.
EDGE_POINTS = 2
# How far from a group a stone may be put down without the group being looked at again.
REACH = 3


class Found(NamedTuple):
    """An unsettled group: the node, the problem with the attacker to move, how people are shown it, and in words what is other than in
    the game."""

    node: int
    problem: Problem
    shown: Problem
    change: str = ""


def read_problem(nodes):
    """The problem of a main line whose last node has the marks. The past is left out, passes too."""
    for size, cells, mover in positions(nodes):
        pass
    marks = nodes[-1]
    targets = tuple(sorted(points_of(size, marks["TR"])))
    region = tuple(sorted(points_of(size, marks["SQ"]))) if "SQ" in marks else tuple(range(size * size))
    return Problem(size, cells, mover, targets, region, tuple(sorted(points_of(size, marks.get("CR", [])))))


class Finder:
    """Goes over the nodes of a game, and remembers what surrounded the groups that it has looked at, and which stones came last."""

    def __init__(self, programs, given):
        self.programs, self.given, self.seen, self.cells, self.came = programs, given, set(), "", {}
        self.known = set()

    def found_at(self, node, size, cells, next_turn):
        """The unsettled groups of a position. `next_turn` is where the game goes on, which no stone that is put up may be."""
        self.came.update({it: node for it, cell in enumerate(cells) if cell != EMPTY and cell != self.cells[it : it + 1]})
        self.cells = cells
        board = Board(size, cells, chains(size, cells))
        for chain, liberties in board.found:
            if self.is_wanted(chain, liberties) and self.is_new(size, cells, chain):
                yield from self.looked_at(node, board, chain, next_turn)

    def is_wanted(self, chain, liberties):
        return len(chain) >= self.given.stones and len(liberties) <= self.given.liberties

    def is_new(self, size, cells, chain):
        """Whether anything near a group has changed since it was looked at."""
        rows, columns = [it // size for it in chain], [it % size for it in chain]
        top, bottom = max(0, min(rows) - REACH), min(size - 1, max(rows) + REACH)
        left, right = max(0, min(columns) - REACH), min(size - 1, max(columns) + REACH)
        near = "\n".join(cells[row * size + left : row * size + right + 1] for row in range(top, bottom + 1))
        key = (top, left, min(chain), near)
        is_new = key not in self.seen
        self.seen.add(key)
        return is_new

    def looked_at(self, node, board, chain, next_turn):
        """What a quick look at a group says: where it is unsettled, or was some turns before."""
        for problem, seen, status in self.decided(board, chain, next_turn):
            if status == "unsettled":
                yield Found(node, problem, seen)
            elif seen not in self.known:
                self.known.add(seen)
                yield from self.taken_back(node, problem, seen)

    def decided(self, board, chain, next_turn):
        """The problems about a group that a quick look decides, the largest region first, each as it is shown, with what becomes of
        the group. What would not look whole is not asked about."""
        for problem in closed(board, chain, self.given.put_up):
            if next_turn not in problem.put and is_at_edge(problem):
                seen = on_shown_board(problem, self.given.put_up)
                status = seen and self.status(seen)
                if status:
                    yield problem, seen, status

    def taken_back(self, node, problem, seen):
        """The unsettled groups of a position some turns before, in the walls of now."""
        for change, before, shown in taken_back(problem, seen, self.came):
            if shown not in self.known and self.status(shown) == "unsettled":
                yield Found(node, before, shown, change)
            self.known.add(shown)

    def status(self, problem):
        """What becomes of the targets, as far as a quick look says."""
        first = self.programs.winner(problem, QUICK_STEPS)
        if first != problem.attacker:
            return first and "alive"
        second = self.programs.winner(problem.with_mover(problem.defender), QUICK_STEPS)
        return second and ("unsettled" if second == problem.defender else "dead")


def is_at_edge(problem):
    size, last = problem.size, problem.size - 1
    return sum(it // size in (0, last) or it % size in (0, last) for it in problem.region) >= EDGE_POINTS
