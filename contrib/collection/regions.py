"""Regions that a few stones close: where a group ends for people.

Points come in the order of docs/REGIONS.md, the likeliest to matter first. Of the first K of them the rim is what is empty and beside
them: the attacker's stones are put up there. A point of the rim with nothing further beside it belongs to the region instead: a stone
there, as in a corner, would stand among the group's own points. Sizes are taken at which the fewest stones are wanted.
"""

import heapq

from .boards import EMPTY, OTHER, chain_at, neighbours
from .problems import Problem

MOST_POINTS, LEAST_POINTS = 15, 3
MOST_SIZES = 8


class Board:
    """A position with its chains: `chain_of` has for each stone its chain and that chain's liberties."""

    def __init__(self, size, cells, found):
        self.size, self.cells, self.found, self.beside = size, cells, found, neighbours(size)
        self.chain_of = [None] * len(cells)
        for chain, liberties in found:
            for point in chain:
                self.chain_of[point] = (chain, liberties)

    def cost_of_point(self, point, defender):
        """What it costs to enter an empty point."""
        walls = friends = 0
        for near in self.beside[point]:
            if self.cells[near] == defender:
                friends += 1
            elif self.cells[near] == OTHER[defender] and len(self.chain_of[near][1]) > 3:
                walls += 1
        edges = 4 - len(self.beside[point])
        if walls:
            return 2 if friends else 5
        return 1 if friends + edges >= 2 else 2 if friends + edges else 3

    def cost_of_chain(self, point, defender):
        """What it costs to enter a chain; None where a strong wall ends the walk."""
        liberties = len(self.chain_of[point][1])
        if self.cells[point] == defender:
            return 0 if liberties <= 3 else 2 if liberties <= 5 else 4
        return 1 if liberties <= 2 else 3 if liberties == 3 else None

    def touched(self, point):
        """How many stones and edges an empty point touches."""
        return 4 - sum(self.cells[near] == EMPTY for near in self.beside[point])

    def order(self, chain, most):
        """The first `most` empty points, each with its distance, nearest first."""
        defender, start = self.cells[min(chain)], min(chain)
        best, waiting, found = {start: 0}, [(0, 0, start)], []
        while waiting and len(found) < most:
            far, _, point = heapq.heappop(waiting)
            if far > best[point]:
                continue
            if self.cells[point] == EMPTY:
                found.append(point)
            for near, further in self.next_to(point, far, defender):
                if further < best.get(near, 1_000):
                    best[near] = further
                    heapq.heappush(waiting, (further, -self.touched(near) if self.cells[near] == EMPTY else -9, near))
        return found

    def next_to(self, point, far, defender):
        """What is entered from a point or a chain, a chain by its first stone, each with its distance."""
        if self.cells[point] == EMPTY:
            around = set(self.beside[point])
        else:
            chain, liberties = self.chain_of[point]
            around = {near for it in chain for near in self.beside[it]} - chain
        for near in around:
            if self.cells[near] == EMPTY:
                yield near, far + self.cost_of_point(near, defender)
            else:
                cost = self.cost_of_chain(near, defender)
                if cost is not None:
                    yield min(self.chain_of[near][0]), far + cost

    def rim(self, inside, defender):
        """The empty points beside these and not among them, and where the defender's chains that touch them have liberties elsewhere:
        nothing of the defender's is left open then."""
        found = set()
        for near in (near for it in inside for near in self.beside[it]):
            if self.cells[near] == EMPTY:
                found.add(near)
            elif self.cells[near] == defender:
                found |= self.chain_of[near][1]
        return found - inside


def filled(board, inside, defender):
    """The points with those of the rim where a stone would stand inside: nothing further is beside them. Returned with the rim that is
    left."""
    inside, rim = set(inside), board.rim(inside, defender)
    for point in sorted(rim):
        if all(board.cells[near] != EMPTY or near in inside for near in board.beside[point]):
            left = board.rim(inside | {point}, defender)
            if left < rim:
                inside.add(point)
                rim = left
    return inside, rim


def widest(sizes):
    """The regions that are in no other one that as few stones close, those of the fewest stones first."""
    chosen = []
    for inside in sorted(sizes, key=lambda it: (len(sizes[it]), -len(it), it)):
        if not any(set(inside) <= set(it) for it in chosen):
            chosen.append(inside)
    return chosen


def closed(board, chain, most_put):
    """The problems about a chain whose regions so many stones close, the largest region first, with the attacker to move."""
    order = board.order(chain, MOST_POINTS)
    sizes = {}
    for points in range(LEAST_POINTS, len(order) + 1):
        inside, rim = filled(board, set(order[:points]), board.cells[min(chain)])
        if len(rim) <= most_put:
            sizes[tuple(sorted(inside))] = rim
    for inside in sorted(widest(sizes)[:MOST_SIZES], key=lambda it: (-len(it), it)):
        problem = closed_by(board, chain, set(inside), sizes[inside])
        if problem:
            yield problem


def closed_by(board, chain, inside, rim):
    """The problem with these empty points inside, and the attacker's stones on the rim; None where another chain inside is larger than
    the target, or where stones on the rim would leave a chain without liberty."""
    defender = board.cells[min(chain)]
    cells = "".join(OTHER[defender] if point in rim else cell for point, cell in enumerate(board.cells))
    region = set(inside)
    for first in {min(board.chain_of[it][0]) for it in beside_stones(board, inside)}:
        stones, liberties = chain_at(board.size, cells, first)
        if not liberties:
            return None
        if liberties <= inside and first not in chain:
            region |= stones
        is_larger = (len(stones), -min(stones)) > (len(chain), -min(chain))
        if cells[first] == defender and is_larger:
            return None
    return Problem(board.size, cells, OTHER[defender], tuple(sorted(chain)), tuple(sorted(region)), tuple(sorted(rim)))


def beside_stones(board, inside):
    return {near for it in inside for near in board.beside[it] if board.cells[near] != EMPTY}
