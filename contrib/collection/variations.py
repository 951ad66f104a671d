"""What might have been: a group that is settled, as it was some turns before, in the walls that it has now.

The stones that came last to the region and to the group's side of it are taken back one after another. While a group fights for its
life its walls are seldom closed, and once they are it mostly lives or is dead.
"""

from .boards import EMPTY, chain_at, name_of, neighbours, without
from .problems import SIDES

# So many stones are taken back at most. Where fewer points than these are left to play at, nothing is worth asking about.
MOST_BACK, LEAST_ROOM = 6, 5
LEAST_TARGETS = 2


def without_stone(problem, point):
    """The problem without a stone, whose point both sides may play at; None where too little of the targets is left."""
    made = problem._replace(cells=without(problem.cells, [point]), region=tuple(sorted({*problem.region, point})))
    if point not in problem.targets:
        return made
    parts = {min(chain): chain for chain in (chain_at(made.size, made.cells, it)[0] for it in problem.targets if it != point)}
    largest = max(parts.values(), key=lambda it: (len(it), -min(it)), default=())
    return made._replace(targets=tuple(sorted(largest))) if len(largest) >= LEAST_TARGETS else None


def last_stones(problem, came):
    """The stones of a region, and the group's beside it, that came after the first node, the last ones first."""
    beside = {near for it in problem.region for near in neighbours(problem.size)[it] if problem.cells[near] == problem.defender}
    stones = [it for it in beside.union(problem.region) if problem.cells[it] != EMPTY and came.get(it, 0) > 0]
    return sorted(stones, key=lambda it: (-came[it], it))[:MOST_BACK]


def place_in(problem, seen, point):
    """Where a point of the game is on the board that people are shown."""
    rows, columns = (now - before for now, before in zip(divmod(seen.targets[0], seen.size), divmod(problem.targets[0], problem.size)))
    row, column = divmod(point, problem.size)
    return (row + rows) * seen.size + column + columns


def has_room(problem):
    return sum(problem.cells[it] == EMPTY for it in problem.region) >= LEAST_ROOM


def taken_back(problem, seen, came):
    """A problem with more and more turns taken back: in words what is other than in the game, the problem there, and as it is shown."""
    stones = [(it, place_in(problem, seen, it)) for it in last_stones(problem, came)]
    words = []
    for point, place in stones:
        words.append(f"{SIDES[problem.cells[point]]} {name_of(problem.size, point)}")
        problem, seen = without_stone(problem, point), without_stone(seen, place)
        if problem is None or seen is None:
            return
        if has_room(seen):
            yield f"without {', '.join(words)}", problem, seen
