"""What people see around a group: the walls nearby, as far as they are wanted to look whole, and no stones of other groups.

Nothing is proved here, and nothing is asked: this is what a quick look is given in place of the whole board. A problem that is kept is
proved as it stands in the game, and again as it is shown.
"""

from .boards import OTHER, chain_at, neighbours, without
from .natural import is_strong, joining, may_be_seen_at_once, wall_parts, weakness, with_wall_stones

# Stones of the wall are kept that are fewer lines away, the first of these numbers with which the walls are whole.
LINES = (3, 4, 5)
# How often walls are mended.
MOST_MENDED = 4


def steps_away(problem, most):
    """How many steps points are from the region and the targets, those so near alone."""
    found = {it: 0 for it in (*problem.region, *problem.targets)}
    waiting = list(found)
    for point in waiting:
        for near in neighbours(problem.size)[point]:
            if near not in found and found[point] < most:
                found[near] = found[point] + 1
                waiting.append(near)
    return found


def group_nearby(problem):
    """The defender's stones that the problem is about: the targets, and chains that are in the region or have a liberty there."""
    found = set(problem.targets)
    for point in problem.region:
        for it in (point, *neighbours(problem.size)[point]):
            if problem.cells[it] == problem.defender and it not in found:
                found |= chain_at(problem.size, problem.cells, it)[0]
    return found


def with_wall_within(problem, group, steps, lines):
    """The problem with nothing but the group, what is in the region, and the parts of the wall that touch it, as far as they are
    fewer lines away."""
    kept, attacker = {*group, *problem.region}, problem.attacker
    gone = [
        it
        for it, cell in enumerate(problem.cells)
        if it not in kept and (cell == problem.defender or cell == attacker and steps.get(it, lines) >= lines)
    ]
    made = problem._replace(cells=without(problem.cells, gone))
    near = {it for point in (*problem.region, *problem.targets) for it in neighbours(problem.size)[point]}
    return made._replace(cells=without(made.cells, [it for part in wall_parts(made) if near.isdisjoint(part) for it in part]))


def mended(problem, most_put):
    """The problem with the stones put up that its walls lack, as far as that many do."""
    for _ in range(MOST_MENDED):
        made = with_wall_stones(problem, joining(problem))
        if made == problem or len(made.put) > most_put:
            return problem
        problem = made
    return problem


def may_be_whole(problem):
    """Whether only stones put up are wanting in its walls, which may yet go where the answers stay without them."""
    return all(is_strong(problem, part) or not part.isdisjoint(problem.put) for part in wall_parts(problem))


def shown(problem, most_put):
    """The problem as people are shown it, with walls that are whole, or may be; None where they cannot be, or where what cannot be cut
    off is too large."""
    group, steps = group_nearby(problem), steps_away(problem, max(LINES))
    nearby = [with_wall_within(problem, group, steps, it) for it in LINES]
    made = next((it for near in nearby for it in (near, mended(near, most_put)) if weakness(it) == 0), None)
    made = made or next((it for it in nearby if may_be_whole(it)), None)
    return made if made and may_be_seen_at_once(made) and has_liberties(made) else None


def has_liberties(problem):
    """Whether each chain near the region has a liberty, which one may have lost with a stone that was put up."""
    near = {*problem.region, *problem.put, *problem.targets}
    near |= {it for point in near for it in neighbours(problem.size)[point]}
    return all(chain_at(problem.size, problem.cells, it)[1] for it in near if problem.cells[it] in OTHER)
