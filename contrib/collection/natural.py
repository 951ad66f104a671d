"""What looks natural to a player: walls that are whole, no stone that stands for itself, a part of the board that is seen at once.

A wall is what the attacker has outside the region. Its stones are joined where they touch, where they stand across a corner that is
not cut, and where an empty point outside the region is all that is between two on one line.
"""

from .boards import EMPTY, around, chains, neighbours

# A part of a wall that nobody asks about has so many stones, and so many liberties outside the region.
WALL_STONES, WALL_LIBERTIES = 3, 3
# So many stones at once are put up to join a part of a wall to the others.
MOST_JOINING = 2
# More than a person takes in: stones, points of the part of the board that has them, and lines one way.
MOST_STONES, MOST_SHOWN, MOST_LINES = 36, 80, 12


def group_of(problem):
    """The defender's stones that the problem is about: the targets, and chains that are in the region or have a liberty there."""
    found, region = set(problem.targets), set(problem.region)
    for chain, liberties in chains(problem.size, problem.cells):
        if problem.cells[min(chain)] == problem.defender and not (liberties | chain).isdisjoint(region):
            found |= chain
    return found


def wall_of(problem):
    """The attacker's stones outside the region."""
    return set(problem.stones(problem.attacker)) - set(problem.region)


def joined_to(problem, point, stones):
    """Those of an attacker's stones that a stone of the attacker's at a point is joined to."""
    size, cells, region = problem.size, problem.cells, set(problem.region)
    row, column = divmod(point, size)
    found = {it for it in neighbours(size)[point] if it in stones}
    for corner in (it for it in around(size)[point] if it in stones):
        crossing = (row * size + corner % size, corner // size * size + column)
        if any(cells[it] != problem.defender for it in crossing):
            found.add(corner)
    for middle in neighbours(size)[point]:
        far_row, far_column = 2 * (middle // size) - row, 2 * (middle % size) - column
        far = far_row * size + far_column
        if 0 <= far_row < size and 0 <= far_column < size and far in stones and cells[middle] == EMPTY and middle not in region:
            found.add(far)
    return found


def wall_parts(problem):
    """The parts of the wall, each a set of stones that are joined, in the order of their first stones."""
    left, parts = wall_of(problem), []
    while left:
        part = waiting = {min(left)}
        while waiting:
            left -= waiting
            waiting = {it for stone in waiting for it in joined_to(problem, stone, left)}
            part = part | waiting
        parts.append(part)
    return parts


def is_strong(problem, part):
    """Whether nobody asks what becomes of a part of a wall."""
    region = set(problem.region)
    outside = {near for it in part for near in neighbours(problem.size)[it] if problem.cells[near] == EMPTY and near not in region}
    return len(part) >= WALL_STONES and len(outside) >= WALL_LIBERTIES


def hanging(problem):
    """The stones put up on a first line with no stone of their side above them."""
    wall, size = wall_of(problem), problem.size
    return [it for it in problem.put if is_on_first_line(size, it) and not any(near in wall for near in above(size, it))]


def odd_stones(problem):
    """The stones put up that hang on the first line or stand in a weak part of the wall, the first ones first."""
    weak = {it for part in wall_parts(problem) if not is_strong(problem, part) for it in part}
    hang = hanging(problem)
    return hang + [it for it in problem.put if it in weak and it not in hang]


def is_on_first_line(size, point):
    return {0, size - 1} & set(divmod(point, size)) != set()


def above(size, point):
    """The points of the second line beside one of the first; of a corner there are none."""
    return [it for it in neighbours(size)[point] if not is_on_first_line(size, it)]


def weakness(problem):
    """How much is wanting of the walls: weak parts, and stones put up that hang on the first line."""
    return len(hanging(problem)) + sum(not is_strong(problem, it) for it in wall_parts(problem))


def joining(problem):
    """The stones that a natural wall lacks first: above a stone on the first line, or between a weak part and another. Empty where
    nothing is wanted, or where so few stones do not help."""
    free = free_points(problem)
    for stone in hanging(problem):
        if any(it in free for it in above(problem.size, stone)):
            return [it for it in above(problem.size, stone) if it in free]
    parts = wall_parts(problem)
    for part in parts:
        way = [] if is_strong(problem, part) else way_to_others(problem, part, free)
        if way:
            return way
    return []


def free_points(problem):
    """Where a stone of a wall may be put up: outside the region, and beside no stone of the defender's that is not of the group."""
    strangers = strange_stones(problem)
    beside, region = neighbours(problem.size), set(problem.region)
    points = {it for it, cell in enumerate(problem.cells) if cell == EMPTY and it not in region}
    return {it for it in points if strangers.isdisjoint(beside[it])}


def strange_stones(problem):
    return set(problem.stones(problem.defender)) - group_of(problem)


def way_to_others(problem, part, free):
    """The fewest stones that join a part of a wall to another, as points; empty where there is no other so near."""
    others = wall_of(problem) - part
    ways = [[it] for it in sorted(part)]
    for _ in range(MOST_JOINING):
        ways = [[*way, near] for way in ways for near in neighbours(problem.size)[way[-1]] if near in free and near not in way]
        found = next((way for way in ways if joined_to(problem, way[-1], others)), None)
        if found:
            return found[1:]
    return []


def with_wall_stones(problem, points):
    """The problem with stones of the attacker's put up at these points."""
    cells = "".join(problem.attacker if it in points else cell for it, cell in enumerate(problem.cells))
    return problem._replace(cells=cells, put=tuple(sorted({*problem.put, *points})))


def has_whole_walls(problem):
    """Whether each part of the wall is strong, and no stone put up hangs on the first line."""
    return not hanging(problem) and all(is_strong(problem, it) for it in wall_parts(problem))


def has_one_group(problem):
    """Whether all stones of the defender's are of the group."""
    return not strange_stones(problem)


def is_small(problem, points):
    """Whether points stand on a part of the board that is seen at once."""
    spans = [max(lines) - min(lines) + 1 for lines in ([it // problem.size for it in points], [it % problem.size for it in points])]
    return spans[0] * spans[1] <= MOST_SHOWN and max(spans) <= MOST_LINES


def may_be_seen_at_once(problem):
    """Whether what cannot be cut off is on a small part of the board."""
    return is_small(problem, {*problem.targets, *problem.region, *problem.put})


def is_seen_at_once(problem):
    """Whether there are few stones, on a small part of the board."""
    used = [it for it, cell in enumerate(problem.cells) if cell != EMPTY]
    return len(used) <= MOST_STONES and is_small(problem, {*used, *problem.region})


# In the order in which they are asked: what the count of those left is called, and the question.
NATURAL = (("whole walls", has_whole_walls), ("one group", has_one_group), ("seen at once", is_seen_at_once))
