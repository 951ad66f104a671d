"""Boards: a colouring is a text of `.`, `X` (black) and `O` (white), row by row, and a point is its place there."""

import functools

BLACK, WHITE, EMPTY = "X", "O", "."
OTHER = {BLACK: WHITE, WHITE: BLACK}
LETTERS = "abcdefghijklmnopqrstuvwxy"
COLUMNS = "ABCDEFGHJKLMNOPQRSTUVWXYZ"


@functools.lru_cache(maxsize=None)
def neighbours(size):
    """For each point those beside it."""
    found = []
    for point in range(size * size):
        row, column = divmod(point, size)
        near = [(row - 1, column), (row, column - 1), (row, column + 1), (row + 1, column)]
        found.append(tuple(r * size + c for r, c in near if 0 <= r < size and 0 <= c < size))
    return tuple(found)


@functools.lru_cache(maxsize=None)
def around(size):
    """For each point those beside it and across a corner."""
    found = []
    for point in range(size * size):
        row, column = divmod(point, size)
        near = [(row + r, column + c) for r in (-1, 0, 1) for c in (-1, 0, 1) if (r, c) != (0, 0)]
        found.append(tuple(r * size + c for r, c in near if 0 <= r < size and 0 <= c < size))
    return tuple(found)


def point_of(size, name):
    """The point of two letters, as in a record; None where there is none."""
    if len(name) != 2 or name[0] not in LETTERS[:size] or name[1] not in LETTERS[:size]:
        return None
    return LETTERS.index(name[1]) * size + LETTERS.index(name[0])


def letters_of(size, point):
    return LETTERS[point % size] + LETTERS[point // size]


def name_of(size, point):
    """A point as diagrams name it."""
    return f"{COLUMNS[point % size]}{size - point // size}"


def chain_at(size, cells, point):
    """The chain of the stone at a point, and its liberties."""
    beside, colour = neighbours(size), cells[point]
    chain, liberties, waiting = {point}, set(), [point]
    while waiting:
        for near in beside[waiting.pop()]:
            if cells[near] == EMPTY:
                liberties.add(near)
            elif cells[near] == colour and near not in chain:
                chain.add(near)
                waiting.append(near)
    return chain, liberties


def chains(size, cells):
    """All chains with their liberties, in the order of their first stones."""
    seen, found = set(), []
    for point, cell in enumerate(cells):
        if cell != EMPTY and point not in seen:
            chain, liberties = chain_at(size, cells, point)
            seen |= chain
            found.append((chain, liberties))
    return found


def without(cells, points):
    """The colouring with these points empty."""
    made = list(cells)
    for point in points:
        made[point] = EMPTY
    return "".join(made)


def played(size, cells, colour, point):
    """The colouring after a move on an empty point: what has no liberty falls, the other side's stones first."""
    cells = cells[:point] + colour + cells[point + 1 :]
    for near in neighbours(size)[point]:
        if cells[near] == OTHER[colour]:
            chain, liberties = chain_at(size, cells, near)
            if not liberties:
                cells = without(cells, chain)
    chain, liberties = chain_at(size, cells, point)
    return cells if liberties else without(cells, chain)
