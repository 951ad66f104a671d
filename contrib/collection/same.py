"""Which problems are one: `man make-collection`, under FILES."""

import hashlib

from .boards import BLACK, EMPTY, OTHER

EXCHANGED = {EMPTY: EMPTY, **OTHER}


def turned(size, point, turn):
    """Where a point comes by one of the eight symmetries: bit 1 mirrors columns, bit 2 rows, bit 4 exchanges both."""
    row, column = divmod(point, size)
    column = size - 1 - column if turn & 1 else column
    row = size - 1 - row if turn & 2 else row
    return column * size + row if turn & 4 else row * size + column


def image(problem, turn, is_exchanged=False):
    """The problem turned, and with the colours exchanged."""
    size, cells = problem.size, [EMPTY] * len(problem.cells)
    for point, cell in enumerate(problem.cells):
        cells[turned(size, point, turn)] = EXCHANGED[cell] if is_exchanged else cell
    made = problem.moved(size, "".join(cells), lambda point: turned(size, point, turn))
    return made.with_mover(OTHER[problem.mover]) if is_exchanged else made


def canonical(problem):
    """The form of all problems that are this one: Black moves, and of the eight symmetries it is the one with the greatest cells, so
    that stones come early; then with the least targets and region. Returned with the turn that leads to it."""
    images = [(image(problem, turn, problem.mover != BLACK), turn) for turn in range(8)]
    greatest = max(it.cells for it, _ in images)
    return min((it for it in images if it[0].cells == greatest), key=lambda it: (it[0].targets, it[0].region, it[1]))


def name_of_problem(problem):
    """The name that all problems have that are this one: the first 16 digits of the checksum of the canonical form's record."""
    return hashlib.sha256(canonical(problem)[0].record().rstrip("\n").encode()).hexdigest()[:16]
