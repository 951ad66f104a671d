"""Claims by answers that are meant to hurt, on 25 rows, for `tools/hostile`: as many states, replies or areas as fit into so many bytes,
each of which takes long."""
from hostile_inputs import LETTERS

ROWS = 25
POINTS = ROWS * ROWS


def named(point: int) -> str:
    return LETTERS[point % ROWS] + LETTERS[point // ROWS]


def front(black: list[int], areas: list[str]) -> str:
    """A record with these black stones, and the claim up to its first body."""
    stones = "".join(f"[{named(it)}]" for it in black)
    heads = "".join(f"area {it}\n" for it in areas)
    return f"(;SZ[{ROWS}]AB{stones}PL[W]TR[{named(black[0])}])\ntsureply 1 {ROWS} B\n{heads}"


def many_states(eyes: set[int], size: int, verdict: str) -> str:
    """Black stones everywhere but at the eyes, and the state of the board again and again, each time with this verdict."""
    black = [it for it in range(POINTS) if it not in eyes]
    area = "".join("." if it in eyes else "#" for it in range(POINTS))
    state = f"state {'.' * len(eyes)}\n"
    more = min(65_534, size // len(state + verdict))
    return front(black, [area]) + "body\n" + state * more + verdict * (more + 1) + "end\n"


def single_eyes(size: int, verdict: str) -> str:
    """144 eyes of one point each in one chain."""
    return many_states({row * ROWS + column for row in range(1, ROWS, 2) for column in range(1, ROWS, 2)}, size, verdict)


def far_eyes(size: int, verdict: str) -> str:
    """Eyes in two corners that are far from each other."""
    return many_states({0, POINTS - 1}, size, verdict)


def single_stones(size: int, verdict: str) -> str:
    """313 stones that are each alone, round 312 eyes that they share."""
    return many_states(set(range(1, POINTS, 2)), size, verdict)


def replies(size: int) -> str:
    """Two eyes for ever, and 150 points to which the outside leads: White plays at each, and nothing is needed."""
    free = set(range(6 * ROWS, 12 * ROWS))
    eyes = {ROWS + 1, ROWS + 3}
    black = [row * ROWS + column for row in range(3) for column in range(5) if row * ROWS + column not in eyes]
    area = "".join("#" if it in black else "." if it in free or it in eyes else "-" for it in range(POINTS))
    inside = [it for it in range(POINTS) if it in free or it in eyes]
    covering = f"state {''.join('O' if it in free else '.' for it in inside)}\n"
    again = f"state {'.' * len(inside)}\n"
    answered = f"all {len(free)}\n" + "".join(f"reply {named(it)} pass 2\n" for it in sorted(free))
    more = size // len(again + answered)
    return front(black, [area]) + "body\n" + covering + again * more + answered + "rest\n" + answered * more + "end\n"


def many_areas(size: int) -> str:
    """Areas of one point each, the first of which has no stone that lives."""
    black = [it for it in range(POINTS) if it % 2 == 0]
    areas = ["".join("." if it == eye else "#" if it % 2 == 0 else "-" for it in range(POINTS)) for eye in range(1, POINTS, 2)]
    return front(black, areas[: size // (POINTS + 6)]) + "body\nrest\nend\n" * len(areas)
