"""Cuts a problem out of its game: the fewest stones and the smallest board with which the answers stay, proved again each time."""

from .boards import EMPTY, chain_at, chains, neighbours, without
from .natural import odd_stones, weakness
from .surroundings import mended, shown

STEPS = 5_000
# Lines that stay free between the stones and the edges that they do not touch: in a collection so many that pictures and pages show
# that the board goes on there.
MARGIN, COLLECTION_MARGIN = 1, 4
# A wall keeps so many liberties, if it has them.
LIBERTIES = 4
# So near an edge, in lines, that a problem stays as far from it as it is.
NEAR = 2


def is_unsettled(programs, problem, steps=STEPS):
    """Whether the targets die if the attacker begins, and live if the defender does."""
    attacker, defender = problem.attacker, problem.defender
    return (
        programs.winner(problem.with_mover(attacker), steps) == attacker
        and programs.winner(problem.with_mover(defender), steps) == defender
    )


def outer_stones(problem):
    """The stones that may go: those outside the region that are no targets, the farthest from the region first."""
    distance = distances(problem)
    kept = set(problem.targets) | set(problem.region)
    stones = [it for it, cell in enumerate(problem.cells) if cell != EMPTY and it not in kept]
    return sorted(stones, key=lambda it: (-distance[it], it))


def distances(problem):
    """How many steps each point is from the region and the targets."""
    distance = {it: 0 for it in (*problem.region, *problem.targets)}
    waiting = list(distance)
    for point in waiting:
        for near in neighbours(problem.size)[point]:
            if near not in distance:
                distance[near] = distance[point] + 1
                waiting.append(near)
    return distance


def anything(before, made):
    return True


def keeps_walls(before, made):
    """Whether no more is wanting of the walls than before."""
    return weakness(made) <= weakness(before)


def with_fewest_stones(programs, problem, is_kept=anything):
    """The problem without the stones that it does not need: at once all that are far from the region, then chain by chain, then one
    by one. `is_kept` says whether what people see in it stays."""
    stones, distance = outer_stones(problem), distances(problem)
    for least in (3, 4, 5, 7):
        made = problem._replace(cells=without(problem.cells, [it for it in stones if distance[it] >= least]))
        if is_kept(problem, made) and is_unsettled(programs, made):
            problem = made
            break
    for chain in far_chains(problem):
        made = problem._replace(cells=without(problem.cells, chain))
        if is_kept(problem, made) and is_unsettled(programs, made):
            problem = made
    for stone in outer_stones(problem):
        made = problem._replace(cells=without(problem.cells, [stone]))
        if is_held(problem, made, stone) and is_kept(problem, made) and is_unsettled(programs, made):
            problem = made
    return problem


def far_chains(problem):
    """The chains outside the region that touch neither it nor a target."""
    inside = {*problem.region, *problem.targets}
    near = {*inside, *(it for point in inside for it in neighbours(problem.size)[point])}
    return [chain for chain, _ in chains(problem.size, problem.cells) if near.isdisjoint(chain)]


def is_held(before, made, stone):
    """Whether a stone that went leaves no hole for people: it was not beside the region or a target, no wall falls apart, and none is
    easier to take."""
    inside = set(made.region) | set(made.targets)
    if any(near in inside for near in neighbours(made.size)[stone]):
        return False
    chain, liberties = chain_at(before.size, before.cells, stone)
    left = chain - {stone}
    if not left:
        return True
    rest, rest_liberties = chain_at(made.size, made.cells, min(left))
    return rest == left and len(rest_liberties) >= min(LIBERTIES, len(liberties))


def extent(lines, size):
    """The first and last line of these, and where the first one comes on a board of another size: None where anywhere."""
    first, last = min(lines), max(lines)
    return first, last, first < NEAR, size - 1 - last < NEAR


def placed(first, last, is_low, is_high, old, new, margin):
    """By how much lines move on a board of `new` rows in place of `old`; None where it is too small."""
    if is_low and is_high:
        return 0 if new == old else None
    room = last - first + 1 + (first if is_low else margin) + (old - 1 - last if is_high else margin)
    if room > new:
        return None
    if is_high:
        return new - old
    return 0 if is_low else margin - first


def on_board(problem, rows, margin):
    """The problem on a board of so many rows, in a corner as far as its edges allow; None where there is no room."""
    size = problem.size
    used = [it for it, cell in enumerate(problem.cells) if cell != EMPTY] + list(problem.region)
    down = placed(*extent([it // size for it in used], size), size, rows, margin)
    right = placed(*extent([it % size for it in used], size), size, rows, margin)
    if down is None or right is None:
        return None

    def place(point):
        return (point // size + down) * rows + point % size + right

    cells = [EMPTY] * (rows * rows)
    for point, cell in enumerate(problem.cells):
        if cell != EMPTY:
            cells[place(point)] = cell
    return problem.moved(rows, "".join(cells), place)


def on_shown_board(problem, most_put):
    """What people are shown of a problem, on the smallest board that has the free lines of a collection; None where its walls cannot
    be whole."""
    seen = shown(problem, most_put)
    if seen is None:
        return None
    found = (on_board(seen, rows, COLLECTION_MARGIN) for rows in range(2, seen.size + COLLECTION_MARGIN))
    return next((it for it in found if it), seen)


def on_smallest_board(programs, problem, margin):
    """The problem on the smallest board that has so many free lines, which may be larger than its own; on its own where there is none."""
    for rows in range(2, problem.size + margin):
        made = on_board(problem, rows, margin)
        if made and is_unsettled(programs, made):
            return made
    return problem


def with_open_walls(programs, problem):
    """The problem without those of the odd stones in whose place the answers stay where both sides may play there."""
    for stone in odd_stones(problem):
        left, region = set(problem.put) - {stone}, {*problem.region, stone}
        made = problem._replace(cells=without(problem.cells, [stone]), put=tuple(sorted(left)), region=tuple(sorted(region)))
        if is_unsettled(programs, made):
            problem = made
    return problem


def with_standing(problem):
    """The problem with those of the stones put up that still stand."""
    return problem._replace(put=tuple(it for it in problem.put if problem.cells[it] != EMPTY))


def cut_out(programs, problem):
    """The least position that is the same problem; None where more steps than a quick look's do not prove it."""
    if not is_unsettled(programs, problem):
        return None
    return on_smallest_board(programs, with_standing(with_fewest_stones(programs, problem)), MARGIN)


def cut_for_collection(programs, problem, most_put):
    """The least position of what people are shown of a problem, where the answers are those of the game, and the walls are whole and
    hold; else None."""
    seen = on_shown_board(problem, most_put)
    if seen is None or not is_unsettled(programs, problem) or not is_unsettled(programs, seen):
        return None
    whole = mended(with_open_walls(programs, seen), most_put)
    if not is_unsettled(programs, whole):
        return None
    fewest = with_fewest_stones(programs, whole, keeps_walls)
    made = on_smallest_board(programs, with_standing(fewest), COLLECTION_MARGIN)
    return made if walls_hold(programs, made) else None


def walls_hold(programs, problem, steps=STEPS):
    """Whether nothing shows that the answers change where both sides may also play at the walls and two lines beyond them."""
    grown = set(problem.region)
    for chain, liberties in chains(problem.size, problem.cells):
        if not liberties.isdisjoint(grown) or any(near in grown for it in chain for near in neighbours(problem.size)[it]):
            grown |= chain
    for _ in range(2):
        grown |= {near for it in grown for near in neighbours(problem.size)[it] if problem.cells[near] == EMPTY}
    wider = problem._replace(region=tuple(sorted(grown)))
    attacker, defender = problem.attacker, problem.defender
    return (
        programs.winner(wider.with_mover(attacker), steps) != defender and programs.winner(wider.with_mover(defender), steps) != attacker
    )
