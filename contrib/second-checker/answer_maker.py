"""Small claims by answers, found by trying all states of small regions on random boards, for play-answers.

They follow the rules of the judge that is handed over, so a judge with a fault has claims made that only it accepts."""
from answer_texts import REST, TAKEN, AnswerText, AreaLines, DeathLines, changes
from answers import PASS, Grid, points_of, set_of
from cases import list_of, point_name, random_stones
from reading import BLACK, EMPTY, OTHER, WHITE, board_of
from reading import State as Position

COLOURS = {"B": BLACK, "W": WHITE}
LIFE, DEATH, TWO_AREAS = "life", "death", "two areas"


# --- Random boards ---------------------------------------------------------


class Setting:
    """A board that random play has led to, and the record of that play."""

    def __init__(self, chance, size, most_turns):
        self.board, self.grid, self.size = board_of(size), Grid(size), size
        cells = random_stones(chance, self.board, chance.choice([(1, 2, 2), (2, 3, 2), (2, 2, 3), (1, 1, 1)]))
        for point in self.board.points:
            if cells[point] != EMPTY and self.board.dead_chain(cells, point):
                cells[point] = EMPTY
        self.past = ["".join(cells)]
        for _ in range(chance.randint(0, most_turns)):
            self.turn(chance)
        self.cells = self.past[-1]

    def turn(self, chance):
        """A random move of either side, suicide of several stones included, that repeats nothing."""
        empty = [point for point in self.board.points if self.past[-1][point] == EMPTY]
        if empty:
            after = self.board.after(Position(self.past[-1], chance.choice("XO"), 0), chance.choice(empty)).cells
            self.past += [after] if after not in self.past else []

    def record(self, mover, targets):
        stones = [[point for point in self.board.points if self.past[0][point] == colour] for colour in "XO"]
        root = f"(;FF[4]GM[1]SZ[{self.size}]{list_of('AB', stones[0], self.size)}{list_of('AW', stones[1], self.size)}"
        nodes = [changes(before, after, self.size) for before, after in zip(self.past, self.past[1:])]
        return f"{root}{''.join(nodes)};PL[{mover}]{list_of('TR', sorted(targets), self.size)})"

    def cells_of(self, kept, region):
        """An area with these kept points and this region."""
        inside = [cell if region >> point & 1 else "-" for point, cell in enumerate(self.cells)]
        return "".join("#" if kept >> point & 1 else cell for point, cell in enumerate(inside))

    def some_chains(self, chance, colour):
        """The points of some chains of a colour, and all that are near them."""
        stones = set_of(self.cells, colour)
        chains = [chain for chain in self.grid.parts(stones) if chance.random() < 0.7] or [stones]
        kept = 0
        for chain in chains:
            kept |= chain
        return kept

    def grown(self, chance, start, within, most):
        """A set of so many points at most, grown from one that is beside the start."""
        region, free = 0, self.grid.beside(start) & within & ~start
        while free and region.bit_count() < most:
            region |= 1 << chance.choice(list(points_of(free)))
            free = (self.grid.beside(region) | self.grid.beside(start)) & within & ~start & ~region
        return region


# --- Life ------------------------------------------------------------------


def replies(area, state):
    """For each due move the answers, each with the state after it; None where a move takes stones, or the state is at fault."""
    if not area.is_sound(state):
        return None
    found = {}
    for point in points_of(area.empty(state)):
        after, taken = area.after_other(state, point)
        if taken:
            return None
        if after != state:
            answers = [(answer, area.after_keeper(after, answer)) for answer in points_of(area.empty(after))]
            found[point] = [(PASS, after), *answers]
    return found


def lasting_states(area):
    """Those states that play leads to in which each due move has an answer that leads to one of them again."""
    known, unvisited = {}, [area.root]
    while unvisited:
        state = unvisited.pop()
        if state not in known:
            known[state] = replies(area, state)
            unvisited += [after for answers in (known[state] or {}).values() for _, after in answers]
    lasting, left = {}, {state: found for state, found in known.items() if found is not None}
    while len(lasting) != len(left):
        lasting, left = left, {state: found for state, found in left.items() if has_answers(found, left)}
    return lasting


def has_answers(found, lasting):
    return all(any(after in lasting for _, after in answers) for answers in found.values())


def letters_of(area, state):
    ours, theirs = area.colours
    stones = {1: ours, 2: theirs, 0: EMPTY}
    return "".join(stones[(state.keeper >> point & 1) + 2 * (state.other >> point & 1)] for point in area.points)


def number_of(area, listed, state):
    """The number of a state of the list that covers this one; it joins the list where none does."""
    for number, known in enumerate(listed, 1):
        if area.covers(known, state):
            return number
    listed.append(state)
    return len(listed)


def write_area(chance, setting, area, gives):
    """The lines of an area, or None where it has no answers."""
    first = replies(area, area.root)
    lasting = lasting_states(area) if first is not None else {}
    if area.root not in lasting:
        return None
    listed, bodies = [area.root], []
    while len(bodies) < len(listed):
        state = listed[len(bodies)]
        is_resting = area.is_at_rest(state) and chance.random() < 0.8
        bodies.append(REST if is_resting else write_replies(chance, area, lasting, listed, state, setting.size))
    cells, given = setting.cells_of(area.kept, area.region), setting.cells_of(gives, 0) if gives else None
    return AreaLines(cells, given, [letters_of(area, state) for state in listed[1:]], bodies)


def write_replies(chance, area, lasting, listed, state, size):
    lines = []
    for point, answers in lasting[state].items():
        right = [(answer, after) for answer, after in answers if after in lasting]
        answer, after = right[0] if chance.random() < 0.5 else chance.choice(right)
        name = answer if answer == PASS else point_name(answer, size)
        lines.append([point_name(point, size), name, str(number_of(area, listed, after))])
    return lines


def make_life(chance, judge, setting, number_of_areas, most):
    """A claim of life with so many areas, or None where the states allow none."""
    name = chance.choice("BW")
    colour = COLOURS[name]
    everything, parts, used = setting.grid.all, [], 0
    for _ in range(number_of_areas):
        kept = setting.some_chains(chance, colour) & ~used
        region = setting.grown(chance, kept, everything & ~used, chance.randint(1, most)) if kept else 0
        if not region:
            return None
        used |= region
        parts.append((kept, region))
    areas = [judge.area(setting.grid, setting.cells_of(kept & ~used, region), colour) for kept, region in parts]
    if number_of_areas > 1 and chance.random() < 0.7:
        for area in areas:
            area.gives = area.kept
    judge.hold(areas)
    lines = [write_area(chance, setting, area, area.gives) for area in areas]
    if None in lines or any(area.kept == 0 for area in areas):
        return None
    target = chance.choice(list(points_of(areas[0].kept)))
    return AnswerText(setting.record(chance.choice("BW"), [target]), ["tsureply", "1", str(setting.size), name], lines, None, None)


# --- Death -----------------------------------------------------------------


class DeathStates:
    """The states of a region in which the killer is to move, with what each of his moves leads to."""

    def __init__(self, judge, area, targets):
        self.area, self.targets = area, targets
        self.rules = judge.death

    def due(self, state):
        """The states that the other side's turns lead to, or None where one takes what is not surely taken."""
        found = {PASS: state} if self.rules.asks_passes else {}
        for point in points_of(self.area.empty(state)):
            after, taken = self.area.after_other(state, point)
            if taken and not self.area.is_sure(state, taken):
                return None
            if after != state and not self.targets & ~after.other:
                found[point] = after
        return found

    def moves(self, state):
        """The killer's moves with what is then due: nothing, where a target is off."""
        found = {}
        for point in points_of(self.area.empty(state)) if not self.area.loose(state) else ():
            after = self.area.after_keeper(state, point)
            if self.area.is_safe(after, point):
                found[point] = {} if self.targets & ~after.other else self.due(after)
        return {point: due for point, due in found.items() if due is not None}

    def all_moves(self, start):
        known, unvisited = {}, list(start)
        while unvisited and len(known) < 400:
            state = unvisited.pop()
            if state not in known:
                known[state] = self.moves(state)
                unvisited += [after for due in known[state].values() for after in due.values()]
        return known

    def entries(self, start):
        """The states from which the killer takes a target, each after those that its move needs."""
        known = self.all_moves(start)
        falling = self.falling(known)
        if self.rules.has_falling_numbers:
            return falling
        return {} if all(state in falling for state in start) else self.closed(known)

    def falling(self, known):
        won, is_more = {}, True
        while is_more:
            found = {state: self.winning(moves, won) for state, moves in known.items() if state not in won}
            found = {state: point for state, point in found.items() if point is not None}
            won.update(found)
            is_more = bool(found)
        return {state: (point, known[state][point]) for state, point in won.items()}

    def closed(self, known):
        """The states from which the killer may go on for ever."""
        left, won = None, known
        while won != left:
            left = won
            won = {state: moves for state, moves in left.items() if self.winning(moves, left) is not None}
        points = {state: self.winning(moves, won) for state, moves in won.items()}
        return {state: (point, won[state][point]) for state, point in points.items()}

    def winning(self, moves, won):
        return next((point for point, due in moves.items() if all(after in won for after in due.values())), None)


def make_death(chance, judge, setting, most):
    """A claim that a chain dies as long as stones round it keep liberties outside, or None."""
    name = chance.choice("BW")
    colour, stones = COLOURS[name], set_of(setting.cells, OTHER[COLOURS[name]])
    chains = [chain for chain in setting.grid.parts(stones) if chain.bit_count() < most]
    if not chains:
        return None
    targets = chance.choice(chains)
    rest = setting.grown(chance, targets, setting.grid.all, chance.randint(1, most - targets.bit_count()))
    kept = set_of(setting.cells, colour) & ~rest & setting.grid.beside(setting.grid.beside(targets | rest) | targets | rest)
    area = judge.area(setting.grid, setting.cells_of(kept, targets | rest), colour)
    area.held = area.kept
    states = DeathStates(judge, area, targets)
    is_first = chance.random() < 0.6
    begin = {PASS: area.root} if is_first else states.due(area.root)
    if begin is None or area.loose(area.root):
        return None
    entries = states.entries(list(begin.values()))
    if any(state not in entries for state in begin.values()):
        return None
    mover = name if is_first else "BW".replace(name, "")
    record = setting.record(mover, points_of(targets))
    death = write_death(area, entries, begin, is_first, setting)
    return AnswerText(record, ["tsudeath", "1", str(setting.size), name], [], None, death)


def write_death(area, entries, begin, is_first, setting):
    listed = list(entries)

    def write(due):
        turns = [(turn if turn == PASS else point_name(turn, setting.size), after) for turn, after in sorted_turns(due)]
        return [[name, str(listed.index(after) + 1)] for name, after in turns]

    lines = []
    for state, (point, due) in entries.items():
        lines.append([letters_of(area, state), point_name(point, setting.size), write(due) if due else TAKEN])
    last = str(listed.index(area.root) + 1) if is_first else write(begin)
    return DeathLines(setting.cells_of(area.kept, area.region), lines, last)


def sorted_turns(due):
    """Points ascending, and then the pass."""
    return sorted(due.items(), key=lambda item: (item[0] == PASS, item[0] if item[0] != PASS else 0))


def make(chance, judge, kind=None, most=None, sizes=(3, 3, 4, 4, 5)):
    """A claim on a random board of one of these sizes, of life, of death, or with two areas, and regions of so many points at most;
    or None, where six tries find none."""
    setting = Setting(chance, chance.choice(sizes), chance.choice([0, 6, 16]))
    for _ in range(6):
        one = kind or chance.choice([LIFE, LIFE, LIFE, DEATH, DEATH, TWO_AREAS])
        if one == DEATH:
            text = make_death(chance, judge, setting, most or 5)
        else:
            text = make_life(chance, judge, setting, 2 if one == TWO_AREAS else 1, most or 4)
        if text:
            return text
    return None
