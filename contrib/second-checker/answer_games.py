"""Games on the whole board against claims by answers that are accepted.

The owner of the kept stones, or the side that kills, plays by the claim alone.  The other side, the adversary, plays anywhere.
Suicide of several stones is legal, and no position of the record's past or of the game may come again.  Nothing here is taken from
answers.py, so that the two do not share a mistake."""
from answer_texts import REST, point_of, points_in, problem_of
from typing import NamedTuple

PASS = 0  # a turn is this, or the bit of a point
STANDS, TAKEN, SUPPOSITION = "stands", "taken", "a supposed stone has lost its liberties outside"


class Refuted(Exception):
    """The claim is not true: what it promises did not come."""


class RealBoard:
    """A board whose points are bits, row by row, with a column beside the last one that belongs to no point."""

    def __init__(self, size):
        self.size, self.width = size, size + 1
        self.bits = [1 << point // size * self.width + point % size for point in range(size * size)]
        self.all = self.of(range(size * size))

    def of(self, points):
        return sum(self.bits[point] for point in points)

    def with_cell(self, cells, cell):
        return self.of(point for point in range(len(cells)) if cells[point] == cell)

    def near(self, points):
        """These points and all that are beside them."""
        return (points | points << 1 | points >> 1 | points << self.width | points >> self.width) & self.all

    def chain(self, start, stones):
        """All stones that are connected with those of the start."""
        found = start
        while (more := self.near(found) & stones) != found:
            found = more
        return found

    def liberties(self, chain, position):
        return self.near(chain) & ~(position[0] | position[1])

    def play(self, mine, theirs, bit):
        """The stones of both after a move; mine are those of the side that moves."""
        mine |= bit
        beside = self.near(bit) & theirs
        while beside:
            chain = self.chain(beside & -beside, theirs)
            beside &= ~chain
            if not self.liberties(chain, (mine, theirs)):
                theirs &= ~chain
        if self.near(bit) & ~(mine | theirs):
            return mine, theirs
        chain = self.chain(bit, mine)
        return (mine, theirs) if self.liberties(chain, (mine, theirs)) else (mine & ~chain, theirs)


class AreaPlan(NamedTuple):
    """What the owner knows of an area: the empty points of each state, and its answers, each with the state that then holds."""

    empty: list[int]
    answers: list[dict | None]  # None where nothing has to be answered


class Entry(NamedTuple):
    killer: int
    other: int
    lasting: int  # those of the other side's stones that have to be there
    move: int


class Game:
    """A claim, ready to be played. A position is the stones of the side that the claim is for, and those of the adversary."""

    def __init__(self, text):
        problem = problem_of(text.record)
        self.board, self.text = RealBoard(text.size), text
        self.letters = text.keeper, "XO".replace(text.keeper, "")
        self.past = {self.position(cells) for cells in problem.history}
        self.start = self.position(problem.start.cells)
        self.is_first, self.is_after_pass = problem.start.mover == text.keeper, problem.start.passes > 0
        self.first = self.bit(text.first) if text.first else PASS
        self.kept = self.kept_in(text.areas)
        self.regions = sum(self.region(area.cells) for area in text.areas)
        self.plans = [self.plan(area) for area in text.areas]
        self.is_death = text.death is not None
        self.entries, self.targets, self.supposed, self.bound = [], 0, 0, 0
        if self.is_death:
            self.prepare_death(text.death, problem)

    def position(self, cells):
        return tuple(self.board.with_cell(cells, letter) for letter in self.letters)

    def bit(self, name):
        return PASS if name == "pass" else self.board.bits[point_of(name, self.text.size)]

    def region(self, cells):
        return self.board.of(points_in(cells))

    def cells(self, position):
        """A position as a colouring."""
        ours, theirs = self.letters
        return "".join(ours if bit & position[0] else theirs if bit & position[1] else "." for bit in self.board.bits)

    def kept_in(self, areas):
        """All kept stones, and those of the owner in the regions."""
        kept = 0
        for area in areas:
            kept |= self.board.with_cell(area.cells, "#") | self.board.with_cell(area.cells, self.letters[0])
        return kept

    def stones(self, points, state):
        """The stones of both sides in a state, whose letters are those of these points."""
        return tuple(self.board.of(point for point, cell in zip(points, state) if cell == letter) for letter in self.letters)

    def plan(self, area):
        points, region = points_in(area.cells), self.region(area.cells)
        states = [self.stones(points, state) for state in ["".join(area.cells[point] for point in points), *area.states]]
        if self.first & region:
            states[0] = self.after_first(area, states[0], region)
        return AreaPlan([region & ~(ours | theirs) for ours, theirs in states], [self.answers(body) for body in area.answers])

    def answers(self, body):
        """The answer to each move in a state, and the place of the state after it."""
        if body == REST:
            return None
        return {self.bit(turn): (self.bit(answer), int(number) - 1) for turn, answer, number in body}

    def after_first(self, area, state, region):
        """The first state where the owner moves first: what then has no liberty, and nothing outside beside it, is taken."""
        ours, theirs = state[0] | self.first, state[1]
        outside = self.board.all & ~region & ~self.board.with_cell(area.cells, "#")
        stays = theirs & self.board.near(outside | region & ~(ours | theirs))
        return ours, self.board.chain(stays, theirs) if stays else 0

    def prepare_death(self, death, problem):
        points, region = points_in(death.cells), self.region(death.cells)
        kept = self.board.with_cell(death.cells, "#")
        outside = self.board.near(self.board.all & ~region & ~kept)
        for state, turn, _ in death.entries:
            ours, theirs = self.stones(points, state)
            rooted = self.board.chain(theirs & outside, theirs) if theirs & outside else 0
            self.entries.append(Entry(ours, theirs, theirs & ~rooted, self.bit(turn)))
        self.targets = self.board.of(problem.targets) & region
        self.supposed, self.kill_region = kept & ~self.kept, region
        self.bound = 2 * (len(self.entries) + self.regions.bit_count()) + 2

    # What a position is
    def end_of(self, position):
        """How a death has come to its end, or None."""
        if self.is_death and self.targets & ~position[1]:
            return TAKEN
        return SUPPOSITION if self.supposed and self.is_supposition_gone(position) else None

    def is_supposition_gone(self, position):
        left = self.supposed & position[0]
        if left != self.supposed:
            return True
        while left:
            chain = self.board.chain(left & -left, position[0])
            left &= ~chain
            if not self.board.liberties(chain, position) & ~self.kill_region:
                return True
        return False

    def demand_kept(self, position):
        if self.kept & ~position[0]:
            raise Refuted("a kept stone is taken")

    def entry_of(self, position):
        """The least entry that the position fits."""
        ours, theirs = position[0] & self.kill_region, position[1] & self.kill_region
        for entry in self.entries:
            if entry.killer == ours and not theirs & ~entry.other and not entry.lasting & ~theirs:
                return entry
        raise Refuted("no entry fits the position")

    # Turns
    def own_turn(self, position, seen, bit):
        """The position after a turn that the claim names."""
        if bit & (position[0] | position[1]):
            raise Refuted("an answer is on a stone")
        after = self.board.play(*position, bit)
        if not after[0] & bit:
            raise Refuted("an answer is suicide")
        if after in seen:
            raise Refuted("an answer is barred: it repeats a position")
        self.demand_kept(after)
        seen.add(after)
        return after

    def begin(self):
        """The first position with the adversary to move, with all that have occurred, and how the game is over there."""
        if self.is_death and self.is_after_pass and not self.is_first:
            raise Refuted("a second pass ends the game")
        position, seen = self.start, set(self.past)
        if self.first:
            position = self.own_turn(position, seen, self.first)
        end = self.end_of(position)
        if self.is_death and self.is_first and not end:
            position = self.own_turn(position, seen, self.entry_of(position).move)
            end = self.end_of(position)
        return position, seen, end

    def adversary_turn(self, position, seen, bit):
        """The position after a move of the adversary, or None where that is not legal."""
        theirs, ours = self.board.play(position[1], position[0], bit)
        return None if (ours, theirs) in seen else (ours, theirs)

    def answer_in(self, plan, state, bit):
        """The answer to the adversary's move in an area, and the state that then holds there."""
        if not plan.empty[state] & bit or plan.answers[state] is None:
            return PASS, state
        if bit not in plan.answers[state]:
            raise Refuted("a move has no reply")
        return plan.answers[state][bit]

    def owner_turn(self, position, seen, states, bit):
        """The position after the owner's turn, which follows the adversary's, a pass or the move at this point; and how it ends."""
        answer = PASS
        for number, plan in enumerate(self.plans if bit else ()):
            one, states[number] = self.answer_in(plan, states[number], bit)
            answer |= one
        if self.is_death and not answer:
            answer = self.entry_of(position).move
        if answer:
            position = self.own_turn(position, seen, answer)
        return position, self.end_of(position)

    def exchange(self, position, seen, states, after, bit):
        """What follows the adversary's turn: a pass, or this move, after which the position is that."""
        if bit:
            position = after
            seen.add(position)
            self.demand_kept(position)
            if end := self.end_of(position):
                return position, end
        return self.owner_turn(position, seen, states, bit)

    def demand_soon(self, exchanges):
        if self.is_death and 2 * exchanges > self.bound:
            raise Refuted(f"no target is taken within {self.bound} turns")


class Adversary:
    """Plays at random, near the regions most often, or by greed: for few liberties, for stones taken, against stones lost."""

    def __init__(self, chance, game, is_greedy):
        self.chance, self.game, self.is_greedy = chance, game, is_greedy
        self.near = game.regions | (game.kill_region if game.is_death else 0)

    def choose(self, position, seen):
        """A move, and the position after it; a pass where none is found, and now and then."""
        best = (-1000, PASS, position)
        if self.chance.random() < 0.03:
            return best[1:]
        for _ in range(6 if self.is_greedy else 3):
            bit = self.some_point(position)
            after = self.game.adversary_turn(position, seen, bit) if bit else None
            if after and not self.is_greedy:
                return bit, after
            if after:
                best = max(best, (self.worth(position, after, bit), bit, after))
        return best[1:]

    def some_point(self, position):
        free = self.game.board.all & ~(position[0] | position[1])
        if free & self.near and self.chance.random() < 0.7:
            free &= self.near
        return some_bit(self.chance, free)

    def worth(self, before, after, bit):
        board = self.game.board
        beside = board.near(bit) & after[0]
        fewest = board.liberties(board.chain(beside & -beside, after[0]), after).bit_count() if beside else 9
        taken = before[0].bit_count() - after[0].bit_count()
        return 6 * taken + after[1].bit_count() - before[1].bit_count() - fewest + 3 * self.chance.random()


def some_bit(chance, bits):
    """One of these bits, the first from somewhere on; or none, where there is none."""
    if not bits:
        return 0
    rest = bits & -1 << chance.randrange(bits.bit_length())
    return rest & -rest


def wander(chance, game, position, seen):
    """A move of the owner's elsewhere, in place of a pass; or the position as it is, where none is found."""
    bit = some_bit(chance, game.board.all & ~(position[0] | position[1] | game.regions))
    after = game.board.play(*position, bit) if bit else position
    if after in seen:
        return position
    game.demand_kept(after)
    seen.add(after)
    return after


def play_game(chance, game, is_greedy, turns, answered=None):
    """The exchanges of one game, and how it ended. The positions after answers are added to a list that is handed over."""
    position, seen, end = game.begin()
    states, adversary, exchanges = [0] * len(game.plans), Adversary(chance, game, is_greedy), 0
    while not end:
        game.demand_soon(exchanges)
        if not game.is_death and exchanges >= turns:
            return exchanges, STANDS
        bit, after = adversary.choose(position, seen)
        before, exchanges = after, exchanges + 1
        position, end = game.exchange(position, seen, states, after, bit)
        if position != before and answered is not None:
            answered.append(position)
        if not game.is_death and position == before and chance.random() < 0.1:
            position = wander(chance, game, position, seen)
    return exchanges, end


class Search:
    """All turns of the adversary, depth first, up to a number of exchanges."""

    def __init__(self, chance, game, most, depth=60):
        self.chance, self.game, self.left, self.depth = chance, game, most, depth

    def run(self):
        """Whether all was tried."""
        position, seen, end = self.game.begin()
        if not end:
            self.below(position, seen, [0] * len(self.game.plans), 0)
        return self.left > 0

    def below(self, position, seen, states, exchanges):
        self.game.demand_soon(exchanges)
        if not self.game.is_death and exchanges >= self.depth:
            return
        for bit in self.turns(position):
            after = self.game.adversary_turn(position, seen, bit) if bit else position
            if after is None:
                continue
            if self.left <= 0:
                return
            self.left -= 1
            seen_below, states_below = set(seen), list(states)
            next_position, end = self.game.exchange(position, seen_below, states_below, after, bit)
            if not end:
                self.below(next_position, seen_below, states_below, exchanges + 1)

    def turns(self, position):
        bits = [bit for bit in self.game.board.bits if not bit & (position[0] | position[1])]
        self.chance.shuffle(bits)
        return bits + ([PASS] if self.game.is_death else [])
