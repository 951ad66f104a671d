"""Claims by answers, for check.py: the section "Claims by answers" of docs/FORMATS.md as a program.

Whoever wrote it, or changes it, has not read the proved judge.  A set of points is a number with a
bit for each point, so that sets are joined and compared by a step of arithmetic."""
import re
from itertools import groupby
from typing import NamedTuple

from reading import BLACK, COLOUR, OTHER, PASS, WHITE, ClaimLines

NAME = {BLACK: "Black", WHITE: "White"}
NUMBER = re.compile("0|[1-9][0-9]{0,7}")
MOST_STATES, MOST_REPLIES = 65_535, 10_000_000

# --- Sets of points
def points_of(points):
    """The points of a set, ascending."""
    while points:
        yield (points & -points).bit_length() - 1
        points &= points - 1

def union(sets):
    points = 0
    for more in sets:
        points |= more
    return points

def set_of(cells, letters):
    """The points of a colouring of the whole board that have one of these letters."""
    return int("".join("1" if cell in letters else "0" for cell in reversed(cells)), 2)

class Grid:
    """The points of a board of some rows."""
    def __init__(self, size):
        row = (1 << size) - 1
        self.size, self.all = size, (1 << size * size) - 1
        first_column = self.all // row  # a bit in each row
        self.not_first, self.not_last = self.all & ~first_column, self.all & ~(first_column << size - 1)

    def beside(self, points):
        """The points that have one of these points beside them."""
        sideways = (points & self.not_last) << 1 | (points & self.not_first) >> 1
        return sideways | points << self.size & self.all | points >> self.size

    def joined(self, start, within):
        """The points of `within` that paths in it join to one of `start`."""
        found = ends = start & within
        while ends:
            ends = self.beside(ends) & within & ~found
            found |= ends
        return found

    def parts(self, points):
        """The parts of a set of points that paths in it join."""
        while points:
            part = self.joined(points & -points, points)
            yield part
            points &= ~part

# --- Areas and their states
class State(NamedTuple):
    """The stones in a region: those of the keeper, and those of the other side."""
    keeper: int
    other: int

class Area:
    """Kept stones and a region.  In its states all other points are the other side's: they are outside."""
    def __init__(self, grid, cells, keeper):
        self.grid, self.colours = grid, (keeper, OTHER[keeper])
        self.kept, self.region = set_of(cells, "#"), set_of(cells, ".XO")
        self.points = list(points_of(self.region))
        self.outside = grid.all & ~(self.kept | self.region)
        self.edge = self.region & grid.beside(self.outside)
        self.root = self.state_on(cells)
        self.gives = self.earlier = self.held = 0

    def state_on(self, cells):
        """What a colouring of the whole board has in the region."""
        return State(*(self.region & set_of(cells, colour) for colour in self.colours))

    def state_of(self, text):
        """The state that a text of `.`, `X` and `O` spells, a letter for each point of the region."""
        cells = list(zip(self.points, text))
        return State(*(union(1 << point for point, cell in cells if cell == colour) for colour in self.colours))

    def stones(self, state):
        return self.kept | state.keeper

    def empty(self, state):
        return self.region & ~(state.keeper | state.other)

    def free(self, state, held):
        """The keeper's stones that reach an empty point, or are joined to a held one."""
        return self.grid.joined(self.grid.beside(self.empty(state)) | held, self.stones(state))

    def unsafe(self, state):
        return self.stones(state) & ~self.free(state, self.held)

    def is_sound(self, state):
        """Whether all stones are free or outside, and those that this area gives are so by this area and earlier ones."""
        return not self.unsafe(state) and not self.loose(state) and not self.gives & ~self.free(state, self.earlier)

    def is_safe(self, state, point):
        """Whether the keeper's stone at a point is not unsafe."""
        return not self.unsafe(state) >> point & 1

    def rooted(self, state):
        return self.grid.joined(self.edge, state.other)

    def loose(self, state):
        return state.other & ~self.grid.joined(self.edge | self.grid.beside(self.empty(state)), state.other)

    def without_loose(self, state):
        return State(state.keeper, state.other & ~self.loose(state))

    def after_keeper(self, state, point):
        return self.without_loose(State(state.keeper | 1 << point, state.other))

    def after_other(self, state, point):
        """The state after the other side's move, and the stones that it takes."""
        state = State(state.keeper, state.other | 1 << point)
        taken = self.unsafe(state)
        return self.without_loose(State(state.keeper & ~taken, state.other)), taken

    def is_sure(self, before, taken):
        """Whether stones that a move takes here are taken on each board that fits the state before it."""
        return not taken & self.edge and not self.grid.beside(taken) & self.rooted(before)

    def covers(self, known, state):
        is_like = known.keeper == state.keeper and not state.other & ~known.other
        return is_like and not known.other & ~state.other & ~self.rooted(known)

    def fits(self, cells, known):
        """Whether a colouring of the whole board fits a state."""
        return not self.kept & ~set_of(cells, self.colours[0]) and self.covers(known, self.state_on(cells))

    def eyes(self, state):
        """The parts of the region without a stone of the keeper's that are shut in by such stones, and not full."""
        parts = self.grid.parts((self.region | self.outside) & ~state.keeper)
        return [part for part in parts if part & self.empty(state) and not part & self.outside]

    def is_at_rest(self, state):
        eyes = self.eyes(state)
        return all(self.has_eyes(part, eyes) for part in self.grid.parts(self.stones(state)))

    def has_eyes(self, part, eyes):
        """Whether stones that are joined have as many of the eyes as they need."""
        if part & self.held:
            needed = 1 if part & self.gives and not part & self.earlier else 0
        else:
            needed = 2
        beside = self.grid.beside(part)
        return sum(not eye & ~beside for eye in eyes) >= needed

def groups_of(areas):
    """The areas in groups: those in a row that give stones, and each other one by itself."""
    for gives, row in groupby(areas, key=lambda area: area.gives != 0):
        areas_in_row = list(row)
        yield from [areas_in_row] if gives else [[area] for area in areas_in_row]

def hold_stones(areas):
    """Tell each area which of its stones hold by earlier areas, or by others of its group."""
    before = 0
    for group in groups_of(areas):
        for area in group:
            given = union(other.gives for other in group if other is not area)
            area.earlier, area.held = area.kept & before, area.kept & (before | given)
        before |= union(area.kept for area in group)

# --- Deaths
class DeathClaim:
    """What follows the bodies in a claim that targets die; `claim` reads the lines."""
    asks_passes = has_falling_numbers = True  # for play-answers, which tries a judge without either rule

    def __init__(self, claim):
        self.claim, self.demand = claim, claim.demand
        self.moves_first = claim.mover == claim.keeper
        self.area = self.targets = self.past = None
        self.entries = []  # the states of those that have been judged

    def judge(self, words):
        claim = self.claim
        self.demand(words[0] == "kill")
        self.area = area = claim.read_area(words)
        area.held = area.kept
        self.targets = area.region & union(1 << target for target in claim.problem.targets)
        self.demand(self.targets and claim.problem.defender == OTHER[claim.keeper], "C25 target not in the region")
        self.past = [cells for cells in claim.problem.history if not area.kept & ~set_of(cells, claim.keeper)]
        words = claim.next_words()
        while words[0] == "entry":
            self.judge_entry(words)
            words = claim.next_words()
        self.judge_last(words)
        self.demand(claim.next_words() == ["end"])
        return self.what_dies()

    def judge_entry(self, words):
        claim, area = self.claim, self.area
        self.demand(len(words) == 3 and claim.is_state(area, words[1]) and words[2] in claim.board.turn_named)
        claim.count_state()
        state, turn = area.state_of(words[1]), claim.board.turn_named[words[2]]
        self.demand(not area.loose(state), "C27 no liberty")
        self.demand(turn != PASS and area.empty(state) >> turn & 1, "C06 turn barred")
        after = area.after_keeper(state, turn)
        self.demand(area.is_safe(after, turn), "C31 own stones taken")
        self.compare_with_past(state, after)
        words = claim.next_words()
        if words == ["taken"]:
            self.demand(self.targets & ~after.other, "C04 not won")
        else:
            self.demand(claim.is_line(words, "all"))
            self.demand(not self.targets & ~after.other, "C05 wrong side or after the end")
            self.judge_all(after, words)
        self.entries.append(state)

    def compare_with_past(self, state, after):
        """Only the entries up to the one with which the killer may begin have to be new, or, where the
        other side moves, those before the first one whose result is already there."""
        fits = self.area.fits
        if not self.moves_first and fits(self.claim.cells, after):
            self.past = []
        self.demand(not any(fits(cells, after) for cells in self.past), "C26 past bars")
        if self.moves_first and fits(self.claim.cells, state):
            self.past = []

    def due_turns(self, state):
        """The other side's turns that leave all targets there, each with the state after it."""
        area, due = self.area, {}
        for point in points_of(area.empty(state)):
            after, taken = area.after_other(state, point)
            self.demand(not taken or area.is_sure(state, taken), f"C32 unsure loss at {self.claim.name(point)}")
            if after != state and not self.targets & ~after.other:
                due[point] = after
        return {**due, PASS: state} if self.asks_passes else due

    def judge_all(self, state, words):
        due = self.due_turns(state)
        self.demand(int(words[1]) == len(due), f"C09 replies differ, {len(due)} due")
        for turn, after in due.items():
            number = int(self.claim.read_reply(3, turn)[2])
            self.claim.judge_cover(self.area, self.entries, number, after)

    def judge_last(self, words):
        """What the problem's own position leads to."""
        claim = self.claim
        self.demand(claim.is_line(words, "use") or claim.is_line(words, "all"))
        if words[0] == "use":
            self.demand(self.moves_first, "C05 wrong side or after the end")
            claim.judge_cover(self.area, self.entries, int(words[1]), self.area.root)
        else:
            self.demand(self.may_begin(), "C05 wrong side or after the end")
            self.judge_all(self.area.root, words)

    def may_begin(self):
        """Whether the other side is to move, and its pass would not end the game."""
        return not self.moves_first and self.claim.problem.start.passes == 0

    def what_dies(self):
        claim = self.claim
        supposed = self.area.kept & ~claim.kept()
        condition = f" while {claim.names(supposed)}" if supposed else ""
        return f"dead {NAME[OTHER[claim.keeper]]} {claim.names(self.targets)}{condition}"

# --- Claims
class AnswerClaim(ClaimLines):
    """A claim by answers, read and judged line by line."""
    area, death, hold = Area, DeathClaim, staticmethod(hold_stones)

    def __init__(self, problem, text):
        super().__init__(text)
        self.problem, self.board = problem, problem.board
        self.grid = Grid(self.board.size)
        self.cells, self.mover = problem.start.cells, problem.start.mover
        self.keeper = self.first = None
        self.areas, self.barred = [], 0  # barred: where an answer could bring back an earlier position
        self.states = self.replies = 0

    def judge(self):
        """What the claim shows."""
        words = self.next_words()
        self.demand(len(words) == 4 and words[0] in ("tsureply", "tsudeath") and words[1] == "1")
        self.demand(NUMBER.fullmatch(words[2]) and words[3] in COLOUR)
        self.demand(int(words[2]) == self.board.size, "C02 size differs")
        self.keeper, is_life = COLOUR[words[3]], words[0] == "tsureply"
        words = self.judge_areas(self.next_words())
        if is_life:
            self.demand(self.areas)
            words = self.judge_first(words)
        if self.areas:
            self.demand(words == ["body"])
            self.judge_heads(is_life)
            self.judge_bodies()
            words = [] if is_life else self.next_words()
        shown = self.what_stands() if is_life else self.death(self).judge(words)
        self.end()
        return shown

    def name(self, point):
        return self.board.name_of[point]

    def names(self, points):
        return " ".join(map(self.name, points_of(points)))

    def count_state(self):
        self.states += 1
        self.demand(self.states <= MOST_STATES, "C15 limit")

    def count_reply(self):
        self.replies += 1
        self.demand(self.replies <= MOST_REPLIES, "C15 limit")

    def is_cells(self, words, letters):
        return len(words) == 2 and len(words[1]) == len(self.board.points) and not set(words[1]) - set(letters)

    def is_state(self, area, text):
        return len(text) == len(area.points) and not set(text) - set(".XO")

    def is_line(self, words, kind):
        """Whether a line is of this kind, and has one number."""
        return len(words) == 2 and words[0] == kind and NUMBER.fullmatch(words[1])

    # The lines before the first body
    def judge_areas(self, words):
        """Read the areas; the words are those of the next line, before and after."""
        while words[0] == "area":
            area = self.read_area(words)
            self.areas.append(area)
            words = self.next_words()
            if words[0] == "gives":
                self.demand(self.is_cells(words, "#-") and "#" in words[1])
                area.gives = set_of(words[1], "#")
                self.demand(not area.gives & ~area.kept, "C24 gives what is not kept")
                words = self.next_words()
        return words

    def read_area(self, words):
        self.demand(self.is_cells(words, "#-.XO"))
        area = self.area(self.grid, words[1], self.keeper)
        self.demand(area.region)
        self.demand(not area.kept & ~set_of(self.cells, self.keeper), "C21 kept stone missing")
        shared = union(area.region & (other.region | other.kept) | area.kept & other.region for other in self.areas)
        inside = union(1 << point for point in self.problem.region)
        self.demand(not shared and not area.region & ~inside, "C22 point not free")
        self.demand(area.fits(self.cells, area.root), "C23 board differs")
        return area

    def judge_first(self, words):
        if words[0] != "first":
            return words
        self.demand(len(words) == 2 and words[1] in self.board.turn_named)
        self.demand(self.mover == self.keeper, "C05 wrong side or after the end")
        self.first = self.board.turn_named[words[1]]
        at = [area for area in self.areas if self.first != PASS and area.empty(area.root) >> self.first & 1]
        self.demand(at, "C06 turn barred")
        at[0].root = at[0].after_keeper(at[0].root, self.first)
        return self.next_words()

    def kept(self):
        """The points that the areas keep, but for the one at which the keeper moves first."""
        points = union(area.stones(area.root) for area in self.areas)
        return points if self.first is None else points & ~(1 << self.first)

    def past_with(self, points):
        """The keeper's points in each earlier position in which he has all of these."""
        pasts = [set_of(cells, self.keeper) for cells in self.problem.history]
        return [past for past in pasts if not points & ~past]

    def judge_heads(self, is_life):
        self.hold(self.areas)
        kept = self.kept()
        self.demand(not is_life or all(kept >> target & 1 for target in self.problem.targets), "C25 target not kept")
        self.barred = union(self.past_with(kept))
        self.demand(self.first is None or not self.barred >> self.first & 1, "C26 past bars")

    # The bodies
    def judge_bodies(self):
        for area in self.areas:
            self.demand(area is self.areas[0] or self.next_words() == ["body"])
            self.judge_body(area)

    def judge_body(self, area):
        states = [area.root]
        self.judge_state(area, area.root)
        words = self.next_words()
        while words[0] == "state":
            self.demand(len(words) == 2 and self.is_state(area, words[1]))
            states.append(area.state_of(words[1]))
            self.judge_state(area, states[-1])
            words = self.next_words()
        for state in states:
            if words == ["rest"]:
                self.demand(area.is_at_rest(state), "C30 not at rest")
            else:
                self.judge_all(area, states, state, words)
            words = self.next_words()
        self.demand(words == ["end"])

    def judge_state(self, area, state):
        self.count_state()
        self.demand(area.is_sound(state), "C27 no liberty")

    def judge_all(self, area, states, state, words):
        self.demand(self.is_line(words, "all"))
        due = {}
        for point in points_of(area.empty(state)):
            after, taken = area.after_other(state, point)
            self.demand(not taken, f"C28 stones taken at {self.name(point)}")
            if after != state:
                due[point] = after
        self.demand(int(words[1]) == len(due), f"C09 replies differ, {len(due)} due")
        for point, after in due.items():
            self.judge_reply(area, states, point, after)

    def read_reply(self, number_of_words, turn):
        """The words of a reply to this turn of the other side's."""
        words = self.next_words()
        self.demand(len(words) == number_of_words and words[0] == "reply" and NUMBER.fullmatch(words[-1]))
        self.demand(all(word in self.board.turn_named for word in words[1:-1]))
        self.count_reply()
        self.demand(words[1] == self.name(turn), f"C09 replies differ, due {self.name(turn)}")
        return words

    def judge_reply(self, area, states, point, after):
        words = self.read_reply(4, point)
        answer = self.board.turn_named[words[2]]
        if answer != PASS:
            self.demand(area.empty(after) >> answer & 1, "C06 turn barred")
            self.demand(not self.barred >> answer & 1, "C26 past bars")
            after = area.after_keeper(after, answer)
        self.judge_cover(area, states, int(words[3]), after)

    def judge_cover(self, area, states, number, state):
        self.demand(1 <= number <= len(states), "C10 number not there")
        self.demand(area.covers(states[number - 1], state), "C29 state not covered")

    def what_stands(self):
        by = "" if self.first is None else f"by {self.name(self.first)} "
        return f"stands {NAME[self.keeper]} {by}{self.names(self.kept())}"
