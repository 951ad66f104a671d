#!/usr/bin/env python3
"""A second checker of tsumego's claims and answer trees, for Python 3.

It was written from docs/FORMATS.md, docs/RULES.md and the SGF standard FF[4] alone, by somebody
who had read nothing else of the project, so that the two checkers do not share a mistake.  Later
changes keep that rule: whoever changes this file reads those documents, and not the program.
The files reading.py and answers.py belong to it.

    check.py check                  who wins by the claim behind the record
    check.py short                  who wins by the short claim behind the record, or what the claim
                                    by answers there shows
    check.py audit                  who wins by the tree below the problem node
    check.py within K [--nodes N]   who can force a win within K turns

Each reads standard input; texts, but where arguments are invalid, and codes are FORMATS.md's."""
import os
import re
import sys
from collections import namedtuple

sys.dont_write_bytecode = True
sys.path.insert(0, os.path.dirname(os.path.abspath(__file__)))
from answers import AnswerClaim  # noqa: E402
from reading import (  # noqa: E402
    ANSWERED, BAD_ARGUMENTS, BLACK, COLOUR, EMPTY, FAILED, OTHER, PASS, RECORD_BYTES, REJECTED, SETUP, SPACE, WHITE,
    ClaimLines, Ending, RecordReader, State, demand, read_problem, read_turns,
)

# --- Life by shape
def connected_parts(board, points):
    """The parts of a set of points that paths of adjacent points join."""
    parts, unvisited = [], set(points)
    while unvisited:
        part, ends = set(), {unvisited.pop()}
        while ends:
            part |= ends
            ends = points_beside(board, ends) & unvisited
            unvisited -= ends
        parts.append(part)
    return parts

def points_beside(board, points):
    """The points adjacent to a set of points, and not in it."""
    return {other for point in points for other in board.neighbours[point]} - points

def lives_by_shape(problem, cells):
    """Whether the targets live by their shape in a colouring where the defender holds them."""
    board = problem.board
    stones = {point for point in board.points if cells[point] == problem.defender}
    empty = {point for point in board.points if cells[point] == EMPTY}

    def is_safe(chain, eyes):
        beside = points_beside(board, chain)
        return beside & (empty - problem.region) or sum(eye <= beside for eye in eyes) >= 2

    # All that is beside an eye is the defender's, so it is made of whole parts of what is not.  One
    # part that has an empty point is enough, and eyes that share no point are different parts.
    parts = [part for part in connected_parts(board, set(board.points) - stones) if part & empty]
    # What several sets of safe chains have each, they have together: so there is a greatest one,
    # and a chain that is not safe among more chains is not in it.
    chains, unsafe = connected_parts(board, stones), True
    while unsafe:
        held = set().union(*chains)
        eyes = [part for part in parts if points_beside(board, part) <= held]
        unsafe = [chain for chain in chains if not is_safe(chain, eyes)]
        chains = [chain for chain in chains if chain not in unsafe]
    return problem.targets <= held

# --- within
def winner_within(problem, turns, state, known, budget):
    """The side that wins within so many turns, or None; budget yields as often as a state may be asked."""
    demand(next(budget, None) is not None, "limit", REJECTED)
    states = problem.legal_turns(state, known).values() if turns > 0 else ()
    if not states:
        return problem.winner(state)
    winners = {winner_within(problem, turns - 1, after, known | {after.cells}, budget) for after in states}
    if state.mover in winners:
        return state.mover
    return None if None in winners else OTHER[state.mover]

# --- Answer trees
# A node of the way to the node that is asked: the state after it, the colourings that it made
# known, and the turns of those of its children that have been asked.
Step = namedtuple("Step", "node state joined turns_asked")

def demand_of_node(node, holds, fault):
    demand(holds, f"rejected node {node.number}: {fault}", REJECTED)

def node_turn(board, node):
    """The colour and the turn of a node, or None for both where it is no turn."""
    turns = read_turns(board, node)
    is_turn = len(turns) == 1 and turns[0][1] is not None and not SETUP.keys() & node.properties.keys()
    return turns[0] if is_turn else (None, None)

def take_turn(problem, node, state, known):
    """The turn of a node and the state after it."""
    colour, turn = node_turn(problem.board, node)
    demand_of_node(node, turn is not None, "A01 no turn")
    demand_of_node(node, colour == state.mover, "A02 wrong colour")
    demand_of_node(node, problem.winner(state) is None, "A07 after the end")
    legal_turns = problem.legal_turns(state, known)
    demand_of_node(node, turn in legal_turns, "A03 turn barred")
    return turn, legal_turns[turn]

def first_end(problem, node):
    """Who has won where the first children below the problem node end."""
    state, known = problem.start, set(problem.history)
    while node.children:
        node = node.children[0]
        _, state = take_turn(problem, node, state, known)
        known.add(state.cells)
    demand_of_node(node, problem.winner(state) is not None, "A06 not won")
    return problem.winner(state)

def judge_children(problem, node, state, known, winner):
    """Ask a node for what follows it."""
    won_by = problem.winner(state)
    demand_of_node(node, won_by == winner or (won_by is None and node.children), "A06 not won")
    demand_of_node(node, state.mover != winner or len(node.children) <= 1, "A08 several answers")
    shown = [node_turn(problem.board, child)[1] for child in node.children]
    for turn in problem.legal_turns(state, known) if state.mover != winner else ():
        demand_of_node(node, turn in shown, f"A04 reply missing {problem.board.name_of[turn]}")

def audit(problem, problem_node):
    """Who wins by the tree below the problem node."""
    winner = first_end(problem, problem_node)
    known, path, unasked = set(problem.history), [], [problem_node]
    while unasked:
        node = unasked.pop()
        state, joined = problem.start, set()
        if node is not problem_node:
            while path[-1].node is not node.parent:
                known -= path.pop().joined
            step = path[-1]
            turn, state = take_turn(problem, node, step.state, known)
            demand_of_node(node, step.state.mover == winner or turn not in step.turns_asked, "A05 reply twice")
            step.turns_asked.add(turn)
            joined = {state.cells} - known
            known |= joined
        path.append(Step(node, state, joined, set()))
        judge_children(problem, node, state, known, winner)
        unasked.extend(reversed(node.children))
    return winner

# --- Claims
NUMBER = re.compile("[1-9][0-9]{0,7}")
# For each command the first words of its claims, with the kinds of lines that not all claims have.
KINDS = {
    "check": {"tsucert 1": [], "tsucert 2": ["had"]},
    "short": {"tsushort 1": ["had", "alive"]},
}
Lemma = namedtuple("Lemma", "root had barred")  # a state, and the sets of the `had` and `not` lines

class Claim(ClaimLines):
    """A claim, read and judged line by line."""
    def __init__(self, problem, text, kinds):
        super().__init__(text)
        self.problem, self.board, self.kinds = problem, problem.board, kinds
        self.nodes = self.listed = 0
        self.colouring = re.compile(f"[.XO]{{{len(self.board.points)}}}")
        self.more_kinds = self.winner = self.known = None
        self.lemmas = []  # those whose bodies have been judged
        self.lemma = None  # the one whose body is read; in main there is none

    def judge(self):
        """The side that wins by this claim."""
        words = self.next_words()
        self.demand(len(words) == 4 and " ".join(words[:2]) in self.kinds)
        self.demand(NUMBER.fullmatch(words[2]) and words[3] in COLOUR)
        self.demand(int(words[2]) == self.board.size, "C02 size differs")
        self.more_kinds, self.winner = self.kinds[" ".join(words[:2])], COLOUR[words[3]]
        while (words := self.next_words())[0] == "lemma":
            self.judge_lemma(words)
        self.demand(words == ["main"])
        self.judge_body(self.next_words(), self.problem.start, self.problem.history)
        self.end()
        return self.winner

    def judge_lemma(self, words):
        self.demand(len(words) == 4 and words[1] in COLOUR and words[2] in ("0", "1"))
        self.demand(self.colouring.fullmatch(words[3]))
        self.demand(len(self.lemmas) < 65_535, "C15 limit")
        self.demand(self.board.all_have_liberties(words[3]), "C03 root without liberty")
        root = State(words[3], COLOUR[words[1]], int(words[2]))
        words = self.next_words()
        had, words = self.read_list("had", words) if "had" in self.more_kinds else (set(), words)
        barred, words = self.read_list("not", words)
        self.lemma = Lemma(root, had, barred)
        self.judge_body(words, root, had | {root.cells})
        self.lemmas.append(self.lemma)  # only now, so that no lemma uses itself
        self.lemma = None

    def read_list(self, kind, words):
        """The colourings of the lines of this kind, and the words of the next line."""
        colourings = [""]  # less than all
        while words[0] == kind:
            self.demand(len(words) == 2 and self.colouring.fullmatch(words[1]))
            self.listed += 1
            self.demand(self.listed <= 1_000_000, "C15 limit")
            self.demand(colourings[-1] < words[1], "C14 list order")
            colourings.append(words[1])
            words = self.next_words()
        return set(colourings[1:]), words

    def judge_body(self, words, state, known):
        self.known = set(known)
        self.judge_node(words, state, 1)
        self.demand(self.next_words() == ["end"])

    def judge_node(self, words, state, depth):
        """Judge a node whose first line has these words, and all below it."""
        kind, last = words[0], words[-1]
        is_leaf = words == ["won"] or (words == ["alive"] and kind in self.more_kinds)
        self.demand(is_leaf or (len(words) == 2 and kind in ("play", "all", "use")))
        self.demand(kind != "play" or last in self.board.turn_named)
        self.demand(kind not in ("all", "use") or NUMBER.fullmatch(last))
        self.nodes += 1
        self.demand(self.nodes <= 10_000_000 and depth <= 2_000, "C15 limit")
        won_by = self.problem.winner(state)
        self.demand(kind != "won" or won_by == self.winner, "C04 not won")
        if kind in ("play", "all"):
            is_right_side = (state.mover == self.winner) == (kind == "play")
            self.demand(is_right_side and won_by is None, "C05 wrong side or after the end")
        if kind == "play":
            self.judge_play(self.board.turn_named[last], state, depth)
        if kind == "all":
            self.judge_all(int(last), state, depth)
        if kind == "use":
            self.judge_use(int(last), state)
        if kind == "alive":
            may_live = won_by is None and self.winner == self.problem.defender
            lives = may_live and lives_by_shape(self.problem, state.cells)
            self.demand(lives, "C20 not alive by shape")

    def judge_play(self, turn, state, depth):
        self.demand(turn == PASS or turn in self.problem.region and state.cells[turn] == EMPTY, "C06 turn barred")
        after = self.board.after(state, turn)
        if turn != PASS:
            self.demand(after.cells not in self.known, "C07 repeats a known position")
            self.demand(self.lemma is None or after.cells in self.lemma.barred, "C08 result not listed")
        self.judge_below(after, depth)

    def judge_all(self, number_of_replies, state, depth):
        due_turns = self.problem.legal_turns(state, self.known)
        self.demand(number_of_replies == len(due_turns), "C09 replies differ, due pass")
        for due, after in due_turns.items():
            words = self.next_words()
            self.demand(len(words) == 2 and words[0] == "reply" and words[1] in self.board.turn_named)
            name = self.board.name_of[due]
            self.demand(words[1] == name, f"C09 replies differ, due {name}")
            self.judge_below(after, depth)

    def judge_below(self, after, depth):
        """Judge the next node, which is about that state after a turn."""
        joined = {after.cells} - self.known  # nothing joins by a pass
        self.known |= joined
        self.judge_node(self.next_words(), after, depth + 1)
        self.known -= joined

    def judge_use(self, number, state):
        self.demand(number <= len(self.lemmas), "C10 lemma number not lower")
        used = self.lemmas[number - 1]
        self.demand(used.root == state, "C11 state differs")
        self.demand(used.had <= self.known, "C19 needed position has not occurred")
        self.demand(not used.barred & self.known, "C12 listed position has occurred")
        is_passed_on = self.lemma is None or used.barred <= self.lemma.barred
        self.demand(is_passed_on, "C13 listed position not passed on")

# --- The command line
def numbers_of_within(words):
    """K and N, or None where these are no valid words of `within`."""
    if words[1:2] == ["--nodes"]:  # may stand before K too
        words = [words[0], *words[3:], *words[1:3]]
    number = r"\+?[0-9]{1,20}"
    match = re.fullmatch(f"within\0({number})(?:\0--nodes\0({number}))?", "\0".join(words))
    numbers = (int(match[1]), int(match[2] or 1_000_000)) if match else (201, 0)
    return numbers if numbers[0] <= 200 and numbers[1] <= 4_294_967_295 else None

WINS = {BLACK: "wins Black", WHITE: "wins White", None: "neither"}

def find_answer(words, stream):
    """The text that the command asks for."""
    numbers = numbers_of_within(words)
    usage = "usage: check.py check | short | audit | within K [--nodes N]"
    demand(numbers or words in (["check"], ["short"], ["audit"]), usage, BAD_ARGUMENTS)
    data = stream.read(RECORD_BYTES + 1)
    reader = RecordReader(data)
    problem, problem_node = read_problem(reader.read())
    if words == ["audit"]:
        return WINS[audit(problem, problem_node)]
    if numbers is not None:
        return WINS[winner_within(problem, numbers[0], problem.start, problem.history, iter(range(numbers[1])))]
    rest = data[reader.position :] + stream.read()
    claim = rest.lstrip(SPACE.encode())
    demand(len(rest) - len(claim) <= RECORD_BYTES, "failed: read", FAILED)
    if words == ["short"] and claim.startswith((b"tsureply ", b"tsudeath ")):
        return AnswerClaim(problem, claim).judge()
    return WINS[Claim(problem, claim, KINDS[words[0]]).judge()]

def answer(words, stream):
    """The text and the status for these arguments and this input."""
    sys.setrecursionlimit(20_000)  # a claim has up to 2,000 nodes one below another
    try:
        return find_answer(words, stream), ANSWERED
    except Ending as ending:
        return ending.args
    except (MemoryError, OSError) as failure:
        return "failed: " + ("memory" if isinstance(failure, MemoryError) else "read"), FAILED

if __name__ == "__main__":
    answer_text, answer_status = answer(sys.argv[1:], sys.stdin.buffer)
    try:
        os.write(1, answer_text.encode() + b"\n")
    except OSError:
        answer_status = FAILED
    sys.exit(answer_status)
