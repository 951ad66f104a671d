"""What each command of check.py reads: the board and the target game, the SGF text, the problem of a record,
and the lines of a claim.  Written from docs/FORMATS.md, docs/RULES.md and the SGF standard FF[4] alone."""
import re
from collections import namedtuple
from functools import cache
from math import dist

EMPTY, BLACK, WHITE = ".XO"
COLOUR = {"B": BLACK, "W": WHITE}
OTHER = {BLACK: WHITE, WHITE: BLACK}
PASS = "pass"  # a turn is this, or the number of a point
SPACE = "\t\n\v\f\r "
RECORD_BYTES = 1_048_576  # also the most white space between record and claim
ANSWERED, REJECTED, REFUSED, BAD_ARGUMENTS, FAILED = range(5)

class Ending(Exception):
    """An answer that ends the work at once: its text and its status."""

def demand(holds, text, status):
    if not holds:
        raise Ending(text, status)

# --- The board and the target game
State = namedtuple("State", "cells mover passes")

class Board:
    """A board of some rows.  A colouring of it is a string of . X O, row by row."""
    def __init__(self, size):
        self.size = size
        self.points = range(size * size)
        names = [chr(97 + point % size) + chr(97 + point // size) for point in self.points]
        self.point_named = dict(zip(names, self.points))
        self.turn_named = {**self.point_named, PASS: PASS}
        self.name_of = {turn: name for name, turn in self.turn_named.items()}
        places = [divmod(point, size) for point in self.points]
        distances = [[dist(place, other) for other in places] for place in places]
        self.neighbours = [[point for point in self.points if row[point] == 1] for row in distances]

    def dead_chain(self, cells, start):
        """The points of the chain at start, or nothing where it has a liberty."""
        chain, unvisited = {start}, [start]
        while unvisited:
            for point in self.neighbours[unvisited.pop()]:
                if cells[point] == EMPTY:
                    return set()
                if cells[point] == cells[start] and point not in chain:
                    chain.add(point)
                    unvisited.append(point)
        return chain

    def all_have_liberties(self, cells):
        return not any(cells[point] != EMPTY and self.dead_chain(cells, point) for point in self.points)

    def after(self, state, turn):
        """The state after a pass or a move at an empty point."""
        other = OTHER[state.mover]
        if turn == PASS:
            return State(state.cells, other, state.passes + 1)
        cells = list(state.cells)
        cells[turn] = state.mover
        # All chains had liberties: only those beside the stone, and then its own, may now have none.
        for start in [*self.neighbours[turn], turn]:
            if cells[start] == other or start == turn:
                for stone in self.dead_chain(cells, start):
                    cells[stone] = EMPTY
        return State("".join(cells), other, 0)

@cache
def board_of(size):
    return Board(size)

class Problem(namedtuple("Problem", "board targets region start history")):
    """The target game; targets, region and history are sets."""
    @property
    def defender(self):
        return self.start.cells[min(self.targets)]

    def winner(self, state):
        """The side that has won, or None."""
        defender = self.defender
        if any(state.cells[target] != defender for target in self.targets):
            return OTHER[defender]
        return defender if state.passes >= 2 else None

    def legal_turns(self, state, known):
        """The turns, points ascending and then pass, each with the state after it."""
        if self.winner(state) is not None:
            return {}
        empty = [point for point in sorted(self.region) if state.cells[point] == EMPTY]
        moves = {point: self.board.after(state, point) for point in empty}
        legal = {point: after for point, after in moves.items() if after.cells not in known}
        return {**legal, PASS: self.board.after(state, PASS)}

# --- The SGF text
LETTERS = re.compile("[A-Za-z]+")
VALUE = re.compile(r"\[([^\\\]]*(?:\\.[^\\\]]*)*)\]", re.DOTALL)

class Node:
    """A node of a record; properties has the list of the values of each name."""
    def __init__(self, number, parent):
        self.number, self.parent, self.children, self.properties = number, parent, [], {}
        if parent is not None:
            parent.children.append(self)

    def values(self, name):
        return self.properties.get(name, [])

class RecordReader:
    """Reads the first game tree; each byte is one character of the text."""
    def __init__(self, data):
        self.text = data[:RECORD_BYTES].decode("latin-1")
        self.is_longer = len(data) > RECORD_BYTES
        self.position = 0

    def demand(self, holds, position):
        is_cut = self.is_longer and position == len(self.text)
        demand(holds, "refused: sgf " + ("3 too long" if is_cut else f"2 syntax at {position}"), REFUSED)

    def next_mark(self):
        """The character behind white space at the position, or nothing at the end."""
        while self.text[self.position : self.position + 1] in tuple(SPACE):
            self.position += 1
        return self.text[self.position : self.position + 1]

    def read(self):
        """The root of the tree; the position is then just behind the tree."""
        begin = re.search(f"\\([{SPACE}]*;", self.text)
        demand(begin, "refused: sgf 1 no tree", REFUSED)
        self.position = begin.start()
        nodes, last = [], None  # last: what a node, a property or a tree here belongs to
        branches = []  # for each open tree the node that it branches from
        may_follow = ["("]
        while True:
            mark = "letter" if LETTERS.match(self.next_mark()) else self.next_mark()
            self.demand(mark in may_follow, self.position)
            if mark == "letter":
                self.read_property(last)
                continue
            self.position += 1
            if mark == "(":
                demand(len(branches) < 1_000, "refused: sgf 4 too deep", REFUSED)
                branches.append(last)
                may_follow = [";"]
            elif mark == ";":
                demand(len(nodes) < 100_000, "refused: sgf 5 too many nodes", REFUSED)
                last = Node(len(nodes), last)
                nodes.append(last)
                may_follow = ["letter", ";", "(", ")"]
            else:
                last = branches.pop()
                may_follow = ["(", ")"]
                if not branches:
                    return nodes[0]

    def read_property(self, node):
        letters = LETTERS.match(self.text, self.position)
        self.position = letters.end()
        name = re.sub("[a-z]", "", letters[0])
        self.demand(name != "" and self.next_mark() == "[", self.position)
        while self.next_mark() == "[":
            value = VALUE.match(self.text, self.position)
            self.demand(value, len(self.text))  # a value can only be cut off
            node.properties.setdefault(name, []).append(value[1].strip(SPACE))
            self.position = value.end()

# --- The problem of a record
SETUP = {"AB": BLACK, "AW": WHITE, "AE": EMPTY}
MARKS = {"TR", "SQ"}
SIZE = re.compile(r"\+?0*([1-9][0-9]?)(?::\+?0*([1-9][0-9]?))?")

def read_turns(board, node):
    """The colour and the turn of each value of B and W; the turn is None where it is bad."""
    turns = []
    for name, value in [(name, value) for name in "BW" for value in node.values(name)]:
        is_pass = value == "" or (value == "tt" and board.size < 20)
        turns.append((COLOUR[name], PASS if is_pass else board.point_named.get(value)))
    return turns

def read_points(board, values):
    """The points that values of AB, AW, AE, TR or SQ name, or None."""
    points = set()
    for value in values:
        corners = [board.point_named.get(name) for name in value.split(":")]
        if len(corners) > 2 or None in corners:
            return None
        (top, left), (bottom, right) = (divmod(corners[place], board.size) for place in (0, -1))
        rows, columns = range(top, bottom + 1), range(left, right + 1)
        if not rows or not columns:
            return None
        points.update(row * board.size + column for row in rows for column in columns)
    return points

class MainLine:
    """What the nodes of the main line have led to so far."""
    def __init__(self, board):
        self.board = board
        self.state = State(EMPTY * len(board.points), BLACK, 0)
        self.history = {}  # each colouring with its number
        self.node = self.points = None  # the node read last, and the points of its properties

    def demand(self, holds, text, detail=""):
        demand(holds, f"refused: problem {text} at node {self.node.number}{detail}", REFUSED)

    def follow(self, node):
        """Do what a node says, with its refusals in the order of their numbers."""
        self.node = node
        for name in ("B", "W", "PL"):
            self.demand(len(node.values(name)) <= 1, f"4 many values of {name}")
        self.points = {name: read_points(self.board, node.values(name)) for name in [*SETUP, *MARKS]}
        turns = read_turns(self.board, node)
        self.demand(None not in [*self.points.values(), *(turn for _, turn in turns)], "5 bad point")
        setup = {point: SETUP[name] for name in SETUP for point in self.points[name]}
        self.demand(len(setup) == sum(len(self.points[name]) for name in SETUP), "6 shared point")
        self.demand(not (turns and setup), "7 mixed")
        self.demand(len(turns) <= 1, "8 both colours")
        if setup:
            cells = "".join(setup.get(point, cell) for point, cell in enumerate(self.state.cells))
            self.demand(self.board.all_have_liberties(cells), "10 no liberty")
            self.state = State(cells, self.state.mover, 0)
        self.history = self.history or {self.state.cells: 0}  # before a turn of the root
        for colour, turn in turns:
            occupied = turn != PASS and self.state.cells[turn] != EMPTY
            self.demand(not occupied, "9 illegal turn", ": occupied")
            self.state = self.board.after(self.state._replace(mover=colour), turn)
            repeated = None if turn == PASS else self.history.get(self.state.cells)
            self.demand(repeated is None, "9 illegal turn", f": repeats {repeated}")
        self.history.setdefault(self.state.cells, len(self.history))
        if MARKS & node.properties.keys():
            colours = {self.state.cells[target] for target in self.points["TR"]}
            self.demand(len(colours) == 1 and EMPTY not in colours, "11 bad targets")
            self.demand(self.state.passes < 2, "12 ended")
        for value in node.values("PL") if not turns else ():
            self.demand(value.upper() in ("B", "W", "BLACK", "WHITE"), "13 bad colour")
            self.state = self.state._replace(mover=COLOUR[value[0].upper()])
        self.demand(len(self.history) <= 1_000, "14 long history")

def read_problem(root):
    """The problem of a record, and its problem node."""
    demand(root.properties.get("GM", ["1"]) == ["1"], "refused: problem 1 game", REFUSED)
    sizes = root.properties.get("SZ", ["19"])
    match = SIZE.fullmatch(sizes[0])
    is_size = len(sizes) == 1 and match and match[2] in (None, match[1]) and int(match[1]) <= 25
    demand(is_size, "refused: problem 2 size", REFUSED)
    nodes = [root]
    while not MARKS & nodes[-1].properties.keys():
        demand(nodes[-1].children, "refused: problem 3 no problem node", REFUSED)
        nodes.append(nodes[-1].children[0])
    line = MainLine(board_of(int(match[1])))
    for node in nodes:
        line.follow(node)
    region = line.points["SQ"] or set(line.board.points)
    return Problem(line.board, line.points["TR"], region, line.state, set(line.history)), nodes[-1]

# --- The lines of a claim
class ClaimLines:
    """The lines of a claim, which are read and judged one by one."""
    def __init__(self, text):
        self.lines = text.decode("latin-1").split("\n")  # the last one is not ended
        self.line = 0

    def demand(self, holds, fault="C01 malformed"):
        demand(holds, f"rejected line {self.line}: {fault}", REJECTED)

    def next_words(self):
        self.line += 1
        self.demand(self.line < len(self.lines))
        return self.lines[self.line - 1].split(" ")

    def end(self):
        self.line += 1
        self.demand(self.lines[self.line - 1 :] == [""], "C16 text after the end")
