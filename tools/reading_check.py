#!/usr/bin/env python3
"""Checks records for readers, as `short_claims tree` writes them, by the rules of `contrib/second-checker/check.py`.

    tools/reading_check.py RECORD..     a line is printed for each

Below the problem node each turn has to be legal, with one turn of the winner and each legal turn of the other side. A line may
end where the winner has won; where the targets live by their shape, with labels at the least empty points of two eyes of the
first target's chain, or at its least liberty outside the region; and where a comment names the turns to an earlier node with
the same position, if what is below that node answers each legal turn here as well. The exit code is 1 where something is wrong.
"""
import importlib.machinery
import importlib.util
import pathlib
import re
import sys

import script_words

CHECKER = pathlib.Path(__file__).resolve().parent.parent / "contrib/second-checker/check.py"
NAMES = {"X": "Black", "O": "White"}
COLUMNS = "ABCDEFGHJKLMNOPQRSTUVWXYZ"


def second_checker():
    loader = importlib.machinery.SourceFileLoader("second_checker", str(CHECKER))
    module = importlib.util.module_from_spec(importlib.util.spec_from_loader(loader.name, loader))
    loader.exec_module(module)
    return module


rules = second_checker()


class Wrong(Exception):
    """What is wrong with a record."""


def demand(holds, text):
    if not holds:
        raise Wrong(text)


class Reading:
    """A record, and what has been seen of it."""

    def __init__(self, data):
        self.root = rules.RecordReader(data).read()
        self.problem, self.node = rules.read_problem(self.root)
        self.board = self.problem.board
        said = re.fullmatch(r"(Black|White) wins(?:\n(.*))?", self.comment(self.node))
        demand(said, "the problem node does not say who wins")
        self.winner = {name: colour for colour, name in NAMES.items()}[said[1]]
        self.places = {}
        self.counts = dict.fromkeys(("turns", "won", "alive", "again"), 0)
        self.walk(self.node, self.problem.start, set(self.problem.history), (), said[2] or "")

    @staticmethod
    def comment(node):
        values = node.values("C")
        demand(len(values) <= 1, f"node {node.number} has several comments")
        return values[0] if values else ""

    def vertex(self, turn):
        if turn == rules.PASS:
            return "pass"
        row, column = divmod(turn, self.board.size)
        return f"{COLUMNS[column]}{self.board.size - row}"

    def named(self, line):
        """The comment that sends a reader to the end of this line."""
        return "As after " + ", ".join(f"{NAMES[side][0]} {self.vertex(turn)}" for side, turn in line) + "."

    def walk(self, node, state, known, line, said):
        self.places[self.named(line)] = (node, state)
        won_by = self.problem.winner(state)
        if won_by is not None:
            demand(won_by == self.winner, f"node {node.number}: the other side has won")
            demand(not (node.children or said or node.values("LB")), f"node {node.number}: something after the end")
            self.counts["won"] += 1
        elif node.children:
            demand(not (said or node.values("LB")), f"node {node.number}: turns below a node that ends a line")
            self.walk_below(node, state, known, line)
        elif said.startswith("As "):
            other, there = self.places.get(said, (None, None))
            demand(there == state and other.children, f"node {node.number}: '{said}' is no such place")
            self.counts["again"] += 1
            self.follow(other, state, known)
        else:
            self.ask_life(node, state, said)
            self.counts["alive"] += 1

    def walk_below(self, node, state, known, line):
        legal = self.problem.legal_turns(state, known)
        turns = [rules.node_turn(self.board, child) for child in node.children]
        shown = [turn for _, turn in turns]
        demand(all(side == state.mover for side, _ in turns), f"node {node.number}: a turn of the wrong side")
        demand(set(shown) <= set(legal), f"node {node.number}: an illegal turn")
        if state.mover == self.winner:
            demand(len(shown) == 1, f"node {node.number}: several answers")
        else:
            demand(sorted(map(str, shown)) == sorted(map(str, legal)), f"node {node.number}: other replies than the legal ones")
        for (side, turn), child in zip(turns, node.children):
            after = legal[turn]
            self.counts["turns"] += 1
            self.walk(child, after, known | {after.cells}, (*line, (side, turn)), self.comment(child))

    def follow(self, node, state, known):
        """What is below the node has to answer each legal turn of a state with its position."""
        if self.problem.winner(state) is not None:
            demand(self.problem.winner(state) == self.winner, f"node {node.number}: lost from another place")
        elif node.children:
            legal = self.problem.legal_turns(state, known)
            below = {rules.node_turn(self.board, child)[1]: child for child in node.children}
            is_winner = state.mover == self.winner
            demand(set(below) <= set(legal) if is_winner else set(legal) <= set(below), f"node {node.number}: does not fit another place")
            for turn in set(below) & set(legal):
                self.follow(below[turn], legal[turn], known | {legal[turn].cells})
        elif self.comment(node).startswith("As "):
            self.follow(self.places[self.comment(node)][0], state, known)
        else:
            demand(rules.lives_by_shape(self.problem, state.cells), f"node {node.number}: no life from another place")

    def ask_life(self, node, state, said):
        """By what the node says that the targets live there."""
        side, cells, where = self.problem.defender, state.cells, f"node {node.number}"
        demand(side == self.winner and rules.lives_by_shape(self.problem, cells), f"{where}: the targets do not live by their shape")
        labels = dict(reversed(value.split(":")) for value in node.values("LB"))
        points = {letter: self.board.point_named[name] for letter, name in labels.items()}
        demand(len(labels) == len(node.values("LB")), f"{where}: a letter twice")
        demand(all(cells[point] == rules.EMPTY for point in points.values()), f"{where}: a label on a stone")
        stones = {point for point in self.board.points if cells[point] == side}
        chain = next(it for it in rules.connected_parts(self.board, stones) if min(self.problem.targets) in it)
        beside = rules.points_beside(self.board, chain)
        if said == f"{NAMES[side]} lives: the eyes a and b. {NAMES[side]} may pass for ever.":
            parts = rules.connected_parts(self.board, set(self.board.points) - stones)
            eyes = [next(part for part in parts if points[letter] in part) for letter in "ab"]
            demand(set(points) == {"a", "b"} and not eyes[0] & eyes[1], f"{where}: not two eyes")
            for letter, eye in zip("ab", eyes):
                walls = rules.points_beside(self.board, eye)
                demand(eye <= beside, f"{where}: a point of {letter} is not beside the chain")
                demand(points[letter] == min(it for it in eye if cells[it] == rules.EMPTY), f"{where}: {letter} is not the least point")
                demand(rules.lives_by_shape(self.problem._replace(targets=walls, start=state), cells), f"{where}: the stones round {letter} do not live")
        elif said == f"{NAMES[side]} lives: nobody may play at a. {NAMES[side]} may pass for ever.":
            fixed = {it for it in beside if cells[it] == rules.EMPTY} - self.problem.region
            demand(set(points) == {"a"} and points["a"] == min(fixed), f"{where}: no such liberty")
        else:
            demand(False, f"{where}: a line ends with '{said}'")


def main(names):
    sys.setrecursionlimit(1_000_000)
    is_good = True
    for name in names:
        try:
            reading = Reading(pathlib.Path(name).read_bytes())
            counts = ", ".join(f"{count} {what}" for what, count in reading.counts.items())
            print(f"{name}: wins {NAMES[reading.winner]}, {counts}")
        except (Wrong, rules.Ending) as fault:
            is_good = False
            print(f"{name}: WRONG: {fault.args[0]}")
    return 0 if is_good else 1


if __name__ == "__main__":
    words = script_words.Words(__doc__)
    words.add_argument("records", nargs="+", type=script_words.file, metavar="RECORD")
    sys.exit(main(words.parse_args().records))
