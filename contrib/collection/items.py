"""An item of a collection: a problem, where it comes from, and its answers; and the records that carry it from step to step."""

from typing import NamedTuple

from .answers import Answers
from .boards import BLACK, WHITE, letters_of, name_of
from .find import read_problem
from .problems import SIDES, TURNS, Problem
from .records import Unreadable, escaped, main_lines, text_of
from .same import name_of_problem


class Item(NamedTuple):
    """`source` says in words which game, node and point; `group` are the target's points in the game, `node` its node, and `shown` is
    how people are shown it."""

    problem: Problem
    source: str = ""
    node: int = 0
    group: tuple = ()
    answers: Answers = None
    shown: Problem = None

    def name(self):
        return name_of_problem(self.problem)

    def task(self):
        """What is asked, as books say it."""
        verb = "live" if self.problem.mover == self.problem.defender else "kill"
        return f"{SIDES[self.problem.mover]} to play and {verb}"


def to_data(item):
    """An item as data for JSON."""
    return [list(item.problem), item.source, item.node, list(item.group), list(item.answers) if item.answers else None]


def from_data(data):
    problem, source, node, group, answers = data
    size, cells, mover, *parts = problem
    return Item(Problem(size, cells, mover, *map(tuple, parts)), source, node, tuple(group), Answers(*answers) if answers else None)


def put_list(problem):
    """The stones that were put up, in words; empty where there is none."""
    return ", ".join(f"{SIDES[problem.cells[it]]} {name_of(problem.size, it)}" for it in problem.put)


def record_of(item, title=""):
    """The record of an item, in one line: the problem, what was put up (CR), and its source; and where it has answers its grade, the
    solution, and how each other try is refuted."""
    problem = item.problem
    notes = [item.task() + "."]
    if item.answers:
        notes.append(f"Grade {item.answers.grade}.")
    if problem.put:
        notes.append(f"Not in the game: {put_list(problem)}.")
    root = f"GN[{escaped(title)}]" * bool(title) + f"SO[{escaped(item.source)}]" * bool(item.source)
    circles = "CR" + problem.values(problem.put) if problem.put else ""
    marked = f"{circles}C[{escaped(' '.join(notes))}]"
    if item.answers:
        marked += branches(problem, item.answers)
    return problem.record(root, marked)


def branches(problem, answers):
    """The solution and the tries, as branches below the problem node."""
    right = f"(;{turns(problem, answers.line, 'TE[1]')})"
    return right + "".join(f"(;{turns(problem, line, 'BM[1]')})" for line in answers.tries)


def turns(problem, line, worth):
    sides = [problem.mover, WHITE if problem.mover == BLACK else BLACK]
    texts = [f"{TURNS[sides[i % 2]]}[{letters_of(problem.size, point)}]" for i, point in enumerate(line)]
    return ";".join([texts[0] + worth, *texts[1:]])


def read_items(content):
    """The items of a text of records, without answers."""
    found = []
    for nodes in main_lines(content):
        marks = next((it for it in nodes if "TR" in it), None)
        if marks is None:
            raise Unreadable(f"record {len(found) + 1} has no targets (TR)")
        problem = read_marked(nodes, marks)
        found.append(Item(problem, text_of(nodes[0], "SO")))
    if not found:
        raise Unreadable("no game tree")
    return found


def read_marked(nodes, marks):
    """The problem at the first node with targets."""
    before = nodes[: next(i for i, it in enumerate(nodes) if it is marks) + 1]
    problem = read_problem(before)
    if any(problem.cells[it] != problem.defender or problem.defender not in TURNS for it in problem.targets):
        raise Unreadable("a target is no stone, or targets are of both colours")
    return problem

