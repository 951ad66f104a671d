"""What becomes of a game: its groups are found, cut out and answered, and of each group the best problem is kept."""

from .answers import answers_of, has_one_answer
from .boards import name_of, point_of
from .cut import cut_for_collection
from .find import Finder
from .items import Item
from .natural import NATURAL
from .quality import QUALITIES, score
from .records import Unreadable, main_lines, positions, text_of
from .same import canonical, name_of_problem

STEPS = 5_000
# What is counted: how many are left after each step.
COUNTED = (
    *("nodes", "unsettled", "new", "one answer", *(name for name, _ in QUALITIES)),
    *(*(name for name, _ in NATURAL), "judged", "one of each group", "kept"),
)


class Game:
    """The work on one file of games: what was found so far, how many of each step, and what could not be read."""

    def __init__(self, programs, given, label):
        self.programs, self.given, self.label = programs, given, label
        self.items, self.faults, self.counts = [], [], dict.fromkeys(COUNTED, 0)
        self.names, self.made = {}, set()

    def work(self, content):
        """Goes over all games of the file."""
        try:
            for number, nodes in enumerate(main_lines(content), 1):
                self.work_on_game(nodes, number)
        except Unreadable as why:
            self.faults.append(str(why))
        return self

    def work_on_game(self, nodes, number):
        """Goes over the nodes of a game; where one cannot be played, those before it count."""
        found, self.made = [], set()
        try:
            for item in self.found_in(nodes, number):
                self.counts["unsettled"] += 1
                found += self.problems_of(item)
        except Unreadable as why:
            self.faults.append(f"game {number}: {why}" if number > 1 else str(why))
        groups = best_of_groups(found)
        chosen = best_of_game(groups, self.given.best)
        self.counts["one of each group"] += len(groups)
        self.counts["kept"] += len(chosen)
        self.items += chosen

    def found_in(self, nodes, number):
        """The unsettled groups of a game, as items with the attacker to move."""
        finder = Finder(self.programs, self.given)
        for node, (size, cells, _) in enumerate(positions(nodes)):
            self.counts["nodes"] += 1
            if node % self.given.every == 0:
                for found in finder.found_at(node, size, cells, turn_at(nodes, node + 1, size)):
                    yield self.item_of(nodes, number, found)

    def item_of(self, nodes, number, found):
        problem = found.problem
        node = f"node {found.node}{found.change and ' ' + found.change}"
        where = f"{self.label}{f' game {number}' if number > 1 else ''}, {node}, {name_of(problem.size, problem.targets[0])}"
        title = title_of(nodes[0])
        return Item(problem, f"{title} ({where})" if title else where, found.node, problem.targets, shown=found.shown)

    def problems_of(self, item):
        """The problems of an unsettled group that nothing speaks against, for each side to move first. One that another node has had is
        not asked about again."""
        sides = [canonical(item.shown.with_mover(it))[0] for it in (item.shown.attacker, item.shown.defender)]
        name = name_of_problem(sides[0])
        if name not in self.names:
            self.counts["new"] += 1
            self.names[name] = any([self.answered(it) for it in sides])
        if not self.names[name] or name in self.made:
            return []
        problem = cut_for_collection(self.programs, item.problem, self.given.put_up)
        if problem is None or not self.passes(NATURAL, problem):
            return []
        self.made.add(name)
        return self.judged(item, problem)

    def judged(self, item, problem):
        """The problems of an unsettled group that was cut out, for each side to move first."""
        found = []
        for mover in (problem.attacker, problem.defender):
            side = canonical(problem.with_mover(mover))[0]
            answers = answers_of(self.programs, side) if has_one_answer(self.programs, side) and is_judged(self.programs, side) else None
            if answers and all(question(side, answers) for _, question in QUALITIES):
                self.counts["judged"] += 1
                found.append(item._replace(problem=side, answers=answers))
        return found

    def passes(self, questions, *about):
        """Whether all questions are answered with yes; those that are, up to the first that is not, are counted."""
        for name, question in questions:
            if not question(*about):
                return False
            self.counts[name] += 1
        return True

    def answered(self, problem):
        """Whether one first move is right, and a teacher would ask for it."""
        if not has_one_answer(self.programs, problem):
            return False
        self.counts["one answer"] += 1
        answers = answers_of(self.programs, problem)
        return bool(answers) and self.passes(QUALITIES, problem, answers)


def is_judged(programs, problem):
    """Whether a claim of each side that begins is accepted by the judge."""
    sides = (problem.attacker, problem.defender)
    return all(programs.is_judged(problem.with_mover(it), STEPS) == it for it in sides)


def turn_at(nodes, node, size):
    """Where a node plays; None for a pass, and where there is none."""
    values = nodes[node].get("B") or nodes[node].get("W") if node < len(nodes) else None
    return point_of(size, values[0].decode("latin-1").strip()) if values else None


def title_of(root):
    """The names of a game: players, event and date, as far as they are known."""
    charset = text_of(root, "CA") or "utf-8"
    black, white, event, date, name = (text_of(root, it, charset) for it in ("PB", "PW", "EV", "DT", "GN"))
    players = f"{black or '?'} - {white or '?'}" if black or white else name
    return ", ".join(it for it in (players, event, date) if it)


def rank(item):
    """The best comes first, then the first node."""
    return -score(item), item.node, item.problem


def best_of_groups(found):
    """Of the problems of one group the best. Groups are one where they share a stone."""
    chosen, taken = [], set()
    for item in sorted(found, key=rank):
        if taken.isdisjoint(item.group):
            chosen.append(item)
            taken.update(item.group)
        elif any(not set(it.group).isdisjoint(item.group) for it in chosen):
            taken.update(item.group)
    return chosen


def best_of_game(chosen, most):
    """So many of these, which come from the best to the worst; in the order of the game."""
    return sorted(chosen[:most], key=lambda it: (it.node, it.problem))


def item_of_file(programs, item, where):
    """An item of a record with its answers, in its canonical form; None where not one move is right."""
    problem = canonical(item.problem)[0]
    answers = answers_of(programs, problem) if has_one_answer(programs, problem) else None
    return item._replace(problem=problem, source=item.source or where, answers=answers) if answers else None
