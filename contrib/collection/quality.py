"""What a teacher would ask of a problem, as far as it can be counted, and which of several problems is best."""

from .boards import EMPTY, OTHER, chain_at, neighbours

# The fewest turns of a solution that is worth a problem, and the fewest wrong first moves that a player would try.
LEAST_TURNS = 3
LEAST_TRIES = 2


def is_long_enough(_, answers):
    return len(answers.line) >= LEAST_TURNS


def is_not_obvious(problem, answers):
    """Whether the right first move neither takes stones nor saves some from being taken at once: players look there first."""
    first = answers.line[0]
    other = OTHER[problem.mover]
    if problem.after(first).cells.count(other) < problem.cells.count(other):
        return False
    beside = (it for it in neighbours(problem.size)[first] if problem.cells[it] == problem.mover)
    return all(len(chain_at(problem.size, problem.cells, it)[1]) > 1 for it in beside)


def is_tempting(_, answers):
    """Whether there are wrong first moves that a player would try."""
    return len(answers.tries) >= LEAST_TRIES


# In the order in which they are asked: what the count of those left is called, and the question.
QUALITIES = (("long enough", is_long_enough), ("not obvious", is_not_obvious), ("tempting", is_tempting))


def score(item):
    """How good a problem is: long lines and many tries speak for it, stones put up and stones at all against it."""
    answers, problem = item.answers, item.problem
    interest = 2 * min(len(answers.line), 7) + 2 * min(len(answers.tries), 4) + 2 * min(answers.sacrifices, 2)
    stones = sum(cell != EMPTY for cell in problem.cells)
    return interest - 3 * len(problem.put) - stones // 8
