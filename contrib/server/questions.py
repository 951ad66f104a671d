"""What can be asked: each path with the program that answers it, and the words that its query gives that program.

`OPENAPI` and the page are made from the same table, so no path is described otherwise than it is answered.
"""

import re

POINTS = r"[A-Za-z]{1,2}[0-9]{0,2}(:[A-Za-z]{1,2}[0-9]{0,2})?(,[A-Za-z]{1,2}[0-9]{0,2}(:[A-Za-z]{1,2}[0-9]{0,2})?)*"
MOST_POINTS = 4096
# The steps that group_status takes by itself for each question about each group.
STEPS_OF_ALL = 20_000


class Refused(Exception):
    """A request that is refused: its status, the sentence, and what else the answer says."""

    def __init__(self, status, line, remedy=None, **more):
        super().__init__(line)
        self.status, self.line, self.remedy, self.more = status, line, remedy, more


class Value:
    """A word of a query with a value: what it may be, as a pattern for all readers, and how it is given to the program."""

    def __init__(self, about, schema, pattern):
        self.about, self.schema, self.pattern = about, schema, pattern

    def words(self, name, text):
        if not re.fullmatch(self.pattern, text) or len(text) > MOST_POINTS or not self.is_within(text):
            raise Refused(400, f"{name}={text[:40]!r} is not {self.about}", f"Write {name} as {self.about}.")
        return [f"--{name}={text}"]

    def is_within(self, text):
        least, most = self.schema.get("minimum"), self.schema.get("maximum")
        return least is None or least <= int(text) <= most


class Number(Value):
    def __init__(self, least, most, about):
        super().__init__(
            f"{about}, a number from {least:,} to {most:,}", {"type": "integer", "minimum": least, "maximum": most}, "[0-9]{1,8}"
        )


class Choice(Value):
    def __init__(self, about, *texts):
        super().__init__(f"{about}: {', '.join(texts)}", {"type": "string", "enum": list(texts)}, "|".join(texts))


class Points(Value):
    def __init__(self, about, more=""):
        super().__init__(about, {"type": "string"}, f"{POINTS}{more}")


class Text(Value):
    def __init__(self, about):
        super().__init__(about, {"type": "string", "maxLength": 200}, r"[^\x00-\x1f\x7f]{0,200}")


class Flag(Value):
    """A word without a value: it is there, or not."""

    def __init__(self, about):
        super().__init__(about, {"type": "boolean"}, "")

    def words(self, name, text):
        if text not in ("", "1", "true"):
            raise Refused(400, f"{name} takes no value", f"Write {name} alone, or leave it out.")
        return [f"--{name}"]


class Question:
    """A path: the program's first words, the words of the query, the steps that the program takes by itself (0: it counts none),
    the kind of its answer, and a line about it."""

    def __init__(self, about, words, query, steps=0, kind="text/plain", chosen=None):
        self.about, self.words, self.query, self.steps, self.kind = about, words, query, steps, kind
        # A flag that chooses another call: its name, with the words and the kind in place of these.
        self.chosen = chosen or {}

    def asked(self, query, steps_most):
        """The words of the call that a query asks for, program first, and the kind of its answer. Queries are names and texts."""
        names = [name for name, _ in query]
        twice = next((name for name in names if names.count(name) > 1), None)
        if twice is not None:
            raise Refused(400, f"{twice[:40]!r} is given twice", "Give each word of the query once.")
        words, kind, further = self.words, self.kind, []
        for name, text in query:
            if name in self.chosen:
                Flag("").words(name, text)
                words, kind = self.chosen[name]
            elif name not in self.query:
                known = ", ".join([*self.query, *self.chosen]) or "none"
                raise Refused(400, f"{name[:40]!r} is no word of this query", f"Words of this path: {known}.")
            else:
                further += self.query[name].words(name, text)
        if "all" in names and kind == JSON:
            kind = LINES
        return [*words, *further, *self.bound(dict(query), steps_most)], kind

    def bound(self, query, steps_most):
        """The word for the steps where the server allows fewer than the program takes by itself; more are refused."""
        if "steps" in query and int(query["steps"]) > steps_most:
            raise Refused(400, f"steps={query['steps']} is more than this server allows", f"Ask for at most {steps_most:,} steps.")
        by_itself = min(self.steps, STEPS_OF_ALL) if "all" in query else self.steps
        return [f"--steps={steps_most}"] if "steps" not in query and by_itself > steps_most else []


NODE = Number(0, 99_999, "a node of the main line")
STEPS = Number(1, 10_000_000, "the most steps of each search")
TARGET = Points("a point of the board, as D17 or dc")
TARGETS = Points("points of the board, as D17,cc")
SGF, JSON, LINES = "application/x-go-sgf", "application/json", "application/x-ndjson"
WALLS = Choice("what is supposed outside", "open", "natural", "kind", "hard", "race", "given", "alone")

QUESTIONS = {
    "status": Question(
        "Whether a group is alive, dead or unsettled: an object, with `all` one a line for each group.",
        ("group_status", "--json"),
        {
            "node": NODE,
            "target": TARGET,
            "first": Choice("the side that moves first", "attacker", "defender"),
            "answer": Points("a move of the side that would change a proved status, as D17 or dc"),
            "all": Flag("every group of the position"),
            "quick": Flag("one procedure in place of two"),
            "steps": STEPS,
            "position-only": Flag("forgets what was played before"),
        },
        100_000,
        JSON,
        {"record": (("group_status", "--sgf"), SGF)},
    ),
    "solve": Question(
        "Who wins a problem: a record of every reply, or with `proof` a claim for /check.",
        ("tsumego", "solve"),
        {"steps": STEPS, "table": Number(1, 1_000_000, "states that are kept"), "lift": Flag("the claim as one lemma")},
        1_000_000,
        SGF,
        {"proof": (("tsumego", "solve", "--proof"), "text/plain")},
    ),
    "first-moves": Question(
        "Which first moves of a problem win: an object a line, or with `record` a record with their refutations.",
        ("first_moves", "--json"),
        {"steps": STEPS, "depth": Number(1, 200, "turns of the winner that are judged")},
        100_000,
        LINES,
        {"record": (("first_moves",), SGF)},
    ),
    "short-proof": Question(
        "A short claim about a problem, for /check?short.", ("short_claims", "prove"), {"steps": STEPS}, 1_000_000
    ),
    "tree": Question("A record for readers of a short claim.", ("short_claims", "tree"), {"steps": STEPS}, 1_000_000, SGF),
    "check": Question(
        "Who wins by a claim that follows its record.",
        ("tsumego", "check"),
        {},
        chosen={"short": (("short_claims", "check"), "text/plain")},
    ),
    "audit": Question("Who wins by an answer tree.", ("tsumego", "audit"), {}),
    "mark": Question(
        "The record with the marks of a problem. Stones that are put up are named in the header Tsumego-Notes.",
        ("problem_tools", "mark"),
        {
            "node": NODE,
            "target": TARGETS,
            "to-play": Choice("who is to move", "black", "white"),
            "region": Points("points, a number of empty points, auto or board", "|[0-9]{1,3}|auto|board"),
            "walls": WALLS,
            "shut": TARGETS,
            "bare": Flag("the position without the game before it"),
        },
        kind=SGF,
    ),
    "picture": Question(
        "A picture of the problem, or of a node.",
        ("problem_tools", "picture"),
        {
            "node": NODE,
            "numbers": Number(0, 1000, "turns that are shown with numbers"),
            "plain": Flag("no marks and labels"),
            "no-squares": Flag("no squares of the region"),
            "whole": Flag("the whole board"),
            "caption": Text("a text of at most 200 characters"),
            "dark": Flag("dark colours"),
            "auto": Flag("the colours that the reader's system asks for"),
        },
        kind="image/svg+xml",
        chosen={"ascii": (("problem_tools", "picture", "--ascii"), "text/plain")},
    ),
    "page": Question(
        "The data of a page to click, of an answer of /solve or /first-moves?record.",
        ("problem_tools", "page", "--json"),
        {
            "short": Number(0, 1000, "turns within which replies that end are left out"),
            "depth": Number(1, 1000, "turns that are shown"),
            "unaudited": Flag("what the audit refuses too"),
        },
        kind=JSON,
    ),
}
