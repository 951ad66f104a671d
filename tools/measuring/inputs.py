"""Writes the records, problems, claims and answer trees on which `tools/measure tables` times programs, the same ones each time.

    tools/measure inputs FOLDER     FOLDER is new or empty

Each file of FOLDER goes to a program on standard input; `answers.tsv` there names each with the words of the program and the
first line that it has to answer, where that does not depend on the machine.
"""

import argparse
import functools
import itertools
import pathlib
import typing
from collections.abc import Iterator

import script_words
from measuring.claims import Wide
from reading_check import rules

VARIATIONS = 6_900
# Moves, a comment, an escaped bracket and two variations of its own, spelled exactly as the program writes them.
VARIATION = (
    r"(;B[pd]C[The corner \[again\], with a longer word on what may come of it.];W[dp];B[dd]LB[aa:1][bb:2];W[pp]"
    r"(;B[fq]N[outside];W[cn])(;B[cn];W[fq]))"
)
ROOT = ";SZ[19]AW[aa:ba]TR[aa]"
SHORT_RECORD = f"({ROOT})"

WHITE, BLACK, REGION = "babbab", "dadbdccdbdad", "aacacbbcaccc"
# Where black stones stand in the positions before, on 9 rows: one for each binary digit of a position's number.
FAR = ["ah", "bh", "ch", "dh", "eh", "fh", "gh", "hh", "ih", "if"]

LEMMAS = 20_000
LEMMA = "lemma W 0 .X.X.....\nwon\nend\n"
# No move at one of these points takes a liberty from another, or from the stone in the corner.
APART = ["bg", "dg", "ai", "ci", "ei", "gi", "ii"]
ROUNDS = (125, 250, 500)

PLACES = (5, 6, 7)


def long_record() -> str:
    """A record of a megabyte, with a problem in its root."""
    return f"({ROOT}{VARIATION * VARIATIONS})"


def points(letters: str) -> str:
    """The points that these letters name, two for each, as values of a property."""
    return "".join(f"[{letters[at:at + 2]}]" for at in range(0, len(letters), 2))


class Corner(typing.NamedTuple):
    """Three white stones round a corner point, shut in by six black ones, after so many other positions; how many turns are looked
    ahead, how many states the tree of all legal play has, and who can force a win."""

    rows: int
    past: int
    turns: int
    states: int
    answer: str

    def record(self) -> str:
        stones, marks = f"AB{points(BLACK)}AW{points(WHITE)}", f"PL[B]TR{points(WHITE)}SQ{points(REGION)}"
        earlier = "".join(change(number, number + 1) for number in range(self.past))
        return f"(;SZ[{self.rows}]{stones}{earlier}{change(self.past, 0)}{marks})"


CORNERS = (
    Corner(5, 0, 11, 80_642, "wins Black"),
    Corner(9, 0, 9, 59_612, "wins Black"),
    Corner(9, 999, 9, 59_612, "wins Black"),
    Corner(13, 0, 8, 39_706, "neither"),
    Corner(19, 0, 8, 39_706, "neither"),
    Corner(25, 0, 8, 39_706, "neither"),
)


def change(before: int, after: int) -> str:
    """A node that changes the position of one number to that of another."""
    return ";" + setup("AB", after & ~before) + setup("AE", before & ~after)


def setup(name: str, number: int) -> str:
    """A property with the far points of this number, if it has any."""
    far = "".join(point for digit, point in enumerate(FAR) if number >> digit & 1)
    return name + points(far) if far else ""


class Claim(typing.NamedTuple):
    """A claim about a record's problem, and what `tsumego check` has to say of it."""

    name: str
    record: str
    text: str
    answer: str


def many_lemmas() -> Claim:
    """Lemmas of three lines, all alike, of which the last is used after a capture."""
    text = f"tsucert 1 3 B\n{LEMMA * LEMMAS}main\nplay ba\nuse {LEMMAS}\nend\n"
    return Claim("many lemmas", "(;SZ[3]AB[ab]AW[aa]PL[B]TR[aa]SQ[ba])\n", text, "wins Black")


def wide_tree() -> Claim:
    """A white stone that Black cannot take, and points at which Black plays in any order, while White passes."""
    wide = Wide(APART)
    return Claim("wide tree", wide.record(), "".join(wide.claim()), "wins White")


def eye_record() -> str:
    """Two black stones with a liberty in the corner at which nobody may play, and play at all other points of 19 rows."""
    stones = "baab"
    names = [chr(97 + column) + chr(97 + row) for row in range(19) for column in range(19)]
    region = "".join(name for name in names if name not in ("aa", "ba", "ab"))
    return f"(;SZ[19]AB{points(stones)}PL[B]TR{points(stones)}SQ{points(region)})\n"


def descent(problem: typing.Any) -> Iterator[str]:
    """The lines of a claim that goes down one path: Black moves at the last legal point, and the first reply due follows."""
    names, state, known = problem.board.name_of, problem.start, set(problem.history)
    while True:
        turns = problem.legal_turns(state, known)
        is_black = state.mover == rules.BLACK
        # The pass is the last of the turns.
        turn = [*turns][-2 if is_black else 0]
        yield f"play {names[turn]}\n" if is_black else f"all {len(turns)}\nreply {names[turn]}\n"
        state = turns[turn]
        known.add(state.cells)


def deep_paths() -> Iterator[Claim]:
    """Claims that go down one path, and say at its end that the game is won there, which it is not."""
    record = eye_record()
    problem, _ = rules.read_problem(rules.RecordReader(record.encode()).read())
    lines = [*itertools.islice(descent(problem), 2 * max(ROUNDS))]
    for rounds in ROUNDS:
        text = f"tsucert 1 19 B\nmain\n{''.join(lines[:2 * rounds])}won\n"
        yield Claim("deep path", record, text, f"rejected line {2 + 3 * rounds + 1}: C04 not won")


def claims() -> list[Claim]:
    return [many_lemmas(), wide_tree(), *deep_paths()]


@functools.cache
def passed(left: tuple[str, ...]) -> str:
    """What follows White's pass in an answer tree: Black moves at one of these points, or ends the game."""
    moves = "".join(branch(point, left) for point in left)
    return f"{moves}(;B[])" if moves else ";B[]"


def branch(point: str, left: tuple[str, ...]) -> str:
    return f"(;B[{point}];W[]{passed(tuple(it for it in left if it != point))})"


def answer_tree(places: int) -> tuple[str, str]:
    """A record in which White keeps a stone in a corner and Black moves at so many places of the last row, and the same with an
    answer tree below it, in which White passes whatever Black does."""
    row = tuple(chr(97 + column) + "i" for column in range(places))
    problem = f"(;FF[4]GM[1]SZ[9]AW[aa];PL[B]TR[aa]SQ{points(''.join(row))}"
    moves = "".join(branch(point, row) for point in row)
    return f"{problem})", f"{problem}{moves}(;B[];W[]))"


def files() -> Iterator[tuple[str, str, str, str]]:
    """Each input: the name of its file, its text, the words of tsumego, and the first line of the answer."""
    yield "long-record.sgf", long_record(), "within 0", "neither"
    for it in CORNERS:
        yield f"corner-{it.rows}-rows-{it.past}-before.sgf", it.record(), f"within {it.turns} --nodes {it.states}", it.answer
    for it in claims():
        lines = it.text.count("\n")
        yield f"{it.name.replace(' ', '-')}-{lines}-lines.txt", it.record + it.text, "check", it.answer
    for places in PLACES:
        yield f"answer-tree-{places}-places.sgf", answer_tree(places)[1], "audit", "wins White"


def add_words(words: script_words.Words) -> None:
    words.add_argument("folder", type=pathlib.Path, metavar="FOLDER")


def main(given: argparse.Namespace) -> int:
    folder = given.folder
    if folder.exists() and (not folder.is_dir() or any(folder.iterdir())):
        script_words.refuse("tools/measure inputs", f"{folder} is not an empty folder")
    folder.mkdir(parents=True, exist_ok=True)
    rows = []
    for name, text, words, answer in files():
        (folder / name).write_text(text)
        rows.append(f"{name}\t{words}\t{answer}\n")
    (folder / "answers.tsv").write_text("".join(rows))
    print(f"{len(rows)} inputs in {folder}")
    return 0
