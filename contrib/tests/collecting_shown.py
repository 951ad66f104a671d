"""What people are shown of a game: the walls nearby as far as they are wanted to look whole, and no stones of other groups; and what
a game would have been, had one side passed. The drawings are those of `collecting_quality`."""

import argparse
import pathlib

from .collecting import call
from .collecting_quality import drawn, named
from .common import expect

from collection import find, regions, surroundings, variations
from collection.boards import chains, point_of
from collection.programs import Programs, find_programs

# White's three points in the corner. Black's wall has a part that a stone two lines away joins to the rest; far off stand others.
JOINED = """
    +++QX........
    QQQQ.X.......
    XXX..X.......
    ...XX....OO..
    .........O...
    .............
    .............
    .......X.....
    .............
    .............
    ..X..........
    ..X...O......
    .............
"""


def test_shown() -> None:
    seen = surroundings.shown(drawn(JOINED), 0)
    stones = named(seen, seen.stones("X"))
    expect("a wall is kept as far as it is wanted", stones, "ea fb ac bc cc fc dd ed")
    expect("no stone of another group is", named(seen, seen.stones("O")), "da ab bb cb db")
    alone = drawn(JOINED.replace("XXX..X", "XXX...").replace("...XX.", "......"))
    expect("where nothing joins its parts, it is not shown", surroundings.shown(alone, 0), None)
    helped = surroundings.shown(alone, 2)
    expect("stones put up may join them", (helped is not None, 1 <= len(helped.put) <= 2), (True, True))
    expect("they are put up nowhere else", set(helped.put) <= {it for it in range(13 * 13) if helped.cells[it] == "X"}, True)


def test_near() -> None:
    """Only what is near counts: the same shape on another board, with other stones far off, is shown alike."""
    far = drawn(JOINED)
    other = drawn(JOINED.replace(".......X.....", ".X...O.......").replace("..X...O......", "......O......"))
    expect("far stones make no difference", surroundings.shown(far, 0), surroundings.shown(other, 0))


# White has three eyes. Without the stone at C12 the six points that are left have one point, that one, by which Black kills.
LIVES = """
    QQ++QX.......
    Q+o+QX.......
    QQ+QQX.......
    XQQQX........
    XXXXX........
    .............
    .............
    .............
    .............
    .............
    .............
    .............
    .............
"""


def test_variations() -> None:
    """A group that lives did not some turns before, in the walls of now: whoever moved first decided it."""
    problem = drawn(LIVES)
    seen = surroundings.shown(problem, 0)
    found = list(variations.taken_back(problem, seen, {point_of(13, "cb"): 7, point_of(13, "ea"): 3, point_of(13, "aa"): 0}))
    expect("the last stones are taken back, the first node's stay", [it[0] for it in found], ["without White C12", "without White C12, White E13"])
    _, before, shown = found[0]
    expect("both may play there", (before.cells[15], named(before, before.region), named(shown, shown.region)), (".", *["ca da bb cb db cc"] * 2))
    finder = find.Finder(Programs(find_programs()), argparse.Namespace(stones=3, liberties=8, put_up=0))
    expect("whoever moves first decides there", finder.status(shown), "unsettled")
    expect("and not in the game", finder.status(problem), "alive")


def test_place() -> None:
    """A turn is put where the point is on the board that people are shown, whatever board that is."""
    problem = drawn(LIVES)
    down = problem.moved(13, "." * 26 + problem.cells[:-26], lambda it: it + 26)
    expect("two lines further down", variations.place_in(down, problem, 26 + 15), 15)
    small = drawn(LIVES.replace("Q", "O").replace("OO++O", "OO++Q"))
    expect("nothing is asked about what is left of one stone", variations.without_stone(small, point_of(13, "ea")), None)


def test_words(folder: pathlib.Path) -> None:
    """A problem of a position that did not occur says so."""
    before = drawn(LIVES.replace("o", "+"))
    (folder / "lives.sgf").write_text(before.record().partition(";PL")[0] + ";W[cb])")
    found = call("find", "--put-up", "0", folder / "lives.sgf")[1]
    expect("the source names the turn", "node 1 without White C12, " in found, True)


# White's three points in the corner, with a point to get out by.
CORNER = """
    ..Q......
    .QQX.....
    QQXX.....
    XXX......
    .........
    .........
    .........
    .........
    .........
"""


def test_regions() -> None:
    """No stone is put up among the group's own points, and no region is asked about that is part of one which no more stones close."""
    problem = drawn(CORNER)
    board = regions.Board(9, problem.cells, chains(9, problem.cells))
    expect("the corner is filled, the way out is not", regions.filled(board, {1, 9}, "O"), ({0, 1, 9}, {3}))
    sizes = {(0, 1): {5, 6}, (0, 1, 2): {5}, (0, 1, 3): {7, 8}}
    expect("parts of a wider region are left out", regions.widest(sizes), [(0, 1, 2), (0, 1, 3)])


def run(folder: pathlib.Path) -> None:
    test_regions()
    test_shown()
    test_near()
    test_variations()
    test_place()
    test_words(folder)
