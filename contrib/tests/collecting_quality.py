"""What a teacher would show: problems that are drawn here, with what a player sees in them.

A drawing has a row of the board on each line. Empty points of the region are `+`, others `.`; black and white stones are X and O,
the targets Y and Q, stones in the region x and o, and stones that were put up # and @.
"""

import sys

from .collecting import call
from .common import TOP, expect

sys.path.insert(0, str(TOP / "contrib"))

from collection import cut, natural, quality
from collection.answers import Answers
from collection.boards import letters_of, point_of
from collection.games import best_of_game, best_of_groups
from collection.items import Item
from collection.pictures import Picture
from collection.problems import Problem
from collection.programs import Programs, find_programs

CELLS = {**dict.fromkeys("XYx#", "X"), **dict.fromkeys("OQo@", "O"), ".": ".", "+": "."}


def drawn(drawing, mover="X"):
    rows = drawing.split()
    size, signs = len(rows), "".join(rows)
    marked = [tuple(i for i, it in enumerate(signs) if it in kind) for kind in ("YQ", "+xo", "#@")]
    return Problem(size, "".join(CELLS[it] for it in signs), mover, *marked)


def named(problem, points):
    return " ".join(letters_of(problem.size, it) for it in sorted(points))


def is_natural(drawing):
    problem = drawn(drawing)
    return [name for name, question in natural.NATURAL if not question(problem)]


# White's three points in the corner, in a wall of Black's that is whole.
WHOLE = """
    +++QX....
    QQQQX....
    XXXXX....
    .........
    .........
    .........
    .........
    .........
    .........
"""


def test_walls():
    expect("a whole wall is natural", is_natural(WHOLE), [])
    put = WHOLE.replace("+++QX", "+++Q#")
    expect("so it is with a stone put up on the first line, where one stands above it", is_natural(put), [])
    hanging = """
        +++Q#....
        QQQQ+X...
        XXXXX....
        .........
        .........
        .........
        .........
        .........
        .........
    """
    expect("not with a stone put up that hangs on the first line", is_natural(hanging), ["whole walls"])
    expect("nor with one in a corner", is_natural(WHOLE.replace("+++QX", "#++QX")), ["whole walls"])
    apart = """
        +++QX....
        QQQQ.....
        XX.......
        XX.......
        .........
        .........
        .........
        .........
        .........
    """
    expect("a stone that nothing joins to the wall is not", is_natural(apart), ["whole walls"])
    problem = drawn(apart)
    expect("its parts", [named(problem, it) for it in natural.wall_parts(problem)], ["ea", "ac bc ad bd"])


def test_joined():
    """Stones are joined side by side, across a corner that is not cut, and by a jump outside the region; not by a knight's move."""
    problem = drawn("XO... OX... ...X. X+X.X ..... ".strip(" "))
    parts = [named(problem, it) for it in natural.wall_parts(problem._replace(targets=(1,)))]
    expect("a corner that is cut joins nothing, nor a knight's move, nor a jump in the region", parts, ["aa", "bb", "dc cd ed", "ad"])


def test_joining():
    """Which stones a wall lacks."""
    gap = """
        +++QX....
        QQQQ.....
        XXXX.....
        .........
        .........
        .........
        .........
        .........
        .........
    """
    expect("a knight's move does not join the parts", is_natural(gap), ["whole walls"])
    expect("two jumps do", is_natural(gap.replace("XXXX.", "XXX.X")), [])
    wide = """
        +++QX....
        QQQQ.....
        XXX......
        .........
        .........
        .........
        .........
        .........
        .........
    """
    problem = drawn(wide)
    added = natural.joining(problem)
    made = natural.with_wall_stones(problem, added)
    expect("two stones and a jump join the parts", (named(problem, added), len(natural.wall_parts(made))), ("eb ec", 1))
    colours = {made.cells[it] for it in added}
    expect("they count as put up, and are the attacker's", (named(made, made.put), colours), ("eb ec", {"X"}))
    expect("three would be too many", natural.joining(drawn(wide.replace("XXX", "XX."))), [])
    expect("nothing is added to a whole wall", natural.joining(drawn(WHOLE)), [])
    hanging = drawn(WHOLE.replace("+++QX", "+++Q#").replace("QQQQX", "QQQQ."))
    expect("above a stone on the first line comes one", named(hanging, natural.joining(hanging)), "eb")


def test_strangers():
    strange = WHOLE.replace("    .........\n", "    ......O..\n", 1)
    expect("a stone of another group is strange", is_natural(strange), ["one group"])
    problem = drawn(strange)
    expect("it is no stone of the group", named(problem, natural.strange_stones(problem)), "gd")
    beside = {point_of(9, "gc"), point_of(9, "fd")}
    expect("beside it no wall is put up", beside & natural.free_points(problem), set())


def test_seen_at_once():
    spread = ["+++QX" + "." * 14, "QQQQX" + "." * 14, "XXXXX" + "." * 14, *["." * 19] * 9, "..XXX" + "." * 14, *["." * 19] * 6]
    expect("stones thirteen lines apart are not seen at once", is_natural("\n".join(spread)), ["seen at once"])
    crowd = WHOLE.replace("    .........\n", "    XXXXXXXX.\n", 3)
    expect("36 stones are", (len([it for it in crowd if it in "XQ"]), is_natural(crowd)), (36, []))
    crowd = crowd.replace("XXXXXXXX.", "XXXXXXXXX", 1)
    expect("37 are not", (len([it for it in crowd if it in "XQ"]), is_natural(crowd)), (37, ["seen at once"]))


def test_pictures():
    """A picture has the lines in use and one more, and goes on to an edge that is at most two lines from these."""

    def lines(drawing):
        picture = Picture(drawn(drawing))
        return picture.left, picture.right, picture.top, picture.bottom

    expect("a corner is cropped", lines(WHOLE), (0, 5, 0, 3))
    expect("the picture is so large", 'viewBox="0 0 170 122"' in Picture(drawn(WHOLE)).svg(), True)
    expect("up to an edge that is near", lines(WHOLE.replace("XXXXX....", "XXXXXXX..")), (0, 8, 0, 3))
    right = "\n".join(it[5:] + it[:5] for it in WHOLE.split())
    expect("where nothing is near the left edge, it is not shown", lines(right), (3, 8, 0, 3))


def answers(first, tries, turns=3, sacrifices=0):
    return Answers([first, *range(turns - 1)], [[it] for it in range(tries)], sacrifices, False)


def test_qualities():
    """A solution of three turns, a first move that is not the first that anyone sees, and two wrong ones that someone would try."""
    problem = drawn(WHOLE)

    def lacks(problem, given):
        return [name for name, question in quality.QUALITIES if not question(problem, given)]

    expect("nothing speaks against it", lacks(problem, answers(1, 2)), [])
    expect("two turns are too few", lacks(problem, answers(1, 2, turns=2)), ["long enough"])
    expect("one try is too little", lacks(problem, answers(1, 1)), ["tempting"])
    atari = drawn(WHOLE.replace("+++QX", "oxx+X").replace("QQQQX", "+QQQX"), "X")
    expect("a first move that takes stones is obvious", lacks(atari, answers(point_of(9, "ab"), 2)), ["not obvious"])
    saving = drawn(WHOLE.replace("+++QX", "+x+QX").replace("QQQQX", "+OQQX"), "X")
    expect("one beside a stone with two liberties is not", lacks(saving, answers(point_of(9, "aa"), 2)), [])
    saving = drawn(WHOLE.replace("+++QX", "x+oQX").replace("QQQQX", "QQQQX"), "X")
    expect("one that saves a stone from being taken at once is", lacks(saving, answers(1, 2)), ["not obvious"])


def test_best():
    """Of two problems of one group the better is taken, and of a game so many as are wanted, in the order of the game."""
    problem = drawn(WHOLE)
    put = problem._replace(put=(4,))
    dull = Item(problem, node=1, group=(3,), answers=answers(1, 2))
    good = Item(problem, node=2, group=(3, 4), answers=answers(1, 4, 5))
    other = Item(put, node=3, group=(80,), answers=answers(1, 3))
    expect("a longer one with more tries is better", quality.score(good) > quality.score(dull), True)
    expect("one with a stone put up is worse", quality.score(dull._replace(problem=put)) < quality.score(dull), True)
    chosen = best_of_groups([dull, other, good])
    expect("one of each group, the best first", [it.node for it in chosen], [2, 3])
    expect("two of a game, in its order", [it.node for it in best_of_game([other, good], 2)], [2, 3])
    expect("one of a game", [it.node for it in best_of_game(chosen, 1)], [2])


# White's straight three: whoever begins wins by its middle.
THREE = """
    +++QX..
    QQQQX..
    XXXXX..
    .......
    .......
    .......
    .......
"""


def test_open_walls():
    """A stone put up that hangs on the first line goes, where the answers stay when both sides may play there. One that is not odd
    stays, and so does one through whose place White gets out."""
    programs = Programs(find_programs())
    made = cut.with_open_walls(programs, drawn(THREE.replace("+++QX..", "+++Q##.")))
    came = named(made, made.put), named(made, made.region), made.cells[4:6]
    expect("the outer one goes", came, ("ea", "aa ba ca fa", "X."))
    problem = drawn(THREE.replace("+++QX..", "+++Q#..").replace("QQQQX..", "QQQQ+.."))
    expect("one that hangs is odd", named(problem, natural.odd_stones(problem)), "ea")
    expect("it stays where White gets out", cut.with_open_walls(programs, problem), problem)


def on_rows(rows):
    lines = THREE.split()[:3]
    return "\n".join([line.rstrip(".").ljust(rows, ".") for line in lines] + ["." * rows] * (rows - 3))


def test_board():
    """A collection's problem has four free lines where it touches no edge, whatever board it comes from; a step's has one."""
    programs = Programs(find_programs())
    wanted = drawn(on_rows(9))
    for rows in (7, 9, 13):
        expect(f"from {rows} rows", cut.cut_for_collection(programs, drawn(on_rows(rows)), 0), wanted)
    expect("the step's board is smaller", cut.cut_out(programs, drawn(on_rows(13))).size, 6)


def test_counted(folder):
    """What is passed over is counted: of a straight three both sides have one right answer, of one turn."""
    problem = drawn(THREE)
    (folder / "three.sgf").write_text(problem.record().partition(";PL")[0] + ";B[])")
    code, said, told = call("--put-up", "0", folder / "three.sgf", folder / "three")
    expect("it is no problem for people", (code, told, said.splitlines()[-1].endswith("index.html: 0 problems")), (0, "", True))
    expect("each step says how many it left", "2 nodes, 1 unsettled, 1 new, 2 one answer, 0 long enough, 0 not obvious" in said, True)


def run(folder):
    for test in (test_walls, test_joined, test_joining, test_strangers, test_seen_at_once, test_pictures):
        test()
    for test in (test_qualities, test_best, test_open_walls, test_board):
        test()
    test_counted(folder)
