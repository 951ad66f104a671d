"""The claims at the limits of the format that `tools/measure check` puts to a judge, and others put to programs that they time."""

from collections.abc import Callable, Iterable, Iterator
from itertools import chain

DEPTH = 2000
APART = ["bg", "dg", "fg", "hg", "ai", "ci", "ei", "gi", "ii", "ah"]
MAX_NODES = 10_000_000
MAX_LISTED = 1_000_000
Point = tuple[int, int]


class Board:
    """Only black moves at the areas, each a set of points that white shuts in; a full area is taken off by its own last stone."""

    def __init__(self, rows: int, stones: dict[str, str], areas: list[list[str]]) -> None:
        self.rows, self.stones, self.areas = rows, stones, areas
        self.points = [point for area in areas for point in area]

    def record(self) -> str:
        black = "".join("[%s]" % p for p, k in sorted(self.stones.items()) if k == "X")
        white = "".join("[%s]" % p for p, k in sorted(self.stones.items()) if k == "O")
        region = "".join("[%s]" % p for p in ["ba"] + self.points)
        return "(;SZ[%d]AB%sAW%sPL[B]TR[aa]SQ%s)\n" % (self.rows, black, white, region)


def around(points: set[Point], rows: int) -> set[Point]:
    """The points beside these."""
    beside = set()
    for c, r in points:
        for d, e in ((c - 1, r), (c + 1, r), (c, r - 1), (c, r + 1)):
            if 0 <= d < rows and 0 <= e < rows and (d, e) not in points:
                beside.add((d, e))
    return beside


def letters(point: Point) -> str:
    return chr(97 + point[0]) + chr(97 + point[1])


def board(rows: int, areas: list[list[Point]]) -> Board:
    """A white stone in the corner that black can take at any time, and the areas, shut in by white."""
    stones = {"aa": "O", "ca": "X", "ab": "X", "bb": "X", "cb": "X"}
    for area in areas:
        for point in around(set(area), rows):
            stones[letters(point)] = "O"
    return Board(rows, stones, [[letters(p) for p in area] for area in areas])


def six() -> Board:
    ring = {"bc": "O", "cc": "O", "dc": "O", "ad": "O", "bd": "O", "cd": "O", "dd": "O", "ed": "O", "fd": "O", "da": "O", "db": "O"}
    square = [(4, 4), (5, 4), (4, 5), (5, 5)]
    found = board(6, [[(4, 0), (5, 0), (4, 1), (5, 1), (4, 2), (5, 2)], [(0, 4), (0, 5)], [(2, 4), (2, 5)], square])
    found.stones.update(ring)
    return found


def nineteen() -> Board:
    row = [[(c, 18), (c + 1, 18)] for c in range(1, 18, 3)]
    return board(19, row + [[(13, 0), (14, 0)], [(16, 0), (17, 0)]])


def beside_in(area: list[str]) -> list[list[int]]:
    """The points of the area beside each of its points."""
    places = [(ord(p[0]) - 97, ord(p[1]) - 97) for p in area]
    return [[k for k, (d, e) in enumerate(places) if abs(c - d) + abs(r - e) == 1] for c, r in places]


def is_open(beside: list[list[int]], walls: list[bool], held: int, place: int) -> bool:
    """Whether white may play there: it keeps a liberty or a wall, or takes something."""
    if walls[place] or any(not held >> k & 1 for k in beside[place]):
        return True
    for first in beside[place]:
        stones, ends = {first}, [first]
        while ends:
            for k in beside[ends.pop()]:
                if held >> k & 1 and k not in stones:
                    stones.add(k)
                    ends.append(k)
        if all(k == place or held >> k & 1 for point in stones for k in beside[point]):
            return True
    return False


def moves(areas: list[list[str]], count: int) -> Iterator[tuple[int, int, tuple[int, ...]]]:
    """So many moves at the areas of which none gives an earlier colouring: each goes where the fewest ways lead on."""
    full = [(1 << len(area)) - 1 for area in areas]

    def after(state):
        for number, held in enumerate(state):
            for place in range(len(areas[number])):
                if not held >> place & 1:
                    now = held | 1 << place
                    yield number, place, state[:number] + (0 if now == full[number] else now,) + state[number + 1:]

    def before(state):
        for number, held in enumerate(state):
            for place in range(len(areas[number])):
                if held >> place & 1:
                    yield state[:number] + (held ^ 1 << place,) + state[number + 1:]
                if held == 0:
                    yield state[:number] + (full[number] ^ 1 << place,) + state[number + 1:]

    state = (0,) * len(areas)
    seen = {state}
    for step in range(count):
        ways = []
        for number, place, new in after(state):
            if new not in seen:
                on = sum(1 for way in after(new) if way[2] not in seen)
                back = sum(1 for old in before(new) if old not in seen)
                ways.append(((on == 0, back, on, step * 7 % 5 ^ number), number, place, new))
        number, place, state = min(ways)[1:]
        seen.add(state)
        yield number, place, state


def dawdling(found: Board, rounds: int, last: str) -> tuple[int, str]:
    """Black moves elsewhere so many times while white passes, and takes the corner then; any other reply it answers so at once."""
    taken = "play ba\nwon\n"
    lines = ["tsucert 1 %d B\nmain\n" % found.rows]
    sizes = found.areas
    beside = [beside_in(area) for area in sizes]
    walls = [
        [len(around({(ord(p[0]) - 97, ord(p[1]) - 97)}, found.rows)) > len(near) for p, near in zip(area, nears)]
        for area, nears in zip(sizes, beside)
    ]
    for number, place, state in moves(sizes, rounds):
        lines.append("play %s\n" % sizes[number][place])
        replies = ["ba"]
        for i, area in enumerate(sizes):
            replies += [p for k, p in enumerate(area) if not state[i] >> k & 1 and is_open(beside[i], walls[i], state[i], k)]
        replies.sort(key=lambda p: (p[1], p[0]))
        lines.append("all %d\n" % (len(replies) + 1))
        for reply in replies:
            lines.append("reply %s\n%s" % (reply, "won\n" if reply == "ba" else taken))
        lines.append("reply pass\n")
    lines.append(taken + last)
    text = "".join(lines)
    return text.count("\n"), text


class Wide:
    """White passes whatever black does, at points apart: with ten of them some 33 million nodes."""

    def __init__(self, points: list[str] = APART) -> None:
        self.points, self.made = tuple(sorted(points, key=order)), {}

    def record(self) -> str:
        return "(;SZ[9]AW[aa]PL[B]TR[aa]SQ%s)\n" % "".join("[%s]" % p for p in self.points)

    def tree(self, left: tuple[str, ...]) -> Iterator[str]:
        """The lines after white's pass, in parts, where black may still play at these points."""
        if len(left) <= 5:
            if left not in self.made:
                self.made[left] = "".join(self.parts(left))
            yield self.made[left]
        else:
            yield from self.parts(left)

    def parts(self, left: tuple[str, ...]) -> Iterator[str]:
        yield "all %d\n" % (len(left) + 1)
        for point in left:
            yield "reply %s\nplay pass\n" % point
            yield from self.tree(tuple(p for p in left if p != point))
        yield "reply pass\nwon\n"

    def claim(self) -> Iterator[str]:
        yield "tsucert 1 9 W\nmain\nall %d\n" % (len(self.points) + 1)
        for point in self.points:
            yield "reply %s\nplay pass\n" % point
            yield from self.tree(tuple(p for p in self.points if p != point))
        yield "reply pass\nplay pass\nwon\nend\n"

    def limit_line(self) -> int | None:
        """The line of the first node too many."""
        lines, nodes = 0, 0
        for part in self.claim():
            here = part.split("\n")[:-1]
            found = sum(1 for line in here if not line.startswith(("reply", "tsucert", "main", "end")))
            if nodes + found <= MAX_NODES:
                lines, nodes = lines + len(here), nodes + found
                continue
            for line in here:
                lines += 1
                if not line.startswith(("reply", "tsucert", "main", "end")):
                    nodes += 1
                    if nodes > MAX_NODES:
                        return lines
        return None


def order(point: str) -> tuple[str, str]:
    return point[1], point[0]


def listed_lines(count: int) -> Iterator[str]:
    """One lemma with so many listed colourings, of which one is made."""
    yield "(;SZ[19]AB[ab]AW[aa]PL[B]TR[aa]SQ[ba])\n"
    yield "tsucert 1 19 B\n"
    yield "lemma B 0 %s\nnot %s\n" % ("O" + "." * 18 + "X" + "." * 341, ".X" + "." * 17 + "X" + "." * 341)
    for number in range(count - 1):
        yield "not X%s\n" % cells(number, 360)
    yield "play ba\nwon\nend\nmain\nuse 1\nend\n"


def cells(number: int, count: int) -> str:
    """The text of so many cells that has this number."""
    text = []
    while number:
        text.append(".OX"[number % 3])
        number //= 3
    return "".join(reversed(text)).rjust(count, ".")


def samples() -> Iterator[tuple[str, Callable[[], Iterable[str]], str]]:
    """Each sample: its name, what makes its parts, and its answer."""
    for found, name in ((six(), "6 rows"), (nineteen(), "19 rows")):
        rounds = DEPTH // 2 - 1
        last, right = dawdling(found, rounds, "end\n")
        yield "depth 2,000, %s" % name, lambda f=found, c=right: [f.record(), c], "wins Black\n"
        _, wrong = dawdling(found, rounds, "won\n")
        malformed = "rejected line %d: C01 malformed\n" % last
        yield "wrong at its last line, %s" % name, lambda f=found, c=wrong: [f.record(), c], malformed
        _, deeper = dawdling(found, rounds + 1, "end\n")
        # In place of the last three lines one round more: its move, its `all`, the first reply, and what answers it.
        deepest = last - 3 + 4
        yield "depth 2,001, %s" % name, lambda f=found, c=deeper: [f.record(), c], "rejected line %d: C15 limit\n" % deepest
    wide = Wide()
    for size in (1_000_000, 10_000_000, 100_000_000):
        line = lines_of(cut(wide.claim(), size)) + 1
        parts = lambda s=size: chain([wide.record()], cut(wide.claim(), s))
        yield "no lemma, %d MB" % (size // 1_000_000), parts, "rejected line %d: C01 malformed\n" % line
    yield "10,000,001 nodes", lambda: chain([wide.record()], wide.claim()), "rejected line %d: C15 limit\n" % wide.limit_line()
    yield "1,000,000 listed colourings", lambda: listed_lines(MAX_LISTED), "wins Black\n"
    yield "1,000,001 listed colourings", lambda: listed_lines(MAX_LISTED + 1), "rejected line 1000003: C15 limit\n"


def cut(parts: Iterable[str], size: int) -> Iterator[str]:
    """The whole lines of the first parts, of about so many bytes."""
    for part in parts:
        if size <= 0:
            return
        size -= len(part)
        yield part


def lines_of(parts: Iterable[str]) -> int:
    return sum(part.count("\n") for part in parts)
