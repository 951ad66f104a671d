"""Input that is meant to hurt: records, claims and sessions, for `tools/hostile`."""
import itertools
import os
import random
import re
import subprocess
import sys
import tempfile
from collections.abc import Callable, Iterable, Iterator

HERE = os.path.dirname(os.path.abspath(__file__))
LETTERS = "abcdefghijklmnopqrstuvwxy"
# A column and a row.
Point = tuple[int, int]


def board(middle: str, rows: int = 19) -> str:
    return f"(;SZ[{rows}]AB[ab]AW[aa]PL[B]TR[aa]SQ[ba]{middle})"


def names(size: int) -> str:
    """Distinct names, one value each."""
    text, number = [], 0
    while sum(map(len, text[:1])) * len(text) < size:
        letters, n = "", number
        for _ in range(6):
            letters, n = chr(65 + n % 26) + letters, n // 26
        text.append(f"Z{letters}[]")
        number += 1
    return "".join(text)


def nested(size: int) -> str:
    return "(;" * 900 + "C[" + "a" * size + "]" + ")" * 900


def setups(size: int, values: list[str]) -> str:
    """Setup nodes before the problem node, by turns; a record has at most 100,000 nodes."""
    count = size // 11
    return "(;SZ[19]" + "".join(";" + values[i % len(values)] for i in range(count)) + ";AB[ab]AW[aa]PL[B]TR[aa]SQ[ba])"


def past(size: int) -> str:
    """999 other positions, and then setups that change nothing."""
    names_of = [chr(97 + c) + chr(97 + r) for r in range(19) for c in range(19)][40:]
    walk = [f";A{'BW'[i % 2]}[{names_of[i // 2 % 300]}]" + (f"AE[{names_of[(i // 2 - 7) % 300]}]" if i > 20 else "")
            for i in range(900)]
    return "(;SZ[19]" + "".join(walk) + ";AE[ca]" * (size // 11) + ";AB[ab]AW[aa]PL[B]TR[aa]SQ[ba])"


def swaps(size: int, values: list[str]) -> str:
    """Setup nodes on 25 rows that each change nearly the whole board, by turns."""
    count = min(size // 10, 99_900)
    nodes = "".join(f";{values[i % len(values)]}[aa:yx]" for i in range(count))
    return f"(;SZ[25]{nodes};AE[aa:yy];AB[ab]AW[aa]PL[B]TR[aa]SQ[ba])"


def teeth(size: int) -> str:
    """Setup nodes that join 13 chains by a row, and part them again."""
    columns = "".join(f"[{column}b:{column}x]" for column in LETTERS[::2])
    nodes = "".join(f";A{'BE'[i % 2]}[aa:ya]" for i in range(min(size // 10, 99_900)))
    return f"(;SZ[25]AB{columns}{nodes};AE[aa:yy];AB[ab]AW[aa]PL[B]TR[aa]SQ[ba])"


def holes(size: int) -> str:
    """Setup nodes that take one stone out of a chain of 600, and put it back."""
    nodes = "".join(f";A{'EB'[i % 2]}[ml]" for i in range(min(size // 7, 99_900)))
    return f"(;SZ[25]AB[aa:yx]{nodes};AE[aa:yy];AB[ab]AW[aa]PL[B]TR[aa]SQ[ba])"


def captures(size: int) -> str:
    """A session in which 624 stones are taken and come back, time after time."""
    columns = "ABCDEFGHJKLMNOPQRSTUVWXYZ"
    whites = [f"play w {column}{row}" for row in range(1, 26) for column in columns][1:]
    return "\n".join(["boardsize 25", *whites]) + "\n" + "play b A1\nundo\n" * (size // 15)


# ---- claims

def fillings(points: list[str], is_outermost: bool = True) -> list[str]:
    """Lines of a node where black is to move: black fills the points in every order, and white only passes; the points once full,
    lemma 1 is used."""
    lines = [f"all {len(points) + 1}"]
    for point in points:
        rest = [other for other in points if other != point]
        lines += [f"reply {point}"] + (["play pass", *fillings(rest, False)] if rest else ["use 1"])
    return lines + ["reply pass"] + (["play pass"] if is_outermost else []) + ["won"]


def colourings(first: str, rows: int, count: int) -> Iterator[str]:
    """So many colourings in ascending order that begin with these cells."""
    places, step = rows * rows - len(first), 3 ** 15 // count
    for number in range(count):
        number, cells = number * step, []
        for _ in range(min(places, 15)):
            number, cell = divmod(number, 3)
            cells.append(".OX"[cell])
        yield first + "".join(reversed(cells)) + "." * (places - len(cells))


class Filled:
    """A white stone that black cannot take, and points that black may fill."""

    def __init__(
        self, rows: int, points: list[str], nodes: Iterable[str] = (), stones: dict[str, str] | None = None
    ) -> None:
        self.rows, self.points, self.nodes = rows, points, "".join(nodes)
        self.stones = {"aa": "O", **(stones or {})}

    def record(self) -> str:
        marks = "PL[B]TR[aa]SQ" + "".join(f"[{point}]" for point in self.points)
        if not self.nodes:
            return f"(;SZ[{self.rows}]AW[aa]{marks})\n"
        return f"(;SZ[{self.rows}]{self.nodes};AW[aa]{marks})\n"

    def cells(self, stones: dict[str, str]) -> str:
        points = (chr(97 + column) + chr(97 + row) for row in range(self.rows) for column in range(self.rows))
        return "".join(stones.get(point, ".") for point in points)

    def lemma(self, listed: list[str]) -> list[str]:
        """Lemma 1: the points are full, and white passes."""
        root = self.cells({**self.stones, **{point: "X" for point in self.points}})
        return [f"lemma W 0 {root}", *listed, "play pass", "all 1", "reply pass", "won", "end"]

    def with_lists(self, first: list[str], second: list[str]) -> str:
        """Lemma 2 uses lemma 1 once for each order of the points; main needs neither. Version 2."""
        full = "".join(f"[{point}]" for point in self.points)
        lines = [f"(;SZ[{self.rows}]AW[aa]AB{full}PL[B]TR[aa]SQ{full})", f"tsucert 2 {self.rows} W", *self.lemma(first),
                 f"lemma B 0 {self.cells(self.stones)}", *second, *fillings(self.points), "end",
                 "main", "all 1", "reply pass", "play pass", "won", "end"]
        return "\n".join(lines) + "\n"

    def passed_on(self, count: int) -> str:
        """A list that lemma 2 passes on to lemma 1, at each of its uses."""
        listed = [f"not {cells}" for cells in colourings("X", self.rows, count)]
        second = [f"lemma B 0 {self.cells(self.stones)}", *listed, *fillings(self.points), "end"]
        lines = [f"tsucert 1 {self.rows} W", *self.lemma(listed), *second, "main", "use 2", "end"]
        return self.record() + "\n".join(lines) + "\n"

    def asked(self, count: int) -> str:
        """A list that is asked of the whole past, at each use."""
        listed = [f"not {cells}" for cells in colourings("X", self.rows, count)]
        lines = [f"tsucert 1 {self.rows} W", *self.lemma(listed), "main", *fillings(self.points), "end"]
        return self.record() + "\n".join(lines) + "\n"


def colliding(size: int) -> str:
    """Names, with a value each, that all begin in one group of the table of names."""
    with tempfile.TemporaryDirectory() as folder:
        program = os.path.join(folder, "colliding_names")
        source = os.path.join(HERE, "colliding_names.c")
        subprocess.run([os.environ.get("CC", "cc"), "-O2", "-o", program, source], check=True)
        found = subprocess.run([program, str(size // 9)], stdout=subprocess.PIPE, check=True)
    return board("".join(name + "[]" for name in found.stdout.decode().split()))


FOUR_ROWS = ["ac", "bc", "cc", "dc", "ad", "bd", "cd"]


def walk(length: int) -> tuple[list[str], dict[str, str]]:
    """Setup nodes that each lead to another position, and the stones after them."""
    places = [chr(97 + column) + chr(97 + row) for row in range(3, 16, 2) for column in range(1, 18, 2)]
    nodes, stones = [], {}
    for i in range(length):
        place, colour = places[i // 2 % len(places)], "BW"[(i // 2 // len(places) + i) % 2]
        nodes.append(f";A{colour}[{place}]")
        stones[place] = "XO"["BW".index(colour)]
    return nodes, stones


def passed_on(points: int) -> Callable[[int], str]:
    return lambda size: Filled(4, FOUR_ROWS[:points]).passed_on((size - len("\n".join(fillings(FOUR_ROWS[:points])))) // 42)


def asked(size: int) -> str:
    nodes, stones = walk(990)
    return Filled(19, ["cs", "ds", "es", "fs", "gs"], nodes, stones).asked(size // 366)


def long_line(size: int) -> str:
    """A line of turns after the problem node: 6 bytes each, 90,000 at most."""
    script = os.path.join(HERE, "long_line.py")
    turns = str(min(size * 3 // 34, 90_000))
    return subprocess.run([sys.executable, script, turns, "audit"], stdout=subprocess.PIPE, check=True).stdout.decode()


# ---- colourings of one key

def stone_words() -> list[int]:
    """The words whose exclusive or is a colouring's key: black's and white's of each point."""
    with open(os.path.join(HERE, "../crates/stone_key/src/words.rt"), encoding="utf-8") as source:
        table = source.read().split("const WORDS:")[1].split("];")[0]
    return [int(word) for word in re.findall(r"\d{5,}", table)]


def without_key(points: Iterable[int]) -> list[int]:
    """Sets of points, as bits, on which black stones have the key 0: by elimination over two elements."""
    words, rows, found = stone_words(), [], []
    for point in points:
        value, bits = words[2 * point], 1 << point
        for other, its_bits in rows:
            if value ^ other < value:
                value, bits = value ^ other, bits ^ its_bits
        if value:
            rows = sorted([*rows, (value, bits)], reverse=True)
        else:
            found.append(bits)
    return found


def of_one_key(points: Iterable[int], count: int) -> Iterator[int]:
    """So many sets of points, each unlike the one before in one of the sets without a key, all of one key."""
    steps, bits = without_key(points), 0
    assert count <= 1 << len(steps)
    for number in range(1, count + 1):
        yield bits
        bits ^= steps[(number & -number).bit_length() - 1]


def texts_of_one_key(rows: int, count: int) -> list[str]:
    area = rows * rows
    return sorted("".join("X" if bits >> point & 1 else "." for point in range(area)) for bits in of_one_key(range(area), count))


def last_points(rows: int, count: int) -> list[str]:
    return [LETTERS[point % rows] + LETTERS[point // rows] for point in range(rows * rows - count, rows * rows)]


def lines(word: str, texts: Iterable[str]) -> list[str]:
    return [f"{word} {text}" for text in texts]


def had_of_one_key(count: int, points: int) -> str:
    """A list of what must have occurred, asked at each use."""
    had = lines("had", texts_of_one_key(9, count))
    return Filled(9, last_points(9, points)).with_lists(had, had)


def had_and_root(count: int, points: int) -> str:
    """The same, and the body's own root, which does not stand among them."""
    filled, texts = Filled(9, last_points(9, points)), texts_of_one_key(9, count)
    return filled.with_lists(lines("had", sorted([*texts, filled.cells(filled.stones)])), lines("had", texts))


def had_and_not_of_one_key(count: int, points: int) -> str:
    """A body that begins with many, and as many others that must not have occurred."""
    texts = texts_of_one_key(9, 2 * count)
    known, others = lines("had", texts[::2]), lines("not", texts[1::2])
    return Filled(9, last_points(9, points)).with_lists(others, known + others)


def had_and_not(count: int, points: int) -> str:
    """The same on 3 rows, with keys of all kinds."""
    filled = Filled(3, last_points(3, points))
    texts = ["".join(cells) for cells in itertools.product(".OX", repeat=9)]
    texts = [text for text in texts if not (text[0] == "O" and "O" not in text[1:] and text[1] == ".")]
    random.Random(2).shuffle(texts)
    known, others = lines("had", sorted(texts[:count])), lines("not", sorted(texts[count : 2 * count]))
    return filled.with_lists(others, known + others)


def past_of_one_key(count: int, points: int) -> str:
    """A past of positions of one key, all of which lemma 1 needs; main uses it once for each order of the points."""
    rows, filled = 15, Filled(15, last_points(15, points))
    odd = [point for point in range(rows * rows) if (point // rows + point % rows) % 2 and point not in (1, rows)]
    nodes, before, texts = [], 0, []
    for bits in of_one_key(odd, count):
        texts.append("".join("X" if bits >> point & 1 else "." for point in range(rows * rows)))
        changed = {"AB": bits & ~before, "AE": before & ~bits}
        nodes.append(";" + "".join(name + "".join(f"[{LETTERS[point % rows]}{LETTERS[point // rows]}]" for point in odd if some >> point & 1)
                                   for name, some in changed.items() if some))
        before = bits
    filled.nodes = "".join(nodes) + f";AE[aa:{LETTERS[rows - 1] * 2}]"
    text = [f"tsucert 2 {rows} W", *filled.lemma(lines("had", sorted(texts))), "main", *fillings(filled.points), "end"]
    return filled.record() + "\n".join(text) + "\n"


def asked_at_each_use(count: int, points: int) -> str:
    """A long list that is asked of 990 positions at each use, on 5 rows."""
    # No two of these are adjacent, so that each colouring of them is a position.
    places, before, nodes = ["ca", "ea", "bb", "db", "ac", "cc", "ec"], "." * 7, []
    for held in itertools.islice(map("".join, itertools.product(".XO", repeat=7)), 1, 991):
        changed = {name: "".join(f"[{place}]" for place, old, new in zip(places, before, held) if old != new == stone)
                   for name, stone in (("AB", "X"), ("AW", "O"), ("AE", "."))}
        nodes.append(";" + "".join(name + some for name, some in changed.items() if some))
        before = held
    filled = Filled(5, last_points(5, points), nodes + [";AE[aa:ee]"])
    pick, texts = random.Random(3), set()
    while len(texts) < count:
        texts.add("X" + "".join(pick.choice(".OX") for _ in range(24)))
    text = ["tsucert 1 5 W", *filled.lemma(lines("not", sorted(texts))), "main", *fillings(filled.points), "end"]
    return filled.record() + "\n".join(text) + "\n"


def many_lemmas(size: int) -> str:
    """Lemmas with a list of 1,500 each, which nobody uses."""
    texts = itertools.islice(("".join(cells) for cells in itertools.product(".OX", repeat=9)), 1_500)
    lemma = ["lemma W 1 O........", *lines("had", texts), "play pass", "won", "end"]
    text = ["(;SZ[3]AW[aa]PL[B]TR[aa]SQ[ba])", "tsucert 2 3 W", *lemma * (size // 21_100), "main"]
    return "\n".join([*text, "all 2", "reply ba", "play pass", "all 1", "reply pass", "won", "reply pass", "play pass", "won", "end"]) + "\n"


def deep_line() -> tuple[str, tuple[int, str]]:
    """A line of 340 turns, cut off at its end: at each turn of black's up to 171 replies are due, after 990 positions."""
    nodes, stones = walk(990)
    points = [chr(97 + column) + chr(97 + row) for row in range(2, 19) for column in range(0, 19, 2)]
    lines = ["tsucert 1 19 W", "main"]
    for number, point in enumerate(points):
        lines += [f"all {len(points) - number + 1}", f"reply {point}", "play pass"]
    # The claim begins a line after the record, and is malformed where its next line should be.
    text = Filled(19, points, nodes, stones).record() + "\n".join(lines) + "\n"
    return text, (1, f"rejected line {len(lines) + 1}: C01 malformed\n")


def won(points: list[str], count: int) -> tuple[str, tuple[int, str]]:
    return Filled(4, points).passed_on(count), (0, "wins White\n")


# ---- short claims, for `short_claims check`

def living(size: int, few: bool = False) -> str:
    """A record on 25 rows and a short claim of about so many bytes: the attacker makes each move in the left half, the defender
    answers, and after each second move the target lives by its shape. The right half has 150 black stones, each alone, around as many
    eyes; with `few` it has one chain of two eyes, in a corner."""
    rows = LETTERS[: max(1, round((size / 15) ** 0.5 / 12))]
    points = [column + row for row in rows for column in LETTERS[:12]]
    right = [column + row for row in LETTERS for column in LETTERS[13:]]
    if few:
        eyes, target = ["va", "xa"], "ua"
        black = [column + row for row in "ab" for column in "uvwxy" if column + row not in eyes]
        white = [*(f"t{row}" for row in "abc"), *(f"{column}c" for column in "uvwxy")]
    else:
        eyes, target = [it for it in right if (ord(it[0]) + ord(it[1])) % 2], "ma"
        black, white = [it for it in right if it not in eyes] + [f"m{row}" for row in LETTERS], []
        black += [column + row for row in LETTERS[len(rows) :] for column in LETTERS[:12]]
    setup = "".join(name + "".join(f"[{it}]" for it in held) for name, held in (("AB", black), ("AW", white)) if held)
    text = [f"(;SZ[25]{setup}PL[W]TR[{target}]SQ{''.join(f'[{it}]' for it in sorted(points + eyes))})", "tsushort 1 25 B", "main"]
    text.append(f"all {len(points) + 1}")
    for reply in [*points, "pass"]:
        answer = next(it for it in reversed(points) if it != reply)
        due = [it for it in points if it not in (reply, answer)]
        text += [f"reply {reply}", f"play {answer}", f"all {len(due) + 1}"]
        for last in [*due, "pass"]:
            text += [f"reply {last}", "alive"]
    return "\n".join([*text, "end", ""])


def alive_lines(points: list[str], others: list[str], size: int) -> list[str]:
    """Lines of about so many bytes for a node where the attacker is to move: each of its moves is replied to, and the target lives. Where
    there is room, the defender answers a move at one of the points with the last of them that is left, and there is such a node again."""
    left = [size]

    def emit(text: str) -> str:
        left[0] -= len(text) + 1
        return text

    def node(free: list[str], depth: int) -> Iterator[str]:
        yield emit(f"all {len(free) + len(others) + 1}")
        for reply in [*free, *others, "pass"]:
            yield emit(f"reply {reply}")
            rest = [it for it in free if it != reply]
            if reply in free and depth and left[0] > 16 * len(rest) ** min(depth, 2) + 2_000:
                yield emit(f"play {rest[-1]}")
                yield from node(rest[:-1], depth - 1)
            else:
                yield emit("alive")

    return list(node(points, 3))


def short_claim(stones: dict[str, list[str]], target: str, region: list[str], lines_of_claim: list[str]) -> str:
    """A record on 25 rows in which White attacks and is to move, and a short claim that Black wins; the stones by their colours."""
    marks = f"PL[W]TR[{target}]SQ" + "".join(f"[{it}]" for it in sorted(region))
    setup = "".join(name + "".join(f"[{it}]" for it in held) for name, held in stones.items())
    return "\n".join([f"(;SZ[25]{setup}{marks})", "tsushort 1 25 B", "main", *lines_of_claim, "end", ""])


def snake(rows: list[list[str]], top: int, left: int, count: int) -> None:
    """Chains of Black's one above the other, so many, each with an eye in common with the next: the lowest has no other eye. Above them
    is one that ends two columns right of them."""
    for below in range(count):
        for row, column in ((0, 2), (1, 2), (1, 1), (2, 1), (2, 0), (3, 0)):
            rows[top + 3 * below + row][left + column] = "X"
    for below in range(count + 1):
        rows[top + 3 * below][left + 1] = "."
    for row, column in ((0, 0), (-1, 0), (-1, 1), (-2, 1), (-2, 2), (-2, 3), (-2, 4)):
        rows[top + row][left + column] = "X"


def falling(size: int) -> str:
    """A short claim of about so many bytes, at each line `alive` of which some twenty chains fall one after the other, from below. The
    target stands apart, with two eyes."""
    rows, top, bottom = [["."] * 25] * 2 + [["O"] * 25 for _ in range(23)], 5, 20
    for number, left in enumerate((1, 7, 13, 19)):
        snake(rows, top, left, 5)
        if number < 3:
            for row in range(top - 2, bottom + 3):
                rows[row][left + 4] = "X"
            for row, column in ((2, 5), (2, 6), (2, 7), (1, 7), (1, 8), (0, 8)):
                rows[bottom + row][left + column] = "X"
    for row in range(3, 8):
        rows[row][23:] = "X" + "X."[row % 2 == 0]
    return of_rows(rows, ["cu"], size, "xd")


def crumbling(size: int) -> str:
    """The same with 190 stones that each stand alone, round as many eyes and beside a long chain: most of them fall, row after row, from
    below. The target is in a corner, with two eyes."""
    rows = [["."] * 25] * 2 + [["O"] * 25 for _ in range(22)] + [["."] * 25]
    rows[7] = ["X"] * 25
    for row in range(8, 24):
        rows[row] = ["X", *("X."[(row + column) % 2] for column in range(1, 25))]
    rows[2][20:], rows[3][20:], rows[4][20:] = "XXXXX", "X.X.X", "XXXXX"
    open_points = [LETTERS[column] + LETTERS[row] for row in (23, 24) for column in range(25) if rows[row][column] == "."]
    return of_rows(rows, open_points, size, "uc")


def of_rows(rows: list[list[str]], others: list[str], size: int, target: str) -> str:
    """The short claim for a board whose second row is where both sides may play while the target lives."""
    named = {LETTERS[column] + LETTERS[row]: cell for row, cells in enumerate(rows) for column, cell in enumerate(cells)}
    stones = {name: [it for it in named if named[it] == cell] for name, cell in (("AB", "X"), ("AW", "O"))}
    points = [it for it in named if it[1] == "b"][:24]
    region = [*points, *(it for it in named if named[it] == "." and it[1] > "b")]
    return short_claim(stones, target, region, alive_lines(points, others, size - 20 * 250))


# ---- searches

# 600 stones, all of them targets, beside an empty row.
ALL_TARGETS = "(;SZ[25]AW[aa:yx]PL[B]TR[aa:yx]SQ[ay:yy])"
ONE_TARGET = "(;SZ[25]AW[aa:yx]PL[B]TR[aa]SQ[ay:yy])"


def full_but(count: int, seed: int) -> str:
    """White stones on 25 rows but for so many points by chance, which are the region; the first stone is the target."""
    empty = sorted(random.Random(seed).sample(range(625), count))
    names_of = [LETTERS[number % 25] + LETTERS[number // 25] for number in range(625)]
    stones = [names_of[number] for number in range(625) if number not in empty]
    return f"(;SZ[25]AW[{']['.join(stones)}]PL[B]TR[{stones[0]}]SQ[{']['.join(names_of[it] for it in empty)}])"


def session_of_full_but(count: int, seed: int) -> str:
    """The same as a session: its stones are played, and it is asked whether Black wins."""
    columns = "ABCDEFGHJKLMNOPQRSTUVWXYZ"
    empty = set(random.Random(seed).sample(range(625), count))
    names_of = [f"{columns[number % 25]}{25 - number // 25}" for number in range(625)]
    stones = [names_of[number] for number in range(625) if number not in empty]
    region = " ".join(names_of[number] for number in sorted(empty))
    lines = ["boardsize 25", *(f"play w {it}" for it in stones), f"tsu-target {stones[0]}", f"tsu-region {region}", "tsu-solve b"]
    return "\n".join([*lines, "quit", ""])


def useless_moves(count: int) -> str:
    """A record whose answer has 2 to the power of this many states: Black may play at so many points apart, in any order."""
    points = [column + row for row in "dfhjl" for column in "acegikm"][:count]
    return "(;FF[4]GM[1]SZ[13]AW[aa]PL[B]TR[aa]SQ" + "".join(f"[{point}]" for point in points) + ")\n"


def neighbours(point: Point, rows: int) -> list[Point]:
    column, row = point
    beside = [(column - 1, row), (column + 1, row), (column, row - 1), (column, row + 1)]
    return [(c, r) for c, r in beside if 0 <= c < rows and 0 <= r < rows]


def nearest(points: list[Point], rows: int) -> list[Point]:
    """All points of the board, those before others that are nearer to these."""
    found = sorted(points)
    for point in found:
        found += [it for it in neighbours(point, rows) if it not in found]
    return found


def chain_of(stones: dict[Point, str], point: Point, rows: int) -> list[Point]:
    """The stones of the chain."""
    chain = [point]
    for stone in chain:
        chain += [it for it in neighbours(stone, rows) if stones.get(it) == stones[point] and it not in chain]
    return chain


def has_liberty(stones: dict[Point, str], chain: list[Point], rows: int) -> bool:
    return any(it not in stones for stone in chain for it in neighbours(stone, rows))


def random_problem(number: int) -> str:
    """The record of a random problem: a board of 7 to 9 rows on which two of five points are empty, and a chain to be taken where
    play is at the 12 to 18 empty points that are nearest to it, at its own points and at the stones between them."""
    pick = random.Random(number)
    rows, count = pick.randint(7, 9), pick.randint(12, 18)
    stones = {(c, r): pick.choice("BW") for c in range(rows) for r in range(rows) if pick.random() < 0.6}
    for point in sorted(stones):
        if point in stones:
            chain = chain_of(stones, point, rows)
            if not has_liberty(stones, chain, rows):
                for stone in chain:
                    del stones[stone]
    target = chain_of(stones, pick.choice(sorted(stones)), rows)
    region = []
    for point in nearest(target, rows):
        if sum(it not in stones for it in region) < count:
            region.append(point)
    lists = (("AB", [it for it in stones if stones[it] == "B"]), ("AW", [it for it in stones if stones[it] == "W"]),
             ("TR", target), ("SQ", region))
    text = "".join(name + "".join(f"[{LETTERS[c]}{LETTERS[r]}]" for c, r in sorted(points)) for name, points in lists if points)
    return f"(;SZ[{rows}]PL[{pick.choice('BW')}]{text})"
