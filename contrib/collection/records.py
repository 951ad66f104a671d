"""SGF: the game trees of a file, what was on the board at each node of a main line, and texts for records."""

import re

from .boards import BLACK, EMPTY, WHITE, played, point_of

MOST_NODES = 20_000
TOKEN = re.compile(rb"\s*(?:([();])|([A-Za-z]+)|\[((?:[^\\\]]|\\.)*)\])", re.DOTALL)
COLOURS = {"B": BLACK, "W": WHITE}
SETUP = {"AB": BLACK, "AW": WHITE, "AE": EMPTY}


class Unreadable(Exception):
    """A record that cannot be read, or not further."""


def main_lines(content):
    """The main line of each game tree of a text: its nodes, each a dictionary of properties and their values. A text that breaks off
    raises Unreadable after the trees before it."""
    start = re.search(rb"\(\s*;", content)
    if not start:
        raise Unreadable("no game tree")
    at, count = start.start(), 0
    while start:
        nodes, at = main_line(content, start.start())
        count += 1
        yield nodes
        start = re.compile(rb"\(\s*;").search(content, at)


def main_line(content, at):
    """The main line of the tree that begins there, and where that ends. `depth` counts brackets, `left` those of the main line's end."""
    nodes, depth, left, name = [], 0, None, None
    while True:
        found = TOKEN.match(content, at)
        if not found:
            raise Unreadable(f"no record from byte {at} on")
        at = found.end()
        mark, letters, value = found.groups()
        if mark == b")":
            left = depth if left is None else left
            depth -= 1
        elif mark == b"(":
            depth += 1
        elif left is None:
            name = read_token(nodes, mark, letters, value, name)
        if depth == 0:
            return nodes, at


def read_token(nodes, mark, letters, value, name):
    """Takes a part of a node in, and returns the property whose values may follow."""
    if mark == b";":
        if len(nodes) >= MOST_NODES:
            raise Unreadable(f"more than {MOST_NODES:,} nodes")
        nodes.append({})
        return None
    if letters is not None:
        name = re.sub(r"[a-z]", "", letters.decode())
        if nodes:
            nodes[-1].setdefault(name, [])
        return name
    if not nodes or name is None:
        raise Unreadable("a value without a property")
    nodes[-1][name].append(value)
    return name


def place_of(content, name):
    """The place of a property's first byte where it comes first in a record; None where it does not."""
    at = re.search(rb"\(\s*;", content).start()
    while token := TOKEN.match(content, at):
        if token[2] == name:
            return token.start(2)
        at = token.end()
    return None


def size_of(root):
    """The rows of a game's board."""
    text = root.get("SZ", [b"19"])[0].decode("latin-1").strip()
    found = re.fullmatch(r"\+?0*([0-9]{1,2})(?::\+?0*([0-9]{1,2}))?", text)
    if not found or found[2] not in (None, found[1]) or not 1 <= int(found[1]) <= 25:
        raise Unreadable(f"no board of 1 to 25 rows: SZ[{text[:20]}]")
    if root.get("GM", [b"1"])[0].strip() != b"1":
        raise Unreadable("no game of Go")
    return int(found[1])


def points_of(size, values):
    """The points of a list of points and rectangles."""
    found = set()
    for value in values:
        ends = [point_of(size, it.strip()) for it in value.decode("latin-1").split(":")]
        if None in ends or len(ends) > 2:
            raise Unreadable(f"[{value.decode('latin-1')[:20]}] names no point of the board")
        (top, left), (bottom, right) = divmod(ends[0], size), divmod(ends[-1], size)
        found.update(row * size + column for row in range(top, bottom + 1) for column in range(left, right + 1))
    return found


def positions(nodes):
    """The size, and the colourings after each node of a main line, with who is to move. What cannot be played raises Unreadable
    with the node, after those before it."""
    size = size_of(nodes[0])
    cells, mover = EMPTY * (size * size), BLACK
    for number, node in enumerate(nodes):
        try:
            cells, mover = after_node(size, cells, mover, node)
        except Unreadable as why:
            raise Unreadable(f"node {number}: {why}") from None
        yield size, cells, mover


def after_node(size, cells, mover, node):
    """The colouring after a node, and who is to move."""
    made = list(cells)
    for name, colour in SETUP.items():
        for point in points_of(size, node.get(name, [])):
            made[point] = colour
    cells = "".join(made)
    for name, colour in COLOURS.items():
        if node.get(name):
            cells, mover = after_turn(size, cells, colour, node[name][0]), WHITE if colour == BLACK else BLACK
    if node.get("PL"):
        mover = {"B": BLACK, "W": WHITE}.get(node["PL"][0].decode("latin-1").strip()[:1].upper(), mover)
    return cells, mover


def after_turn(size, cells, colour, value):
    text = value.decode("latin-1").strip()
    if text == "" or (text == "tt" and size <= 19):
        return cells
    point = point_of(size, text)
    if point is None:
        raise Unreadable(f"[{text[:20]}] names no point of the board")
    if cells[point] != EMPTY:
        raise Unreadable(f"there is a stone at {text} already")
    return played(size, cells, colour, point)


def text_of(node, name, charset="utf-8"):
    """A property's first value as a text of one line; empty where there is none."""
    value = re.sub(rb"\\(.)", rb"\1", node.get(name, [b""])[0], flags=re.DOTALL)
    try:
        text = value.decode(charset)
    except (UnicodeDecodeError, LookupError):
        text = value.decode("latin-1")
    return " ".join(text.split())


def escaped(text):
    """A text as a value of a record."""
    return text.replace("\\", "\\\\").replace("]", "\\]")
