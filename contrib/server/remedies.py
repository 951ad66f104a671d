"""What to do about a line with which a program refuses a record, as docs/FAQ.md says it at more length."""

import re

PROBLEM = {
    1: "The record is of another game than Go.",
    2: "The board has to be square, with 1 to 25 rows (SZ).",
    3: "No node of the main line has a triangle (TR) or a square (SQ): mark a stone of the group and the points to play at, or ask for the status of a stone.",
    4: "Write one B, W or PL in a node.",
    5: "A point is two lower-case letters on the board, such as aa at the upper left.",
    6: "A point is in two of AB, AW and AE of one node: keep one.",
    7: "A move and a setup do not share a node: split it.",
    8: "Two moves do not share a node: split it.",
    9: "The record has a move on a stone, or one that brings an earlier position back. Positions before that node can be asked about.",
    10: "The setup has a chain without a liberty: take it off, or free a point beside it.",
    11: "Mark stones of one colour with triangles, and no empty point. Name a point with a stone.",
    12: "Two passes come before the position: ask about the node before them.",
    13: "PL has to be B or W.",
    14: "More than 1,000 positions: set the position up instead.",
}
SGF = {
    1: "Send an SGF record; it begins with (; . A file in UTF-16 has to be converted first: iconv -f UTF-16 -t UTF-8.",
    2: "The record is cut off, or has a property name without a capital letter, or text in a character set that hides a bracket: convert it to UTF-8.",
    3: "The record has more than 1,048,576 bytes, or does not end: send one game.",
    4: "More than 1,000 variations are open at once: leave some out.",
    5: "The record has more than 100,000 nodes: leave some out.",
}
# group_status names a fault in the same words without its number.
FAULTS = {
    "no tree": ("sgf", 1),
    "syntax at": ("sgf", 2),
    "too long": ("sgf", 3),
    "too deep": ("sgf", 4),
    "too many nodes": ("sgf", 5),
    "game": ("problem", 1),
    "size": ("problem", 2),
    "no problem node": ("problem", 3),
    "many values": ("problem", 4),
    "bad point": ("problem", 5),
    "shared point": ("problem", 6),
    "mixed": ("problem", 7),
    "both colours": ("problem", 8),
    "illegal turn": ("problem", 9),
    "no liberty": ("problem", 10),
    "bad targets": ("problem", 11),
    "ended": ("problem", 12),
    "bad colour": ("problem", 13),
    "long history": ("problem", 14),
}
LINES = (
    ("the size of the board", ("problem", 2), PROBLEM[2]),
    ("two passes stand there", ("problem", 12), PROBLEM[12]),
    (
        r"--node \d+ is before it",
        ("problem", 9),
        "The record has a fault after the named node: ask about that node, or an earlier one.",
    ),
    ("there is no stone at", None, "Name a stone of the group, and the node at which it stands."),
    ("marks no stone with a triangle", None, "Name a stone: target=D17."),
    ("the triangles \\(TR\\) are not on stones", ("problem", 11), PROBLEM[11]),
    (
        "is no point of the board|is no list of points|are no points",
        None,
        "Name points of the board, as D17 or dc, with commas between them.",
    ),
    ("no such node|has no node", None, "Nodes are counted from 0 at the root, along the first variations."),
    ("name a region", None, "Nothing can be played near the target: mark the region yourself."),
    ("another problem", None, "The second record has another problem than the first."),
    ("does not say who wins", None, "It is no answer: send what /solve or /first-moves?record has answered."),
)
OTHER = "docs/FAQ.md says what each refusal means."


def named(line):
    """The name and the number of a refusal, where it has them or its words do."""
    found = re.match(r"refused: (sgf|problem) ([0-9]+) ", line)
    if found:
        return found[1], int(found[2])
    found = re.match(f"refused: (?:[^:]*: )?({'|'.join(FAULTS)})\\b", line)
    return FAULTS[found[1]] if found else None


def remedy_of(line):
    """The remedy of a line, and the name and the number of the refusal where it has them."""
    of_line = next(((name, remedy) for pattern, name, remedy in LINES if re.search(pattern, line)), (None, None))
    name = of_line[0] or named(line)
    table = {"sgf": SGF, "problem": PROBLEM}.get(name[0], {}) if name else {}
    remedy = of_line[1] or (table.get(name[1]) if name else None) or OTHER
    return remedy, {"name": name[0], "number": name[1]} if name else {}
