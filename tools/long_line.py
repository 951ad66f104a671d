#!/usr/bin/env python3
"""Writes a record of one long line of play on 19 rows that repeats nothing.

Thirteen ko shapes, or seventeen where a longer line wants them: Black's capture sets a bit, White's clears it, and a Gray code
sets and clears them so that each position stands once. Where the other side would be to move, it passes.

    tools/long_line.py TURNS audit   a problem and TURNS turns after it, as `tsumego audit` reads them
    tools/long_line.py TURNS past    a problem after TURNS turns; two thirds of them are moves
"""
import sys

import script_words

FEW_TURNS = 10_000


def name(column: int, row: int) -> str:
    return chr(97 + column) + chr(97 + row)


def places(points: list[tuple[int, int]]) -> str:
    return "".join(f"[{name(*point)}]" for point in points)


def main() -> None:
    words = script_words.Words(__doc__)
    words.add_argument("turns", type=script_words.a_number(0), metavar="TURNS")
    words.add_argument("kind", choices=("audit", "past"))
    given = words.parse_args()
    turns, is_audit = given.turns, given.kind == "audit"
    shapes = 13 if turns <= FEW_TURNS else 17
    corners = [(number % 4 * 4, number // 4 * 3) for number in range(shapes)]
    black = [(x + c, y + r) for x, y in corners for c, r in ((1, 0), (0, 1), (1, 2))]
    white = [(x + c, y + r) for x, y in corners for c, r in ((2, 0), (1, 1), (3, 1), (2, 2))]
    sets, clears = [(x + 2, y + 1) for x, y in corners], [(x + 1, y + 1) for x, y in corners]
    line, bits, step = [], 0, 0
    while len(line) < turns:
        step += 1
        bit = (step & -step).bit_length() - 1
        if bit >= shapes:
            sys.exit(f"at most {len(line)} turns")
        is_set = bits >> bit & 1
        if len(line) % 2 != is_set:
            line.append("")
        line.append(name(*(clears if is_set else sets)[bit]))
        bits ^= 1 << bit
    text = "".join(f";{'BW'[number % 2]}[{turn}]" for number, turn in enumerate(line[:turns]))
    stones = f"AB{places(black)}AW{places(white + [(10, 16)])}"
    problem = f"PL[{'B' if is_audit else 'BW'[turns % 2]}]TR[kq]SQ{places(sets + clears)}"
    head = "(;FF[4]GM[1]SZ[19]" + stones
    print(head + problem + text + ")" if is_audit else head + text + ";" + problem + ")")


main()
