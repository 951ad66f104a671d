"""Pictures of problems, cropped to what belongs to them. A stone that was put up has a grey ring, and is never as those of the game."""

from .boards import BLACK, COLUMNS, EMPTY, OTHER

CELL, EDGE = 24, 22
STYLE = (
    "<style>.w{fill:#e8bd6d}.l{stroke:#4a3a1e;stroke-width:1;stroke-linecap:square}.X{fill:#111}.O{fill:#fff;stroke:#111}"
    ".t{fill:none;stroke-width:1.6}.p{fill:none;stroke:#8a8a8a;stroke-width:3;stroke-dasharray:4 2.5}"
    "text{font:11px sans-serif;text-anchor:middle;fill:#4a3a1e}.n{font-weight:bold;font-size:12px}"
    "@media print{.w{fill:#fff}text{fill:#000}}</style>"
)


def shown_lines(size, used):
    """The first and last line that are shown: those in use and one more, or up to an edge that is near."""
    low, high, last = min(used) - 1, max(used) + 1, size - 1
    return (0 if low <= 1 else low), (last if high >= last - 1 else high)


class Picture:
    """A picture of a problem. `line` are turns that are numbered from its position on."""

    def __init__(self, problem, line=()):
        self.problem, self.line, size = problem, line, problem.size
        used = [it for it, cell in enumerate(problem.cells) if cell != EMPTY] + list(problem.region)
        self.top, self.bottom = shown_lines(size, [it // size for it in used])
        self.left, self.right = shown_lines(size, [it % size for it in used])
        self.width, self.height = EDGE + CELL * (self.right - self.left + 1) + 4, EDGE + CELL * (self.bottom - self.top + 1) + 4

    def x(self, column):
        return EDGE + CELL * (column - self.left) + CELL // 2

    def y(self, row):
        return EDGE + CELL * (row - self.top) + CELL // 2

    def svg(self):
        title = f"{self.problem.size} rows, cropped"
        parts = [f'<svg xmlns="http://www.w3.org/2000/svg" viewBox="0 0 {self.width} {self.height}" role="img"><title>{title}</title>{STYLE}']
        parts.append(f'<rect class="w" x="{EDGE - 2}" y="{EDGE - 2}" width="{self.width - EDGE}" height="{self.height - EDGE}" rx="3"/>')
        return "".join(parts + self.lines() + self.stones() + self.numbers()) + "</svg>\n"

    def lines(self):
        """The lines and their names; where the board goes on, a line does for half a step."""
        last, half = self.problem.size - 1, CELL // 2
        from_y, to_y = self.y(self.top) - half * (self.top > 0), self.y(self.bottom) + half * (self.bottom < last)
        from_x, to_x = self.x(self.left) - half * (self.left > 0), self.x(self.right) + half * (self.right < last)
        columns = [
            f'<path class="l" d="M{self.x(it)} {from_y}V{to_y}"/><text x="{self.x(it)}" y="14">{COLUMNS[it]}</text>'
            for it in range(self.left, self.right + 1)
        ]
        rows = [
            f'<path class="l" d="M{from_x} {self.y(it)}H{to_x}"/><text x="9" y="{self.y(it) + 4}">{self.problem.size - it}</text>'
            for it in range(self.top, self.bottom + 1)
        ]
        return columns + rows

    def stones(self):
        made, targets, put = [], set(self.problem.targets), set(self.problem.put)
        for point, cell in enumerate(self.problem.cells):
            if cell != EMPTY:
                x, y = self.x(point % self.problem.size), self.y(point // self.problem.size)
                made.append(f'<circle class="{cell}" cx="{x}" cy="{y}" r="11"/>')
                if point in targets:
                    made.append(f'<path class="t" stroke="{"#fff" if cell == BLACK else "#111"}" d="M{x} {y - 6}l5.4 9.3h-10.8z"/>')
                if point in put:
                    made.append(f'<circle class="p" cx="{x}" cy="{y}" r="9"/>')
        return made

    def numbers(self):
        """The numbers of the line: a second turn at a point has none in the picture, and stands in the words below it."""
        made, seen, colour = [], set(), self.problem.mover
        for number, point in enumerate(self.line, 1):
            if point not in seen and self.problem.cells[point] == EMPTY:
                x, y = self.x(point % self.problem.size), self.y(point // self.problem.size)
                fill = "#fff" if colour == BLACK else "#111"
                made.append(f'<circle class="{colour}" cx="{x}" cy="{y}" r="11"/><text class="n" style="fill:{fill}" x="{x}" y="{y + 4}">{number}</text>')
            seen.add(point)
            colour = OTHER[colour]
        return made
