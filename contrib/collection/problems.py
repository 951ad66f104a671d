"""Problems: a position, who is to move, the targets and the region, and the record that asks about it."""

from typing import NamedTuple

from .boards import BLACK, EMPTY, OTHER, WHITE, letters_of, played

SIDES = {BLACK: "Black", WHITE: "White"}
TURNS = {BLACK: "B", WHITE: "W"}


class Problem(NamedTuple):
    """A problem without a past. `cells` is the colouring; `targets`, `region` and `put`, the stones that were put up, are sorted points."""

    size: int
    cells: str
    mover: str
    targets: tuple
    region: tuple
    put: tuple = ()

    @property
    def defender(self):
        return self.cells[self.targets[0]]

    @property
    def attacker(self):
        return OTHER[self.defender]

    def with_mover(self, mover):
        return self._replace(mover=mover)

    def values(self, points):
        return "".join(f"[{letters_of(self.size, it)}]" for it in points)

    def stones(self, colour):
        return [point for point, cell in enumerate(self.cells) if cell == colour]

    def record(self, root="", marked=""):
        """The canonical record of docs/FORMATS.md; `root` and `marked` are further properties of its two nodes."""
        setup = "".join(
            f"A{TURNS[colour]}{self.values(self.stones(colour))}" for colour in (BLACK, WHITE) if self.stones(colour)
        )
        region = "" if len(self.region) == len(self.cells) else "SQ" + self.values(self.region)
        marks = f"PL[{TURNS[self.mover]}]TR{self.values(self.targets)}{region}"
        return f"(;FF[4]GM[1]SZ[{self.size}]{root}{setup};{marks}{marked})\n"

    def after(self, point):
        """The problem after a move of the mover's, without the position before it."""
        cells = played(self.size, self.cells, self.mover, point)
        return self._replace(cells=cells, mover=OTHER[self.mover])

    def moved(self, size, cells, place):
        """The problem with these cells, on a board of this size, with each of its points where `place` says."""
        targets, region, put = (tuple(sorted(map(place, part))) for part in (self.targets, self.region, self.put))
        return Problem(size, cells, self.mover, targets, region, put)

    def open_points(self):
        return [point for point in self.region if self.cells[point] == EMPTY]
