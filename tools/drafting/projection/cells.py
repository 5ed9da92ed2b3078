"""The cells of an answer's solids, as numbers of bits."""
import itertools
from collections.abc import Iterable, Iterator

from ..core.messages import Refused
from ..recon.answer import Point, Solid


class Grid:
    """The cells between some coordinates of each axis.

    A set of cells is a number, with a bit for each cell: x runs fastest, then y, then z. Along each axis there is one place
    more than there are cells. It stands for what lies around them, behind the last cell and before the next row's first one.
    """

    def __init__(self, cuts: list[list[int]]) -> None:
        self.cuts = cuts
        self.ranks = [{at: rank for rank, at in enumerate(cut)} for cut in self.cuts]
        x, y, z = map(len, self.cuts)
        self.strides = 1, x, x * y
        self.count = x * y * z
        self.every = (1 << self.count) - 1

    def has_cells(self) -> bool:
        return all(len(cut) > 1 for cut in self.cuts)

    def place(self, corner: Point) -> int:
        """The place of the cell whose least corner this is."""
        return sum(rank[at] * stride for rank, at, stride in zip(self.ranks, corner, self.strides))

    def layer(self, axis: int, at: int) -> int:
        """All places of one number along an axis."""
        stride, period = self.strides[axis], self.strides[axis] * len(self.cuts[axis])
        rows = ((1 << self.count) - 1) // ((1 << period) - 1)
        return ((1 << stride) - 1 << at * stride) * rows

    def between(self, solid: Solid, axis: int) -> int:
        """The cells between a solid's faces across an axis.

        From each corner of such a face on, to greater coordinates along all three axes, full turns to empty and empty to
        full: along the face's plane that gives the inside of its loops, and across it what lies between two faces.
        """
        turns = bytearray(b"0") * self.count
        for face in solid.faces:
            for corner in itertools.chain(*face.loops) if face.outward[axis] else ():
                turns[-1 - self.place(corner)] ^= 1
        cells = int(turns or b"0", 2)
        for stride in self.strides:
            while stride < self.count:
                cells = (cells ^ cells << stride) & self.every
                stride *= 2
        return cells

    def cells(self, solid: Solid) -> int:
        """The full cells of a solid; refused where its faces don't enclose its volume."""
        found = {self.between(solid, axis) for axis in range(3)}
        if len(found) != 1 or self.volume(min(found)) != solid.volume:
            raise Refused(f"the faces of the solid of choice {solid.choice[:60]} don't enclose its volume")
        return found.pop()

    def all_in(self, cells: int) -> Iterator[tuple[int, int, int]]:
        """The cells of a set of cells, by their numbers along x, y and z."""
        _, row, layer = self.strides
        text = f"{cells:b}"[::-1]
        return ((at % row, at % layer // row, at // layer) for at, bit in enumerate(text) if bit == "1")

    def rows(self, cells: int) -> list[list[str]]:
        """The cells as texts of 0 and 1, one for each row along x: by z, and then y."""
        text = f"{cells:0{self.count}b}"[::-1]
        _, row, layer = self.strides
        return [[text[at:at + row] for at in range(start, start + layer, row)] for start in range(0, self.count, layer or 1)]

    def volume(self, cells: int) -> int:
        """How many unit cells there are in a set of cells."""
        x, y, z = ([high - low for low, high in itertools.pairwise(cut)] for cut in self.cuts)
        across = {"0" * len(self.cuts[0]): 0}
        total = 0
        for height, layer in zip(z, self.rows(cells)):
            for depth, row in zip(y, layer):
                if row not in across:
                    across[row] = sum(width for width, full in zip(x, row) if full == "1")
                total += across[row] * depth * height
        return total


def grid_round(solids: Iterable[Solid]) -> Grid:
    """The cells between the coordinates of all corners of some solids."""
    corners = {corner for solid in solids for face in solid.faces for loop in face.loops for corner in loop}
    return Grid([sorted({corner[axis] for corner in corners}) for axis in range(3)])
