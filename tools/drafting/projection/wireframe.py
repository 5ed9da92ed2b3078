"""The grid of a drawing as the program has it, the pseudo edges that all its views allow, and the virtual faces that these close off, by the
definitions (docs/DEFINITIONS.md, "Pseudo edges and virtual faces"): for pictures of them alone (`draft stages`). The program tells no edge
and no face of these, but where blocks are (`blocks.py`).
"""
import itertools

from .draw import BLANK, FRAMES, Cuts, Grid, Panels, axis_of

Bits = tuple[int, int, int]


# ---- the program's grid

def cuts_kept(grid: Grid) -> list[list[int]]:
    """The numbers of the coordinates of each axis where an edge lies across, or one along it begins, ends or changes its style."""
    kept: list[set[int]] = [set(), set(), set()]
    for row, styles in grid.panels.items():
        if any(styles):
            kept[axis_of(row.view, not row.upright)].add(row.number)
            padded = bytes([BLANK]) + styles + bytes([BLANK])
            kept[axis_of(row.view, row.upright)] |= {at for at, (was, will) in enumerate(zip(padded, padded[1:])) if was != will}
    return [sorted(numbers) for numbers in kept]


def thinned(grid: Grid) -> Grid:
    """The drawing on the program's grid, which has no coordinate where nothing begins, ends or lies across."""
    kept = cuts_kept(grid)
    panels: Panels = {}
    for row, styles in grid.panels.items():
        across, along = kept[axis_of(row.view, not row.upright)], kept[axis_of(row.view, row.upright)]
        if row.number in across:
            panels[row._replace(number=across.index(row.number))] = bytes(styles[at] for at in along[:-1])
    cuts: Cuts = [[cut[number] for number in numbers] for cut, numbers in zip(grid.cuts, kept)]
    return Grid(cuts, panels, {})


# ---- a box of cells, as numbers of bits

class Box:
    """The grid's cells from (0, 0, 0) on, with faces and edges under the number of the cell that they begin at, and with what lies
    around them: along each axis a place before the first cell, and two behind the last one."""

    def __init__(self, cuts: Cuts) -> None:
        self.sizes = [len(cut) - 1 for cut in cuts]
        x, y, z = (size + 3 for size in self.sizes)
        self.strides = 1, x, x * y
        self.count = x * y * z
        self.every = (1 << self.count) - 1

    def place(self, x: int, y: int, z: int) -> int:
        return (x + 1) * self.strides[0] + (y + 1) * self.strides[1] + (z + 1) * self.strides[2]

    def inside(self, sizes: list[int]) -> int:
        """The cells of a box of such sizes."""
        x, y, z = sizes
        row = (1 << x) - 1
        layer = sum(row << self.place(0, j, 0) for j in range(y))
        return sum(layer << k * self.strides[2] for k in range(z))

    def reached(self, cells: int, within: int, walls: Bits) -> int:
        """What chains of steps reach from some cells. A wall of a cell bars the step to the one before it along an axis."""
        free = [self.every & ~wall for wall in walls]
        while True:
            more = cells
            for stride, passes in zip(self.strides, free):
                more |= (cells & passes) >> stride | cells << stride & passes
            more &= within
            if more == cells:
                return cells
            cells = more


def places_of(cells: int) -> list[int]:
    """The places of some cells."""
    return [place for place, bit in enumerate(f"{cells:b}"[::-1]) if bit == "1"]


# ---- the wire frame, and what it closes off

def pseudo_edges(grid: Grid, box: Box) -> Bits:
    """The pseudo edges along each axis."""
    starts: dict[tuple[str, int], set[tuple[int, int]]] = {}
    points: dict[str, set[tuple[int, int]]] = {view: set() for view in grid.views}
    for row, styles in grid.panels.items():
        for segment in (at for at, style in enumerate(styles) if style != BLANK):
            place = (row.number, segment) if row.upright else (segment, row.number)
            starts.setdefault((row.view, axis_of(row.view, row.upright)), set()).add(place)
            points[row.view] |= {place, (row.number, segment + 1) if row.upright else (segment + 1, row.number)}
    wide, deep, tall = box.sizes
    # A view that isn't drawn allows all that the other two do.
    front, top, side = (
        points.get(view) or set(itertools.product(range(right + 1), range(up + 1)))
        for view, right, up in (("FRONT", wide, tall), ("TOP", wide, deep), ("SIDE", deep, tall))
    )
    vertices = {(x, y, z) for x, z in front for y in range(deep + 1) if (x, y) in top and (y, z) in side}

    def is_edge(point: tuple[int, int, int], axis: int) -> bool:
        far = (*point[:axis], point[axis] + 1, *point[axis + 1:])
        return far in vertices and all(
            (point[FRAMES[view].right], point[FRAMES[view].up]) in starts.get((view, axis), ())
            for view in grid.views if axis != FRAMES[view].sight
        )

    x, y, z = (sum(1 << box.place(*point) for point in vertices if is_edge(point, axis)) for axis in range(3))
    return x, y, z


def virtual_faces(box: Box, edges: Bits) -> Bits:
    """The faces across each axis from which each way out in their plane meets a pseudo edge."""
    faces = []
    for axis in range(3):
        inside = box.inside([size + (at == axis) for at, size in enumerate(box.sizes)])
        # A step along one of the plane's axes crosses the edge along the other one; along this axis no step is taken.
        b, c = (axis + 1) % 3, (axis + 2) % 3
        walls = [box.every] * 3
        walls[b], walls[c] = edges[c], edges[b]
        faces.append(inside & ~box.reached(box.every & ~inside, box.every, (walls[0], walls[1], walls[2])))
    return faces[0], faces[1], faces[2]
