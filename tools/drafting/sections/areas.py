"""The area that a section's plane cuts: what hatches cover, or the faces in which drawn hatch lines lie. Its outline has to be lines of the section,
and no line may cross it."""
import itertools
import math
from collections.abc import Iterable, Iterator, Sequence
from typing import NamedTuple

from ..core.messages import Refused
from ..dxf.drawing import Place
from ..dxf.reader import Edge
from ..geometry.segments import Run

# The most cells between the coordinates of a section that are looked at.
MOST_CELLS = 40_000
# Where along a drawn hatch line one looks in which face it lies.
WITHIN = (0.3, 0.5, 0.7)


class Segment(NamedTuple):
    """A level or upright stretch: at a coordinate across it, from one along it to a greater one."""

    is_upright: bool
    at: float
    low: float
    high: float


class Hatch(NamedTuple):
    """A hatch: the corners of each of its sides, how it is told, and its pattern with its angle."""

    paths: list[list[Place]]
    name: str
    pattern: str


class Mesh(NamedTuple):
    """The cells between the coordinates of a section, by their numbers to the right and upwards, and which sides of cells are drawn: upright or
    level, and the number of the cell behind it."""

    xs: list[float]
    ys: list[float]
    drawn: set[tuple[bool, int, int]]

    def cells(self) -> Iterator[tuple[int, int]]:
        return itertools.product(range(len(self.xs) - 1), range(len(self.ys) - 1))

    def middle(self, i: int, j: int) -> Place:
        return (self.xs[i] + self.xs[i + 1]) / 2, (self.ys[j] + self.ys[j + 1]) / 2

    def sides(self) -> Iterator[tuple[bool, int, int]]:
        yield from ((True, i, j) for i in range(len(self.xs)) for j in range(len(self.ys) - 1))
        yield from ((False, i, j) for i in range(len(self.xs) - 1) for j in range(len(self.ys)))

    def segment(self, is_upright: bool, i: int, j: int) -> Segment:
        return Segment(True, self.xs[i], self.ys[j], self.ys[j + 1]) if is_upright else Segment(False, self.ys[j], self.xs[i], self.xs[i + 1])


def distinct(values: Iterable[float], reach: float) -> list[float]:
    """Values in their order, of those that are no farther apart the least."""
    found: list[float] = []
    for value in sorted(values):
        if not found or value - found[-1] > reach:
            found.append(value)
    return found


def number_of(values: Sequence[float], value: float) -> int:
    return min(range(len(values)), key=lambda at: abs(values[at] - value))


def mesh_of(runs: Sequence[Run], hatches: Sequence[Hatch], tolerance: float) -> Mesh:
    corners = [corner for hatch in hatches for path in hatch.paths for corner in path]
    xs, ys = (distinct([*(box[at] for run in runs for box in [run.box()] for at in (way, way + 2)), *(corner[way] for corner in corners)],
                       3 * tolerance) for way in (0, 1))
    if len(xs) * len(ys) > MOST_CELLS:
        raise Refused(f"it has {len(xs)} by {len(ys)} coordinates, too many")
    drawn = set()
    for run in runs:
        across, along = (xs, ys) if run.upright else (ys, xs)
        at = number_of(across, run.at)
        its = range(number_of(along, run.low), number_of(along, run.high))
        drawn |= {(True, at, it) if run.upright else (False, it, at) for it in its}
    return Mesh(xs, ys, drawn)


# ---- which cells are hatched

def covered(mesh: Mesh, hatch: Hatch, tolerance: float) -> set[tuple[int, int]]:
    """The cells that a hatch covers: from which an odd number of its sides is met to the right."""
    sides = [ends for path in hatch.paths for ends in zip(path, [*path[1:], path[0]])]
    if any(min(abs(a - b) for a, b in zip(*ends)) > 3 * tolerance for ends in sides):
        raise Refused(f"the {hatch.name} has an oblique side")

    def is_within(i: int, j: int) -> bool:
        x, y = mesh.middle(i, j)
        return sum((a[1] > y) != (b[1] > y) and a[0] > x for a, b in sides) % 2 == 1

    return {cell for cell in mesh.cells() if is_within(*cell)}


def around(mesh: Mesh, lines: Sequence[Edge]) -> set[tuple[int, int]]:
    """The cells of the faces in which hatch lines lie."""
    found: set[tuple[int, int]] = set()
    for line, part in itertools.product(lines, WITHIN):
        x, y = (a + part * (b - a) for a, b in zip(line.start, line.end))
        todo = [(last_below(mesh.xs, x), last_below(mesh.ys, y))]
        while todo:
            i, j = cell = todo.pop()
            if not (0 <= i < len(mesh.xs) - 1 and 0 <= j < len(mesh.ys) - 1):
                raise Refused(f"a hatch line at {x:.6g}, {y:.6g} lies in no closed outline")
            if cell not in found:
                found.add(cell)
                beside = ((i - 1, j, (True, i, j)), (i + 1, j, (True, i + 1, j)), (i, j - 1, (False, i, j)), (i, j + 1, (False, i, j + 1)))
                todo += [(u, v) for u, v, side in beside if side not in mesh.drawn]
    return found


def last_below(values: Sequence[float], value: float) -> int:
    return sum(it <= value for it in values) - 1


# ---- its outline

SEVERAL = "its hatches are of several patterns, as those of several parts are"

def area_of(hatches: Sequence[Hatch], lines: Sequence[Edge], runs: Sequence[Run], tolerance: float) -> list[Segment]:
    """The outline of what hatches or hatch lines cover, in a section of these runs; none where there is neither."""
    patterns = sorted({hatch.pattern for hatch in hatches})
    ways: dict[int, list[Edge]] = {}
    for line in lines:
        (a, b), (c, d) = line.start, line.end
        ways.setdefault(round(math.degrees(math.atan2(d - b, c - a))) % 180, []).append(line)
    if len(patterns) > 1 or len(ways) > 2 or hatches and lines:
        raise Refused(SEVERAL)
    mesh = mesh_of(runs, hatches, tolerance)
    # Lines of two ways that cover the same are one crossed hatch.
    lined = [around(mesh, its) for its in ways.values()]
    if any(it != lined[0] for it in lined):
        raise Refused(SEVERAL)
    full = set[tuple[int, int]]().union(*lined[:1], *(covered(mesh, hatch, tolerance) for hatch in hatches))
    outline = []
    for is_upright, i, j in mesh.sides():
        is_full, is_full_before = (i, j) in full, ((i - 1, j) if is_upright else (i, j - 1)) in full
        is_drawn, place = (is_upright, i, j) in mesh.drawn, f"{mesh.xs[i]:.6g}, {mesh.ys[j]:.6g}"
        if is_full and is_full_before and is_drawn:
            raise Refused(f"a line crosses its hatch at {place}: several parts, or no section of one solid")
        if is_full != is_full_before and not is_drawn:
            raise Refused(f"its hatch ends at {place}, where no line is: a half or broken-out section")
        outline += [mesh.segment(is_upright, i, j)] if is_full != is_full_before else []
    return joined(outline)


def joined(segments: Sequence[Segment]) -> list[Segment]:
    """Stretches as long as they go."""
    found: list[Segment] = []
    for it in sorted(segments):
        if found and found[-1][:2] == it[:2] and found[-1].high == it.low:
            found[-1] = found[-1]._replace(high=it.high)
        else:
            found.append(it)
    return found
