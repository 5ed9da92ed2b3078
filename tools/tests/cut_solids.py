"""Sections of solids by their definition alone, cell by cell and edge by edge: slow, and beside nothing that the program or `draft` does.

A plane is told by its coordinate on the sight axis, as the layers SECTION_<VIEW>_<N> and AREA_<VIEW>_<N> tell it: FRONT, LEFT and BOTTOM
keep what lies from there on, TOP, SIDE and REAR what lies before it.
"""
import itertools
from collections.abc import Iterable, Iterator

from drafting.projection.draw import BLANK, DASHED, FRAMES, SOLID, Cell

# A unit segment of a view: whether it is upright, and where it begins.
Segment = tuple[bool, int, int]
# What a view shows.
Shown = dict[Segment, int]


def unit_cells(cells: Iterable[Cell], cuts: list[list[int]]) -> set[Cell]:
    """The unit cells of a solid that is told by the cells of a grid."""
    found: set[Cell] = set()
    for cell in cells:
        xs, ys, zs = (range(cut[at], cut[at + 1]) for cut, at in zip(cuts, cell))
        found.update((x, y, z) for x in xs for y in ys for z in zs)
    return found


def seen_from(cells: Iterable[Cell], view: str) -> set[Cell]:
    """The cells as they stand in a view: their places to the right, upwards and away from the viewer."""
    frame = FRAMES[view]
    ways = ((frame.right, frame.right_back), (frame.up, frame.up_back), (frame.sight, frame.sight_back))
    return {(*(-cell[axis] - 1 if back else cell[axis] for axis, back in ways),) for cell in cells}  # type: ignore[misc]


def depth_of(plane: int, view: str) -> int:
    """How far away from the viewer a plane lies."""
    return -plane if FRAMES[view].sight_back else plane


def is_edge(near: bool, far: bool, near_beside: bool, far_beside: bool) -> bool:
    """Whether a unit edge is one of the solid, by the four cells round it: unless the pairs across one of the two planes through it agree."""
    return not (near == near_beside and far == far_beside or near == far and near_beside == far_beside)


def style_at(places: set[Cell], segment: Segment, depths: range) -> int:
    """Solid where an edge that isn't hidden projects on the segment, dashed where all that do are hidden."""
    upright, right, up = segment
    beside = (right - 1, up) if upright else (right, up - 1)
    found, inside = BLANK, False
    for depth in depths:
        around = [(*at, k) in places for at in ((right, up), beside) for k in (depth - 1, depth)]
        # What lies nearer than this edge hides it where both cells beside the sight line are full.
        inside = inside or around[0] and around[2]
        if is_edge(*around):
            if not inside:
                return SOLID
            found = DASHED
    return found


def drawn(places: set[Cell]) -> Shown:
    """What cells that stand so in a view show, where they stand."""
    if not places:
        return {}
    ranges = [range(min(it), max(it) + 2) for it in zip(*places)]
    segments = itertools.product((False, True), ranges[0], ranges[1])
    shown = ((segment, style_at(places, segment, ranges[2])) for segment in segments)
    return {segment: style for segment, style in shown if style != BLANK}


def moved_to_zero(shown: Shown) -> Shown:
    """The same, moved so that its least coordinates are 0."""
    right, up = (min((segment[it] for segment in shown), default=0) for it in (1, 2))
    return {(upright, i - right, j - up): style for (upright, i, j), style in shown.items()}


def view_of(cells: Iterable[Cell], view: str) -> Shown:
    """What a solid shows in one of the six views."""
    return moved_to_zero(drawn(seen_from(cells, view)))


def section_of(cells: Iterable[Cell], view: str, plane: int) -> Shown:
    """What a solid shows that is cut at a plane, hidden edges left out."""
    rest = {place for place in seen_from(cells, view) if place[2] >= depth_of(plane, view)}
    return moved_to_zero({segment: style for segment, style in drawn(rest).items() if style == SOLID})


def area_of(cells: Iterable[Cell], view: str, plane: int) -> Shown:
    """The outline of what a plane cuts."""
    return moved_to_zero(drawn({place for place in seen_from(cells, view) if place[2] == depth_of(plane, view)}))


def planes_through(cells: Iterable[Cell], view: str) -> range:
    """The planes across a view's sight that lie within a solid's box."""
    axis = FRAMES[view].sight
    at = [cell[axis] for cell in cells]
    return range(min(at) + 1, max(at) + 1)


def lines_of(shown: Shown) -> Iterator[tuple[bool, tuple[int, int], tuple[int, int]]]:
    """What is shown as lines as long as they go: whether each is dashed, and its ends."""
    for (upright, right, up), style in sorted(shown.items()):
        step = (0, 1) if upright else (1, 0)
        if shown.get((upright, right - step[0], up - step[1])) == style:
            continue
        length = next(it for it in itertools.count(1) if shown.get((upright, right + it * step[0], up + it * step[1])) != style)
        yield style == DASHED, (right, up), (right + length * step[0], up + length * step[1])


def layers_of(cells: Iterable[Cell], view: str, plane: int) -> dict[str, list[tuple[bool, tuple[int, int], tuple[int, int]]]]:
    """The two layers of a plane, by their names."""
    told = list(cells)
    return {f"SECTION_{view}_{plane}": list(lines_of(section_of(told, view, plane))),
            f"AREA_{view}_{plane}": list(lines_of(area_of(told, view, plane)))}
