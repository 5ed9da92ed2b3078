"""Single changes of a drawing, and quick rules by which most of them can be seen to give no solid.

A single change draws one stretch of one grid line of one view otherwise throughout, or leaves out one line of the file, draws it
in the other style or moves it to the next grid coordinate. The rules are about columns of cells, as docs/DEFINITIONS.md has
them: two neighbouring columns draw nothing exactly where they are equal, and a solid edge exactly where their first full depths
differ. So each refused change gives no solid; that is no proof by the program, and a test tries all changes of small drawings.
"""
import enum
import itertools
from collections.abc import Iterable, Iterator
from typing import NamedTuple

from ..projection.draw import BLANK, DASHED, FRAMES, SOLID, Grid, Panels, Row, Stroke, axis_of, row_of, runs_of


class Kind(enum.Enum):
    """What is done: a stretch gets another style, or a line of the file is left out or moved."""

    RESTYLED = enum.auto()
    LEFT_OUT = enum.auto()
    MOVED = enum.auto()


class Change(NamedTuple):
    """A change of the segments from `low` to `high` of a row: what rows become of it, the style that is meant or the row that it is
    moved to, the line of the file if one is meant, its length, and how likely it is: a line of the file or a whole run comes
    first, then what ends where drawn lines end or cross."""

    kind: Kind
    row: Row
    low: int
    high: int
    rows: tuple[tuple[Row, bytes], ...]
    rank: int
    length: int
    style: int = BLANK
    to: Row | None = None
    stroke: Stroke | None = None


# ---- rules that hold of each drawing that some solid has

def meets(panels: Panels, view: str, i: int, j: int, style: int) -> int:
    """How many of the segments that meet at a grid point have at least this style."""
    level, upright = panels[Row(view, False, j)], panels[Row(view, True, i)]
    count = 0
    for styles, at in ((level, i), (upright, j)):
        count += at > 0 and styles[at - 1] >= style
        count += at < len(styles) and styles[at] >= style
    return count


def is_bad(panels: Panels, view: str, i: int, j: int) -> bool:
    """Whether a line ends at a grid point by itself, or a solid one does: round a point no single pair of columns differs."""
    return meets(panels, view, i, j, DASHED) == 1 or meets(panels, view, i, j, SOLID) == 1


def bad_points(panels: Panels, row: Row) -> set[int]:
    """The bad points along a row."""
    count = len(panels[row]) + 1
    if row.upright:
        return {j for j in range(count) if is_bad(panels, row.view, row.number, j)}
    return {i for i in range(count) if is_bad(panels, row.view, i, row.number)}


# The two views that show each axis, and whether their rows across it are upright.
ACROSS = (
    (("FRONT", True), ("TOP", True)),
    (("TOP", False), ("SIDE", True)),
    (("FRONT", False), ("SIDE", False)),
)


def are_drawn(panels: Panels, sides: Iterable[tuple[str, bool]]) -> bool:
    """Whether both of two views are drawn: one that isn't tells nothing."""
    return all(Row(view, upright, 0) in panels for view, upright in sides)


def has_edge_at(panels: Panels, view: str, upright: bool, number: int) -> bool:
    return any(panels[Row(view, upright, number)])


def has_edge_in(panels: Panels, view: str, upright: bool, strip: int, count: int) -> bool:
    """Whether one of so many parallel rows shows something in a strip across them."""
    return any(panels[Row(view, upright, number)][strip] for number in range(count))


def odd_places(grid: Grid, panels: Panels) -> set[tuple[int, int]]:
    """The axes and coordinates at which one of two views shows an edge across the axis, and the other none: where two
    neighbouring slices of a solid differ, both do."""
    return {
        (axis, number) for axis, (first, second) in enumerate(ACROSS) for number in range(len(grid.cuts[axis]))
        if are_drawn(panels, (first, second)) and has_edge_at(panels, *first, number) != has_edge_at(panels, *second, number)
    }


def is_odd_strip(grid: Grid, panels: Panels, axis: int, strip: int) -> bool:
    """Whether in a strip between two coordinates one of two views shows edges along the axis, and the other none: a slice of a
    solid is empty or it isn't."""
    if not are_drawn(panels, ACROSS[axis]):
        return False
    shown = [
        has_edge_in(panels, view, not upright, strip, len(grid.cuts[axis_of(view, upright)])) for view, upright in ACROSS[axis]
    ]
    return shown[0] != shown[1]


def odd_strips(grid: Grid, panels: Panels) -> set[tuple[int, int]]:
    """The axes and strips that are odd so."""
    strips = ((axis, strip) for axis in range(3) for strip in range(len(grid.cuts[axis]) - 1))
    return {(axis, strip) for axis, strip in strips if is_odd_strip(grid, panels, axis, strip)}


def is_dashed_outside(panels: Panels, view: str, wide: int, tall: int) -> bool:
    """Whether something is wrong around a view's outline: columns that are joined with the outside past segments without an
    edge are empty, so that all else beside them has a solid edge, and nothing is drawn between them."""
    level = [panels[Row(view, False, j)] for j in range(tall + 1)]
    upright = [panels[Row(view, True, i)] for i in range(wide + 1)]
    empty = [[False] * tall for _ in range(wide)]
    todo = [(i, j) for i in range(wide) for j, row in ((0, level[0]), (tall - 1, level[tall])) if not row[i]]
    todo += [(i, j) for j in range(tall) for i, row in ((0, upright[0]), (wide - 1, upright[wide])) if not row[j]]
    while todo:
        i, j = todo.pop()
        if empty[i][j]:
            continue
        empty[i][j] = True
        if i and not upright[i][j] and not empty[i - 1][j]:
            todo.append((i - 1, j))
        if i + 1 < wide and not upright[i + 1][j] and not empty[i + 1][j]:
            todo.append((i + 1, j))
        if j and not level[j][i] and not empty[i][j - 1]:
            todo.append((i, j - 1))
        if j + 1 < tall and not level[j + 1][i] and not empty[i][j + 1]:
            todo.append((i, j + 1))
    return any(
        style == DASHED and (before or after) or style == SOLID and before and after
        for style, before, after in borders(level, upright, empty)
    )


def borders(level: list[bytes], upright: list[bytes], empty: list[list[bool]]) -> Iterator[tuple[int, bool, bool]]:
    """Each segment of a view, with whether the columns before it and behind it are known to be empty."""
    wide, tall = len(empty), len(empty[0])
    for i, column in enumerate(empty):
        beside = [True, *column, True]
        for j in range(tall + 1):
            yield level[j][i], beside[j], beside[j + 1]
    outside = [True] * tall
    for i in range(wide + 1):
        before, after = empty[i - 1] if i else outside, empty[i] if i < wide else outside
        for j in range(tall):
            yield upright[i][j], before[j], after[j]


class Judged(NamedTuple):
    """A drawing with what is wrong in it, by the rules."""

    grid: Grid
    points: dict[str, set[tuple[int, int]]]
    places: set[tuple[int, int]]
    strips: set[tuple[int, int]]
    outlines: set[str]

    def may_help(self, view: str) -> bool:
        """Whether a change in this view can mend all that is wrong."""
        frame = FRAMES[view]
        shown = {frame.right, frame.up}
        other = any(points for name, points in self.points.items() if name != view)
        return not other and self.outlines <= {view} and all(axis in shown for axis, _ in self.places | self.strips)


def sizes_in(grid: Grid, view: str) -> tuple[int, int]:
    """How many segments wide and tall a view is."""
    return len(grid.cuts[FRAMES[view].right]) - 1, len(grid.cuts[FRAMES[view].up]) - 1


def judged(grid: Grid) -> Judged:
    points = {}
    for view in grid.views:
        wide, tall = sizes_in(grid, view)
        points[view] = {
            (i, j) for i, j in itertools.product(range(wide + 1), range(tall + 1)) if is_bad(grid.panels, view, i, j)
        }
    outlines = {view for view in grid.views if is_dashed_outside(grid.panels, view, *sizes_in(grid, view))}
    return Judged(grid, points, odd_places(grid, grid.panels), odd_strips(grid, grid.panels), outlines)


def odd_places_after(judged: Judged, panels: Panels, change: Change) -> set[tuple[int, int]]:
    """The odd places of a changed drawing: only those of the changed rows can have become other."""
    odd = set(judged.places)
    for row, _ in change.rows:
        axis = axis_of(row.view, not row.upright)
        first, second = ACROSS[axis]
        odd.discard((axis, row.number))
        if are_drawn(panels, (first, second)) and has_edge_at(panels, *first, row.number) != has_edge_at(panels, *second, row.number):
            odd.add((axis, row.number))
    return odd


def odd_strips_after(judged: Judged, panels: Panels, change: Change) -> set[tuple[int, int]]:
    """The odd strips of a changed drawing: only those that a changed row crosses can have become other."""
    axis = axis_of(change.row.view, change.row.upright)
    strips = range(change.low, change.high)
    return {
        (at, strip) for at, strip in judged.strips if at != axis or strip not in strips
    } | {(axis, strip) for strip in strips if is_odd_strip(judged.grid, panels, axis, strip)}


def is_refused(judged: Judged, change: Change) -> bool:
    """Whether a rule says that no solid has the changed drawing."""
    panels = {**judged.grid.panels, **dict(change.rows)}
    view = change.row.view
    mended = {
        (row.number, at) if row.upright else (at, row.number)
        for row, styles in change.rows for at in range(len(styles) + 1)
    }
    if judged.points[view] - mended or any(bad_points(panels, row) for row, _ in change.rows):
        return True
    if odd_places_after(judged, panels, change) or odd_strips_after(judged, panels, change):
        return True
    return is_dashed_outside(panels, view, *sizes_in(judged.grid, view))


# ---- the changes

def stretch(styles: bytes, low: int, high: int, style: int) -> bytes:
    return styles[:low] + bytes([style]) * (high - low) + styles[high:]


def stretches_of(judged: Judged, row: Row) -> Iterator[Change]:
    """All changes of one stretch of a row that mend the bad points of its view and make none: of those that come to the same the
    shortest, which changes something at both of its ends."""
    grid = judged.grid
    styles, along = grid.panels[row], grid.along(row)
    bad = {j if row.upright else i for i, j in judged.points[row.view] if (i if row.upright else j) == row.number}
    if len(bad) != len(judged.points[row.view]):
        return
    first, last = min(bad, default=len(styles)), max(bad, default=0)
    crossed = [crossing(grid.panels, row, at) for at in range(len(styles) + 1)]
    for style in (SOLID, DASHED, BLANK):
        for low in range(min(first, len(styles) - 1) + 1):
            if styles[low] == style or not fits(crossed[low], styles[low - 1] if low else BLANK, style):
                continue
            for high in range(low + 1, len(styles) + 1):
                after = styles[high] if high < len(styles) else BLANK
                if high >= last and styles[high - 1] != style and fits(crossed[high], style, after):
                    rows = ((row, stretch(styles, low, high, style)),)
                    rank = rank_of(styles, crossed, low, high)
                    yield Change(Kind.RESTYLED, row, low, high, rows, rank, along[high] - along[low], style)
                if not fits(crossed[high], style, style):
                    break


def crossing(panels: Panels, row: Row, at: int) -> tuple[int, int]:
    """How many edges, and how many solid ones, come to a point of a row from its two sides."""
    across = panels[Row(row.view, not row.upright, at)]
    beside = [across[number] for number in (row.number - 1, row.number) if 0 <= number < len(across)]
    return sum(style >= DASHED for style in beside), sum(style == SOLID for style in beside)


def fits(crossed: tuple[int, int], before: int, after: int) -> bool:
    """Whether a point of a row with these styles before and behind it isn't bad."""
    edges, solids = crossed
    return (edges + (before >= DASHED) + (after >= DASHED) != 1
            and solids + (before == SOLID) + (after == SOLID) != 1)


def rank_of(styles: bytes, crossed: list[tuple[int, int]], low: int, high: int) -> int:
    """How likely a stretch is drawn otherwise than it was meant: of one style and a whole run first; then of one style, from one
    line that it meets to another; then the rest."""
    one = len(set(styles[low:high])) == 1
    whole = (low == 0 or styles[low - 1] != styles[low]) and (high == len(styles) or styles[high] != styles[high - 1])
    if one and whole and styles[low] != BLANK:
        return 0
    ends = crossed[low][0] > 0 and crossed[high][0] > 0
    return 1 if one and ends else 2 if ends else 3


def strokes_of(grid: Grid) -> Iterator[tuple[Row, Stroke]]:
    for row, strokes in grid.strokes.items():
        for stroke in strokes:
            yield row, stroke


def of_stroke(grid: Grid, row: Row, stroke: Stroke) -> Iterator[Change]:
    """A line of the file in the other style, left out, or at the next coordinate on either side."""
    along, ats = grid.along(row), grid.ats(row)
    low, high, length = along.index(stroke.low), along.index(stroke.high), stroke.high - stroke.low
    rest = [other for other in grid.strokes[row] if other is not stroke]
    without = row_of(rest, along)
    other = stroke._replace(dashed=not stroke.dashed)
    turned = ((row, row_of([*rest, other], along)),)
    yield Change(Kind.RESTYLED, row, low, high, turned, 0, length, DASHED if other.dashed else SOLID, stroke=stroke)
    yield Change(Kind.LEFT_OUT, row, low, high, ((row, without),), 0, length, stroke=stroke)
    for beside in rows_beside(grid, row):
        there = row_of([*grid.strokes.get(beside, []), stroke._replace(at=ats[beside.number])], along)
        rows = ((row, without), (beside, there))
        yield Change(Kind.MOVED, row, low, high, rows, 1, length, to=beside, stroke=stroke)


def rows_beside(grid: Grid, row: Row) -> list[Row]:
    """The rows at the next coordinate on either side."""
    numbers = (row.number - 1, row.number + 1)
    return [row._replace(number=number) for number in numbers if 0 <= number < len(grid.ats(row))]


def of_run(grid: Grid, row: Row) -> Iterator[Change]:
    """A whole run, of several lines of the file perhaps, moved to the next coordinate on either side."""
    along, styles = grid.along(row), grid.panels[row]
    for (style, low, high), beside in itertools.product(runs_of(styles), rows_beside(grid, row)):
        there = bytes(max(old, style) if low <= at < high else old for at, old in enumerate(grid.panels[beside]))
        rows = ((row, stretch(styles, low, high, BLANK)), (beside, there))
        yield Change(Kind.MOVED, row, low, high, rows, 1, along[high] - along[low], to=beside)


def single_changes(judged: Judged) -> list[Change]:
    """All single changes that no rule refuses by points alone, each drawing once, the likely ones first."""
    grid = judged.grid
    found: dict[frozenset[tuple[Row, bytes]], Change] = {}

    def add(changes: Iterable[Change]) -> None:
        for change in changes:
            rows = tuple((row, styles) for row, styles in change.rows if styles != grid.panels[row])
            key = frozenset(rows)
            if rows and key not in found:
                found[key] = change._replace(rows=rows)
            elif rows:
                found[key] = found[key]._replace(rank=min(found[key].rank, change.rank))

    for row in grid.panels:
        if judged.may_help(row.view):
            add(stretches_of(judged, row))
            add(of_run(grid, row))
    for row, stroke in strokes_of(grid):
        if judged.may_help(row.view):
            add(of_stroke(grid, row, stroke))
    return sorted(found.values(), key=lambda change: (change.rank, -change.length))
