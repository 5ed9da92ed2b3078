"""The styles that the views show along the lines of a grid: of a drawing, and of a solid drawn by the definitions.

All coordinates are whole numbers of units, as the program reads them with so many decimals, and each view is moved to least
coordinates 0.
"""
import itertools
from collections import defaultdict
from collections.abc import Iterable, Sequence
from fractions import Fraction
from typing import NamedTuple, Protocol

from ..core.messages import Refused
from ..dxf.drawing import FURTHER, VIEWS, Line, Views

BLANK, DASHED, SOLID = range(3)
STYLES = ("nothing there", "dashed", "solid")
AXES = "xyz"


class Frame(NamedTuple):
    """How a view stands in space: the axes to the right, upwards and along the sight, and whether each is gone along backwards.
    Depth counts from the viewer."""

    right: int
    up: int
    sight: int
    right_back: bool
    up_back: bool
    sight_back: bool


FRAMES = {
    "FRONT": Frame(0, 2, 1, False, False, False),
    "TOP": Frame(0, 1, 2, False, False, True),
    "SIDE": Frame(1, 2, 0, False, False, True),
    "LEFT": Frame(1, 2, 0, True, False, False),
    "REAR": Frame(0, 2, 1, True, False, True),
    "BOTTOM": Frame(0, 1, 2, False, True, False),
}


class Row(NamedTuple):
    """A line of a view's grid: upright or level, and its number among those of its direction."""

    view: str
    upright: bool
    number: int


Cuts = list[list[int]]
Panels = dict[Row, bytes]


class Stroke(NamedTuple):
    """A level or upright line of a view, and the lines of the file that tell of it."""

    view: str
    dashed: bool
    upright: bool
    at: int
    low: int
    high: int
    told: tuple[int, int]


class Back(Protocol):
    """The way from a drawing back to the sheet that it was made of."""

    @property
    def mirrored(self) -> bool: ...

    def name(self, view: str) -> str: ...

    def place_beside(self, view: str, size: tuple[int, int], right: int, up: int) -> tuple[str, str]: ...

    def place(self, view: str, right: int, up: int) -> tuple[str, str]: ...

    def length(self, units: int) -> str: ...

    def entities(self, view: str, start: tuple[int, int], end: tuple[int, int]) -> str: ...


class Sheet(NamedTuple):
    """The strokes of three views, or of two, each view moved to least coordinates 0, and where each began on the sheet; and where the
    drawing was made of a person's sheet, the way back to that."""

    strokes: list[Stroke]
    origins: dict[str, tuple[int, int]]
    decimals: int
    back: Back | None = None

    @property
    def missing(self) -> list[str]:
        """The main view that isn't drawn, where one isn't."""
        return [view for view in VIEWS if view not in self.origins]

    def extent(self, view: str, upright: bool) -> int:
        """How far a view reaches to the right, or upwards."""
        of_view = (stroke for stroke in self.strokes if stroke.view == view)
        return max(stroke.high if stroke.upright == upright else stroke.at for stroke in of_view)

    def moved(self, view: str, right: int, up: int) -> "Sheet":
        """The sheet with one view standing farther to the right and upwards."""
        strokes = [
            stroke if stroke.view != view else stroke._replace(
                at=stroke.at + (right if stroke.upright else up),
                low=stroke.low + (up if stroke.upright else right),
                high=stroke.high + (up if stroke.upright else right),
            )
            for stroke in self.strokes
        ]
        x, y = self.origins[view]
        return self._replace(strokes=strokes, origins={**self.origins, view: (x - right, y - up)})

    def place(self, view: str, right: int, up: int) -> tuple[str, str]:
        """A place of a view in the coordinates of the sheet, or of the drawing as it is."""
        x, y = self.origins[view]
        if self.back:
            return self.back.place(view, x + right, y + up)
        return self.number(x + right), self.number(y + up)

    def name(self, view: str) -> str:
        """What a view is on the sheet, where that shows the part in a mirror."""
        return self.back.name(view) if self.back else view

    def between(self, axis: int, cut: Sequence[int], low: int, high: int) -> tuple[str, str]:
        """From where to where something reaches along an axis of the part as the sheet shows it, not in a mirror."""
        if self.back and self.back.mirrored and axis == 0:
            low, high = cut[0] + cut[-1] - high, cut[0] + cut[-1] - low
        return self.length(low), self.length(high)

    def told(self, view: str, start: tuple[int, int], end: tuple[int, int], numbers: list[int]) -> str:
        """What of the file is drawn along a stretch of a view, in words: entities of the sheet, or these lines of the drawing."""
        x, y = self.origins[view]
        if self.back:
            its = self.back.entities(view, (x + start[0], y + start[1]), (x + end[0], y + end[1])) if numbers else ""
            return f" ({its})" if its else ""
        shown = ", ".join(map(str, numbers[:4])) + (", .." if len(numbers) > 4 else "")
        return f" (line{'s' * (len(numbers) > 1)} {shown} of the file)" if numbers else ""

    def length(self, units: int) -> str:
        """A length, of the sheet's part at full size."""
        return self.back.length(units) if self.back else self.number(units)

    def number(self, units: int) -> str:
        """A number of units as the drawing writes it, without zeros at the end."""
        if self.decimals == 0:
            return str(units)
        whole, rest = divmod(abs(units), 10**self.decimals)
        part = f"{rest:0{self.decimals}d}".rstrip("0")
        return f"{'-' if units < 0 else ''}{whole}{'.' + part if part else ''}"


def units_of(number: float, decimals: int) -> int:
    """A coordinate in units; refused where it isn't whole, as the program does."""
    units: Fraction = Fraction(repr(number)) * 10**decimals
    if units.denominator != 1:
        raise Refused(f"the coordinate {number!r} has more than {decimals} decimals")
    return units.numerator


def strokes_of(view: str, lines: Iterable[Line], decimals: int) -> list[Stroke]:
    """The lines of a view as strokes, where they stand on the sheet."""
    strokes = []
    for line in lines:
        x0, y0, x1, y1 = (units_of(it, decimals) for it in line.start + line.end)
        if x0 != x1 and y0 != y1:
            raise Refused(f"the line at line {line.told[0]} of the file is neither level nor upright")
        if x0 == x1 and y0 != y1:
            strokes.append(Stroke(view, line.dashed, True, x0, min(y0, y1), max(y0, y1), line.told))
        elif x0 != x1:
            strokes.append(Stroke(view, line.dashed, False, y0, min(x0, x1), max(x0, x1), line.told))
    return strokes


def sheet_of(views: Views, decimals: int) -> Sheet:
    """The sheet of a drawing's three views, of which one may be missing; refused where two are."""
    sheet = Sheet([], {}, decimals)
    drawn = {view: strokes for view in VIEWS if (strokes := strokes_of(view, views[view], decimals))}
    if len(drawn) < 2:
        raise Refused(f"no line on the layer {next(view for view in VIEWS if view not in drawn)} covers anything")
    for view, strokes in drawn.items():
        x = min(stroke.at if stroke.upright else stroke.low for stroke in strokes)
        y = min(stroke.low if stroke.upright else stroke.at for stroke in strokes)
        standing = Sheet(strokes, {view: (0, 0)}, decimals).moved(view, -x, -y)
        sheet.strokes.extend(standing.strokes)
        sheet.origins[view] = x, y
    return sheet


def axis_of(view: str, upright: bool) -> int:
    """The axis along which a view's upright or level rows run."""
    frame = FRAMES[view]
    return frame.up if upright else frame.right


def row_of(strokes: Iterable[Stroke], cuts: Sequence[int]) -> bytes:
    """The styles that strokes on one line give between its grid coordinates: a solid stroke wins over a dashed one."""
    styles = bytearray(len(cuts) - 1)
    ranks = {at: rank for rank, at in enumerate(cuts)}
    for stroke in strokes:
        style = DASHED if stroke.dashed else SOLID
        for number in range(ranks[stroke.low], ranks[stroke.high]):
            styles[number] = max(styles[number], style)
    return bytes(styles)


class Grid(NamedTuple):
    """A drawing on its grid: the coordinates along each axis, the style of each segment, and the strokes of each row."""

    cuts: Cuts
    panels: Panels
    strokes: dict[Row, list[Stroke]]

    @property
    def views(self) -> list[str]:
        """The main views that are drawn: all three, or two. One that isn't demands nothing."""
        return [view for view in VIEWS if Row(view, True, 0) in self.panels]

    def ats(self, row: Row) -> list[int]:
        """The coordinates of all rows of this row's view and direction."""
        return self.cuts[axis_of(row.view, not row.upright)]

    def along(self, row: Row) -> list[int]:
        """The coordinates along a row."""
        return self.cuts[axis_of(row.view, row.upright)]


def on_grid(sheet: Sheet, cuts: Cuts) -> Grid:
    """The drawing on a grid that has all coordinates of its strokes."""
    ranks = [{at: rank for rank, at in enumerate(cut)} for cut in cuts]
    strokes: dict[Row, list[Stroke]] = defaultdict(list)
    for stroke in sheet.strokes:
        number = ranks[axis_of(stroke.view, not stroke.upright)][stroke.at]
        strokes[Row(stroke.view, stroke.upright, number)].append(stroke)
    panels = {}
    for view, upright in itertools.product(sheet.origins, (False, True)):
        along = cuts[axis_of(view, upright)]
        for number in range(len(cuts[axis_of(view, not upright)])):
            row = Row(view, upright, number)
            panels[row] = row_of(strokes.get(row, ()), along)
    return Grid(cuts, panels, dict(strokes))


def grid_of(sheet: Sheet) -> Grid:
    """The drawing on the grid of all ends and places of its strokes. It is at least as fine as the program's grid."""
    cuts: list[set[int]] = [set(), set(), set()]
    for stroke in sheet.strokes:
        cuts[axis_of(stroke.view, stroke.upright)] |= {stroke.low, stroke.high}
        cuts[axis_of(stroke.view, not stroke.upright)].add(stroke.at)
    return on_grid(sheet, [sorted(cut) for cut in cuts])


# ---- solids

Cell = tuple[int, int, int]


def columns_of(cells: Iterable[Cell], sizes: Sequence[int], frame: Frame) -> dict[tuple[int, int], int]:
    """The columns of some grid cells that aren't empty, by their places in a view: a bit for each depth."""
    columns: dict[tuple[int, int], int] = defaultdict(int)
    for cell in cells:
        right, up, depth = (
            sizes[axis] - 1 - cell[axis] if back else cell[axis]
            for axis, back in ((frame.right, frame.right_back), (frame.up, frame.up_back), (frame.sight, frame.sight_back))
        )
        columns[right, up] |= 1 << depth
    return columns


def style_between(first: int, second: int) -> int:
    """What two neighbouring columns draw: nothing where they are equal, a solid edge where their first full depths differ."""
    if first == second:
        return BLANK
    return DASHED if first & -first == second & -second else SOLID


def panels_of(cells: Iterable[Cell], sizes: Sequence[int], view: str) -> Panels:
    """What a view shows of a solid, in grid cells of a box."""
    frame = FRAMES[view]
    columns = columns_of(cells, sizes, frame)
    wide, tall = sizes[frame.right], sizes[frame.up]
    panels = {}
    for i in range(wide + 1):
        panels[Row(view, True, i)] = bytes(
            style_between(columns.get((i - 1, j), 0), columns.get((i, j), 0)) for j in range(tall)
        )
    for j in range(tall + 1):
        panels[Row(view, False, j)] = bytes(
            style_between(columns.get((i, j - 1), 0), columns.get((i, j), 0)) for i in range(wide)
        )
    return panels


def cuts_in(view: str, cuts: Cuts) -> tuple[list[int], list[int]]:
    """The coordinates of a view to the right and upwards, from 0 on, of the box between some cuts."""
    frame = FRAMES[view]

    def gone(axis: int, back: bool) -> list[int]:
        cut = cuts[axis]
        return [cut[-1] - at for at in reversed(cut)] if back else [at - cut[0] for at in cut]

    return gone(frame.right, frame.right_back), gone(frame.up, frame.up_back)


# What a view shows: its longest runs of one style, each upright or not, at a coordinate, with its style and its ends.
Shown = frozenset[tuple[bool, int, int, int, int]]


def moved_runs(rows: Iterable[tuple[bool, int, bytes, Sequence[int]]]) -> Shown:
    """The runs of rows, each told by its way, its coordinate, its styles and the coordinates along it, from the least ones on."""
    runs = [(upright, at, style, along[low], along[high])
            for upright, at, styles, along in rows for style, low, high in runs_of(styles)]
    x, y = (min((low if upright == way else at for upright, at, _, low, _ in runs), default=0) for way in (False, True))
    return frozenset((True, at - x, style, low - y, high - y) if upright else (False, at - y, style, low - x, high - x)
                     for upright, at, style, low, high in runs)


def shown_by(strokes: Iterable[Stroke]) -> Shown:
    """What the strokes of a view show."""
    rows: dict[tuple[bool, int], list[Stroke]] = defaultdict(list)
    for stroke in strokes:
        rows[stroke.upright, stroke.at].append(stroke)
    cuts = {row: sorted({end for stroke in its for end in (stroke.low, stroke.high)}) for row, its in rows.items()}
    return moved_runs((*row, row_of(its, cuts[row]), cuts[row]) for row, its in rows.items())


def shown_of(cells: Iterable[Cell], cuts: Cuts, view: str, with_hidden: bool = True) -> Shown:
    """What a view shows of a solid, in grid cells between some cuts; or its visible edges alone."""
    rights, ups = cuts_in(view, cuts)
    hidden, instead = bytes([DASHED]), bytes([DASHED if with_hidden else BLANK])
    return moved_runs(
        (row.upright, (rights if row.upright else ups)[row.number], styles.replace(hidden, instead), ups if row.upright else rights)
        for row, styles in panels_of(cells, [len(cut) - 1 for cut in cuts], view).items()
    )


def strokes_shown(shown: Shown, right: int, up: int) -> list[tuple[bool, tuple[int, int], tuple[int, int]]]:
    """The runs of a view as lines to be written, where it begins there."""
    lines = []
    for upright, at, style, *ends in sorted(shown):
        start, end = ((right + at, up + it) if upright else (right + it, up + at) for it in ends)
        lines.append((style == DASHED, start, end))
    return lines


def further_of(views: Views, decimals: int) -> dict[str, Shown]:
    """What a drawing shows in each further view that it has, in units."""
    return {view: shown_by(strokes_of(view, lines, decimals)) for view, lines in views.items() if view in FURTHER}


def runs_of(styles: bytes) -> list[tuple[int, int, int]]:
    """The maximal runs of one style that isn't blank: style, first segment, and the one behind the last."""
    runs, at = [], 0
    for style, group in itertools.groupby(styles):
        count = sum(1 for _ in group)
        if style != BLANK:
            runs.append((style, at, at + count))
        at += count
    return runs
