"""The views of a drawing as parts of an SVG picture, for `picture` and `page`."""
import functools
import html
import itertools
from collections.abc import Callable, Iterable, Iterator, Mapping, Sequence
from typing import NamedTuple

from ..dxf.drawing import VIEWS as MAIN
from ..dxf.drawing import Line, Place, Views

# Sizes on the picture, in pixels: the square that the views stand in, and what is between them.
VIEWS, GAP = 290, 36
# How far the line of a section's plane goes beyond the view, and how long its arrows are, how wide, and how far before these a letter stands.
BEYOND, ARROW, HEAD, LETTER = 9, 13, 3, 7
# The column and the row, from the top, in which each view stands beside FRONT. The further ones are drawn where they have lines.
PLACES = {"TOP": (0, -1), "FRONT": (0, 0), "SIDE": (1, 0), "LEFT": (-1, 0), "REAR": (2, 0), "BOTTOM": (0, 1)}

Stroke = tuple[bool, Place, Place]
# A round of a view: whether it is dashed, and places along it, from the view's least corner on.
Curve = tuple[bool, list[Place]]
# What is told of a stroke: by its view, its kind, and its ends from the view's least corner on.
Told = Callable[[str, str, Place, Place], str]


def path(points: Iterable[Place], kind: str, closed: bool = False, told: str = "") -> str:
    more = f' data-told="{html.escape(told)}"' if told else ""
    return f'<path class="{kind}" d="M{" L".join(f"{x:.2f},{y:.2f}" for x, y in points)}{"Z" if closed else ""}"{more}/>'


def label(x: float, y: float, text: str, kind: str = "plain") -> str:
    return f'<text class="{kind}" x="{x:.1f}" y="{y:.1f}">{html.escape(text)}</text>'


def joined(lines: Iterable[Stroke]) -> list[Stroke]:
    """The strokes of lines, each stretch of one style once; the solid ones come last, over the dashed ones."""
    strokes: list[Stroke] = []
    rows: dict[tuple[bool, int, float], list[tuple[float, float]]] = {}
    for dashed, start, end in lines:
        if start[0] == end[0] or start[1] == end[1]:
            across = 0 if start[0] == end[0] else 1
            low, high = sorted((start[1 - across], end[1 - across]))
            rows.setdefault((dashed, across, start[across]), []).append((low, high))
        else:
            strokes.append((dashed, start, end))
    for (dashed, across, at), stretches in rows.items():
        reached = None
        for low, high in sorted(stretches):
            if reached is not None and low <= reached:
                low = strokes.pop()[1][1 - across]
                high = max(high, reached)
            start, end = [(at, it) if across == 0 else (it, at) for it in (low, high)]
            strokes.append((dashed, start, end))
            reached = high
    return sorted(strokes, key=lambda stroke: not stroke[0])


class View:
    """A view's strokes and rounds, moved to least coordinates 0, and how far they reach. Of a line of the file that is marked, the line
    that it tells of is a further stroke."""

    def __init__(self, lines: Sequence[Line], marked: int | None, curves: Iterable[Curve] = ()) -> None:
        self.curves = list(curves)
        points = [point for line in lines for point in (line.start, line.end)] or [(0.0, 0.0)]
        self.left, self.low = (min(point[axis] for point in points) for axis in (0, 1))
        self.width = max(point[0] for point in points) - self.left
        self.height = max(point[1] for point in points) - self.low
        self.strokes = joined((line.dashed, line.start, line.end) for line in lines if line.known)
        self.unknown = [(line.start, line.end) for line in lines if not line.known]
        self.marked = [(line.start, line.end) for line in lines if marked and line.told[0] <= marked <= line.told[1]]

    def rounds(self, left: float, bottom: float, scale: float) -> Iterator[str]:
        """Its rounds, with the view's lower left corner there."""
        for dashed, places in sorted(self.curves, key=lambda it: not it[0]):
            yield path([(left + scale * x, bottom - scale * y) for x, y in places], "dashed" if dashed else "solid")

    def drawn(self, left: float, bottom: float, scale: float, told: Callable[[str, Place, Place], str] | None = None) -> Iterator[str]:
        """The view with its lower left corner there; where something is told of strokes, each has it."""
        kinds = [("dashed" if dashed else "solid", ends) for dashed, *ends in self.strokes]
        others = [*(("unknown", ends) for ends in self.unknown), *(("marked", ends) for ends in self.marked)]
        for kind, ends in itertools.chain(kinds, others):
            start, end = ((x - self.left, y - self.low) for x, y in ends)
            yield path([(left + scale * x, bottom - scale * y) for x, y in (start, end)], kind, told=told(kind, start, end) if told else "")


class Plane(NamedTuple):
    """The plane of a section in a view: whether its line is upright there, at which coordinate from the view's least corner on, whether its arrows
    look to the right or upwards, else back, the letter at these, and what is told of it."""

    upright: bool
    at: float
    looks_ahead: bool
    letter: str
    told: str

    def drawn(self, view: View, left: float, bottom: float, scale: float) -> Iterator[str]:
        """A chain line with an arrow at each end, where it goes through a view, with the view's lower left corner there."""
        wide, high = (view.width, view.height) if self.upright else (view.height, view.width)
        ways = 1 if self.looks_ahead else -1

        def place(along: float, ahead: float) -> Place:
            across = scale * self.at + ways * ahead
            return (left + across, bottom - along) if self.upright else (left + along, bottom - across)

        ends = (-BEYOND, scale * high + BEYOND) if 0 < self.at < wide else ()
        if ends:
            yield path([place(end, 0) for end in ends], "plane", told=self.told)
        for end in ends:
            yield path([place(end, 0), place(end, ARROW)], "shaft")
            yield path([place(end, ARROW), *(place(end + side, ARROW - 2 * HEAD) for side in (HEAD, -HEAD))], "arrow", closed=True)
            if self.letter:
                x, y = place(end, ARROW + LETTER)
                yield label(x, y + 4.5, self.letter, "letter")


def steps(sizes: dict[int, float], start: float, scale: float) -> dict[int, float]:
    """Where each column or row begins, the first one there, one gap apart."""
    begins = {}
    for number in sorted(sizes):
        begins[number] = start
        start += scale * sizes[number] + GAP
    return begins


def views_drawn(
    views: Views, left: float, top: float, marked: int | None = None, told: Told | None = None,
    curves: Mapping[str, list[Curve]] = {}, planes: Mapping[str, Sequence[Plane]] = {},
) -> Iterator[str]:
    """The views in third-angle places in a square from there, with the lines that join them, and the planes of sections."""
    drawn = {name: View(views.get(name, []), marked, curves.get(name, ())) for name in PLACES if name in MAIN or views.get(name)}
    columns: dict[int, float] = {}
    rows: dict[int, float] = {}
    for name, view in drawn.items():
        column, row = PLACES[name]
        columns[column], rows[row] = max(view.width, columns.get(column, 0.0)), max(view.height, rows.get(row, 0.0))
    across, down = (VIEWS - GAP * (len(sizes) - 1) for sizes in (columns, rows))
    scale = min(across / (sum(columns.values()) or 1), down / (sum(rows.values()) or 1))
    top += (down - scale * sum(rows.values())) / 2
    lefts, tops = steps(columns, left, scale), steps(rows, top, scale)
    bottoms = {row: tops[row] + scale * rows[row] for row in rows}
    width, height = (drawn["FRONT"].width, drawn["FRONT"].height) if views.get("FRONT") else (columns[0], rows[0])
    for x in (0, width):
        yield path([(lefts[0] + scale * x, top), (lefts[0] + scale * x, max(bottoms.values()))], "guide")
    for y in (0, height):
        ends = left, max(lefts[column] + scale * columns[column] for column in columns)
        yield path([(x, bottoms[0] - scale * y) for x in ends], "guide")
    for name in drawn:
        column, row = PLACES[name]
        yield from drawn[name].drawn(lefts[column], bottoms[row], scale, functools.partial(told, name) if told else None)
        yield from drawn[name].rounds(lefts[column], bottoms[row], scale)
        for plane in planes.get(name, ()):
            yield from plane.drawn(drawn[name], lefts[column], bottoms[row], scale)
    for name, view in drawn.items():
        column, row = PLACES[name]
        text = name if views.get(name) else f"no {name}"
        beyond = BEYOND if any(plane.upright for plane in planes.get(name, ())) else 0
        yield label(lefts[column] + scale * view.width / 2, top - 10 - beyond if name == "TOP" else bottoms[row] + 22 + beyond, text, "small")
