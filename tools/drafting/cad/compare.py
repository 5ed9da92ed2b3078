"""A rounded solid drawn again by FreeCAD's hidden line removal, and compared with its sheet, line by line and arc by arc."""
import functools
import itertools
import math
from collections import defaultdict
from collections.abc import Callable, Iterator, Mapping, Sequence
from typing import NamedTuple

from ..dxf.curves import angle_of
from ..dxf.drawing import Place
from ..dxf.reader import Arc, Edge
from ..geometry import free_curves as bends
from ..geometry.free_curves import Bend
from ..geometry.segments import along, off
from ..projection.draw import FRAMES
from ..rounds.cones import is_seam, is_side_seam
from ..rounds.features import NOWHERE, Given, Squared, Stretch, times
from ..rounds.regularize import TINY
from ..rounds.restore import Drawn
from ..rounds.rounds import is_level, is_straight
from . import rays
from .freecad import FreeCAD, Part, TechDraw
from .project import DIRECTIONS, VISIBLE

# Of TechDraw's ten groups of edges, of which the first five are visible: sharp edges and outlines; and smooth ones and seams.
SHARP, SMOOTH = (0, 3, 5, 8), (1, 2, 6, 7)
# How far apart coordinates are that are one, and how long a stretch has to be that counts; of parts that are no less than this.
NEAR, LEAST, SIZE = 2.5e-3, 3e-3, 10.0
# In how many steps other curves are taken.
STEPS = 64

# By line or circle: from where to where it is drawn, and whether hidden. A line is told by its way and its coordinate across, an oblique
# one by two places on it; a circle by its centre and radius, and places on it by lengths.
Span = tuple[float, float, bool]
Rows = dict[tuple[float, ...], list[Span]]


class View(NamedTuple):
    """What is drawn of a view: lines, arcs, and curves that are neither."""

    lines: list[Edge]
    arcs: list[Arc]
    bends: list[Bend]


class Projected(NamedTuple):
    """An edge of a view as FreeCAD draws it: the number of its group, the edge, nine places along it, and of a circle its centre; and of what is
    neither a line nor a circle more places."""

    number: int
    edge: "Part.Edge"
    places: list[Place]
    centre: Place | None
    fine: list[Place]

    @property
    def hidden(self) -> bool:
        return self.number >= VISIBLE

    def arc(self) -> Arc | None:
        """The part of a circle that it is, where it is one."""
        return arc_of(self.hidden, self.centre, self.edge.Curve.Radius, self.places) if self.centre else None


def projected(shape: "Part.Shape", view: str, groups: Sequence[int] = SHARP) -> Iterator[Projected]:
    """The edges of a view of a shape, of some groups, from the shape's own coordinates on."""
    direction, turned = DIRECTIONS[view]
    made = TechDraw.projectEx(shape, FreeCAD.Vector(*direction))
    for number in (number for number in groups if not made[number].isNull()):
        for edge in made[number].Edges:
            low, high = edge.ParameterRange
            is_circle = edge.Curve.TypeId == "Part::GeomCircle"
            places = [turned(it.x, it.y) for it in (edge.valueAt(low + (high - low) * at / 8) for at in range(9))]
            fine = [] if edge.Curve.TypeId in ("Part::GeomLine", "Part::GeomCircle") else [turned(it.x, it.y) for it in map(edge.valueAt, stops_of(edge))]
            yield Projected(number, edge, places, turned(edge.Curve.Center.x, edge.Curve.Center.y) if is_circle else None, fine)


def stops_of(edge: "Part.Edge") -> list[float]:
    """Where on a curve places are taken: of chords, which are drawn of what is cut from ellipses, where they meet."""
    low, high = edge.ParameterRange
    if edge.Curve.TypeId == "Part::GeomBSplineCurve" and edge.Curve.Degree == 1:
        return [low, *(it for it in edge.Curve.getKnots() if low < it < high), high]
    return [low + (high - low) * at / STEPS for at in range(STEPS + 1)]


def drawn(shape: "Part.Shape", view: str, groups: Sequence[int] = SHARP) -> View:
    """A view of a shape, from the shape's own coordinates on."""
    result = View([], [], [])
    for it in projected(shape, view, groups):
        if arc := it.arc():
            result.arcs.append(arc)
        elif (ends := ends_of(it.places)) and not is_piece(it):
            result.lines.append(Edge(it.hidden, *ends, 7, NOWHERE))
        else:
            result.bends.append(Bend(view, it.hidden, tuple(it.fine)))
    return result


def is_piece(it: Projected) -> bool:
    """Whether an edge is so short a piece of a curve that it looks straight by itself."""
    return bool(it.fine) and max(math.dist(it.places[0], place) for place in it.places) < TINY


def arc_of(hidden: bool, centre: Place, radius: float, places: Sequence[Place]) -> Arc:
    first, middle, last = (angle_of(centre, places[at]) for at in (0, 4, 8))
    if (middle - first) % 360 > (last - first) % 360:
        first, last = last, first
    sweep = (last - first) % 360 if math.dist(places[0], places[8]) > 1e-6 else 360.0
    return Arc(hidden, centre, radius, first, sweep, NOWHERE)


def ends_of(places: Sequence[Place]) -> tuple[Place, Place] | None:
    (x0, x1), (y0, y1) = ((min(its), max(its)) for its in zip(*places))
    if min(x1 - x0, y1 - y0) < 1e-6:
        return (x0, y0), (x1, y1)
    is_closed = math.dist(places[0], places[-1]) < 1e-6
    return None if is_closed or any(off(it, (places[0], places[-1])) > 1e-6 for it in places) else (places[0], places[-1])


# ---- the comparison

def slants_of(lines: Sequence[Edge]) -> list[Edge]:
    """Of the oblique lines one of each that lies in no other's, the longest first."""
    found: list[Edge] = []
    for edge in sorted((it for it in lines if not is_straight(it, NEAR)), key=lambda it: -math.dist(it.start, it.end)):
        if slant_under(edge, found) is None:
            found.append(edge)
    return found


def slant_under(edge: Edge, slants: Sequence[Edge]) -> Edge | None:
    """In which oblique line another one lies."""
    return next((it for it in slants if all(off(end, (it.start, it.end)) < NEAR for end in (edge.start, edge.end))), None)


def rows_of(lines: Sequence[Edge], arcs: Sequence[Arc], slants: Sequence[Edge] = ()) -> Rows:
    rows: Rows = defaultdict(list)
    for edge in lines:
        if not is_straight(edge, NEAR):
            if under := slant_under(edge, slants):
                low, high = sorted(along(end, under) for end in (edge.start, edge.end))
                rows[(*under.start, *under.end)].append((low, high, edge.hidden))
            continue
        way = 0 if is_level(edge) else 1
        low, high = sorted((edge.start[way], edge.end[way]))
        rows[way, round(edge.start[1 - way], 3) + 0.0].append((low, high, edge.hidden))
    for arc in arcs:
        key = tuple(round(it, 3) + 0.0 for it in (*arc.centre, arc.radius))
        for turn in (0, 360):
            low, high = (math.radians(at - turn) * arc.radius for at in (arc.start, arc.start + arc.sweep))
            rows[key].append((max(low, 0.0), min(high, 2 * math.pi * arc.radius), arc.hidden))
    return rows


def joined_near(given: Rows, made: Rows) -> Rows:
    """The rows of what was given, under the keys of what was made where these are near."""
    result: Rows = defaultdict(list)
    for key, row in given.items():
        near = [it for it in made if key not in made and are_near(it, key)]
        result[near[0] if near else key] += row
    return result


def are_near(one: tuple[float, ...], other: tuple[float, ...]) -> bool:
    same = len(one) == len(other) and (len(one) > 2 or one[0] == other[0])
    return same and all(abs(a - b) < NEAR for a, b in zip(one, other))


def style_at(row: Sequence[Span], at: float) -> str:
    over = [hidden for low, high, hidden in row if low <= at <= high]
    return "nothing" if not over else "dashed" if all(over) else "solid"


def stretches(rows: Sequence[Sequence[Span]]) -> Iterator[tuple[float, float]]:
    """The stretches between all ends of some rows of one line."""
    stops = sorted({stop for row in rows for low, high, _ in row for stop in (low, high)})
    return ((low, high) for low, high in itertools.pairwise(stops) if high - low > LEAST)


def enlarged(shape: "Part.Shape", given: Given) -> tuple["Part.Shape", Given]:
    """A shape and what was given, both so many times as large that they can be compared: parts in metres are small."""
    size, factor = max(given.extent(axis) for axis in range(3)), 1
    while 0 < size * factor < SIZE:
        factor *= 10
    return (shape.copy().scale(factor), times(given, factor)) if factor > 1 else (shape, given)


def differences(shape: "Part.Shape", given: Given) -> Iterator[str]:
    """Where the views of a shape differ from what was given, in words: in each view that has a line, an arc or another curve."""
    for view in dict.fromkeys([*given.lines, *given.arcs, *(it.view for it in given.bends)]):
        yield from differences_in(view, shape, given)


def differences_in(view: str, shape: "Part.Shape", given: Given) -> Iterator[str]:
    """Where one view of a shape differs from what was given, in words."""
    least = least_of(given, view)
    made = moved(drawn(shape, view), least)
    its = bends.Panel(given.lines.get(view, []), given.arcs.get(view, []), [it for it in given.bends if it.view == view])
    lines, arcs, bent = parted(view, made, its)
    slants = slants_of([*its.lines, *lines])
    rows = rows_of(lines, arcs, slants)
    told = joined_near(rows_of(its.lines, its.arcs, slants), rows)
    left = joined_near(rows_of([it.edge() for it in given.smooth if it.view == view], []), rows)
    smooth = functools.cache(functools.partial(smooth_rows, shape, view, least))
    seen = functools.cache(functools.partial(rays.Rays, shape, view, least))
    for (x, y), one, other in bends.differing(its, bends.Panel(made.lines, made.arcs, bent)):
        yield f"{view}, on a curve at ({x:.6g}, {y:.6g}): the sheet has {one}, the solid {other}"
    for key in sorted(told.keys() | rows.keys()):
        both = told.get(key, []), rows.get(key, [])
        for low, high in stretches(both):
            middle = (low + high) / 2
            one, other = (style_at(row, middle) for row in both)
            # Where a round touches a wall the line that was left out as smooth is an edge, or lies over one.
            style = style_at([*both[0], *left.get(key, [])], middle)
            if one == other or style == other or style == "solid" and other == "dashed" and is_solid_near(smooth(), key, middle):
                continue
            if not is_as_rays_tell(one, other, seen, key, middle):
                yield f"{view}, {place_told(key, low, high)}: the sheet has {one}, the solid {other}"


def is_as_rays_tell(told: str, made: str, seen: Callable[[], rays.Rays], key: tuple[float, ...], at: float) -> bool:
    """Whether a stretch is in the sheet's style where the shape is drawn with the other one: hidden line removal draws some visible edges dashed."""
    if {told, made} != {"solid", "dashed"}:
        return False
    is_visible = seen().is_visible(key, at)
    return is_visible is not None and is_visible == (told == "solid")


def smooth_rows(shape: "Part.Shape", view: str, least: Place) -> Rows:
    """The smooth edges of a view of a shape."""
    return rows_of(moved(drawn(shape, view, SMOOTH), least).lines, [])


def is_solid_near(rows: Rows, key: tuple[float, ...], at: float) -> bool:
    return any(style_at(row, at) == "solid" for it, row in rows.items() if are_near(it, key))


def least_of(given: Given, view: str) -> Place:
    """The least corner of a view in the coordinates that are projected: what is gone along backwards begins at less than nothing."""
    frame = FRAMES[view]
    return (-given.extent(frame.right) if frame.right_back else 0.0), (-given.extent(frame.up) if frame.up_back else 0.0)


def moved(made: View, least: Place) -> View:
    """What is drawn of a view from its least corner on."""
    def there(place: Place) -> Place:
        return place[0] - least[0], place[1] - least[1]

    return View([it._replace(start=there(it.start), end=there(it.end)) for it in made.lines], [it._replace(centre=there(it.centre)) for it in made.arcs],
                [it._replace(places=tuple(map(there, it.places))) for it in made.bends])


def parted(view: str, made: View, told: bends.Panel) -> tuple[list[Edge], list[Arc], list[Bend]]:
    """The lines, arcs and other curves of a view of a solid: curves on a circle of the sheet are arcs of it, and oblique lines that the sheet has
    none for are such curves, since it has curves that are straight among these."""
    lines, arcs, bent = list[Edge](), list(made.arcs), list[Bend]()
    slants = slants_of(told.lines)
    for edge in made.lines:
        if is_straight(edge, NEAR) or slant_under(edge, slants):
            lines.append(edge)
        else:
            bent.append(Bend(view, edge.hidden, (edge.start, edge.end)))
    for it in made.bends:
        on = next((arc for arc in told.arcs if bends.is_on_circle(it.places, arc.centre, arc.radius, NEAR)), None)
        if on:
            arcs.append(bends.arc_along(it.hidden, it.places, on))
        else:
            bent.append(it)
    return lines, arcs, bent


def place_told(key: tuple[float, ...], low: float, high: float) -> str:
    if len(key) == 4:
        return "{:.6g} to {:.6g} along the oblique line from ({:g}, {:g}) to ({:g}, {:g})".format(low, high, *key)
    if len(key) == 2:
        ends = [f"({key[1]:g}, {it:.6g})" if key[0] else f"({it:.6g}, {key[1]:g})" for it in (low, high)]
        return " to ".join(ends)
    angles = (math.degrees(it / key[2]) for it in (low, high))
    return "from {:.4g} to {:.4g} degrees of the circle at ({:g}, {:g}) of radius {:g}".format(*angles, *key)


# ---- lines that were left out as smooth

def unexplained(given: Given, found: Sequence[Drawn], unit: int) -> Iterator[str]:
    """Stretches that were left out though no round's axis runs along them for their whole length, and that are no seam of a cone."""
    near = min(NEAR, max(given.extent(axis) for axis in range(3)) * NEAR / SIZE)
    for stretch in given.smooth:
        if is_of_cones(stretch, given, near):
            continue
        frame = FRAMES[stretch.view]
        axis, along = (frame.right, frame.up) if stretch.is_upright else (frame.up, frame.right)
        covered = []
        for it in found:
            own = FRAMES[it.one.view]
            if isinstance(it.one, Squared) and it.one.view != stretch.view and own.sight == along and axis in (own.right, own.up):
                centre = it.one.centre[0 if axis == own.right else 1]
                is_back = frame.right_back if stretch.is_upright else frame.up_back
                place = given.extent(axis) - stretch.at if is_back else stretch.at
                covered += [(layer.low / unit, layer.high / unit) for layer in it.layers if abs(centre - place) < near]
        for hole in given.holes:
            own = FRAMES[hole.view]
            if hole.view != stretch.view and own.sight == along and axis in (own.right, own.up):
                is_back = frame.right_back if stretch.is_upright else frame.up_back
                place = given.extent(axis) - stretch.at if is_back else stretch.at
                covered += [(hole.low, hole.high)] if abs(hole.centre[0 if axis == own.right else 1] - place) < near else []
        at, end = on_axis(given, stretch)
        for low, high in sorted(covered):
            at = max(at, high) if low <= at + near else at
        if at < end - near:
            yield f"{stretch.view}: the line at {stretch.at:.6g} from {stretch.low:.6g} to {stretch.high:.6g} is no smooth edge of it"


def on_axis(given: Given, stretch: Stretch) -> tuple[float, float]:
    """From where to where a stretch goes along its axis of space."""
    frame = FRAMES[stretch.view]
    axis, is_back = (frame.up, frame.up_back) if stretch.is_upright else (frame.right, frame.right_back)
    extent = given.extent(axis)
    return (extent - stretch.high, extent - stretch.low) if is_back else (stretch.low, stretch.high)


def smooth_doubts(shape: "Part.Shape", given: Given) -> tuple[int, int]:
    """Of the stretches that were left out, how many the shape has in another style or not at all; and how many visible smooth stretches of
    the shape the sheet has nothing at, where it has others."""
    other = lacking = 0
    for view in {it.view for it in given.smooth}:
        least = least_of(given, view)
        smooth, sharp = (moved(drawn(shape, view, groups), least).lines for groups in (SMOOTH, SHARP))
        rows, every = rows_of(smooth, []), rows_of([*smooth, *sharp], [])
        left = [it for it in given.smooth if it.view == view]
        told = joined_near(rows_of([*given.lines.get(view, []), *(it.edge() for it in left)], []), rows)
        other += sum(differs(it, every) for it in left if not is_of_cones(it, given, NEAR))
        for key, row in rows.items():
            lacking += sum(style_at(row, (low + high) / 2) == "solid" and style_at(told.get(key, []), (low + high) / 2) != "solid"
                           for low, high in stretches((row, told.get(key, []))) if not is_of_cone(view, key, low, high, given))
    return other, lacking


def is_of_cone(view: str, key: tuple[float, ...], low: float, high: float, given: Given) -> bool:
    """Whether a stretch of a line is a cone's seam, whose direction nothing tells."""
    return len(key) == 2 and is_of_cones(Stretch(view, key[0] == 1, key[1], low, high, False), given, NEAR)


def is_of_cones(stretch: Stretch, given: Given, near: float) -> bool:
    """Whether a stretch may be the seam of a cone."""
    return any(is_seam(stretch, cone, near) or is_side_seam(stretch, cone, given, near) for cone in given.cones)


def differs(stretch: Stretch, rows: Mapping[tuple[float, ...], list[Span]]) -> bool:
    key = (1.0 if stretch.is_upright else 0.0, stretch.at)
    near: list[Span] = next((row for it, row in rows.items() if are_near(it, key)), [])
    return style_at(near, (stretch.low + stretch.high) / 2) != ("dashed" if stretch.hidden else "solid")
