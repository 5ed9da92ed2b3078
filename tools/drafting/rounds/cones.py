"""Cones at the ends of round holes and bosses: drill points, countersinks, chamfers of shafts, and where a drill of two diameters goes over
from one to the other. Such a cone goes on from a cylinder, its *neck*, to its *end*: to a point, or to a circle round the same axis. Both
views that see it from its side draw it as two oblique edges. Where

1. at its neck the cylinder's walls go on; where they go on at its end too, the neck is the narrower one;
2. the neck's circle is drawn whole, and the end's unless that is a point;
3. all views that see it from its side draw both edges, inside of the view's other lines;
4. what the cone is cut from is full as far as its box reaches, or what it is added to empty: nothing else comes into its box, but within
   the narrower circle, as a bush's bore does,

a point changes no other line, and is taken off; another cone shows what a cylinder of its end's circle shows with the neck's circle at its
floor, and is *squared to that step*: each oblique edge becomes two lines along its corner; and where walls go on at its end, the line across
there is left out, upon which nothing else may lie. 1 to 3 are looked at here, and an oblique edge of no cone is refused, unless it is a
chamfer's (`chamfers.py`); 4 for each solid, by its cells. Which of several holes in line have cones the edges don't always tell: each choice
of the solid's holes that draws all of them is put back and compared with the sheet.
"""
import itertools
import math
from collections import Counter
from collections.abc import Callable, Iterator, Mapping, Sequence
from fractions import Fraction
from typing import NamedTuple

from ..dxf.drawing import VIEWS, Place
from ..dxf.reader import Box, Edge
from ..projection.draw import FRAMES
from ..recon.answer import Solid
from .features import Cone, Given, Squared, Stretch
from .restore import Drawn, exact, is_full_in, spot
from .rounds import BESIDE, OF_ONE, Round, covers, is_straight
from .tangent_edges import place_along, shared_axis

# How far from a plane of a solid a cone may end, in units.
NEAR = 0.6
# How far apart cones in line may end that are drawn as one.
ALIKE = 2.5e-3
# The most choices of cones of one solid that are compared with the sheet, and that are looked at.
MOST, MOST_TRIED = 32, 4096


# ---- on the sheet

class Panel(NamedTuple):
    """A view, from its least corner on: how large it is, its lines, and its whole circles."""

    size: Place
    edges: Sequence[Edge]
    circles: Sequence[Round]

    @property
    def box(self) -> Box:
        return 0.0, 0.0, self.size[0], self.size[1]


class Side(NamedTuple):
    """A view of a circle from its side: its lines, whether the axis is upright there, and where it lies."""

    view: str
    panel: Panel
    is_upright: bool
    at: float
    noise: float

    def place(self, across: float, along: float) -> Place:
        """A place across the axis and along it, in the view."""
        return (self.at + across, along) if self.is_upright else (along, self.at + across)

    def flanks(self, radius: float, sign: int) -> Iterator[tuple[Edge, Place, Place]]:
        """The oblique edges that begin a radius beside the axis: the edge, and its ends by how far they lie from the axis and along it."""
        for edge in self.panel.edges:
            if is_straight(edge, self.noise / OF_ONE):
                continue
            ends = [((it[0] if self.is_upright else it[1]) - self.at, it[1] if self.is_upright else it[0]) for it in (edge.start, edge.end)]
            for (across, along), (other, end) in (ends, ends[::-1]):
                if abs(across * sign - radius) <= self.noise and other * sign >= -self.noise:
                    yield edge, (radius, along), (max(0.0, other * sign), end)

    def has_wall(self, radius: float, along: float, way: float) -> bool:
        """Whether lines go on along the axis at both sides, from a place on."""
        return self.has_line(radius, along + math.copysign(BESIDE * self.noise / OF_ONE, way))

    def goes_on(self, end: float, depth: float, neck: float) -> bool:
        """Whether lines go on at a cone's end too, away from its neck."""
        return end > self.noise and self.has_wall(end, depth, depth - neck)

    def has_line(self, radius: float, along: float) -> bool:
        """Whether lines lie at a place along the axis, a radius beside it at both sides."""
        return all(any(covers(edge, self.place(sign * radius, along), self.noise / 2) for edge in self.panel.edges
                       if is_straight(edge, self.noise / OF_ONE)) for sign in (1, -1))

    def profiles(self, radius: float) -> Iterator[tuple[float, Place]]:
        """Where cones may begin at a circle's radius, and where they end, as this view draws them."""
        for first, (_, along), (end, depth) in self.flanks(radius, 1):
            is_both = any(other.hidden == first.hidden and abs(a[1] - along) <= self.noise and abs(b[1] - depth) <= self.noise
                          and abs(b[0] - end) <= self.noise for other, a, b in self.flanks(radius, -1))
            is_flat = abs(end - radius) <= self.noise or abs(along - depth) <= self.noise
            is_wider = end < radius and self.goes_on(end, depth, along)
            if is_both and not is_flat and not is_wider and self.has_wall(radius, along, along - depth):
                yield along, (end if end > self.noise else 0.0, depth)


def sides_of(panels: Mapping[str, Panel], view: str, one: Round, noise: float) -> Iterator[Side]:
    """A circle of a main view from its sides."""
    for other, panel in panels.items():
        axis = shared_axis(view, other)
        if axis is not None:
            centre = one.centre[0 if axis == FRAMES[view].right else 1]
            at = place_along(other, panel.box, axis, place_along(view, panels[view].box, axis, centre), True)
            yield Side(other, panel, axis == FRAMES[other].right, at, noise)


def cones_of(panels: Mapping[str, Panel], tolerance: float) -> list[Cone]:
    """The cones that views may show."""
    noise = OF_ONE * tolerance
    found: list[Cone] = []
    for view in (it for it in VIEWS if it in panels):
        for one in panels[view].circles:
            for cone in cones_at(panels, view, one, noise):
                if not any(are_one(cone, other, noise) for other in found):
                    found.append(cone)
    return found


def are_one(one: Cone, other: Cone, noise: float) -> bool:
    its = zip((*one.centre, *one[2:6]), (*other.centre, *other[2:6]))
    return one.view == other.view and all(abs(a - b) <= noise for a, b in its)


def cones_at(panels: Mapping[str, Panel], view: str, one: Round, noise: float) -> Iterator[Cone]:
    """The cones whose neck is a circle, and that all views from its side show."""
    sides, sight = list(sides_of(panels, view, one, noise)), FRAMES[view].sight
    all_of = [[(place_along(side.view, side.panel.box, sight, along), end, place_along(side.view, side.panel.box, sight, depth))
               for along, (end, depth) in side.profiles(one.radius)] for side in sides]
    if len(sides) < 2:
        return
    for it in all_of[0]:
        if not all(any(all(abs(a - b) <= noise for a, b in zip(it, other)) for other in its) for its in all_of[1:]):
            continue
        neck, end, depth = it
        ends = [0.0] if end == 0 else [it.radius for it in panels[view].circles
                                       if abs(it.radius - end) <= noise and math.dist(it.centre, one.centre) <= noise]
        for radius in ends[:1]:
            is_sure = radius > 0 and any(not side.has_line(radius, (a[0] + a[1]) / 2) for side, a in
                                         ((side, [place_along(side.view, side.panel.box, sight, it, True) for it in (neck, depth)]) for side in sides))
            yield Cone(view, one.centre, one.radius, neck, radius, depth, is_sure)


class Flank(NamedTuple):
    """An oblique edge of a cone: the view, the edge there, whether the axis is upright, whether the edge begins at the neck, and whether it is
    squared to a step."""

    view: str
    edge: Edge
    is_upright: bool
    is_from_neck: bool
    has_step: bool

    def steps(self, edge: Edge) -> tuple[Edge, ...]:
        """The lines that the edge becomes, where it lies: along the corner that lies beside the neck, as far out as the end."""
        if not self.has_step:
            return ()
        neck, end = (edge.start, edge.end) if self.is_from_neck else (edge.end, edge.start)
        corner = (end[0], neck[1]) if self.is_upright else (neck[0], end[1])
        return edge._replace(start=end, end=corner), edge._replace(start=corner, end=neck)


def flanks_of(panels: Mapping[str, Panel], cones: Sequence[Cone], tolerance: float) -> Iterator[Flank]:
    """The oblique edges of cones."""
    noise = OF_ONE * tolerance
    for cone in cones:
        for side in sides_of(panels, cone.view, circle_of(panels, cone), noise):
            neck, end = (place_along(side.view, side.panel.box, FRAMES[cone.view].sight, it, True) for it in (cone.neck, cone.end))
            for sign in (1, -1):
                for edge, (_, along), (other, depth) in side.flanks(cone.radius, sign):
                    if max(abs(along - neck), abs(depth - end), abs(other - cone.end_radius)) <= noise:
                        first = edge.start[1 if side.is_upright else 0]
                        yield Flank(side.view, edge, side.is_upright, abs(first - neck) < abs(first - end), cone.end_radius > 0)


def across_ends(panels: Mapping[str, Panel], cones: Sequence[Cone], tolerance: float) -> Iterator[Stretch]:
    """The lines across the ends of cones where walls go on there."""
    for cone in cones:
        for side in sides_of(panels, cone.view, circle_of(panels, cone), OF_ONE * tolerance):
            neck, end = (place_along(side.view, side.panel.box, FRAMES[cone.view].sight, it, True) for it in (cone.neck, cone.end))
            if side.goes_on(cone.end_radius, end, neck):
                yield Stretch(side.view, not side.is_upright, end, side.at - cone.end_radius, side.at + cone.end_radius, False)


def seams_of(panels: Mapping[str, Panel], cones: Sequence[Cone], tolerance: float) -> Iterator[Stretch]:
    """Lines along cones, from one end to the other, which TechDraw draws as seams: in the views along their axes beside the centre, and upon
    the axis in those from their sides."""
    noise = OF_ONE * tolerance
    for cone in cones:
        owners = frozenset({(cone.view, round(cone.radius, 2))})
        for is_upright, sign in itertools.product((False, True), (1, -1)):
            across, along = cone.centre if is_upright else cone.centre[::-1]
            low, high = sorted(along + sign * radius for radius in (cone.radius, cone.end_radius))
            yield from seen_in(panels, Stretch(cone.view, is_upright, across, low, high, False, owners), noise)
        for side in sides_of(panels, cone.view, circle_of(panels, cone), noise):
            low, high = sorted(place_along(side.view, side.panel.box, FRAMES[cone.view].sight, it, True) for it in (cone.neck, cone.end))
            yield from seen_in(panels, Stretch(side.view, side.is_upright, side.at, low, high, False, owners), noise)


def seen_in(panels: Mapping[str, Panel], stretch: Stretch, noise: float) -> Iterator[Stretch]:
    """A stretch in the style in which its view draws it, where it does."""
    ends = [(stretch.at, it) if stretch.is_upright else (it, stretch.at) for it in (stretch.low, stretch.high)]
    over = [edge.hidden for edge in panels[stretch.view].edges if all(covers(edge, end, noise) for end in ends) and is_straight(edge, noise)]
    if over:
        yield stretch._replace(hidden=all(over))


def is_seam(stretch: Stretch, cone: Cone, near: float) -> bool:
    """Whether a stretch may be the seam of a cone in the view along its axis."""
    across, along = cone.centre if stretch.is_upright else cone.centre[::-1]
    ends = sorted(abs(it - along) for it in (stretch.low, stretch.high))
    return stretch.view == cone.view and abs(stretch.at - across) < near and all(
        abs(a - b) < near for a, b in zip(ends, sorted((cone.radius, cone.end_radius))))


def is_side_seam(stretch: Stretch, cone: Cone, given: Given, near: float) -> bool:
    """Whether a stretch may be the seam of a cone in a view from its side: it lies upon the axis, from one end to the other."""
    frame, own = FRAMES[stretch.view], FRAMES[cone.view]
    axis, along = (frame.right, frame.up) if stretch.is_upright else (frame.up, frame.right)
    if own.sight != along or axis not in (own.right, own.up):
        return False
    (is_back, at_back) = (frame.right_back, frame.up_back) if stretch.is_upright else (frame.up_back, frame.right_back)
    at = given.extent(axis) - stretch.at if is_back else stretch.at
    ends = sorted(given.extent(along) - it if at_back else it for it in (stretch.low, stretch.high))
    return abs(at - cone.centre[0 if axis == own.right else 1]) < near and all(abs(a - b) < near for a, b in zip(ends, sorted((cone.neck, cone.end))))


def circle_of(panels: Mapping[str, Panel], cone: Cone) -> Round:
    return next(it for it in panels[cone.view].circles if (it.centre, it.radius) == (cone.centre, cone.radius))


# ---- in a solid

class Fitted(NamedTuple):
    """A cone of a solid, from and to which depth it goes there, and whether it is of a boss and not of a hole."""

    cone: Cone
    neck: float
    end: float
    is_full: bool


Full = Callable[[tuple[float, float, float]], bool]


def middles(cuts: Sequence[int], low: float, high: float) -> list[float]:
    stops = [low, *(it for it in cuts if low < it < high), high]
    return [(a + b) / 2 for a, b in itertools.pairwise(stops)]


def fitted(cone: Cone, found: Sequence[Drawn], cuts: list[list[int]], is_full: Full, unit: int) -> Fitted | None:
    """The cone in a solid, where its neck goes on there to its end, and nothing else comes into its box."""
    frame, (x, y) = FRAMES[cone.view], (it * unit for it in cone.centre)
    neck, end = (float(min(cuts[frame.sight], key=lambda it: abs(it - at * unit))) for at in (cone.neck, cone.end))
    # A point lies at no plane, nor does an end at which walls go on.
    end = end if cone.end_radius and abs(end - cone.end * unit) <= NEAR else cone.end * unit
    if abs(neck - cone.neck * unit) > NEAR or neck == end:
        return None
    way = 1 if end < neck else -1
    body = next((it for it in (True, False) if goes_on(cone, cone.radius, found, neck, way, it)), None)
    if body is None or cone.end_radius and not goes_on(cone, cone.end_radius, found, neck, -way, body):
        return None
    half, inner, least = (radius * unit for radius in (max(cone.radius, cone.end_radius), cone.end_radius, min(cone.radius, cone.end_radius)))
    around = [middles(cuts[axis], round(at - half), round(at + half)) for axis, at in ((frame.right, x), (frame.up, y))]
    for across, up, depth in itertools.product(*around, middles(cuts[frame.sight], min(neck, end), max(neck, end))):
        out = max(abs(across - x), abs(up - y))
        if out > least and is_full(spot(cone.view, (across, up), depth)) != (body if out < inner else not body):
            return None
    return Fitted(cone, neck / unit, end / unit, body)


def goes_on(cone: Cone, radius: float, found: Sequence[Drawn], at: float, way: int, body: bool) -> bool:
    """Whether all quarters of a circle have a layer that goes on from a depth."""
    its = [it for it in found if isinstance(it.one, Squared) and it.one.view == cone.view and math.dist(it.one.centre, cone.centre) < 1e-6
           and abs(it.one.radius - radius) < 1e-6]
    return len(its) == 4 and all(any(layer.is_full == body and (layer.low if way > 0 else layer.high) == at for layer in it.layers) for it in its)


def profiles_of(cone: Cone) -> list[tuple[float, ...]]:
    """How a cone looks from its two sides: by its axis, the one across it, where it lies along that, and its radii and depths."""
    frame = FRAMES[cone.view]
    return [(frame.sight, axis, at, *cone[2:6]) for axis, at in zip((frame.right, frame.up), cone.centre)]


def looks_of(cones: Sequence[Cone]) -> dict[Cone, frozenset[int]]:
    """By numbers how cones look from their sides: those in line look the same, but for noise."""
    known: list[tuple[float, ...]] = []
    looks: dict[Cone, frozenset[int]] = {}
    for cone in cones:
        numbers = set()
        for profile in profiles_of(cone):
            number = next((at for at, it in enumerate(known) if all(abs(a - b) <= ALIKE for a, b in zip(it, profile))), len(known))
            known += [profile] if number == len(known) else []
            numbers.add(number)
        looks[cone] = frozenset(numbers)
    return looks


def choices(solid: Solid, found: Sequence[Drawn], given: Given, unit: int) -> list[tuple[Fitted, ...]]:
    """The choices of a solid's cones that draw all of the sheet's, the most first; one without any where the sheet has none."""
    if not given.cones:
        return [()]
    cuts, is_full = is_full_in(solid)
    its = {cone: one for cone in given.cones if (one := fitted(cone, found, cuts, is_full, unit))}
    near = NEAR / unit
    seen = [cone for cone in its if any(is_seam(stretch, cone, near) for stretch in given.smooth)]
    return [tuple(its[cone] for cone in chosen) for chosen in covering(list(its), given.cones, seen)]


def covering(its: Sequence[Cone], owed: Sequence[Cone], seen: Sequence[Cone] = ()) -> list[tuple[Cone, ...]]:
    """The choices of some cones that look from their sides as all that are owed do, with all whose seams are seen, the most first, as many as
    are tried at most."""
    looks = looks_of(owed)
    counts = Counter(look for cone in its for look in looks[cone])
    sure = [cone for cone in its if cone.is_sure or cone in seen or any(counts[look] == 1 for look in looks[cone])]
    rest = [cone for cone in its if cone not in sure]
    every = ((*sure, *some) for size in range(len(rest), -1, -1) for some in itertools.combinations(rest, size))
    all_looks: frozenset[int] = frozenset().union(*looks.values())
    found = (some for some in itertools.islice(every, MOST_TRIED) if all_looks == frozenset().union(*(looks[cone] for cone in some)))
    return list(itertools.islice(found, MOST))


def volume_by_pi(chosen: Sequence[Fitted], unit: int, moved: float) -> Fraction:
    """The number of pi by which cones change a solid's volume, once its rounds are rounded back."""
    total = Fraction(0)
    for it in chosen:
        small, large = (exact(radius, unit, moved) for radius in (it.cone.end_radius, it.cone.radius))
        height = abs(exact(it.neck, unit, moved) - exact(it.end, unit, moved))
        total += (1 if it.is_full else -1) * height * ((small**2 + small * large + large**2) / 3 - small**2)
    return total
