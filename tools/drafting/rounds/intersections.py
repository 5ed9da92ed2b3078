"""Where rounds of different views meet in space: the third view has a curve there, of which each place lies on both cylinders. By that it is told
which two rounds such a curve is of; two cylinders as wide as each other that cross in their middles have oblique lines there.
"""
import itertools
import math
from collections.abc import Iterable, Iterator, Sequence
from typing import NamedTuple

from ..dxf.drawing import VIEWS, Place
from ..dxf.reader import Arc, Edge, Source, Unread
from ..geometry.free_curves import is_on, off, smoothed
from ..projection.draw import FRAMES
from ..sheet.groups import holds
from .regularize import TINY
from .rounds import OF_ONE, Round, box_of, is_straight
from .tangent_edges import Views

# How far from where two cylinders meet a curve may lie, also as a share of the views; the steps round each; and how many places of a curve are
# looked at.
NEAR, SHARE, STEPS, LOOKED_AT = 5e-3, 1e-4, 360, 9
# A curve may be meant for where two cylinders meet that lies so far from it, as a share of the narrower one's radius.
MEANT = 0.25

Spot = tuple[float, float, float]
Owned = tuple[str, Round]


class Cylinder(NamedTuple):
    """A round in space, from the part's least corner on: its axis, where this lies, and its radius."""

    axis: int
    centre: Spot
    radius: float


class Curve(NamedTuple):
    """What a view has where cylinders may meet: its view, its style, places along it, and what draws it."""

    view: str
    hidden: bool
    places: tuple[Place, ...]
    source: Source


class Crossing(NamedTuple):
    """Two rounds of different views that meet in space, the narrower one first."""

    one: Owned
    other: Owned

    @property
    def both(self) -> tuple[Owned, Owned]:
        return self.one, self.other

    def __str__(self) -> str:
        (view, one), (other_view, other) = self.both
        return f"where the {told(one)} of {view} crosses the {told(other)} of {other_view}"


class Met(NamedTuple):
    """The curves of a sheet that are of crossings, and of which."""

    curves: tuple[Curve, ...] = ()
    its: tuple[tuple[Crossing, ...], ...] = ()

    @property
    def crossings(self) -> list[Crossing]:
        return list(dict.fromkeys(itertools.chain(*self.its)))


def told(one: Round) -> str:
    what, (x, y) = "circle" if len(one.numbers) == 4 else "round", one.centre
    return f"{what} of radius {one.radius:.6g} at {x:.6g}, {y:.6g}"


def cylinder_of(views: Views, view: str, one: Round) -> Cylinder:
    frame, at = FRAMES[view], [0.0, 0.0, 0.0]
    at[frame.right], at[frame.up] = (views.depth(view, axis, it) for axis, it in zip((frame.right, frame.up), one.centre))
    return Cylinder(frame.sight, (at[0], at[1], at[2]), one.radius)


# ---- where two cylinders meet

def paths(one: Cylinder, other: Cylinder) -> Iterator[list[Spot]]:
    """Along where two cylinders meet: in steps round either, each as far as the other one reaches."""
    third = 3 - one.axis - other.axis
    for (along, across), sign in itertools.product(((one, other), (other, one)), (1, -1)):
        path: list[Spot] = []
        for step in range(STEPS + 1):
            turn, at = 2 * math.pi * step / STEPS, [0.0, 0.0, 0.0]
            at[across.axis] = along.centre[across.axis] + along.radius * math.cos(turn)
            at[third] = along.centre[third] + along.radius * math.sin(turn)
            away = abs(at[third] - across.centre[third])
            if away > across.radius * (1 + 1e-9):
                yield path
                path = []
                continue
            at[along.axis] = across.centre[along.axis] + sign * math.sqrt(max(0.0, across.radius**2 - away**2))
            path.append((at[0], at[1], at[2]))
        yield path


def seen(views: Views, view: str, its: Iterable[Sequence[Spot]]) -> list[list[Place]]:
    """Where a view shows some paths in space."""
    frame = FRAMES[view]
    return [[(views.place(view, frame.right, it[frame.right]), views.place(view, frame.up, it[frame.up])) for it in path] for path in its if len(path) > 1]


def crossings_in(views: Views) -> Iterator[Crossing]:
    """All pairs of rounds of two main views whose cylinders reach each other, wherever they end."""
    rounds = [(view, one) for view, one in views.rounds if view in VIEWS]
    for a, b in itertools.combinations(rounds, 2):
        if FRAMES[a[0]].sight != FRAMES[b[0]].sight:
            one, other = sorted((a, b), key=lambda it: it[1].radius)
            first, second = (cylinder_of(views, *it) for it in (one, other))
            third = 3 - first.axis - second.axis
            if abs(first.centre[third] - second.centre[third]) < first.radius + second.radius:
                yield Crossing(one, other)


def some(places: Sequence[Place]) -> list[Place]:
    """Some places of a curve, with its ends; of a straight one also between these."""
    its = smoothed(places) if len(places) > 2 else [(places[0][0] + share / 4 * (places[-1][0] - places[0][0]), places[0][1] + share / 4 * (
        places[-1][1] - places[0][1])) for share in range(5)]
    return [its[at * (len(its) - 1) // (LOOKED_AT - 1)] for at in range(LOOKED_AT)]


class Meeting:
    """The crossings of a sheet, and where its views show them."""

    def __init__(self, views: Views) -> None:
        self.views = views
        self.its = list(crossings_in(views))
        self.near = min(NEAR, SHARE * max((box[at + 2] - box[at] for box in views.boxes.values() for at in (0, 1)), default=0.0))
        self.shown: dict[tuple[int, str], list[list[Place]]] = {}

    def paths(self, number: int, view: str) -> list[list[Place]]:
        """Where a view shows a crossing, from aside of both axes."""
        if (number, view) not in self.shown:
            one, other = (cylinder_of(self.views, *it) for it in self.its[number].both)
            is_third = FRAMES[view].sight == 3 - one.axis - other.axis
            self.shown[number, view] = seen(self.views, view, paths(one, other)) if is_third else []
        return self.shown[number, view]

    def of(self, view: str, places: Sequence[Place]) -> tuple[Crossing, ...]:
        """The crossings that a view shows along a curve."""
        its = some(places)
        return tuple(one for number, one in enumerate(self.its) if all(any(is_on(it, path, self.near) for path in self.paths(number, view)) for it in its))

    def meant(self, view: str, places: Sequence[Place]) -> Crossing | None:
        """The crossing that a curve is likely meant for, though it isn't where that is."""
        its, best, least = some(places), None, 1.0
        for number, one in enumerate(self.its):
            shown = self.paths(number, view)
            if shown:
                far = max(min(off(it, a, b) for path in shown for a, b in itertools.pairwise(path)) for it in its) / (MEANT * one.one[1].radius)
                best, least = (one, far) if far < least else (best, least)
        return best


# ---- what of a sheet is of crossings

def view_of(views: Views, places: Sequence[Place]) -> str | None:
    return next((view for view, box in views.boxes.items() if holds(box, box_of(places), OF_ONE * views.tolerance)), None)


def curve_of(views: Views, hidden: bool, places: Sequence[Place], source: Source) -> Curve | None:
    view = view_of(views, places)
    return None if view is None else Curve(view, hidden, tuple(places), source)


def may_cross(edge: Edge, noise: float, near: float) -> bool:
    """Whether an edge may be of a crossing: an oblique one, or a short piece of a spline."""
    return not is_straight(edge, noise) or edge.source.kind == "SPLINE" or math.dist(edge.start, edge.end) < TINY * near / NEAR


def sampled(arc: Arc) -> list[Place]:
    return [arc.at(arc.start + arc.sweep * at / 16) for at in range(17)]


def is_loose(arc: Arc) -> bool:
    """Whether an arc isn't drawn in whole quarters."""
    return any(min(it % 90, -it % 90) > 0.01 for it in (arc.start, arc.start + arc.sweep))


class Parted(NamedTuple):
    """A sheet's edges, arcs and curves without what is of crossings, which is apart, and which edges that are."""

    edges: list[Edge]
    gone: list[Edge]
    arcs: list[Arc]
    unread: list[Unread]
    met: Met
    meeting: Meeting


def parted(views: Views, edges: Sequence[Edge], arcs: Sequence[Arc], unread: Sequence[Unread]) -> Parted:
    """What of a sheet is where rounds of two views meet: curves; arcs that are none of whole quarters; oblique edges; and pieces of splines that are
    straight by themselves."""
    meeting, found = Meeting(views), list[tuple[Curve, tuple[Crossing, ...]]]()

    def is_met(hidden: bool, places: Sequence[Place], source: Source) -> bool:
        curve = curve_of(views, hidden, places, source) if meeting.its and len(places) > 1 else None
        its = meeting.of(curve.view, curve.places) if curve else ()
        found.extend([(curve, its)] if curve and its else [])
        return bool(its)

    noise = OF_ONE * views.tolerance
    left = [it for it in unread if not (it.places and is_met(it.hidden, it.places, it.source))]
    arcs = [it for it in arcs if not (is_loose(it) and is_met(it.hidden, sampled(it), it.source))]
    gone = [it for it in edges if may_cross(it, noise, meeting.near) and is_met(it.hidden, (it.start, it.end), it.source)]
    return Parted([it for it in edges if it not in gone], gone, arcs, left, Met(tuple(it for it, _ in found), tuple(its for _, its in found)), meeting)


def with_meaning(unread: Sequence[Unread], parts: Parted) -> list[Unread]:
    """What can't be read, with which crossing a curve is likely meant for."""
    result: list[Unread] = []
    for it in unread:
        view = view_of(parts.meeting.views, it.places) if it.places else None
        meant = parts.meeting.meant(view, it.places) if view else None
        result.append(it._replace(why=f"is none of a round: it looks like the curve {meant}, and isn't just there") if meant else it)
    return result
