"""Curves of a view that are neither lines nor arcs, as places along them: compared by the places of both drawings, each of which has to lie on
something of the other one, in the same style. What other programs write as chords is bent between them as far as they turn."""
import itertools
import math
from collections.abc import Iterator, Sequence
from typing import NamedTuple

from ..dxf.curves import angle_of
from ..dxf.drawing import Place
from ..dxf.reader import Arc, Box, Edge

# How far apart places of two curves are that are one, for sure and at most: files with three decimals, and splines for others, have this noise.
NEAR, NEARLY = 3e-3, 8e-3
# The sharpest turn between two chords of one curve, in radians, and how often chords are halved.
SHARPEST, HALVED = 0.8, 2
# How far a curve may lie beside its chords.
EVEN = 3e-4
# How many places of a curve are looked at, at most.
MOST = 48


class Bend(NamedTuple):
    """A curve of a view: the view, whether it is hidden, and places along it."""

    view: str
    hidden: bool
    places: tuple[Place, ...]


class Panel(NamedTuple):
    """All that is drawn of a view."""

    lines: Sequence[Edge]
    arcs: Sequence[Arc]
    bends: Sequence[Bend]

    def smoothed(self) -> "Smooth":
        its = [(it.hidden, smoothed(it.places)) for it in self.bends]
        return Smooth(self.lines, self.arcs, [(hidden, box_of(places), places) for hidden, places in its])


class Smooth(NamedTuple):
    """The same, with places between those of curves, and the box round each."""

    lines: Sequence[Edge]
    arcs: Sequence[Arc]
    bends: Sequence[tuple[bool, Box, list[Place]]]


def box_of(places: Sequence[Place]) -> Box:
    (left, right), (low, high) = ((min(its), max(its)) for its in zip(*places))
    return left, low, right, high


def off(place: Place, a: Place, b: Place) -> float:
    """How far a place lies from the stretch between two others."""
    (x, y), (right, up) = (place[0] - a[0], place[1] - a[1]), (b[0] - a[0], b[1] - a[1])
    square = right * right + up * up
    share = 0.0 if square == 0 else min(1.0, max(0.0, (x * right + y * up) / square))
    return math.hypot(x - share * right, y - share * up)


def is_on(place: Place, places: Sequence[Place], near: float) -> bool:
    """Whether a place lies on a curve along some others."""
    x, y = place
    return any(min(a[0], b[0]) - near <= x <= max(a[0], b[0]) + near and min(a[1], b[1]) - near <= y <= max(a[1], b[1]) + near and off(place, a, b) <= near
               for a, b in itertools.pairwise(places))


def is_near_box(place: Place, box: Box, near: float) -> bool:
    return all(box[at] - near <= place[at] <= box[at + 2] + near for at in (0, 1))


def is_on_circle(places: Sequence[Place], centre: Place, radius: float, near: float) -> bool:
    return all(abs(math.dist(it, centre) - radius) <= near for it in places)


def arc_along(hidden: bool, places: Sequence[Place], like: Arc) -> Arc:
    """The part of a circle along some places that lie on it, the circle being another arc's."""
    first, middle, last = (angle_of(like.centre, places[at]) for at in (0, len(places) // 2, -1))
    if (middle - first) % 360 > (last - first) % 360:
        first, last = last, first
    sweep = (last - first) % 360 if math.dist(places[0], places[-1]) > NEAR else 360.0
    return like._replace(hidden=hidden, start=first, sweep=sweep)


# ---- between chords

def smoothed(places: Sequence[Place]) -> list[Place]:
    """The places of a curve, and some between them: as far beside the chords as these turn."""
    result = [place for at, place in enumerate(places) if at == 0 or place != places[at - 1]]
    for _ in range(HALVED if len(result) > 2 else 0):
        inner = [curvature(*it) for it in zip(result, result[1:], result[2:])]
        bows = [inner[0], *inner, inner[-1]]
        if max(abs(bow) * math.dist(a, b)**2 for bow, (a, b) in zip(bows, itertools.pairwise(result))) < 8 * EVEN:
            break
        middles = [middle(a, b, (one + other) / 2) for (a, b), one, other in zip(itertools.pairwise(result), bows, bows[1:])]
        result = [it for pair in zip(result, middles) for it in pair] + [result[-1]]
    return result


def curvature(a: Place, b: Place, c: Place) -> float:
    """How much a curve turns to the left for each length at the middle one of three places; nothing at a corner."""
    (x, y), (right, up) = (b[0] - a[0], b[1] - a[1]), (c[0] - b[0], c[1] - b[1])
    turn = math.atan2(x * up - y * right, x * right + y * up)
    return 2 * turn / (math.dist(a, b) + math.dist(b, c)) if abs(turn) < SHARPEST else 0.0


def middle(a: Place, b: Place, bow: float) -> Place:
    """The middle of a chord, moved beside it as far as the curve is bent."""
    share = bow * math.dist(a, b) / 8
    return (a[0] + b[0]) / 2 + share * (b[1] - a[1]), (a[1] + b[1]) / 2 - share * (b[0] - a[0])


# ---- the comparison

def is_on_arc(place: Place, arc: Arc, near: float) -> bool:
    if abs(math.dist(place, arc.centre) - arc.radius) > near:
        return False
    slack = math.degrees(near / arc.radius)
    return (angle_of(arc.centre, place) - arc.start + slack) % 360 <= arc.sweep + 2 * slack


def style_at(place: Place, panel: Smooth, near: float) -> str:
    over = [it.hidden for it in panel.lines if is_on(place, (it.start, it.end), near)]
    over += [it.hidden for it in panel.arcs if is_on_arc(place, it, near)]
    over += [hidden for hidden, box, places in panel.bends if is_near_box(place, box, near) and is_on(place, places, near)]
    return "nothing" if not over else "dashed" if all(over) else "solid"


def looked_at(places: Sequence[Place]) -> list[Place]:
    """The places of a curve that are looked at: none at its ends, which programs cut less exactly."""
    a, b = places[0], places[-1]
    if len(places) == 2:
        return [(a[0] + share / 16 * (b[0] - a[0]), a[1] + share / 16 * (b[1] - a[1])) for share in range(1, 16)]
    inner = [it for it in places[1:-1] if min(math.dist(it, a), math.dist(it, b)) > 2 * NEARLY]
    return inner[::max(1, len(inner) // MOST)]


def differing(told: Panel, made: Panel) -> Iterator[tuple[Place, str, str]]:
    """Where curves of one of two drawings lie on nothing of the other, or on what has another style: the place, and what both have there."""
    both = told.smoothed(), made.smoothed()
    for _, _, places in (*both[0].bends, *both[1].bends):
        for place in looked_at(places):
            sure, most = ([style_at(place, panel, near) for panel in both] for near in (NEAR, NEARLY))
            if not {sure[0], most[0]} & {sure[1], most[1]}:
                yield place, sure[0], sure[1]
