"""What a view draws between two columns along its sight, beside each other, by recon's own rule; and what a sheet draws at a place.

Two columns draw a visible line where their first full depths differ, a hidden one where other depths do, and nothing where they are equal. The rule
holds along arcs as along lines."""
import enum
import math
from collections.abc import Iterable, Sequence

from ..dxf.drawing import Place
from ..dxf.reader import Arc, Edge
from .features import Given
from .rounds import is_level, is_straight

# How far a place may lie from a line or an arc that is drawn there, in the drawing's unit.
NOISE = 2.5e-3


class Style(enum.Enum):
    """What is drawn along a stretch: nothing, a hidden edge or a visible one."""

    NOTHING = "nothing"
    DASHED = "dashed"
    SOLID = "solid"


class Along(enum.Enum):
    """What a place lies upon: a level line, an upright one, or an arc."""

    LEVEL = 0
    UPRIGHT = 1
    ARC = 2


def style_between(one: Sequence[bool], other: Sequence[bool]) -> Style:
    """What two columns draw, each as whether it is full at each depth, from the viewer on."""
    if list(one) == list(other):
        return Style.NOTHING
    firsts = [next((depth for depth, full in enumerate(column) if full), None) for column in (one, other)]
    return Style.SOLID if firsts[0] != firsts[1] else Style.DASHED


def styles_at(given: Given, view: str, place: Place, along: Along) -> frozenset[Style]:
    """What the sheet draws at a place of a view. Where a line was left out as a tangent edge, also what it draws with that: the line may be an edge
    of something else too."""
    edges = given.lines.get(view, [])
    if along is Along.ARC:
        arcs = [arc.hidden for arc in given.arcs.get(view, []) if is_on_arc(arc, place)]
        return frozenset({named([*arcs, *(edge.hidden for edge in edges if not is_straight(edge, NOISE) and is_on_oblique(edge, place))])})
    left = [it.edge() for it in given.smooth if it.view == view]
    return frozenset(named(edge.hidden for edge in its if is_on_straight(edge, place, along)) for its in (edges, [*edges, *left]))


def named(hidden: Iterable[bool]) -> Style:
    """The style of lines that lie upon each other: a visible one hides the others."""
    its = list(hidden)
    return Style.NOTHING if not its else Style.DASHED if all(its) else Style.SOLID


def is_on_arc(arc: Arc, place: Place) -> bool:
    angle = math.degrees(math.atan2(place[1] - arc.centre[1], place[0] - arc.centre[0]))
    return abs(math.dist(arc.centre, place) - arc.radius) <= NOISE and (angle - arc.start) % 360 <= arc.sweep


def is_on_straight(edge: Edge, place: Place, along: Along) -> bool:
    """Whether a place lies upon a level or upright line of the same way."""
    way = along.value
    return (is_straight(edge, NOISE) and is_level(edge) == (along is Along.LEVEL) and abs(edge.start[1 - way] - place[1 - way]) <= NOISE
            and min(edge.start[way], edge.end[way]) - NOISE <= place[way] <= max(edge.start[way], edge.end[way]) + NOISE)


def is_on_oblique(edge: Edge, place: Place) -> bool:
    (a, b), (c, d) = edge.start, edge.end
    length = math.dist(edge.start, edge.end)
    off = abs((c - a) * (place[1] - b) - (d - b) * (place[0] - a)) / length
    share = ((place[0] - a) * (c - a) + (place[1] - b) * (d - b)) / length**2
    return off <= NOISE and -NOISE / length <= share <= 1 + NOISE / length
