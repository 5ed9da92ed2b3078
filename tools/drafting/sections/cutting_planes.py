"""Planes of cutting-plane lines: in which view each is drawn, where it cuts the part, and from which view its arrows look.

The arrows at the two ends of such a line say on which side one stands. The stroke of the line is at an arrow's tip, as ISO 128 draws it,
or where its shaft begins, as ASME Y14.2 does. A line that is bent, ends within a view, or has other arrows than these two, is of a
section of several planes or of a part of the view, and is refused by its name.
"""
import math
from collections.abc import Iterator, Mapping, Sequence
from typing import NamedTuple

from ..core.messages import Refused
from ..dxf.drawing import Place
from ..dxf.reader import Edge
from ..projection.draw import FRAMES
from ..sheet.groups import Group
from .cutting_plane_marks import Mark, distance

# By how much an arrow may lie off a level or an upright line, as a part of its length; and how far from the arrow the stroke of
# its line may be, in heights of its letter.
STRAIGHT, NEAR = 0.1, 6


class Plane(NamedTuple):
    """The plane of a cutting-plane line: the view that the line is drawn in, and whether it is upright there; the view that looks as its arrows
    do; and its coordinate on that view's sight axis, from the part's least one on."""

    view: str
    is_upright: bool
    looks: str
    at: float


class End(NamedTuple):
    """One end of a cutting-plane line: the way of its arrow, to the right or upwards; whether the line is upright there, at which coordinate
    across it, and how far along it stroke and arrow go."""

    mark: Mark
    way: Place
    is_upright: bool
    at: float
    low: float
    high: float
    stroke: Edge

    @property
    def across(self) -> int:
        return 0 if self.is_upright else 1


def way_of(tail: Place, tip: Place) -> Place | None:
    """The way of an arrow, where that is level or upright."""
    width, height = tip[0] - tail[0], tip[1] - tail[1]
    if min(abs(width), abs(height)) > STRAIGHT * max(abs(width), abs(height)) or tip == tail:
        return None
    return (math.copysign(1, width), 0.0) if abs(width) > abs(height) else (0.0, math.copysign(1, height))


def told(place: Place) -> str:
    return f"{place[0]:.6g}, {place[1]:.6g}"


def goes(edge: Edge, across: int, tolerance: float) -> bool:
    """Whether an edge has one coordinate of this axis, and has some length."""
    return abs(edge.start[across] - edge.end[across]) <= tolerance and math.dist(edge.start, edge.end) > tolerance


# ---- one end

def end_of(mark: Mark, chains: Sequence[Edge], tolerance: float) -> End:
    """One end of a cutting-plane line, of the strokes and centre lines by its arrow."""
    way = mark.head.points and way_of(*mark.head.points)
    if not mark.head.points or not way:
        raise Refused(f"its arrow at {told(mark.word.place)} is neither level nor upright, or doesn't say whereto: an oblique or aligned section")
    tail, tip = mark.head.points
    across = 0 if way[0] else 1
    shafts = [edge for edge in (*mark.strokes, *chains) if goes(edge, 1 - across, tolerance) and abs(edge.start[1 - across] - tip[1 - across]) <= tolerance
              and min(math.dist(a, b) for a in (edge.start, edge.end) for b in (tail, tip)) <= mark.head.size]
    begins = [tip[across], tail[across], *(end[across] for edge in shafts for end in (edge.start, edge.end))]
    strokes = [edge for edge in (*mark.strokes, *chains) if goes(edge, across, tolerance) and passes(edge, 1 - across, tip, mark.head.size / 2)]
    stroke = min(strokes, key=lambda it: away(it, across, begins), default=None)
    if stroke is None or away(stroke, across, begins) > NEAR * mark.word.high:
        raise Refused(f"no level or upright stroke of its line stands by the arrow at {told(tip)}: an oblique or aligned section")
    along = [tip[1 - across], stroke.start[1 - across], stroke.end[1 - across]]
    return End(mark, way, across == 0, (stroke.start[across] + stroke.end[across]) / 2, min(along), max(along), stroke)


def passes(edge: Edge, along: int, place: Place, reach: float) -> bool:
    """Whether an edge goes by a place, or ends near it."""
    low, high = sorted((edge.start[along], edge.end[along]))
    return low - reach <= place[along] <= high + reach


def away(edge: Edge, across: int, begins: Sequence[float]) -> float:
    return min(abs(edge.start[across] - it) for it in begins)


# ---- the line between two ends

def ends_of(letter: str, marks: Sequence[Mark], chains: Sequence[Edge], tolerance: float) -> tuple[End, End]:
    """The two ends of a letter's cutting-plane line; refused where it is of no single plane."""
    its = [mark for mark in marks if mark.letter == letter]
    if not its:
        raise Refused(f"no view has a cutting-plane line with arrows and the letter {letter}, so its plane isn't told")
    if len(its) != 2:
        raise Refused(f"the letter {letter} stands at {len(its)} arrow{'s' * (len(its) > 1)}, not at two: several planes with one letter, or a half "
                      "section")
    first, second = (end_of(mark, chains, tolerance) for mark in its)
    if first.is_upright != second.is_upright:
        raise Refused("its arrows go different ways, one level and one upright: an aligned or half section, of two planes")
    if first.way != second.way:
        raise Refused("its arrows point in opposite ways")
    if abs(first.at - second.at) > 3 * tolerance:
        raise Refused(f"its line has its ends at {'xy'[first.across]} = {first.at:.6g} and {second.at:.6g}: an offset section, of several planes")
    if bend := next(bends(first, second, chains, tolerance), None):
        raise Refused(f"its line is bent at {told(bend)}: an offset, aligned or half section, of several planes")
    return first, second


def bends(first: End, second: End, chains: Sequence[Edge], tolerance: float) -> Iterator[Place]:
    """Where centre lines that hang together with the ends of a cutting-plane line leave it, but for the shafts of its arrows."""
    across, along = first.across, 1 - first.across
    low, high = min(first.low, second.low) - tolerance, max(first.high, second.high) + tolerance
    todo = [first.stroke, second.stroke, *(it for it in chains if goes(it, across, tolerance) and abs(it.start[across] - first.at) <= 3 * tolerance
                                           and low <= min(it.start[along], it.end[along]) and max(it.start[along], it.end[along]) <= high)]
    seen = list(todo)
    heads = [end.mark.head for end in (first, second)]
    while todo:
        edge = todo.pop()
        beside = [it for it in chains if not any(it is one for one in (*seen, *todo)) and touch(edge, it, 3 * tolerance)]
        seen, todo = [*seen, *beside], [*todo, *beside]
        off = next((end for end in (edge.start, edge.end) if abs(end[across] - first.at) > 3 * tolerance), None)
        is_shaft = goes(edge, 1 - across, tolerance) and any(head.points and abs(head.points[1][1 - across] - edge.start[1 - across]) <= head.size / 2
                                                             for head in heads)
        is_head = any(all(distance(head.box, end) <= tolerance for end in (edge.start, edge.end)) for head in heads)
        if off and not is_shaft and not is_head:
            yield off


def touch(one: Edge, other: Edge, reach: float) -> bool:
    """Whether two edges have an end in common."""
    return any(math.dist(a, b) <= reach for a in (one.start, one.end) for b in (other.start, other.end))


def plane_of(letter: str, marks: Sequence[Mark], chains: Sequence[Edge], views: Mapping[str, Group], tolerance: float) -> Plane:
    """The plane of a letter's cutting-plane line, which goes through one of the views."""
    first, second = ends_of(letter, marks, chains, tolerance)
    across, along = first.across, 1 - first.across
    low, high = min(first.low, second.low), max(first.high, second.high)
    through = [(abs(low - group.box[along]) + abs(high - group.box[along + 2]), view) for view, group in views.items()
               if group.box[across] < first.at < group.box[across + 2] and low < group.box[along + 2] and high > group.box[along]]
    if not through:
        raise Refused("its line goes through no view, so it cuts nothing")
    view = min(through)[1]
    box, frame = views[view].box, FRAMES[view]
    if low > box[along] + tolerance or high < box[along + 2] - tolerance:
        raise Refused(f"its line ends within {view}: a half section, or one of a part of the view")
    axis, is_back = (frame.right, frame.right_back) if across == 0 else (frame.up, frame.up_back)
    looks_back = (first.way[across] < 0) != is_back
    looks = next(name for name, it in FRAMES.items() if it.sight == axis and it.sight_back == looks_back)
    return Plane(view, first.is_upright, looks, box[across + 2] - first.at if is_back else first.at - box[across])
