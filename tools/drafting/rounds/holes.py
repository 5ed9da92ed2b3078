"""Plain holes and bosses whose squares would meet those of others, as bolt holes round a wide bore do: they are taken off the sheet and put
back. Such a hole is a whole circle of one style, of which

1. both views from the side draw lines along the axis a radius beside it, at both sides, over just one stretch, the same in both views;
2. no line goes across from one of these lines to the other within that stretch; where one goes across both it is told that other solids
   may be missed;
3. no visible line lies within the circle, and none of another circle's upon its lines from the side;
4. it reaches no farther than what isn't taken off.

An end of it within the stretch would be drawn across; so each solid of the sheet has the circle as a cylinder over just that stretch, as a
hole or a boss. Without it the sheet lacks the circle, these lines, and the ones across its ends where they reach no farther. It is put back
into each solid, where that is full or empty there, which is then compared with the sheet.
"""
import itertools
import math
from collections.abc import Iterator, Mapping, Sequence
from fractions import Fraction
from typing import NamedTuple

from ..dxf.drawing import VIEWS
from ..dxf.reader import Edge
from ..projection.draw import FRAMES
from ..recon.answer import Solid
from ..sheet.groups import holds
from .features import Given, Hole as Told, Stretch
from .restore import Drawn, exact, is_full_in, spot
from .rounds import OF_ONE, Round, box_of, do_meet, is_level
from .tangent_edges import Side, Views, sides_of, span_of, within, without

Spans = list[tuple[float, float]]


class Hole(NamedTuple):
    """A hole or a boss on the sheet: its view and circle, from which depth to which it goes, the lines that go with it, and whether other solids
    may have it otherwise. Of one that crosses other rounds (`crossed.py`) also its circle as its lines from the side tell it, between which depths
    its middle lies within nothing else, and the lines that close the outlines which it interrupts, by their views."""

    view: str
    one: Round
    low: float
    high: float
    left: tuple[Stretch, ...]
    is_open: bool
    exact: Round | None = None
    probe: tuple[float, float] | None = None
    gaps: tuple[tuple[str, Edge], ...] = ()


def holes_of(views: Views, taken: Sequence[Round], crossed: Sequence[Hole] = ()) -> list[Hole]:
    """The holes and bosses that are taken off, with those that cross other rounds, but for circles that are taken as something else."""
    lines = {view: within(views, view) for view in views.boxes}
    for view, edge in (gap for it in crossed for gap in it.gaps):
        lines[view].append(edge)
    found: list[Hole] = list(crossed)
    taken = [*taken, *(it.one for it in crossed)]
    for view, one in views.rounds:
        others = [other for at, other in views.rounds if at == view and other is not one and not any(it.one is other for it in crossed)]
        is_plain = view in VIEWS and len(one.numbers) == 4 and len({hidden for *_, hidden in one.pieces}) == 1 and one not in taken
        if is_plain and any(meet(one, other, views.tolerance) for other in others) and is_clear(one, others, lines[view], views.tolerance):
            sides = list(sides_of(views, view, one, lines))
            spans = [span for side in sides if side.view in VIEWS for span in stretches_of(side, views)]
            if len(spans) == 4 and all(max(abs(a - b) for a, b in zip(it, spans[0])) <= OF_ONE * views.tolerance for it in spans):
                left = tuple(it for side in sides for it in left_of(side, views))
                is_open = any(list(across(side, OF_ONE * views.tolerance, *ends_in(side, views, spans[0]))) for side in sides if side.view in VIEWS)
                found.append(Hole(view, one, *spans[0], left, is_open))
    found = within_rest(found, views, lines)
    return [it for it in found if stands_alone(it, found, views, lines)]


def meet(one: Round, other: Round, tolerance: float) -> bool:
    return any(do_meet(*pair, tolerance) for a in one.quarters for b in other.quarters for pair in ((a, b), (b, a)))


def is_clear(one: Round, others: Sequence[Round], lines: Sequence[Edge], tolerance: float) -> bool:
    """Whether no visible line, and no other circle's, comes into the circle."""
    (x, y), reach = one.centre, one.radius - OF_ONE * tolerance

    def comes_in(edge: Edge) -> bool:
        spans = (span_of(edge, at) for at in (0, 1))
        return math.hypot(*(max(low - at, 0.0, at - high) for (low, high), at in zip(spans, (x, y)))) < reach

    is_crossed = any(abs(math.dist(one.centre, other.centre) - other.radius) < reach for other in others)
    return not is_crossed and not any(not edge.hidden and comes_in(edge) for edge in lines)


def stretches_of(side: Side, views: Views) -> Iterator[tuple[float, float]]:
    """From which depth to which the lines at both sides of a hole go; nothing where these are several, or a line goes across between them."""
    noise = OF_ONE * views.tolerance
    for sign in (1, -1):
        spans = joined(side.spans(side.at + sign * side.radius, noise), noise)
        if len(spans) == 1 and not any(is_own for is_own in across(side, noise, *spans[0])):
            low, high = sorted(views.depth(side.view, sight_in(side), it) for it in spans[0])
            yield low, high


def sight_in(side: Side) -> int:
    """The axis of a hole that is seen from its side."""
    return FRAMES[side.view].up if side.is_upright else FRAMES[side.view].right


def ends_in(side: Side, views: Views, span: tuple[float, float]) -> list[float]:
    """Where two depths lie in a view from the side."""
    return sorted(views.place(side.view, sight_in(side), it) for it in span)


def joined(spans: Sequence[tuple[float, float]], noise: float) -> Spans:
    result: Spans = []
    for low, high in sorted(spans):
        if result and low <= result[-1][1] + noise:
            result[-1] = result[-1][0], max(result[-1][1], high)
        else:
            result.append((low, high))
    return result


def across(side: Side, noise: float, begin: float, end: float) -> Iterator[bool]:
    """Of each line that goes across the whole hole between two places whether it ends at a line of the hole."""
    rows: dict[float, list[tuple[float, float]]] = {}
    for edge in side.lines:
        if is_level(edge) == side.is_upright:
            key = next((at for at in rows if abs(at - edge.start[side.way]) <= noise), edge.start[side.way])
            rows.setdefault(key, []).append(span_of(edge, 1 - side.way))
    least, most = side.at - side.radius, side.at + side.radius
    for spans in (spans for at, spans in rows.items() if begin + noise < at < end - noise):
        yield from (abs(low - least) <= noise or abs(high - most) <= noise for low, high in joined(spans, noise)
                    if low <= least + noise and high >= most - noise)


def left_of(side: Side, views: Views) -> Iterator[Stretch]:
    """What goes with a hole: the lines along it, and those across its ends that reach no farther."""
    noise = OF_ONE * views.tolerance
    low_side, high_side = side.at - side.radius, side.at + side.radius
    for at in (low_side, high_side):
        for low, high in joined(side.spans(at, noise), noise):
            yield Stretch(side.view, side.is_upright, at, low, high, False)
            for end in (low, high):
                rows = [span_of(it, 1 - side.way) for it in side.lines if is_level(it) == side.is_upright and abs(it.start[side.way] - end) <= noise]
                if any(abs(a - low_side) <= noise and abs(b - high_side) <= noise for a, b in joined(rows, noise)):
                    yield Stretch(side.view, not side.is_upright, end, low_side, high_side, False)


def within_rest(holes: Sequence[Hole], views: Views, lines: Mapping[str, list[Edge]]) -> list[Hole]:
    """The holes and bosses that reach no farther than all that isn't taken off: without others the part would be smaller."""
    kept = list(holes)
    for view in views.boxes if holes else ():
        rest = without(lines[view], [(it, True) for hole in holes for it in hole.left if it.view == view], views.tolerance)
        boxes = [box_of([it.start, it.end]) for it in rest]
        boxes += [one.box for at, one in views.rounds if at == view and not any(it.one is one for it in holes)]
        around = box_of([place for box in boxes for place in (box[:2], box[2:])]) if boxes else (0.0, 0.0, 0.0, 0.0)

        def reaches(hole: Hole) -> bool:
            ends = [it.edge() for it in hole.left if it.view == view]
            own = [box_of([it.start, it.end]) for it in ends] + ([hole.one.box] if hole.view == view else [])
            return not all(holds(around, box, OF_ONE * views.tolerance) for box in own)

        kept = [it for it in kept if not reaches(it)]
    return kept


def stands_alone(hole: Hole, holes: Sequence[Hole], views: Views, lines: Mapping[str, list[Edge]]) -> bool:
    """Whether no circle that isn't taken off has its lines from the side upon those of a hole."""
    others = [one for view, one in views.rounds if view == hole.view and not any(it.one is one for it in holes)]
    own = [(side.view, side.at + sign * side.radius) for side in sides_of(views, hole.view, hole.one, lines) for sign in (1, -1)]
    theirs = [(side.view, side.at + sign * side.radius) for one in others for side in sides_of(views, hole.view, one, lines) for sign in (1, -1)]
    return not any(a[0] == b[0] and abs(a[1] - b[1]) <= OF_ONE * views.tolerance for a, b in itertools.product(own, theirs))


def volume_by_pi(solid: Solid, found: Sequence[Drawn], given: Given, unit: int) -> Fraction:
    """The number of pi by which what was taken off changes a solid's volume, once its rounds are rounded back."""
    total = Fraction(0)
    for it in given.holes:
        radius, low, high = (exact(length, unit, given.moved) for length in (it.radius, it.low, it.high))
        share = radius**2 * (high - low)
        total += -share if is_in(solid, found, it, unit) else share
    return total


def is_in(solid: Solid, found: Sequence[Drawn], hole: Told, unit: int) -> bool:
    """Whether a solid that is rounded back is full where a hole's middle is."""
    depth, (x, y) = (hole.low + hole.high) / 2 * unit, (at * unit for at in hole.centre)
    full = is_full_in(solid)[1](spot(hole.view, (x, y), depth))
    over = [layer for it in found if it.one.view == hole.view and it.quarter.is_before(hole.centre, 1e-6) for layer in it.layers]
    return next((not layer.is_full for layer in over if layer.low <= depth <= layer.high), full)
