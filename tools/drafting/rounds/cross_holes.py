"""Holes and bosses that cross rounds of other views: a port into a bore, a set screw's hole through a hub, a pin's through a shaft. Where two
rounds meet (`crossings.py`) the narrower one is taken off as a whole, as `holes.py` takes off holes whose squares would meet others: its circle,
its lines in the views from the side, and the curve; and the outlines of other rounds, which it interrupts, are closed. Such a hole is a whole
circle, of which

1. its four lines from the side go over the same stretch. Each may end at the other round, as far as that reaches there: in front of it, since
   it is a bore; then the hole goes on to that bore's axis, which changes nothing. Or within it, since it is a shaft; then it goes right through;
2. no line goes across from one of these lines to the other within that stretch; where one goes across both, or lines of other such holes lie
   upon some of them, it is told that other solids may be missed;
3. within the circle no other circle comes, but those that are taken off too, and where it is seen no visible line;
4. where it interrupts outlines these go on at both sides in one style, and nothing else lies between an outline and the curve: else that is
   told as well;
5. what 3 and 4 of `holes.py` say.

Each solid of the sheet that is made of boxes, rounds that stand free, and such holes, has the hole over just that stretch. Filled, it shows its
sheet without the circle, the lines and the curve, with the outlines closed: nothing is seen through the hole, and beside it nothing but the
curve. So each is found: the hole is put back, and the comparison with the sheet, its curves too, sees the rest.
"""
import itertools
import math
from collections.abc import Iterator, Mapping, Sequence
from typing import NamedTuple

from ..core.messages import Refused
from ..dxf.drawing import VIEWS
from ..dxf.reader import Edge, where
from ..projection.draw import FRAMES
from .holes import Hole, Spans, across, ends_in, is_clear, joined, left_of, sight_in
from .intersections import Crossing, Cylinder, Met, Owned, cylinder_of
from .rounds import OF_ONE, Round, box_of, is_level
from .tangent_edges import Side, Views, shared_axis, sides_of, span_of, within

# How far beyond a shaft a hole through it goes, as a share of the shaft's radius, so that it ends in no point of it.
BEYOND = 0.02
# How many times the noise of other coordinates those of curves' ends have.
CURVED = 3
# Why a hole that crosses a round isn't taken off where nothing else is told.
OFTEN = "it reaches farther than all else, or another circle has its lines from the side upon its lines"
Lines = Mapping[str, list[Edge]]


class Outline(NamedTuple):
    """A line of a hole in a view from its side: the view, where it lies across the axis, from which depth to which it is drawn, where the hole is
    to be cut by that, and where its middle lies within nothing else."""

    side: Side
    at: float
    drawn: Spans
    cut: Spans
    middle: Spans

    @property
    def key(self) -> tuple[str, bool]:
        return self.side.view, self.side.is_upright


class Gap(NamedTuple):
    """A line that closes an outline, in a view, and whether nothing else can have been there."""

    view: str
    edge: Edge
    is_sure: bool


class Made(NamedTuple):
    """A hole on the sheet, in so many pieces, and its lines."""

    pieces: tuple[Hole, ...]
    outlines: tuple[Outline, ...]


# ---- its lines from the side

def end_of(at: float, way: int, spot: Sequence[float], hole: Cylinder, others: Sequence[Cylinder], noise: float) -> tuple[float, float]:
    """Of an end of a line along a hole, from which on it goes upwards or downwards (1, -1): where the hole is cut from, and where its middle begins."""
    found: list[tuple[bool, float, float]] = []
    for other in others:
        across_both, middle = 3 - hole.axis - other.axis, other.centre[hole.axis]
        away, off = abs(hole.centre[across_both] - other.centre[across_both]), spot[across_both] - other.centre[across_both]
        reach, own = (math.sqrt(max(0.0, other.radius**2 - it**2)) for it in (off, away))
        for sign in (1, -1) if abs(off) <= other.radius + noise else ():
            is_before = sign == way
            fits = away + hole.radius <= other.radius + noise if is_before else away < other.radius
            if fits and abs(at - middle - sign * reach) <= CURVED * noise:
                cut = middle if is_before else middle - way * other.radius * (1 + BEYOND)
                found.append((is_before, cut, middle + sign * own))
    return max(found)[1:] if found else (at, at)


def outlines_of(views: Views, view: str, one: Round, others: Sequence[Cylinder], lines: Lines) -> Iterator[Outline]:
    hole, noise = cylinder_of(views, view, one), OF_ONE * views.tolerance
    for side in (it for it in sides_of(views, view, one, lines) if it.view in VIEWS):
        axis = shared_axis(view, side.view)
        assert axis is not None
        for place in (side.at - side.radius, side.at + side.radius):
            spot = list(hole.centre)
            spot[axis] = views.depth(side.view, axis, place)
            drawn = joined([in_order(views.depth(side.view, hole.axis, it) for it in span) for span in side.spans(place, noise)], noise)
            ends = [(end_of(low, 1, spot, hole, others, noise), end_of(high, -1, spot, hole, others, noise)) for low, high in drawn]
            cut = joined([(low[0], high[0]) for low, high in ends], noise)
            yield Outline(side, place, drawn, cut, [(low[1], high[1]) for low, high in ends])


def in_order(its: Iterator[float]) -> tuple[float, float]:
    low, high = sorted(its)
    return low, high


def in_both(one: Spans, other: Spans, noise: float) -> Spans:
    shared = ((max(a, c), min(b, d)) for a, b in one for c, d in other)
    return [(low, high) for low, high in shared if high - low > noise]


def are_alike(one: Spans, other: Spans, noise: float) -> bool:
    return len(one) == len(other) and all(abs(a - b) <= noise for its in zip(one, other) for a, b in zip(*its))


def exactly(views: Views, view: str, one: Round, lines: Lines) -> Round:
    """A circle that splines alone draw, as its lines from the side tell it."""
    centre, radii = list(one.centre), list[float]()
    for side in (it for it in sides_of(views, view, one, lines) if it.view in VIEWS and one.drawn.source.kind in ("SPLINE", "ELLIPSE")):
        axis = shared_axis(view, side.view)
        assert axis is not None
        beside = [side.on(side.at + sign * side.radius, CURVED * OF_ONE * views.tolerance) for sign in (-1, 1)]
        if all(beside):
            low, high = (views.depth(side.view, axis, its[0].start[1 - side.way]) for its in beside)
            centre[0 if axis == FRAMES[view].right else 1] = views.place(view, axis, (low + high) / 2)
            radii.append(abs(high - low) / 2)
    return one._replace(centre=(centre[0], centre[1]), radius=sum(radii) / len(radii)) if radii else one


# ---- what it interrupts

def gaps_of(views: Views, view: str, hole: Cylinder, span: tuple[float, float], lines: Lines) -> Iterator[Gap]:
    """What closes the outlines of other rounds that a hole interrupts."""
    noise = OF_ONE * views.tolerance
    for other_view, other in views.rounds:
        along = FRAMES[other_view].sight
        if other_view not in VIEWS or along == hole.axis:
            continue
        cylinder = cylinder_of(views, other_view, other)
        for seen, across_it in ((it, axis) for it in views.boxes if (axis := shared_axis(other_view, it)) is not None):
            third = 3 - along - across_it
            for corner in sorted({quarter.corner[0 if across_it == FRAMES[other_view].right else 1] for quarter in other.quarters}):
                spot = list(cylinder.centre)
                spot[across_it] = views.depth(other_view, across_it, corner)
                away = abs(spot[3 - along - hole.axis] - hole.centre[3 - along - hole.axis])
                if away < hole.radius - noise and span[0] - noise <= spot[hole.axis] <= span[1] + noise:
                    half = math.sqrt(hole.radius**2 - away**2)
                    ends = in_order(views.place(seen, along, hole.centre[along] + sign * half) for sign in (1, -1))
                    deep = math.sqrt(max(0.0, other.radius**2 - (abs(spot[third] - hole.centre[third]) + hole.radius)**2)) if third != hole.axis else other.radius
                    inner = cylinder.centre[across_it] + math.copysign(deep, spot[across_it] - cylinder.centre[across_it])
                    places = views.place(seen, across_it, spot[across_it]), views.place(seen, across_it, inner)
                    yield from closed(seen, FRAMES[seen].up == along, places, ends, lines[seen], noise)


def closed(view: str, is_upright: bool, places: tuple[float, float], ends: tuple[float, float], lines: Sequence[Edge], noise: float) -> Iterator[Gap]:
    """The line that closes an outline between two ends, where it goes on at one of them or both; the curve reaches from it to another place."""
    way = 1 if is_upright else 0
    on = [it for it in lines if is_level(it) != is_upright and abs(it.start[1 - way] - places[0]) <= noise]
    before = [it for it in on if abs(span_of(it, way)[1] - ends[0]) <= CURVED * noise]
    after = [it for it in on if abs(span_of(it, way)[0] - ends[1]) <= CURVED * noise]
    if not before and not after:
        return
    styles = [all(it.hidden for it in its) for its in (before, after) if its]
    low = span_of(before[0], way)[1] if before else ends[0]
    high = span_of(after[0], way)[0] if after else ends[1]
    at = (before or after)[0].start[1 - way]
    edge = (before or after)[0]._replace(hidden=all(styles), start=(at, low) if way else (low, at), end=(at, high) if way else (high, at))
    inner = in_order(iter(places))
    box = (inner[0], ends[0], inner[1], ends[1]) if way else (ends[0], inner[0], ends[1], inner[1])
    between = any(is_within(it, box, noise) for it in lines if it not in on)
    yield Gap(view, edge, len(styles) == 2 and styles[0] == styles[1] and not between)


def is_within(edge: Edge, box: tuple[float, float, float, float], noise: float) -> bool:
    """Whether an edge comes into a box, and not its sides alone."""
    own = box_of([edge.start, edge.end])
    return all(own[at] < box[at + 2] - noise and box[at] + noise < own[at + 2] for at in (0, 1))


# ---- a hole

def made(views: Views, owned: Owned, partners: Sequence[Owned], clear_of: Sequence[Round], lines: Lines) -> Made | str:
    """A hole on the sheet; or why it isn't taken off."""
    view, one = owned
    if len(one.numbers) != 4:
        return "it isn't drawn as a whole circle"
    is_seen = not all(hidden for *_, hidden in one.pieces)
    if not is_clear(one, clear_of, lines[view] if is_seen else (), views.tolerance):
        return "a line or another circle is seen within it"
    noise, exact = OF_ONE * views.tolerance, exactly(views, view, one, lines)
    hole = cylinder_of(views, view, exact)
    outlines = list(outlines_of(views, view, exact, [cylinder_of(views, *it) for it in partners], lines))
    if lacking := next((it for it in outlines if not it.drawn), None):
        return f"{lacking.side.view} has no line along it at {'x' if lacking.side.is_upright else 'y'} {lacking.at:.6g}"
    shared, middles = outlines[0].cut, outlines[0].middle
    for it in outlines[1:]:
        shared, middles = in_both(shared, it.cut, noise), in_both(middles, it.middle, noise)
    is_open = not all(are_alike(it.cut, shared, CURVED * noise) for it in outlines)
    pieces: list[Hole] = []
    for low, high in shared:
        inner = in_both(middles, [(low, high)], noise)
        ways = [it for line in outlines for it in ends_across(line, views, (low, high), [cylinder_of(views, *it) for it in partners], noise)]
        if any(ways):
            return "a line goes across it, where it may end"
        if not inner:
            return "its lines from the side are nowhere drawn side by side"
        gaps = list(gaps_of(views, view, hole, (low, high), lines))
        is_sure = not is_open and not ways and all(it.is_sure for it in gaps)
        left = tuple(it for side in sides_of(views, view, exact, lines) for it in left_of(side, views)) if not pieces else ()
        first, last = max(inner, key=lambda it: it[1] - it[0])
        middle = first + (last - first) / 4, last - (last - first) / 4
        pieces.append(Hole(view, one, low, high, left, not is_sure, exact, middle, tuple((it.view, it.edge) for it in gaps)))
    return Made(tuple(pieces), tuple(outlines)) if pieces else "its lines from the side don't go over the same depths"


def ends_across(line: Outline, views: Views, span: tuple[float, float], others: Sequence[Cylinder], noise: float) -> Iterator[bool]:
    """Of each line that goes across a hole within a stretch whether it ends at a line of the hole; none at the axis of a round that it crosses,
    where that may have its seam and an end of the hole changes nothing."""
    drawn = [it for it in line.drawn if span[0] - noise <= it[0] and it[1] <= span[1] + noise]
    axes = [place for other in others for place in ends_in(line.side, views, (other.centre[sight_in(line.side)],) * 2)]
    rest = [it for it in line.side.lines if not any(abs(it.start[line.side.way] - at) <= noise and abs(it.end[line.side.way] - at) <= noise for at in axes)]
    if drawn:
        yield from across(line.side._replace(lines=rest), noise, *ends_in(line.side, views, (drawn[0][0], drawn[-1][1])))


# ---- all of them

class Taken(NamedTuple):
    """The holes that are taken off, by their circles, and why others aren't."""

    holes: dict[Owned, Made]
    causes: dict[Owned, str]


def crossed_holes(views: Views, crossings: Sequence[Crossing], gone: Sequence[Round]) -> tuple[list[Hole], dict[Owned, str]]:
    """The holes that cross other rounds and are taken off, but for circles that are taken as something else; and why others aren't."""
    known = {(view, one.centre, one.radius): (view, one) for view, one in views.rounds}
    crossings = [Crossing(*(known[view, one.centre, one.radius] for view, one in it.both)) for it in crossings]
    lines = {view: within(views, view) for view in views.boxes} if crossings else {}
    its, noise = Taken({}, dict.fromkeys(((view, one) for view, one in views.rounds if one in gone), "it has a cone at its end")), OF_ONE * views.tolerance
    narrow = [one for crossing in crossings for _, one in ([crossing.one, crossing.other] if is_even(crossing, noise) else [crossing.one])]

    def take(owned: Owned) -> bool:
        if owned not in its.holes and owned not in its.causes:
            view, one = owned
            partners = [it for crossing in crossings if owned in crossing.both for it in crossing.both if it != owned]
            clear_of = [other for at, other in views.rounds if at == view and other is not one and other not in narrow]
            found = made(views, owned, partners, clear_of, lines)
            if isinstance(found, str):
                its.causes[owned] = found
            else:
                its.holes[owned] = found
                for gap_view, edge in (gap for it in found.pieces for gap in it.gaps):
                    lines[gap_view].append(edge)
        return owned in its.holes

    for crossing in sorted(crossings, key=lambda it: it.one[1].radius):
        if not (is_even(crossing, noise) and crossing.other in its.holes) and not take(crossing.one) and is_even(crossing, noise):
            take(crossing.other)
    more = True
    while more:
        # What has its lines upon those of such a hole goes with it.
        more = any([take(owned) for owned in views.rounds if owned[0] in VIEWS and len(owned[1].numbers) == 4 and owned not in its.holes
                    and owned not in its.causes and any(are_in_line(views, owned, other, lines, noise) for other in list(its.holes))])
    drop_uncovered(its, noise)
    return [piece for one in its.holes.values() for piece in one.pieces], its.causes


def is_even(crossing: Crossing, noise: float) -> bool:
    """Whether two rounds that cross are as wide as each other."""
    return abs(crossing.one[1].radius - crossing.other[1].radius) <= noise


def are_in_line(views: Views, one: Owned, other: Owned, lines: Lines, noise: float) -> bool:
    """Whether two circles of a view have lines from the side in common."""
    places = [[(side.view, side.at + sign * side.radius) for side in sides_of(views, *it, lines) for sign in (1, -1)] for it in (one, other)]
    return one[0] == other[0] and any(a[0] == b[0] and abs(a[1] - b[1]) <= noise for a, b in itertools.product(*places))


def drop_uncovered(its: Taken, noise: float) -> None:
    """Drops holes of which some line goes on where neither they nor others in line with them are."""
    while True:
        every = [(line, piece) for one in its.holes.values() for line in one.outlines for piece in one.pieces]
        for owned, one in its.holes.items():
            odd = next((line for line in one.outlines for low, high in line.drawn if not any(
                a - CURVED * noise <= low and high <= b + CURVED * noise for a, b in joined(
                    [(piece.low, piece.high) for other, piece in every if other.key == line.key and abs(other.at - line.at) <= noise], noise))), None)
            if odd:
                its.causes[owned] = f"in {odd.side.view} its line at {'x' if odd.side.is_upright else 'y'} {odd.at:.6g} is drawn where others of its lines aren't"
                del its.holes[owned]
                break
        else:
            return


def check_crossings(path: str | None, met: Met, taken: Sequence[Hole], causes: Mapping[Owned, str]) -> None:
    """Refuses a curve where two rounds cross of which neither is taken off."""
    owned = {(it.view, it.one.centre, it.one.radius) for it in taken}
    for curve, its in zip(met.curves, met.its):
        if not any((view, one.centre, one.radius) in owned for it in its for view, one in it.both):
            why = next((why for (view, one), why in causes.items() if (view, one.centre, one.radius) == (its[0].one[0], *its[0].one[1][:2])), OFTEN)
            raise Refused(f"in {curve.view} a {where(curve.source, path)} is the curve {its[0]}, and the narrower one isn't taken off: {why}")
