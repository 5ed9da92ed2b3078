"""Tangent edges: lines of a sheet that stand where a round goes over into a plane, or are a cylinder's seam. TechDraw draws them unless it
is told not to, draughtsmen mostly don't. Such a line lies along a round's axis, at its centre's place, in a view that sees it from its
side, and beside it, a radius away, a line of the round's corner is drawn. Whether it is one isn't told by the sheet: so a sheet has
several readings, each without some of these lines, the likeliest first, and what comes of each is compared with the sheet.
"""
import itertools
from collections import defaultdict
from collections.abc import Iterable, Iterator, Mapping, Sequence
from typing import NamedTuple, TypeVar

from ..dxf.reader import Box, Edge
from ..projection.draw import FRAMES
from ..sheet.groups import holds
from .features import Stretch
from .rounds import BESIDE, OF_ONE, Round, box_of, is_level, is_straight

T = TypeVar("T")
# A round's view and radius: those of one view and radius are made by one step, as a rule.
Owner = tuple[str, float]
Left = tuple[tuple[Stretch, bool], ...]
# The most readings of one kind, and the most of all.
MOST_PLAIN, MOST_EAGER, MOST_INNER, MOST_SPANS, MOST = 120, 20, 40, 8, 250


class Reading(NamedTuple):
    """Which stretches are left out of a sheet, each alone or with what lies under it; whether all ends of lines on rounds are moved to
    the squares; of which rounds the quarters are squared off to their centres; between which places these are given smooth edges; and
    where rounds touch walls of their own height."""

    left: Left = ()
    is_eager: bool = False
    inner: tuple[Owner, ...] = ()
    span: int | None = None
    contacts: tuple[Stretch, ...] = ()


class Views(NamedTuple):
    """The views' boxes on the sheet, its lines, and the rounds of each view; and whether all views are drawn in a mirror, x turned round,
    since the side view is the left one."""

    boxes: Mapping[str, Box]
    lines: Sequence[Edge]
    rounds: Sequence[tuple[str, Round]]
    tolerance: float
    mirrored: bool

    def depth(self, view: str, axis: int, place: float) -> float:
        """How far along an axis of space, from the part's least corner on, a place of a view lies."""
        return place_along(view, self.boxes[view], axis, place, False, self.mirrored)

    def place(self, view: str, axis: int, depth: float) -> float:
        """Where in a view a place of the part lies along an axis."""
        return place_along(view, self.boxes[view], axis, depth, True, self.mirrored)


class Side(NamedTuple):
    """A round as a view sees it from its side: where its centre and its corners lie across the axis, with the lines of that view."""

    view: str
    is_upright: bool
    at: float
    radius: float
    lines: list[Edge]

    @property
    def way(self) -> int:
        return 1 if self.is_upright else 0

    def on(self, at: float, noise: float) -> list[Edge]:
        """The lines of the view that lie along the axis at a place."""
        return [it for it in self.lines if is_level(it) != self.is_upright and abs(it.start[1 - self.way] - at) <= noise]

    def spans(self, at: float, noise: float) -> list[tuple[float, float]]:
        return sorted(span_of(it, self.way) for it in self.on(at, noise))


def span_of(edge: Edge, way: int) -> tuple[float, float]:
    low, high = sorted((edge.start[way], edge.end[way]))
    return low, high


def place_along(view: str, box: Box, axis: int, value: float, is_turned: bool = False, is_mirrored: bool = False) -> float:
    """How far along an axis of space, from the part's least corner on, a place of a view lies; or, turned, where such a place lies."""
    frame = FRAMES[view]
    at, is_back = (0, frame.right_back != is_mirrored) if frame.right == axis else (1, frame.up_back)
    if is_turned:
        return box[at + 2] - value if is_back else box[at] + value
    return box[at + 2] - value if is_back else value - box[at]


def shared_axis(view: str, other: str) -> int | None:
    """The axis across a round's that both views show, where the other one sees it from its side."""
    own, frame = FRAMES[view], FRAMES[other]
    if own.sight not in (frame.right, frame.up):
        return None
    return own.right if own.right in (frame.right, frame.up) else own.up


def within(views: Views, view: str) -> list[Edge]:
    noise = OF_ONE * views.tolerance
    return [it for it in views.lines if is_straight(it, noise) and holds(views.boxes[view], box_of([it.start, it.end]), noise)]


def sides_of(views: Views, view: str, one: Round, lines: Mapping[str, list[Edge]]) -> Iterator[Side]:
    """A round from its sides."""
    for other in views.boxes:
        axis = shared_axis(view, other)
        if axis is not None:
            centre = one.centre[0 if axis == FRAMES[view].right else 1]
            at = views.place(other, axis, views.depth(view, axis, centre))
            yield Side(other, axis == FRAMES[other].right, at, one.radius, lines[other])


# ---- which lines may be tangent edges

def candidates(views: Views) -> list[Stretch]:
    """The stretches that may be tangent edges or seams, cut where other lines meet them. None is likely one upon which another round has an
    outline."""
    lines, noise = {view: within(views, view) for view in views.boxes}, OF_ONE * views.tolerance
    found: dict[tuple[str, bool, float, float], Stretch] = {}
    owners: dict[tuple[str, bool, float, float], set[Owner]] = defaultdict(set)
    makers: dict[tuple[str, bool, float, float], set[Owner]] = defaultdict(set)
    outlines: dict[tuple[str, bool], list[float]] = defaultdict(list)
    for view, one in views.rounds:
        for side in sides_of(views, view, one, lines):
            outlines[side.view, side.is_upright] += [side.at - one.radius, side.at + one.radius]
            for stretch in stretches_of(side, views):
                key = stretch.view, stretch.is_upright, round(stretch.at, 2), round(stretch.low, 2)
                owners[key].add((view, round(one.radius, 2)))
                makers[key].update([(str(one), one.radius)] if len(one.numbers) < 4 else [])
                found.setdefault(key, stretch)
    return [it._replace(owners=frozenset(owners[key]), likely=0 if any(
        abs(place - it.at) <= noise for place in outlines[it.view, it.is_upright]) else len(makers[key])) for key, it in found.items()]


def stretches_of(side: Side, views: Views) -> Iterator[Stretch]:
    noise, box, way = OF_ONE * views.tolerance, views.boxes[side.view], side.way
    lines = side.on(side.at, noise)
    corners = [side.spans(side.at + sign * side.radius, noise) for sign in (1, -1)]
    ends = (box[0], box[2]) if side.is_upright else (box[1], box[3])
    if not lines or any(abs(side.at - end) < BESIDE * views.tolerance for end in ends):
        return
    stops = {stop for it in lines for stop in span_of(it, way)} | set(crossing(side, side.at, views.tolerance))
    for low, high in itertools.pairwise(sorted(stops)):
        middle = (low + high) / 2
        over = [it.hidden for it in lines if span_of(it, way)[0] <= middle <= span_of(it, way)[1]]
        if high - low > noise and over and any(a <= middle <= b for its in corners for a, b in its):
            yield Stretch(side.view, side.is_upright, side.at, low, high, all(over))


def crossing(side: Side, at: float, tolerance: float) -> list[float]:
    """Where lines of the view meet a line along the axis at a place."""
    way, noise = side.way, BESIDE * tolerance
    return [it.start[way] for it in side.lines if is_level(it) == side.is_upright
            and span_of(it, 1 - way)[0] - noise <= at <= span_of(it, 1 - way)[1] + noise]


# ---- where rounds touch walls

def contacts(views: Views) -> Iterator[tuple[str, Round, Stretch]]:
    """The sides of rounds' squares, by the views and the rounds, along which a line lies from end to end, also of a square of another round, and no
    border of the view: there a boss may touch a wall of its own height, whose edge the squared-off boss hasn't. Of a round that ends at such
    a wall it is half a side."""
    noise = OF_ONE * views.tolerance
    for view, one in views.rounds:
        sides = (Edge(False, end, it.corner, 7, other.drawn.source) for at, other in views.rounds if at == view and other is not one
                 for it in other.quarters for end in it.ends)
        lines = [*within(views, view), *sides]
        box, (x, y) = views.boxes[view], one.centre
        for needed, is_upright, sign in (((0, 3), True, 1), ((1, 2), True, -1), ((0, 1), False, 1), ((3, 2), False, -1)):
            across, along = (x, y) if is_upright else (y, x)
            at = across + sign * one.radius
            ends = [along + one.radius * (1 if number in needed[:1] else -1) for number in needed if number in one.numbers]
            low, high = min([along, *ends]), max([along, *ends])
            is_border = min(abs(at - box[side]) for side in ((0, 2) if is_upright else (1, 3))) <= BESIDE * views.tolerance
            on = [edge for edge in lines if is_level(edge) != is_upright and abs(edge.start[0 if is_upright else 1] - at) <= noise]
            does_end = len(ends) == 1 and not covered(on, is_upright, along - 3 * noise, along + 3 * noise, noise)
            if (len(ends) == 2 or does_end) and not is_border and covered(on, is_upright, low, high, noise):
                over = [edge.hidden for edge in on if span_of(edge, is_upright)[0] <= (low + high) / 2 <= span_of(edge, is_upright)[1]]
                yield view, one, Stretch(view, is_upright, at, low, high, all(over))


def covered(edges: Iterable[Edge], is_upright: bool, low: float, high: float, noise: float) -> bool:
    """Whether edges of one line cover a stretch of it."""
    for a, b in sorted(span_of(edge, is_upright) for edge in edges):
        low = max(low, b) if a <= low + noise else low
    return low >= high - noise


# ---- lines without some stretches

def without(edges: Sequence[Edge], left: Iterable[tuple[Stretch, bool]], tolerance: float) -> list[Edge]:
    """The edges without some stretches: of their own style, or of both."""
    result = list(edges)
    for stretch, both in left:
        result = [it for edge in result for it in without_one(edge, stretch, both, tolerance)]
    return result


def without_one(edge: Edge, stretch: Stretch, both: bool, tolerance: float) -> Iterator[Edge]:
    """What is left of an edge."""
    way = 1 if stretch.is_upright else 0
    low, high = span_of(edge, way)
    is_on = is_level(edge) != stretch.is_upright and all(abs(end[1 - way] - stretch.at) <= OF_ONE * tolerance for end in (edge.start, edge.end))
    is_beside = low >= stretch.high - tolerance or high <= stretch.low + tolerance
    if not is_on or is_beside or not both and edge.hidden != stretch.hidden:
        yield edge
        return
    for a, b in ((low, min(high, stretch.low)), (max(low, stretch.high), high)):
        if b - a > OF_ONE * tolerance:
            at = edge.start[1 - way]
            yield edge._replace(start=(at, a) if way else (a, at), end=(at, b) if way else (b, at))


# ---- readings

def subsets(its: Sequence[T], most: int) -> Iterator[tuple[T, ...]]:
    """All subsets of few, the greatest first; of more those that lack or have two at most."""
    count = len(its)
    sizes = range(count, -1, -1) if count <= most else sorted({count, count - 1, count - 2, 1, 2}, reverse=True)
    for size in sizes:
        yield from itertools.combinations(its, size)


def lefts(found: Sequence[Stretch]) -> Iterator[Left]:
    """Which stretches are left out, the likeliest first: all solid ones, and what lies dashed under them stays; none; all with what lies
    under them; then those of some kinds of rounds; then those of some lines; then some."""
    solid = [it for it in found if not it.hidden]
    yield tuple((it, False) for it in solid)
    yield ()
    for its, both in ((found, True), (solid, True), (found, False)):
        yield tuple((it, both) for it in its)
    yield from likely_lefts(found)
    for some in subsets(sorted({owner for it in found for owner in it.owners}), 4):
        for its, both in ((found, True), (solid, False)):
            yield tuple((it, both) for it in its if it.owners & set(some))
    for its, both in ((solid, False), (found, True)):
        lines: dict[tuple[str, bool, float], list[Stretch]] = defaultdict(list)
        for it in its:
            lines[it.view, it.is_upright, round(it.at, 2)].append(it)
        for chosen in subsets(list(lines.values()), 5):
            yield tuple((it, both) for line in chosen for it in line)
    for its, both in ((solid, False), (found, True)):
        for few in subsets(its, 6):
            yield tuple((it, both) for it in few)


def likely_lefts(found: Sequence[Stretch]) -> Iterator[Left]:
    """All solid ones, and dashed ones that are likely tangent edges; what lies dashed under them goes too where that is likely one of another
    round. Then one line otherwise, or one stretch of a line that has several: without what lies under it, or with that, or not at all."""
    likely = tuple((it, it.likely > 1) for it in found if not it.hidden or it.likely)
    yield likely
    lines: dict[tuple[str, bool, float], list[Stretch]] = defaultdict(list)
    for it, _ in likely:
        lines[it.view, it.is_upright, round(it.at, 2)].append(it)
    for some in (*lines.values(), *([it] for its in lines.values() if len(its) > 1 for it in its)):
        yield tuple((it, both != (it in some)) for it, both in likely)
        yield tuple((it, both) for it, both in likely if it not in some)


def each_once(its: Iterable[Left], most: int) -> Iterator[Left]:
    seen: set[frozenset[tuple[object, ...]]] = set()
    for left in its:
        key = frozenset((*it[:5], both) for it, both in left)
        if key not in seen:
            seen.add(key)
            yield left
        if len(seen) >= most:
            return


def with_inner(found: Sequence[Stretch]) -> Iterator[Reading]:
    """Readings in which the quarters of one or two kinds of rounds are squared off to their centres, whose smooth edges stay."""
    kinds = sorted({owner for it in found for owner in it.owners})
    for some in itertools.chain.from_iterable(itertools.combinations(kinds, size) for size in (1, 2)):
        for both in (False, True):
            yield Reading(tuple((it, both) for it in found if not it.owners & set(some) and (both or not it.hidden)), inner=some)


def with_spans(found: Sequence[Stretch], kinds: Sequence[Owner]) -> Iterator[Reading]:
    """Readings in which such quarters are given smooth edges that the sheet doesn't draw, between some places."""
    solid = [it for it in found if not it.hidden]
    for some in itertools.chain.from_iterable(itertools.combinations(kinds, size) for size in (1, 2)):
        for span in range(MOST_SPANS):
            yield Reading(tuple((it, False) for it in solid if not it.owners & set(some)), inner=some, span=span)


def with_contacts(plain: Sequence[Left], touching: Sequence[Stretch]) -> Iterator[Reading]:
    """Readings in which rounds touch no wall of their own height, or walls at all these stretches; and then at some of them."""
    ways = dict.fromkeys(((), tuple(touching)))
    yield from (Reading(left, contacts=some) for left in plain for some in ways)
    yield from (Reading(left, contacts=some) for left in plain for some in subsets(touching, 4) if some not in ways)


def readings(found: Sequence[Stretch], kinds: Sequence[Owner], touching: Sequence[Stretch], has_bare_ends: bool) -> tuple[list[Reading], int]:
    """All readings that are tried, the likeliest first; and how many of them but leave lines out. The others change more, and are tried where
    nothing comes of those: but where lines end upon rounds, and nowhere else, moving them is as likely as to leave these lines out."""
    lines = list(each_once(lefts(found), MOST_PLAIN))
    plain = list(itertools.islice(with_contacts(lines, touching), MOST_PLAIN))
    eager = [Reading(left, True) for left in lines[:MOST_EAGER]]
    many = list(eager_first(plain, eager)) if has_bare_ends else [*plain, *eager]
    count = len(many) if has_bare_ends else len(plain)
    many += [*itertools.islice(with_inner(found), MOST_INNER), *with_spans(found, kinds)]
    return many[:MOST], count


def eager_first(plain: Sequence[Reading], eager: Sequence[Reading]) -> Iterator[Reading]:
    """The plain readings, and before the first one that leaves the same lines out each eager one."""
    rest = list(eager)
    for one in plain:
        if rest and rest[0].left == one.left:
            yield rest.pop(0)
        yield one
    yield from rest


def kinds_of(rounds: Iterable[tuple[str, Round]]) -> list[Owner]:
    """The views and radii of quarters that stand by themselves and are cut by no wall."""
    return sorted({(view, round(one.radius, 2)) for view, one in rounds if len(one.numbers) == 1 and not one.cuts})


# ---- smooth edges that the sheet doesn't draw

def added(views: Views, reading: Reading) -> list[Edge]:
    """The smooth edges of the quarters that a reading squares off to their centres, where the sheet draws none: beside the lines of their
    corners, between two places where lines meet these in both views, the longest first."""
    if reading.span is None:
        return []
    lines = {view: within(views, view) for view in views.boxes}
    return [edge for view, one in views.rounds if (view, round(one.radius, 2)) in reading.inner and len(one.numbers) == 1
            for edge in added_to(views, view, one, lines, reading.span)]


def added_to(views: Views, view: str, one: Round, lines: Mapping[str, list[Edge]], number: int) -> Iterator[Edge]:
    sides = [side for side in sides_of(views, view, one, lines) if side.view in ("FRONT", "TOP", "SIDE")]
    places = [corner_beside(side, view, one, views) for side in sides]
    if len(sides) < 2:
        return
    zeros = [views.boxes[side.view][side.way] for side in sides]
    stops = [{round(at - zero, 2) for at in crossing(side, place, views.tolerance)} for side, place, zero in zip(sides, places, zeros)]
    spans = sorted(itertools.combinations(sorted(stops[0] & stops[1]), 2), key=lambda it: it[0] - it[1])
    if not spans:
        return
    low, high = spans[min(number, len(spans) - 1)]
    for side, place, zero in zip(sides, places, zeros):
        beside = side.on(place, OF_ONE * views.tolerance)
        over = [it.hidden for it in beside if span_of(it, side.way)[0] <= zero + (low + high) / 2 <= span_of(it, side.way)[1]]
        if over and not side.on(side.at, OF_ONE * views.tolerance):
            stretch = Stretch(side.view, side.is_upright, side.at, zero + low, zero + high, all(over))
            yield stretch.edge()._replace(source=beside[0].source)


def corner_beside(side: Side, view: str, one: Round, views: Views) -> float:
    """Where the corner of a round of one quarter lies across its axis in a view from its side."""
    axis = shared_axis(view, side.view)
    assert axis is not None
    corner = one.quarters[0].corner[0 if axis == FRAMES[view].right else 1]
    return views.place(side.view, axis, views.depth(view, axis, corner))
