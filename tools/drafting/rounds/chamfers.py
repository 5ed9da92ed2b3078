"""Oblique edges of one view: corners that are cut off straight, or filled, as a gusset fills one. Such a *chamfer* is squared to one of the
two corners of its box, in the same linetype. Of a solid S of the squared drawing R is made by emptying the triangle between the edge and
that corner in the layers where the corner's inside is full, and by filling it where the inside is empty. This is right both ways where

1. of rounds (`rounds.py`) 1, 2 and 4 hold of the triangle;
2. at each of its ends S turns in all these layers, since what goes on there goes across the corner's side; or S goes straight on in all of
   them, or at one of them goes back along the corner's side and beyond it, as a dovetail does, and in the view from the side nothing else
   lies upon the line of the edge that R has there, which is left out, as that side is.

Then S has the edges that R has in the other views, but for those that are left out: that of the corner lies upon those of the ends. Of 2
the sheet has to show, at each end, a line across the corner's side or along it, away from it or back, or another chamfer's side; and in both views from the side
lines along the sight at both ends, which have a stretch in common. Else an edge is refused: it is oblique in more than one view, or goes on
otherwise. All ways to square the edges of a sheet that this leaves are tried, each with each; where lines or rounds come into a triangle, or
there are more ways, it is told that other solids may be missed; and each solid is compared with the sheet.

Where a line ends upon an oblique edge, and nothing goes on beyond, a wall ends at what that is the edge of: as a step does at the groove that
goes through it. That end is moved to the side of the corner, in the other views too.
"""
import enum
import itertools
import math
from collections.abc import Iterable, Iterator, Mapping, Sequence
from typing import NamedTuple

from ..core.messages import Refused
from ..dxf.drawing import FURTHER, VIEWS, Place
from ..dxf.reader import Edge
from ..geometry.segments import along, off
from ..projection.draw import FRAMES
from ..sheet.groups import holds
from .features import Stretch
from .rounds import BESIDE, OF_ONE, Round, Slant, box_of, covers, is_level, is_on, is_straight
from .tangent_edges import Left, Views, shared_axis, span_of, within, without

# The most ways to square the oblique edges of a sheet that are tried, and that are looked at.
MOST, MOST_TRIED = 64, 4096
Spans = list[tuple[float, float]]


class End(enum.IntEnum):
    """How a wall goes on at an end of a chamfer: across the corner's side, straight on, or back along that side."""

    TURNS, ON, BACK = range(3)


class Chamfer(NamedTuple):
    """An oblique edge: its view, its ends, its pieces of one style, by how far they are along it, and what draws it."""

    view: str
    start: Place
    end: Place
    pieces: tuple[tuple[float, float, bool], ...]
    edges: tuple[Edge, ...]

    @property
    def slants(self) -> tuple[Slant, Slant]:
        return slants_of(self)

    def at(self, share: float) -> Place:
        return self.start[0] + share * (self.end[0] - self.start[0]), self.start[1] + share * (self.end[1] - self.start[1])

    def __str__(self) -> str:
        (a, b), (c, d) = self.start, self.end
        return f"oblique edge from {a:.6g}, {b:.6g} to {c:.6g}, {d:.6g} ({self.edges[0].source})"


class Squared(NamedTuple):
    """A chamfer, the corner to which it is squared, how walls go on at its ends, on the upright and on the level side of the corner, and the
    stretches that are left out then, each alone or with what lies under it."""

    one: Chamfer
    slant: Slant
    ends: tuple[End, End] = (End.TURNS, End.TURNS)
    left: Left = ()


class Move(NamedTuple):
    """The end of a line upon a chamfer, moved along it, to the right or upwards, to a side of the corner."""

    one: Squared
    along: int
    before: float
    after: float


def slants_of(edge: Edge | Chamfer) -> tuple[Slant, Slant]:
    """The two corners to which an oblique edge may be squared."""
    one = Slant((edge.start[0], edge.end[1]), (edge.end[0], edge.start[1]))
    return one, one.across()


# ---- the oblique edges of a view

def joined(edges: Sequence[Edge], noise: float) -> Iterator[list[Edge]]:
    """Oblique edges by the stretches of one line that they cover."""
    lines: list[list[Edge]] = []
    for edge in sorted(edges, key=lambda it: -math.dist(it.start, it.end)):
        same = next((its for its in lines if all(off(end, (its[0].start, its[0].end)) <= noise for end in (edge.start, edge.end))), None)
        if same:
            same.append(edge)
        else:
            lines.append([edge])
    for first, *others in lines:
        group: list[Edge] = []
        reach = -math.inf
        for (low, high), edge in sorted(((span_on(it, first), it) for it in (first, *others)), key=lambda it: it[0]):
            if group and low > reach + noise:
                yield group
                group = []
            group.append(edge)
            reach = max(reach, high)
        yield group


def span_on(edge: Edge, line: Edge) -> tuple[float, float]:
    """From where to where an edge goes along a line."""
    low, high = sorted(along(end, line) for end in (edge.start, edge.end))
    return low, high


def chamfer_of(view: str, edges: Sequence[Edge], noise: float) -> Chamfer:
    """The edges of one stretch as a chamfer, visible over hidden."""
    ends = sorted((end for edge in edges for end in (edge.start, edge.end)), key=lambda it: along(it, edges[0]))
    start, end = ends[0], ends[-1]
    whole = edges[0]._replace(start=start, end=end)
    length = math.dist(start, end)
    spans = [(*span_on(edge, whole), edge.hidden) for edge in edges]
    stops = [0.0]
    for stop in sorted(stop for span in spans for stop in span[:2]):
        stops += [stop] if stops[-1] + noise < stop < length - noise else []
    pieces: list[tuple[float, float, bool]] = []
    for low, high in itertools.pairwise([*stops, length]):
        style = all(hidden for first, last, hidden in spans if first <= (low + high) / 2 <= last)
        last = pieces.pop() if pieces and pieces[-1][2] == style else (low / length, 0.0, style)
        pieces.append((last[0], high / length, style))
    return Chamfer(view, start, end, tuple(pieces), tuple(edges))


def chamfers_of(views: Views, taken: Iterable[Edge]) -> tuple[list[Chamfer], dict[Edge, str]]:
    """The chamfers of a sheet, but for oblique edges that are taken as something else; and why others are none."""
    noise, gone = OF_ONE * views.tolerance, set(taken)
    lines = {view: within(views, view) for view in views.boxes}
    found: list[Chamfer] = []
    causes: dict[Edge, str] = {}
    for view, box in views.boxes.items():
        its = [it for it in views.lines if it not in gone and not is_straight(it, BESIDE * views.tolerance) and holds(box, box_of([it.start, it.end]), noise)]
        for group in joined(its, noise):
            one = chamfer_of(view, group, noise)
            why = cause_in(views, one, lines)
            found += [] if why else [one]
            causes.update({edge: why for edge in group if why})
    alone = [one for one in found if one.view in FURTHER and not twin_of(views, one, found)]
    causes.update({edge: "the view across from this one doesn't draw it" for one in alone for edge in one.edges})
    return [one for one in found if one not in alone], causes


def cause_in(views: Views, one: Chamfer, lines: Mapping[str, list[Edge]]) -> str:
    """Why an oblique edge is no corner that is cut off straight through; nothing where it may be one."""
    if not common_spans(views, one, lines):
        return "the views from its side don't show lines along it at both its ends, side by side"
    if not ways_of(one, Ends(lines[one.view], [it for edge in oblique_beside(views, one) for it in slants_of(edge)], views.tolerance)):
        others = (it for view, it in views.rounds for end in (one.start, one.end) if view == one.view and is_on(it, end, views.tolerance))
        upon = next(others, None)
        return f"it ends upon a {upon}, and not at a corner" if upon else "where it ends no level or upright line goes on away from it"
    return ""


def oblique_beside(views: Views, one: Chamfer) -> list[Edge]:
    """The other oblique edges of its view."""
    noise = OF_ONE * views.tolerance
    return [it for it in views.lines if it not in one.edges and not is_straight(it, noise) and holds(views.boxes[one.view], box_of([it.start, it.end]), noise)]


def common_spans(views: Views, one: Chamfer, lines: Mapping[str, list[Edge]]) -> Spans:
    """From where to where along the sight both main views from the side draw lines at both ends of an oblique edge."""
    sight, noise = FRAMES[one.view].sight, OF_ONE * views.tolerance
    spans: Spans = [(-math.inf, math.inf)]
    for other in (it for it in VIEWS if it in views.boxes):
        axis = shared_axis(one.view, other)
        if axis is None:
            continue
        way = 1 if axis == FRAMES[other].right else 0
        for end in (one.start, one.end):
            place = placed_in(views, one.view, other, axis, end)
            on = [it for it in lines[other] if is_level(it) != bool(way) and abs(it.start[1 - way] - place) <= noise]
            its = [sorted(views.depth(other, sight, it) for it in span_of(edge, way)) for edge in on]
            spans = [(max(a, low), min(b, high)) for a, b in spans for low, high in its]
    return [(low, high) for low, high in spans if high - low > noise and high < math.inf]


def placed_in(views: Views, view: str, other: str, axis: int, place: Place) -> float:
    """Where a place of a view lies along an axis in another view."""
    return views.place(other, axis, views.depth(view, axis, place[0 if FRAMES[view].right == axis else 1]))


def twin_of(views: Views, one: Chamfer, others: Sequence[Chamfer]) -> Chamfer | None:
    """The chamfer of a main view that a further view shows from behind."""
    noise = OF_ONE * views.tolerance
    return next((it for it in others if it.view in VIEWS and it.view != one.view and FRAMES[it.view].sight == FRAMES[one.view].sight and all(
        min(math.dist(seen_from(views, it.view, one.view, end), its) for its in (one.start, one.end)) <= 2 * noise for end in (it.start, it.end))), None)


def seen_from(views: Views, view: str, other: str, place: Place) -> Place:
    """A place of a view in the one across from it."""
    frame = FRAMES[view]
    return placed_in(views, view, other, frame.right, place), placed_in(views, view, other, frame.up, place)


# ---- their corners

class Ends(NamedTuple):
    """What goes on at the ends of oblique edges: the lines of a view, and corners to which others of it are squared."""

    lines: Sequence[Edge]
    others: Sequence[Slant]
    tolerance: float

    def fits(self, slant: Slant, at: int, end: End) -> bool:
        """Whether something goes on so at an end on the upright (0) or on the level side (1) of a corner."""
        if end is End.BACK:
            return self.goes_back(slant, at)
        is_straight_on = end is End.ON
        x, y = slant.ends[at]
        sign = -slant.up if at == 0 else -slant.right
        ways = (sign,) if is_straight_on else (-1, 1)
        is_level_side = (at == 1) == is_straight_on
        beside = [(x + way * 3 * self.tolerance, y) if is_level_side else (x, y + way * 3 * self.tolerance) for way in ways]
        if any(covers(edge, place, self.tolerance) for place in beside for edge in self.lines):
            return True
        return any(math.dist(other.ends[side], (x, y)) <= OF_ONE * self.tolerance and (not is_straight_on or goes_on(other, side) == sign)
                   for other in self.others for side in ([at] if is_straight_on else [1 - at]))


    def goes_back(self, slant: Slant, at: int) -> bool:
        """Whether lines go from an end to its corner and beyond."""
        sign = slant.up if at == 0 else slant.right
        (x, y), off = slant.corner, sign * 3 * self.tolerance
        places = [slant.ends[at], ((slant.ends[at][0] + x) / 2, (slant.ends[at][1] + y) / 2), (x, y + off) if at == 0 else (x + off, y)]
        return all(any(covers(edge, place, self.tolerance) and is_level(edge) == (at == 1) for edge in self.lines) for place in places)


def goes_on(slant: Slant, at: int) -> int:
    """Into which way, upwards or to the right, a side of a corner goes on from its end."""
    return slant.up if at == 0 else slant.right


def ways_of(one: Chamfer, ends: Ends, is_met: bool = False) -> list[Squared]:
    """How a chamfer may be squared. What goes straight on along lines at both ends turns at both with the other corner, which serves where
    nothing is met there."""
    plain, both_on = ends._replace(others=[]), (End.ON, End.ON)
    return [Squared(one, slant, its) for its in itertools.product(End, End) if its != (End.BACK, End.BACK) for slant in one.slants
            if all(ends.fits(slant, at, its[at]) for at in (0, 1)) and (is_met or not (its == both_on and goes_on_plainly(slant, plain)))]


def goes_on_plainly(slant: Slant, plain: Ends) -> bool:
    """Whether lines go straight on at both ends of a corner."""
    return all(plain.fits(slant, at, End.ON) for at in (0, 1))


def views_met(views: Views, main: Sequence[Chamfer], lines: Mapping[str, list[Edge]]) -> set[str]:
    """The views in which a round comes between a chamfer and the corner with which it turns at both ends."""
    return {one.view for one in main for slant in one.slants if goes_on_plainly(slant, Ends(lines[one.view], [], views.tolerance))
            and any(view == one.view and comes_into(slant.across(), it, views.tolerance) for view, it in views.rounds)}


def comes_into(slant: Slant, one: Round, tolerance: float) -> bool:
    """Whether a round comes between an oblique edge and its corner."""
    return any(slant.is_before(quarter.along(step / 32), tolerance) for quarter in one.quarters for step in range(33))


def choices(views: Views, found: Sequence[Chamfer]) -> tuple[list[tuple[Squared, ...]], bool]:
    """The ways in which the chamfers of a sheet are squared, each with each, those first that leave least out, one of none where there are
    none; and whether these are all."""
    lines = {view: within(views, view) for view in views.boxes}
    main = [one for one in found if one.view in VIEWS]
    met = views_met(views, main, lines)
    every = [[left for it in ways_of(one, Ends(lines[one.view], beside_in(found, one), views.tolerance), one.view in met)
              if (left := with_left(views, it, found, lines))] for one in main]
    ways = []
    for its in itertools.islice(itertools.product(*every), MOST_TRIED):
        if all(do_fit(it, Ends(lines[it.one.view], [other.slant for other in its if other.one.view == it.one.view and other is not it],
                               views.tolerance)) for it in its):
            ways.append((*its, *(seen for one in found if one.view in FURTHER for seen in seen_behind(views, one, its))))
    ways.sort(key=lambda its: sum(len({(stretch.view, stretch.at) for stretch, _ in it.left}) for it in its))
    if found and not ways:
        bare = next((one for one, its in zip(main, every) if not its), main[0])
        raise Refused(f"in {bare.view} an {bare} is squared off to neither corner: at one of its ends two oblique edges meet otherwise than at a "
                      "corner, or it reaches the view's border")
    return ways[:MOST], len(ways) <= MOST and math.prod(map(len, every)) <= MOST_TRIED


def beside_in(found: Sequence[Chamfer], one: Chamfer) -> list[Slant]:
    """The corners to which others of a view may be squared."""
    return [it for other in found if other.view == one.view and other is not one for it in other.slants]


def do_fit(it: Squared, ends: Ends) -> bool:
    return all(ends.fits(it.slant, at, it.ends[at]) for at in (0, 1))


def with_left(views: Views, it: Squared, found: Sequence[Chamfer], lines: Mapping[str, list[Edge]]) -> Squared | None:
    """What is left out where a chamfer, one of those that were found, goes straight on, or back; nothing where that is a view's border."""
    left: list[tuple[Stretch, bool]] = []
    frame, sight, noise = FRAMES[it.one.view], FRAMES[it.one.view].sight, OF_ONE * views.tolerance
    for at in (at for at in (0, 1) if it.ends[at] is not End.TURNS):
        axis = frame.up if at == 0 else frame.right
        for other in (view for view in views.boxes if shared_axis(it.one.view, view) == axis):
            box, is_upright = views.boxes[other], FRAMES[other].right == axis
            place = placed_in(views, it.one.view, other, axis, it.slant.ends[at])
            if min(abs(place - box[side]) for side in ((0, 2) if is_upright else (1, 3))) < BESIDE * views.tolerance:
                return None
            ends = [placed_in(views, one.view, other, axis, end) for one in found if one is not it.one and axis in FRAMES[one.view][:2]
                    for end in (one.start, one.end)]
            for span in common_spans(views, it.one, lines):
                low, high = sorted(views.place(other, sight, stop) for stop in span)
                stretch = Stretch(other, is_upright, place, low, high, False)
                left += [(stretch, True)] if any(abs(end - place) <= noise for end in ends) else parted(stretch, lines[other], noise)
        if it.ends[at] is End.BACK:
            low, high = sorted((it.slant.ends[at][1 - at], it.slant.corner[1 - at]))
            left.append((Stretch(it.one.view, at == 0, it.slant.corner[at], low, high, False), True))
    return it._replace(left=tuple(left))


def parted(stretch: Stretch, lines: Sequence[Edge], noise: float) -> Iterator[tuple[Stretch, bool]]:
    """The pieces of a stretch, and whether all that lies there is left out: what lies dashed under a solid line is another thing's."""
    way = 1 if stretch.is_upright else 0
    on = [edge for edge in lines if is_level(edge) != stretch.is_upright and abs(edge.start[1 - way] - stretch.at) <= noise]
    stops = sorted({stretch.low, stretch.high, *(stop for edge in on for stop in span_of(edge, way) if stretch.low + noise < stop < stretch.high - noise)})
    for low, high in itertools.pairwise(stops):
        over = {edge.hidden for edge in on if span_of(edge, way)[0] <= (low + high) / 2 <= span_of(edge, way)[1]}
        yield stretch._replace(low=low, high=high), len(over) < 2


def seen_behind(views: Views, one: Chamfer, main: Sequence[Squared]) -> Iterator[Squared]:
    """A chamfer of a further view, squared as the main view across from it has it."""
    twin = twin_of(views, one, [it.one for it in main])
    for it in main:
        if it.one is twin:
            corner = seen_from(views, it.one.view, one.view, it.slant.corner)
            yield Squared(one, min(one.slants, key=lambda slant: math.dist(slant.corner, corner)))


# ---- squared off

def squared_off(edges: Sequence[Edge], chosen: Sequence[Squared], tolerance: float) -> tuple[list[Edge], list[Move]]:
    """The edges with chamfers squared to the chosen corners, without what is left out, and with what these corners hide or show; and which ends
    of lines were moved."""
    gone = {edge for it in chosen for edge in it.one.edges}
    straight = without([edge for edge in edges if edge not in gone], [left for it in chosen for left in it.left], tolerance)
    moves: list[Move] = []
    behind = [ended(edge, straight, chosen, tolerance, moves) for edge in straight]
    for it in chosen:
        behind = restyled(behind, it.slant, tolerance)
    return [*behind, *(side for it in chosen for side in sides_of(it, straight, chosen, tolerance))], moves


def ended(edge: Edge, edges: Sequence[Edge], chosen: Sequence[Squared], tolerance: float, moves: list[Move]) -> Edge:
    """A line whose ends upon chamfers, beyond which no line goes on, come to lie on the sides of the corners."""
    way, ends = 0 if is_level(edge) else 1, [edge.start, edge.end]
    for at, (end, other) in enumerate(((edge.start, edge.end), (edge.end, edge.start))):
        it = next((it for it in chosen if is_within(it.one, end, tolerance)), None)
        step = math.copysign(BESIDE * tolerance, end[way] - other[way])
        beyond = (end[0] + step, end[1]) if way == 0 else (end[0], end[1] + step)
        if it and not any(is_level(one) == is_level(edge) and covers(one, beyond, tolerance) for one in edges):
            ends[at] = moved(it.slant, end, way == 0)
            moves.append(Move(it, way, end[way], ends[at][way]))
    return edge._replace(start=ends[0], end=ends[1])


def is_within(one: Chamfer, place: Place, tolerance: float) -> bool:
    """Whether a place lies upon a chamfer, and at none of its ends."""
    return is_upon(one.slants[0], place, tolerance) and min(math.dist(place, end) for end in (one.start, one.end)) > 2 * BESIDE * tolerance


def sides_of(it: Squared, straight: Sequence[Edge], others: Sequence[Squared], tolerance: float) -> Iterator[Edge]:
    """The lines that stand for a chamfer, along the sides of its corner, but that along which a wall goes back."""
    for low, high, hidden in it.one.pieces:
        start, end = (image(it, share, straight, others, tolerance) for share in (low, high))
        corner = [it.slant.corner] if all(abs(a - b) > tolerance for a, b in zip(start, end)) else []
        for a, b in itertools.pairwise([start, *corner, end]):
            if it.ends[1 if abs(a[1] - b[1]) < abs(a[0] - b[0]) else 0] is not End.BACK:
                yield Edge(hidden, a, b, 7, it.one.edges[0].source)


def image(it: Squared, share: float, straight: Sequence[Edge], others: Sequence[Squared], tolerance: float) -> Place:
    """Where a place on a chamfer comes to lie: its ends stay, and where its style changes it moves along the one line that meets it, or to
    where its sides meet those of another chamfer that meets it."""
    place = it.one.at(share)
    if share in (0.0, 1.0):
        return place
    meeting = {is_level(edge) for edge in straight if covers(edge, place, BESIDE * tolerance)}
    crossed = [spot for other in others if not meeting and other is not it and is_upon(other.slant, place, tolerance) for spot in crossings(it.slant, other.slant)]
    if len(crossed) == 1:
        return crossed[0]
    if len(meeting) != 1:
        raise Refused(f"an {it.one} changes its style at {place[0]:.6g}, {place[1]:.6g}, where {'two lines meet' if meeting else 'no line meets'} it")
    return moved(it.slant, place, meeting.pop())


def is_upon(slant: Slant, place: Place, tolerance: float) -> bool:
    return off(place, slant.ends) <= BESIDE * tolerance and holds(slant.box, (*place, *place), BESIDE * tolerance)


def crossings(one: Slant, other: Slant) -> Iterator[Place]:
    """Where an upright side of one corner crosses a level side of another."""
    for a, b in ((one, other), (other, one)):
        (x, low), (right, y) = a.ends[0], b.ends[1]
        if min(right, b.corner[0]) < x < max(right, b.corner[0]) and min(low, a.corner[1]) < y < max(low, a.corner[1]):
            yield x, y


def moved(slant: Slant, place: Place, is_along_level: bool) -> Place:
    """A place on a chamfer moved to a side of its corner, along a level line or an upright one."""
    return (slant.corner[0], place[1]) if is_along_level else (place[0], slant.corner[1])


def restyled(edges: Sequence[Edge], slant: Slant, tolerance: float) -> list[Edge]:
    """The lines behind a chamfer, which tells that they change their style upon it: between it and its corner they have the style that they
    have beyond it, and so has what they end at there."""
    pieces = [it for edge in edges for it in pieces_of(edge, slant, OF_ONE * tolerance)]
    within = [edge for edge, is_within in pieces if is_within]
    found = [edge for edge in within if changes(edge, slant, edges, tolerance)]
    for edge in found:
        found += [it for it in within if it.hidden == edge.hidden and it not in found and do_touch(it, edge, BESIDE * tolerance)]
    return [edge._replace(hidden=not edge.hidden) if is_within and edge in found else edge for edge, is_within in pieces]


def pieces_of(edge: Edge, slant: Slant, noise: float) -> Iterator[tuple[Edge, bool]]:
    """The pieces of a line, and whether they lie between a chamfer and its corner."""
    way = 0 if is_level(edge) else 1
    (low, high), at = span_of(edge, way), edge.start[1 - way]
    on, corner = on_chamfer(slant, at, way), slant.corner[way]
    first, last = max(low, min(on, corner)), min(high, max(on, corner))
    is_beside = not min(slant.box[1 - way], slant.box[3 - way]) - noise <= at <= max(slant.box[1 - way], slant.box[3 - way]) + noise
    if is_beside or last - first <= noise:
        yield edge, False
        return
    for a, b, is_within in ((low, first, False), (first, last, True), (last, high, False)):
        if b - a > (0 if is_within else noise):
            yield edge._replace(start=(at, a) if way else (a, at), end=(at, b) if way else (b, at)), is_within


def on_chamfer(slant: Slant, at: float, way: int) -> float:
    """Where a level line (0) at a height, or an upright one (1) at a place, comes upon a chamfer's edge."""
    share = (at - slant.centre[1 - way]) / (slant.corner[1 - way] - slant.centre[1 - way])
    return slant.corner[way] + share * (slant.centre[way] - slant.corner[way])


def changes(edge: Edge, slant: Slant, edges: Sequence[Edge], tolerance: float) -> bool:
    """Whether a piece of a line between a chamfer and its corner goes on beyond the chamfer in the other style."""
    way = 0 if is_level(edge) else 1
    at = edge.start[1 - way]
    on = on_chamfer(slant, at, way)
    off_it = math.copysign(BESIDE * tolerance, on - slant.corner[way])
    within, beyond = ([it.hidden for it in edges if is_level(it) == is_level(edge) and covers(it, (at, place) if way else (place, at), OF_ONE * tolerance)]
                      for place in (on - off_it, on + off_it))
    return bool(within and beyond) and all(within) == edge.hidden != all(beyond)


def cuts_of(moves: Sequence[Move]) -> Iterator[str]:
    """Which chamfers are cut by walls."""
    yield from dict.fromkeys(f"an {it.one.one} is cut by walls, and doesn't stand free" for it in moves)


def do_touch(one: Edge, other: Edge, noise: float) -> bool:
    return any(covers(a, end, noise) for a, b in ((one, other), (other, one)) for end in (b.start, b.end))


def doubts_of(its: Sequence[Squared], edges: Sequence[Edge], rounds: Sequence[Round], tolerance: float) -> Iterator[str]:
    """What ends, or is rounded or cut off, between an oblique edge and its corner, as far as that may harm."""
    for it in its:
        for edge in edges:
            if any(it.slant.is_before(end, tolerance) for end in (edge.start, edge.end)):
                yield f"a {edge.source} ends in the corner of the box of an {it.one}"
        for one in rounds:
            if comes_into(it.slant, one, tolerance):
                yield f"a {one} comes into the corner of the box of an {it.one}"
        for other in its[its.index(it) + 1:]:
            if any(a.is_before(b.along(step / 32), tolerance) for a, b in ((it.slant, other.slant), (other.slant, it.slant)) for step in range(33)):
                yield f"an {it.one} meets an {other.one}, or the corner of its box"
