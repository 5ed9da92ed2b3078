"""What programs write less exactly than lines, made even: coordinates that differ by noise alone, and splines that are parts of a circle.
"""
import bisect
import copy
import itertools
import math
from collections import defaultdict
from collections.abc import Iterator, Sequence
from typing import NamedTuple

from ..dxf.drawing import Place
from ..dxf.reader import Arc, Edge, Sheet, Unread
from ..geometry.free_curves import arc_along, is_on_circle
from ..sheet.second_export import curves_hidden_by

# How far curves end from the lines that they meet, in files with three decimals, and by what share of the sheet.
ENDS, SHARE = 6e-4, 1e-5
# How far a spline may lie from the circle that it is a part of, also as a share of the radius; and, of a circle that splines alone draw, before
# that is told by all of them.
NEAR, LEAST, ROUGHLY = 3e-3, 1 / 200, 6e-3
# How long at most a line is that is a piece of a curve, since it lies on one: FreeCAD draws such ones where a curve is cut.
TINY = 0.05
# How long a curve is, in radii, that is a circle's by itself, and how far its places lie from that.
WIDE, SURE, SURELY = 0.75, 1e-3, 3e-4


# ---- coordinates

def evened(edges: Sequence[Edge], arcs: Sequence[Arc]) -> list[Edge]:
    """The edges with coordinates that differ by noise alone made one, which most have: curves end less exactly than lines."""
    tables = [evening(edges, arcs, at) for at in (0, 1)]
    return [edge._replace(start=(tables[0][edge.start[0]], tables[1][edge.start[1]]), end=(tables[0][edge.end[0]], tables[1][edge.end[1]]))
            for edge in edges]


def evening(edges: Sequence[Edge], arcs: Sequence[Arc], at: int) -> dict[float, float]:
    """What each coordinate of the edges, to the right or upwards, becomes."""
    counts: dict[float, int] = defaultdict(int)
    for edge in edges:
        for end in (edge.start, edge.end):
            counts[end[at]] += 1 if edge.source.kind == "SPLINE" else 3
    for arc in arcs:
        for off in (-arc.radius, 0.0, arc.radius):
            counts[arc.centre[at] + off] += 2
    table: dict[float, float] = {}
    group: list[float] = []
    noise = min(ENDS, (max(counts) - min(counts)) * SHARE)
    for value in [*sorted(counts), math.inf]:
        if group and value - group[-1] > noise:
            best = max(group, key=lambda it: (sum(counts[other] for other in group if abs(other - it) < 2e-5), counts[it]))
            table.update({it: best for it in group})
            group = []
        group.append(value)
    return table


def upon(squares: Sequence[Edge], edges: Sequence[Edge]) -> list[Edge]:
    """The sides of squares with coordinates that differ by noise alone from those of edges made the same: arcs end less exactly than lines."""
    values = [sorted({end[at] for edge in edges for end in (edge.start, edge.end)}) for at in (0, 1)]

    def near(place: Place) -> Place:
        x, y = (min(its[max(0, bisect.bisect(its, at) - 1):][:2], key=lambda it: abs(it - at)) if its else at for at, its in zip(place, values))
        return x if abs(x - place[0]) <= noise else place[0], y if abs(y - place[1]) <= noise else place[1]

    noise = min([ENDS, *((its[-1] - its[0]) * SHARE for its in values if its)])
    return [edge._replace(start=near(edge.start), end=near(edge.end)) for edge in squares]


# ---- circles

class Circle(NamedTuple):
    centre: Place
    radius: float

    def near(self, most: float) -> float:
        return min(most, self.radius * LEAST)


class Rounded(NamedTuple):
    """What a sheet draws once splines that are parts of circles are taken as these: edges, arcs, other curves, and the circles."""

    edges: list[Edge]
    arcs: list[Arc]
    unread: list[Unread]
    circles: list[Circle]


def sampled(arc: Arc) -> list[Place]:
    return [arc.at(arc.start + arc.sweep * at / 8) for at in range(9)]


def is_exact(arc: Arc) -> bool:
    """Whether a program writes an arc as such."""
    return arc.source.kind not in ("SPLINE", "ELLIPSE")


def round_through(places: Sequence[Place]) -> Circle | None:
    """The circle that lies nearest to some places."""
    count = len(places)
    x, y = (sum(it[at] for it in places) / count for at in (0, 1))
    its = [(a - x, b - y) for a, b in places]
    aa, bb, ab = (sum(a**i * b**j for a, b in its) for i, j in ((2, 0), (0, 2), (1, 1)))
    first, second = (sum(it * (a * a + b * b) / 2 for it, (a, b) in zip(along, its)) for along in zip(*its)) if its else (0.0, 0.0)
    whole = aa * bb - ab * ab
    if whole <= 1e-12 * (aa + bb) ** 2:
        return None
    right, up = (first * bb - second * ab) / whole, (second * aa - first * ab) / whole
    return Circle((x + right, y + up), math.sqrt(right * right + up * up + (aa + bb) / count))


def circles_of(arcs: Sequence[Arc], unread: Sequence[Unread]) -> list[Circle]:
    """The circles of a sheet: those that arcs are of, and those that splines alone draw, by all that are on one."""
    circles: list[Circle] = []
    for arc in arcs:
        if is_exact(arc) and not any(is_on_circle(sampled(arc), it.centre, it.radius, it.near(NEAR)) for it in circles):
            circles.append(Circle(arc.centre, arc.radius))
    loose = [sampled(arc) for arc in arcs if not is_exact(arc)]
    every = loose + [list(it.places) for it in unread if len(it.places) > 2]
    seeds = [*loose, *(its for its in every[len(loose):] if is_round(its))]
    for places in sorted(seeds, key=lambda it: -length_of(it)):
        if not any(is_on_circle(places, it.centre, it.radius, it.near(NEAR)) for it in circles) and (seed := round_through(places)):
            on = [place for its in every if is_on_circle(its, seed.centre, seed.radius, seed.near(ROUGHLY)) for place in its]
            circles.append(round_through(on) or seed if on else seed)
    return circles


def length_of(places: Sequence[Place]) -> float:
    return sum(math.dist(a, b) for a, b in itertools.pairwise(places))


def is_round(places: Sequence[Place]) -> bool:
    """Whether a curve is a part of a circle: where cylinders meet it is none that is as long, and lies farther from one."""
    one = round_through(places)
    return one is not None and length_of(places) >= WIDE * one.radius and is_on_circle(places, one.centre, one.radius, min(SURE, one.radius * SURELY))


def on_circles(edges: Sequence[Edge], arcs: Sequence[Arc], unread: Sequence[Unread], circles: Sequence[Circle] | None = None) -> Rounded:
    """Takes splines, also short ones that look straight by themselves, as parts of the circles on which they lie."""
    known = circles_of(arcs, unread) if circles is None else circles

    def of(hidden: bool, places: Sequence[Place], like: Arc) -> Iterator[Arc]:
        on = (it for it in known if is_on_circle(places, it.centre, it.radius, it.near(NEAR)))
        yield from (arc_along(hidden, places, like._replace(centre=it.centre, radius=it.radius)) for it in itertools.islice(on, 1))

    taken, left, straight = list[Arc](), list[Unread](), list[Edge]()
    for arc in arcs:
        taken += [arc] if is_exact(arc) else list(of(arc.hidden, sampled(arc), arc)) or [arc]
    for it in unread:
        places = it.places if len(it.places) != 2 else chord(*it.places)
        its = list(of(it.hidden, places, Arc(it.hidden, (0, 0), 1, 0, 0, it.source))) if places else []
        taken, left = taken + its, left + ([] if its else [it])
    for edge in edges:
        is_piece = edge.source.kind == "SPLINE" or math.dist(edge.start, edge.end) < TINY
        its = list(of(edge.hidden, chord(edge.start, edge.end), Arc(edge.hidden, (0, 0), 1, 0, 0, edge.source))) if is_piece else []
        taken, straight = taken + its, straight + ([] if its else [edge])
    return Rounded(straight, taken, left, list(known))


def chord(start: Place, end: Place) -> list[Place]:
    return [start, ((start[0] + end[0]) / 2, (start[1] + end[1]) / 2), end]


def with_unread(read_sheet: Sheet, unread: list[Unread]) -> Sheet:
    """A sheet of which other things can't be read."""
    result = copy.copy(read_sheet)
    result.unread = unread
    return result


def with_circles(read_sheet: Sheet) -> Sheet:
    """A sheet that has curves, with splines that lie on circles as parts of these; and where there is an export of it without hidden lines, with
    which curves are hidden."""
    if not any(it.places for it in read_sheet.unread):
        return read_sheet
    its = on_circles(read_sheet.edges, read_sheet.arcs, read_sheet.unread)
    result = with_unread(read_sheet, its.unread)
    result.edges, result.arcs = its.edges, its.arcs
    if read_sheet.seen:
        seen = on_circles(read_sheet.seen.edges, read_sheet.seen.arcs, read_sheet.seen.unread, its.circles)
        result.seen = with_unread(read_sheet.seen, seen.unread)
        result.seen.edges, result.seen.arcs = seen.edges, seen.arcs
        result.unread = list(curves_hidden_by(its.unread, read_sheet.seen.unread))
    return result
