"""Noise in the coordinates of a sheet, as tracing, converting and rounding leave it: how large it is, and the same sheet without it.

Noise is told from details by the sheet itself. Within a view coordinates lie in clusters: those of one are nearer to one another than the tolerance,
and the next one is several times as far away. All clusters are near multiples of one unit, nearer than chance would have it. And a good part of
them are off these multiples, with lines that should be level or upright and aren't, or all by rounding. Where all of that holds, each coordinate is
moved to its multiple; so what comes after reads a sheet without noise.
"""
import itertools
import math
import statistics
from collections.abc import Callable, Iterable, Iterator, Mapping, Sequence
from typing import NamedTuple

from ..dxf.drawing import Place
from ..dxf.reader import Arc, Box, Edge, Sheet
from ..geometry.components import meet
from .placement import Placed

# The tolerances that are tried, in the sheet's unit.
TRIED = (2e-4, 5e-4, 1e-3, 2e-3, 5e-3, 0.01, 0.02, 0.05)
# How much less than its length a line is off that is meant to be level or upright.
SLOPE = 1 / 200
# How many times the tolerance clusters are apart; how many times the greatest residue the unit is; and how likely chance may be.
APART, WIDER, CHANCE = 3, 6, 1e-6
# How likely chance may be where no line is off, and residues may be those of a few lengths that have no end, as on a bolt circle.
CHANCE_OF_FEW = 1e-3
# What a double and a file's digits leave; which part of the clusters is off where no line is, and how many at least.
EXACT, OFTEN, FEWEST = 1e-5, 0.25, 4
# The units of coordinates, the greatest first: decimals, and parts as of inches and feet.
UNITS = sorted({10.0**-places for places in range(4)} | {1.0 / parts for parts in (2, 3, 4, 6, 8, 12, 16, 32, 64)}, reverse=True)

# A view and one of its axes, 0 or 1; and the least and the greatest of a cluster.
Axis = tuple[str, int]
Span = tuple[float, float]


class Grid(NamedTuple):
    """Of which unit the coordinates are multiples, from which origin on along each axis of each view, how far off they are at most, which
    part of the clusters, and how many, are off, and how far the coordinates of one are apart at most."""

    unit: float
    origins: Mapping[Axis, float]
    off: float
    often: float
    among: int
    spread: float = 0.0

    def snapped(self, axis: Axis, value: float, tolerance: float) -> float:
        """A coordinate moved to its multiple, where that is within the tolerance."""
        origin = self.origins[axis]
        there = origin + round((value - origin) / self.unit) * self.unit
        return there if abs(there - value) <= tolerance else value


class Noise(NamedTuple):
    """The tolerance that reads a sheet, its grid and the boxes of its views; and whether all that tells noise holds."""

    tolerance: float
    grid: Grid
    boxes: Mapping[str, Box]
    is_clear: bool


# ---- what is looked at

def slant_of(edges: Iterable[Edge], least: float) -> float:
    """How far lines are off that are meant to be level or upright, at most; of those that are off by more than the least."""
    its = (sorted(abs(a - b) for a, b in zip(it.start, it.end)) for it in edges)
    return max((off for off, length in its if least < off <= min(TRIED[-1], SLOPE * length)), default=0.0)


def is_plain(edges: Iterable[Edge]) -> bool:
    """Whether all coordinates have three decimals."""
    return all(abs(1000 * it - round(1000 * it)) < 1000 * EXACT / 100 for edge in edges for it in (*edge.start, *edge.end))


def with_squares(sheet: Sheet) -> list[Edge]:
    """The edges of a sheet and what stands for its arcs where views are placed: the sides of the box round each quarter, else a chord."""
    return [*sheet.edges, *itertools.chain(*map(square_of, sheet.arcs))]


def square_of(arc: Arc) -> Iterator[Edge]:
    end = arc.start + arc.sweep
    stops = [arc.start, *(it for it in range(90 * math.ceil(arc.start / 90), math.ceil(end), 90) if arc.start < it < end), end]
    for low, high in itertools.pairwise(stops):
        first, last = arc.at(low), arc.at(high)
        if high - low < 89:
            yield Edge(arc.hidden, first, last, 7, arc.source)
            continue
        way = math.radians((low + high) / 2)
        corner = tuple(c + math.copysign(arc.radius, turn) for c, turn in zip(arc.centre, (math.cos(way), math.sin(way))))
        yield from (Edge(arc.hidden, place, (corner[0], corner[1]), 7, arc.source) for place in (first, last))


def within(box: Box, place: Place, reach: float) -> bool:
    return box[0] - reach <= place[0] <= box[2] + reach and box[1] - reach <= place[1] <= box[3] + reach


def values_of(edges: Iterable[Edge], arcs: Iterable[Arc], box: Box, tolerance: float) -> tuple[list[float], list[float]]:
    """The coordinates of a view: those across its level and upright lines, and the centres and farthest places of its arcs."""
    found: tuple[list[float], list[float]] = ([], [])
    for edge in edges:
        if within(box, edge.start, tolerance) and within(box, edge.end, tolerance):
            for axis in (0, 1):
                if abs(edge.start[axis] - edge.end[axis]) <= tolerance:
                    found[axis].append((edge.start[axis] + edge.end[axis]) / 2)
    for arc in arcs:
        if within(box, arc.centre, arc.radius):
            for axis in (0, 1):
                found[axis].extend((arc.centre[axis], arc.centre[axis] + arc.radius))
    return found


def clusters_of(values: Sequence[float], tolerance: float) -> list[Span] | None:
    """The least and the greatest of each cluster of coordinates; none where two are too near to be told apart."""
    clusters: list[Span] = []
    for value in sorted(values):
        if clusters and value - clusters[-1][0] <= tolerance:
            clusters[-1] = clusters[-1][0], value
        elif clusters and value - clusters[-1][1] < APART * tolerance:
            return None
        else:
            clusters.append((value, value))
    return clusters


# ---- the unit

def grid_of(spans: Mapping[Axis, Sequence[Span]], tolerance: float) -> Grid | None:
    """The greatest unit of which all clusters are multiples, but for the tolerance; none where no unit is told from chance. Their middles are off
    by no more than what lies in a cluster is apart, unless nothing is, as after rounding."""
    clusters = {axis: [(low + high) / 2 for low, high in its] for axis, its in spans.items()}
    count = sum(map(len, clusters.values()))
    spread = max((high - low for its in spans.values() for low, high in its), default=0.0)
    most = min(tolerance, spread) if spread > EXACT else tolerance
    for unit in UNITS:
        origins = shared({axis: origin_of(its, unit) for axis, its in clusters.items()}, unit, tolerance)
        residues = [abs(math.remainder(it - origins[axis], unit)) for axis, its in clusters.items() for it in its]
        off = max(residues, default=0.0)
        is_no_chance = (2 * off / unit)**(count - len(clusters)) < CHANCE if spread > EXACT else (2 * off / unit)**kinds_of(residues) < CHANCE_OF_FEW
        if off <= most and WIDER * off <= unit and (is_no_chance or off <= EXACT):
            return Grid(unit, origins, off, sum(it > EXACT for it in residues) / max(count, 1), count, spread)
    return None


def kinds_of(residues: Iterable[float]) -> int:
    """How many different residues there are. One length without an end is found again in each sum of it and whole lengths."""
    return len({round(it / (2 * EXACT)) for it in residues if it > EXACT})


def origin_of(values: Sequence[float], unit: float) -> float:
    """From where on values are multiples of a unit: in the middle of what is left over of them."""
    turns = [2 * math.pi * it / unit for it in values]
    about = math.atan2(sum(map(math.sin, turns)), sum(map(math.cos, turns))) / (2 * math.pi) * unit
    return about + statistics.median(math.remainder(it - about, unit) for it in values)


def shared(origins: Mapping[Axis, float], unit: float, tolerance: float) -> dict[Axis, float]:
    """Origins of which those are one that views in line have but for the tolerance: so what is in line stays there."""
    found: dict[Axis, float] = {}
    for (view, axis), origin in origins.items():
        near = (it for (_, other), it in found.items() if other == axis and abs(math.remainder(it - origin, unit)) <= tolerance)
        found[view, axis] = next(near, origin)
    return found


def grid_at(sheet: Sheet, boxes: Mapping[str, Box], tolerance: float) -> Grid | None:
    """The unit of the coordinates of some views; without those of arcs where these are no multiples."""
    ways: list[list[Arc]] = [sheet.arcs, []] if sheet.arcs else [[]]
    for arcs in ways:
        clusters: dict[Axis, Sequence[Span]] = {}
        for view, box in boxes.items():
            for axis, values in enumerate(values_of(sheet.edges, arcs, box, tolerance)):
                if (its := clusters_of(values, tolerance)) is None:
                    break
                if its:
                    clusters[view, axis] = its
            else:
                continue
            break
        else:
            if (grid := grid_of(clusters, tolerance)) and len(clusters) == 2 * len(boxes):
                return grid
    return None


def found_with(sheet: Sheet, tolerance: float, least: float, place: Callable[[float], Placed | None]) -> Noise | None:
    """What noise a sheet has if it is read with a tolerance; none where its views aren't there, or no unit is."""
    placed = place(tolerance)
    if placed is None:
        return None
    boxes = {view: group.box for view, group in placed.views.items()}
    if any(meet(one, other, tolerance) for one, other in itertools.combinations(boxes.values(), 2)):
        return None
    grid = grid_at(sheet, boxes, tolerance)
    if grid is None or not agree(boxes, grid):
        return None
    short = any(EXACT < math.dist(edge.start, edge.end) <= tolerance for edge in sheet.edges)
    is_off = grid.often >= OFTEN and grid.often * grid.among >= FEWEST and (slant_of(sheet.edges, least) > 0 or grid.spread <= EXACT)
    return Noise(tolerance, grid, boxes, is_off and not short)


def agree(boxes: Mapping[str, Box], grid: Grid) -> bool:
    """Whether the main views are as wide, deep and high as one another in the grid's unit."""
    sizes = {(view, axis): round((box[axis + 2] - box[axis]) / grid.unit) for view, box in boxes.items() for axis in (0, 1)}
    pairs: tuple[tuple[Axis, Axis], ...] = ((("FRONT", 0), ("TOP", 0)), (("FRONT", 1), ("SIDE", 1)), (("TOP", 1), ("SIDE", 0)))
    return all(sizes[one] == sizes[other] for one, other in pairs if one in sizes and other in sizes)


# ---- the sheet without it

def without(sheet: Sheet, noise: Noise) -> Sheet:
    """The sheet with the coordinates of its views moved to their multiples. What is of no view stays, and so do other curves than arcs."""
    result = Sheet(sheet.unit)
    result.__dict__.update(vars(sheet))
    result.edges = [moved_edge(edge, noise) for edge in sheet.edges]
    result.arcs = [moved_arc(arc, noise) for arc in sheet.arcs]
    return result


def view_at(places: Iterable[Place], noise: Noise) -> str:
    """The view in whose box places lie; none where they lie in no view."""
    its = list(places)
    return next((view for view, box in noise.boxes.items() if all(within(box, it, noise.tolerance) for it in its)), "")


def moved(place: Place, view: str, noise: Noise) -> Place:
    x, y = (noise.grid.snapped((view, axis), place[axis], noise.tolerance) for axis in (0, 1))
    return x, y


def moved_edge(edge: Edge, noise: Noise) -> Edge:
    view = view_at((edge.start, edge.end), noise)
    return edge._replace(start=moved(edge.start, view, noise), end=moved(edge.end, view, noise)) if view else edge


def moved_arc(arc: Arc, noise: Noise) -> Arc:
    """An arc with its centre, its radius and its ends moved."""
    ends = arc.at(arc.start), arc.at(arc.start + arc.sweep)
    view = view_at(ends, noise)
    if not view:
        return arc
    half = noise.grid.unit / 2
    radius = round(arc.radius / half) * half
    radius = radius if 0 < radius and abs(radius - arc.radius) <= noise.tolerance else arc.radius
    its = arc._replace(centre=moved(arc.centre, view, noise), radius=radius)
    if arc.sweep >= 360:
        return its
    start, end = (turn_of(its, moved(end, view, noise), turn, noise) for end, turn in zip(ends, (arc.start, arc.start + arc.sweep)))
    return its._replace(start=start, sweep=end - start)


def turn_of(arc: Arc, place: Place, turn: float, noise: Noise) -> float:
    """The angle at which an arc begins or ends, near what it was: at a place, or at a quarter where that is within noise."""
    angle = math.degrees(math.atan2(place[1] - arc.centre[1], place[0] - arc.centre[0]))
    quarter = round(turn / 90) * 90.0
    if abs(turn - quarter) <= math.degrees(2 * noise.tolerance / arc.radius):
        return quarter
    return turn + math.remainder(angle - turn, 360)
