"""Rounding back: in which layers a solid of a squared-off drawing has each quarter round, and its volume once it is rounded. `rounds.py`
says when that is right."""
import bisect
import enum
import functools
import itertools
import math
from collections.abc import Callable, Iterator, Sequence
from fractions import Fraction
from typing import NamedTuple

from ..dxf.drawing import VIEWS, Place
from ..projection.cells import grid_round
from ..projection.draw import FRAMES
from ..recon.answer import Solid
from .features import Chamfer, Given, Squared
from .rounds import Quarter, Slant

FULL_OUTSIDE, FULL_INSIDE = (False, True), (True, False)
# What of a unit is noise, where coordinates aren't moved at all; and the greatest denominator of a length that has an end, or is a part of a unit.
LEAST, MOST_PARTS = 1e-3, 10**6
# How far apart corners of two rounds may lie that are one, of a radius.
SAME = 1e-3


class Strip(NamedTuple):
    """Where something goes on across a side of a quarter's square: across its upright side (0) or its level one (1), from one place
    to another, in units; or (2) a rectangle round its corner, from x to x and from y to y."""

    across: int
    low: tuple[float, ...]
    high: tuple[float, ...]


class Layer(NamedTuple):
    """A stretch along the sight, in units, in which a quarter is drawn; whether its inside is full, or its outside; and what goes on there
    across its square."""

    low: int
    high: int
    is_full: bool
    strips: tuple[Strip, ...] = ()


class Drawn(NamedTuple):
    """A quarter of a round, or a chamfer, and its layers."""

    one: Squared | Chamfer
    quarter: Quarter | Slant
    layers: tuple[Layer, ...]


class How(enum.IntEnum):
    """How layers are taken: where full changes to empty all along a corner; also where a wall lies along one side of a boss's square, or
    along two, which it touches; or where behind such a boss a fillet of less radius goes on; or of each quarter of a circle by itself, where a boss
    fills a fillet; or where full changes to empty but for slots across the corner's sides; also, of what is no whole circle or is cut, but for where a
    wall goes on across; or of all."""

    STRICT, TOUCHING, BETWEEN, BEHIND, CORNERED, SLOTTED, CUT, ALL = range(8)

    @property
    def has_formula(self) -> bool:
        """Whether the volume's formula holds: no quarter is in part of a layer."""
        return self <= How.CORNERED


def spot(view: str, place: Place, depth: float) -> tuple[float, float, float]:
    """A place of a main view at a depth, in space."""
    frame, at = FRAMES[view], [0.0, 0.0, 0.0]
    at[frame.right], at[frame.up], at[frame.sight] = *place, depth
    return at[0], at[1], at[2]


class Beside(NamedTuple):
    """A place within and one beyond a side of a quarter's square, in units; and across which side, from where to where, or the corner."""

    within: Place
    beyond: Place
    where: tuple[int, float, float] | None


def beside(cuts: list[list[int]], view: str, quarter: Quarter | Slant, unit: int, moved: float) -> Iterator[Beside]:
    """Places within and beyond the two sides at a quarter's sharp corner, and at the corner itself. The corner is one of the squared drawing, its
    centre needn't be: it lies between two coordinates, where a circle is an odd number of units wide or no other line ends where a round does.
    What lies farther from the centre than coordinates are moved is looked at."""
    corner, noise = [round(at * unit) for at in quarter.corner], moved * unit + LEAST
    within, beyond = ([at - way * side / 2 for at, way in zip(corner, (quarter.right, quarter.up))] for side in (1, -1))
    yield Beside((within[0], within[1]), (beyond[0], beyond[1]), None)
    for across, axis in ((0, FRAMES[view].up), (1, FRAMES[view].right)):
        low, high = sorted((quarter.centre[1 - across] * unit, float(corner[1 - across])))
        for one, other in itertools.pairwise([low, *(cut for cut in cuts[axis] if low + noise < cut < high - noise), high]):
            middle = (one + other) / 2
            ends = [(pair[0], middle) if across == 0 else (middle, pair[1]) for pair in (within, beyond)]
            yield Beside(ends[0], ends[1], (across, one, other))


def strips_of(its: Sequence[tuple[int, float, float]], quarter: Quarter | Slant, unit: int) -> tuple[Strip, ...]:
    """What goes on across a quarter's sides: strips; and round its corner, where both sides go on, a rectangle alone."""
    corner = [round(at * unit) for at in quarter.corner]
    rows = [joined(sorted(it[1:] for it in its if it[0] == across)) for across in (0, 1)]
    touching = [next((it for it in row if corner[1 - across] in it), None) for across, row in enumerate(rows)]
    strips = [Strip(across, (low,), (high,)) for across, row in enumerate(rows) for low, high in row]
    upright, level = touching
    if upright is None or level is None:
        return tuple(strips)
    rest = [it for it in strips if (it.low[0], it.high[0]) != touching[it.across]]
    return (*rest, Strip(2, level, upright))


def joined(its: Sequence[tuple[float, float]]) -> list[tuple[float, float]]:
    row: list[tuple[float, float]] = []
    for low, high in its:
        row = [*row[:-1], (row[-1][0], high)] if row and row[-1][1] == low else [*row, (low, high)]
    return row


def layer_of(
    at: list[tuple[tuple[bool, bool], Beside]], ends: tuple[int, int], drawn: tuple[Squared | Chamfer, Quarter | Slant], how: How, unit: int
) -> Layer | None:
    """The layer, where the quarter is drawn in it."""
    one, quarter = drawn
    if isinstance(one, Chamfer) and one.is_back:
        return back_layer(at, ends)
    styles = {pair for pair, _ in at}
    if styles in ({FULL_INSIDE}, {FULL_OUTSIDE}):
        return Layer(*ends, FULL_INSIDE in styles)
    if how in touching_ways(one) and walls_along(at) == 1:
        return Layer(*ends, True)
    if how is How.SLOTTED and isinstance(one, Squared):
        is_full, beyond = next(pair for pair, it in at if not it.where)
        return Layer(*ends, is_full) if is_full != beyond and all(pair[1] == beyond for pair, _ in at) else None
    if how <= How.SLOTTED or how is How.CUT and one.is_circle and not one.is_cut:
        return None
    sides = {pair for pair, it in at if it.where and pair[0] != pair[1]}
    if len(sides) != 1:
        return None
    is_full = FULL_INSIDE in sides
    on = [it.where for pair, it in at if it.where and pair == (is_full, is_full)]
    return Layer(*ends, is_full, strips_of(on, quarter, unit))


def touching_ways(one: Squared | Chamfer) -> tuple[How, ...]:
    """In which ways a quarter by itself may touch a wall."""
    if isinstance(one, Chamfer):
        return ()
    return (How.CORNERED,) if one.is_circle else (How.TOUCHING, How.BETWEEN, How.BEHIND, How.CORNERED)


def back_layer(at: list[tuple[tuple[bool, bool], Beside]], ends: tuple[int, int]) -> Layer | None:
    """The layer of a chamfer of which a wall goes back along one side of its corner: there the same is on both sides of that."""
    sides = [{pair for pair, it in at if it.where and it.where[0] == across} for across in (0, 1)]
    return next((Layer(*ends, is_full) for is_full in (True, False) if {(is_full, not is_full)} in sides and {(is_full, is_full)} in sides), None)


def walls_along(at: list[tuple[tuple[bool, bool], Beside]]) -> int | None:
    """Along how many sides of a full corner what is beyond is full too; nothing where it is so in part, or the corner isn't full."""
    beyond = [{pair[1] for pair, it in at if it.where and it.where[0] == across} for across in (0, 1)]
    return sum(True in it for it in beyond) if all(pair[0] for pair, _ in at) and all(len(it) == 1 for it in beyond) else None


def beside_walls(row: list[Layer | None], at: list[list[tuple[tuple[bool, bool], Beside]]], ends: tuple[int, int], how: How) -> list[Layer | None]:
    """The layers of a circle's quarters, also where it is a boss that touches walls along one side of its square, or two: by halves of sides."""
    walls = list(map(walls_along, at))
    if None in walls or sum(it or 0 for it in walls) > 2 * min(how, How.BETWEEN):
        return row
    return [Layer(*ends, True)] * len(row)


def is_full_in(solid: Solid) -> tuple[list[list[int]], Callable[[tuple[float, float, float]], bool]]:
    """The grid of a solid, and whether it is full at a place."""
    grid = grid_round([solid])
    rows, cuts = grid.rows(grid.cells(solid)), grid.cuts

    def is_full(at: tuple[float, float, float]) -> bool:
        x, y, z = (bisect.bisect(cut, it) - 1 for cut, it in zip(cuts, at))
        return all(0 <= it < len(cut) - 1 for it, cut in zip((x, y, z), cuts)) and rows[z][y][x] == "1"

    return cuts, is_full


def rounded(solid: Solid, given: Given, unit: int, how: How = How.STRICT) -> list[Drawn] | None:
    """The layers of all quarters; nothing where some quarter has no layer. Further views draw no other rounds than the main ones."""
    cuts, is_full = is_full_in(solid)
    found: list[Drawn] = []
    for one in (it for it in given.squared if it.view in VIEWS):
        quarters: Sequence[Quarter | Slant] = one.quarters
        ways: list[list[Layer | None]] = [[] for _ in quarters]
        places = [list(beside(cuts, one.view, quarter, unit, given.moved)) for quarter in quarters]
        for low, high in itertools.pairwise(cuts[FRAMES[one.view].sight]):
            middle = (low + high) / 2
            at = [[((is_full(spot(one.view, it.within, middle)), is_full(spot(one.view, it.beyond, middle))), it) for it in its] for its in places]
            row = [layer_of(its, (low, high), (one, quarter), how, unit) for quarter, its in zip(quarters, at)]
            if one.is_circle and How.TOUCHING <= how <= How.BEHIND:
                row = beside_walls(row, at, (low, high), how)
            for layers, layer in zip(ways, row):
                layers.append(layer)
        if how is not How.BEHIND and not all(map(any, ways)):
            return None
        found += [Drawn(one, quarter, tuple(it for it in layers if it)) for quarter, layers in zip(quarters, ways)]
    found = list(map(functools.partial(with_behind, found), found)) if how is How.BEHIND else found
    return found if all(it.layers for it in found) else None


def with_behind(found: Sequence[Drawn], it: Drawn) -> Drawn:
    """A quarter, also with those layers in which a greater one that rounds the same corner is emptied up to it: a fillet behind a boss."""
    over = [layer for other in found if is_behind(it, other) for layer in other.layers if layer.is_full and not layer.strips]
    more = [layer._replace(is_full=False) for layer in over if not any(own.low < layer.high and layer.low < own.high for own in it.layers)]
    return it._replace(layers=tuple(sorted((*it.layers, *more))))


def is_behind(it: Drawn, other: Drawn) -> bool:
    """Whether a quarter rounds the same corner as a greater one."""
    a, b = it.quarter, other.quarter
    if not isinstance(a, Quarter) or not isinstance(b, Quarter) or it.one.view != other.one.view:
        return False
    return (a.right, a.up) == (b.right, b.up) and a.radius < b.radius and math.dist(a.corner, b.corner) < a.radius * SAME


def by_rounds(found: Sequence[Drawn]) -> list[list[Drawn]]:
    return [list(its) for _, its in itertools.groupby(found, lambda it: it.one)]


def of_wholes(found: list[Drawn]) -> list[Drawn]:
    """The same, of whole circles with those layers alone that all quarters have: another thing's corner may lie at that of a square."""
    result: list[Drawn] = []
    for group in by_rounds(found):
        common = tuple(layer for layer in group[0].layers if len(group) == 4 and all(layer in it.layers for it in group))
        result += [it._replace(layers=common or it.layers) for it in group]
    return result


def ways_of(solid: Solid, given: Given, unit: int) -> Iterator[tuple[list[Drawn], bool]]:
    """The ways to round a solid back, the strictest first, and whether the volume's formula holds for it."""
    seen: list[list[Drawn]] = []
    for how in How:
        found = rounded(solid, given, unit, how)
        for way in [] if found is None else [of_wholes(found), found] if how.has_formula else [found]:
            if way not in seen:
                seen.append(way)
                yield way, how.has_formula and not any(it.quarter.is_inner for it in way)


def exact(length: float, unit: int, moved: float) -> Fraction:
    """A length of a sheet as the number that it is: of half units, where it is so but for noise and for how far coordinates are moved."""
    halves = round(2 * length * unit)
    return Fraction(halves, 2 * unit) if abs(2 * length * unit - halves) <= 2 * moved * unit + LEAST else Fraction(length).limit_denominator(MOST_PARTS)


def volume_of(solid: Solid, found: Sequence[Drawn], unit: int, moved: float) -> tuple[Fraction, Fraction]:
    """The volume, a number and a number of pi: each quarter takes (1 - pi / 4) r² from a full corner, or adds it to an empty one; each
    chamfer half of its box."""
    plain, by_pi = Fraction(solid.volume, unit**3), Fraction(0)
    for it in found:
        depth = Fraction(sum((layer.high - layer.low) * (-1 if layer.is_full else 1) for layer in it.layers), unit)
        if isinstance(it.quarter, Slant):
            width, height = (Fraction(abs(round(a * unit) - round(b * unit)), unit) for a, b in zip(it.quarter.centre, it.quarter.corner))
            plain += depth * width * height / 2
        else:
            share = depth * exact(it.quarter.radius, unit, moved) ** 2
            plain, by_pi = plain + share, by_pi - share / 4
    return plain, by_pi
