"""In which layers each corner is round and in which it is sharp: all choices that the corner's own view allows, by its lines and arcs.

A round parts the square at its corner: what lies beyond it is turned, emptied or filled, in the layers in which the corner is round. Where no line of
the view has a point beyond the round, but along the corner's sides, each solid of boxes and free rounds is a solid of the squared-off drawing with
a choice of such layers, since what lies beyond the round is in each layer as full as what lies before it or as what lies beyond a side; and its
squared drawing is the same whatever the choice. What the view draws along the round and along both sides of its corner tells which choices it
allows, often more than one. Corners are independent of each other. Not tried: a round that goes over into a sharp corner within one run of full
layers, unless both views from the side draw a line there that the solid has; where they may draw that line for nothing else, it is told.
"""
import itertools
import math
from collections import defaultdict
from collections.abc import Callable, Iterator, Mapping, Sequence
from typing import NamedTuple

from ..core.verdict import Doubt, Reason
from ..dxf.drawing import VIEWS, Place
from ..projection.draw import FRAMES
from ..recon.answer import Solid
from .features import Given, Squared
from .restore import SAME, Drawn, Layer, Strip, is_full_in, spot
from .rounds import Quarter, Slant, is_level, is_straight
from .styles import NOISE, Along, Style, style_between, styles_at

# How far beside a line columns are looked at, of a radius; and the shortest stretch that is looked at, of a side or a round.
BESIDE, SHORTEST = 2e-3, 0.02
# The most choices of a corner that are looked at, of the corners of a whole circle together, and the most ways of a solid that are made.
MOST_OF_CORNER, MOST_OF_CIRCLE, MOST = 4096, 4096, 48
# How far columns are looked at beside a line at least.
TINY = 1e-6
# In how many pieces a round is parted to find where the solid's coordinates cross it.
PIECES = 64

# Of each round of a corner, by its number among all that are drawn, the layers in which the corner has it.
Chosen = Mapping[int, tuple[Layer, ...]]


class Ways(NamedTuple):
    """The ways to round a solid back: those that are made, as many as there are, and what isn't tried; and what isn't either if a way is kept that
    the views don't explain."""

    made: list[list[Drawn]]
    among: int
    reasons: tuple[Reason, ...]
    if_kept: tuple[Reason, ...] = ()


class Sample(NamedTuple):
    """A place on each side of a line, what the sheet may draw between them, and their columns in the squared-off solid."""

    places: tuple[Place, Place]
    styles: frozenset[Style]
    columns: tuple[tuple[bool, ...], tuple[bool, ...]]


class Looking(NamedTuple):
    """What a corner is looked at by: the sheet, the unit, the corner's view, the solid's coordinates and whether it is full at a place, and the
    greatest rounds of the view's other corners."""

    given: Given
    unit: int
    view: str
    cuts: list[list[int]]
    is_full: Callable[[tuple[float, float, float]], bool]
    others: list[Drawn]

    @property
    def noise(self) -> float:
        """How far apart coordinates are at least that are two."""
        return max(TINY, 2 * self.given.moved)

    @property
    def depths(self) -> list[tuple[int, int]]:
        """The solid's layers along the sight, in units."""
        return list(itertools.pairwise(self.cuts[FRAMES[self.view].sight]))

    def column(self, place: Place) -> tuple[bool, ...]:
        x, y = place[0] * self.unit, place[1] * self.unit
        return tuple(self.is_full(spot(self.view, (x, y), (low + high) / 2)) for low, high in self.depths)

    def sample(self, places: tuple[Place, Place], on: Place, along: Along) -> Sample | None:
        """The sample of a place on a line; nothing where another corner's round decides what is there."""
        if any(is_before(place, it) for place in places for it in self.others):
            return None
        return Sample(places, styles_at(self.given, self.view, on, along), (self.column(places[0]), self.column(places[1])))


# ---- corners

def corners_of(found: Sequence[Drawn]) -> list[list[int]]:
    """The numbers of the rounds of each corner."""
    corners: list[list[int]] = []
    for number, one in enumerate(found):
        same = next((its for its in corners if are_of_one_corner(one, found[its[0]])), None)
        if same is None:
            corners.append([number])
        else:
            same.append(number)
    return corners


def are_of_one_corner(one: Drawn, other: Drawn) -> bool:
    """Whether two rounds, or oblique edges, of one view round the same corner."""
    a, b = one.quarter, other.quarter
    if one.one.view != other.one.view or (a.right, a.up, a.is_inner) != (b.right, b.up, b.is_inner):
        return False
    return math.dist(a.corner, b.corner) < SAME * max(width(one), width(other))


def width(it: Drawn) -> float:
    return it.quarter.box[2] - it.quarter.box[0]


# ---- what the sheet draws along a corner

def samples_of(its: Sequence[Drawn], looking: Looking) -> Iterator[Sample]:
    """The samples along the rounds of a corner, and along its sides as far as the greatest of them reaches."""
    for it in its:
        yield from along_round(it.quarter, looking)
    yield from along_sides(its, looking)


def along_round(quarter: Quarter | Slant, looking: Looking) -> Iterator[Sample]:
    """The samples along a round, one between each two places where the solid's coordinates cross it."""
    way = quarter.corner[0] - quarter.centre[0], quarter.corner[1] - quarter.centre[1]
    x0, y0, x1, y1 = quarter.box
    for low, high in itertools.pairwise(sorted({0.0, 0.5, 1.0, *crossings(quarter, looking)})):
        if high - low < SHORTEST:
            continue
        x, y = quarter.along((low + high) / 2)
        # Both places lie within the corner's box, also near the ends of the round.
        off = min(BESIDE * min(x1 - x0, y1 - y0), abs(x - quarter.corner[0]) / 2, abs(y - quarter.corner[1]) / 2)
        right, up = (it * off / math.hypot(*way) for it in way)
        if off > looking.noise and (found := looking.sample(((x - right, y - up), (x + right, y + up)), (x, y), Along.ARC)):
            yield found


def crossings(quarter: Quarter | Slant, looking: Looking) -> Iterator[float]:
    """At which shares of a round the solid's coordinates cross it."""
    frame = FRAMES[looking.view]
    for piece in range(PIECES):
        begin, end = quarter.along(piece / PIECES), quarter.along((piece + 1) / PIECES)
        for way, axis in enumerate((frame.right, frame.up)):
            for at in (cut / looking.unit for cut in looking.cuts[axis]):
                if (at - begin[way]) * (at - end[way]) < 0:
                    yield (piece + (at - begin[way]) / (end[way] - begin[way])) / PIECES


def along_sides(its: Sequence[Drawn], looking: Looking) -> Iterator[Sample]:
    """The samples along both sides of a corner, one between each two coordinates of the solid and ends of rounds."""
    frame, corner = FRAMES[looking.view], its[0].quarter.corner
    for across in (0, 1):
        along, sign = 1 - across, (its[0].quarter.right, its[0].quarter.up)[across]
        ends = [it.quarter.centre[along] for it in its]
        low, high = sorted((max(ends, key=lambda end: abs(end - corner[along])), corner[along]))
        cuts = (cut / looking.unit for cut in looking.cuts[frame.up if across == 0 else frame.right])
        for begin, end in itertools.pairwise(sorted({low, high, *(at for at in (*cuts, *ends) if low < at < high)})):
            middle = (begin + end) / 2
            off = min([depth_at(it, across, middle) / 4 for it in its if depth_at(it, across, middle) > 0] or [0.0])
            off = min(off, BESIDE * min(map(width, its)), (end - begin) / 2)
            if off <= looking.noise:
                continue
            ways = (corner[across] + way * off for way in (-sign, 0, sign))
            places = [(at, middle) if across == 0 else (middle, at) for at in ways]
            if found := looking.sample((places[0], places[2]), places[1], Along.UPRIGHT if across == 0 else Along.LEVEL):
                yield found


def depth_at(it: Drawn, across: int, at: float) -> float:
    """How deep what lies beyond a round is, from a side of its corner on, at a place along that side."""
    one, along = it.quarter, 1 - across
    share = (at - one.centre[along]) / (one.corner[along] - one.centre[along])
    if not 0 < share < 1:
        return 0.0
    deep = abs(one.corner[across] - one.centre[across])
    if isinstance(one, Slant):
        return share * deep
    return math.sqrt(1 - (1 - share) ** 2) * deep if one.is_inner else (1 - math.sqrt(1 - share**2)) * deep


def has_line_across(its: Sequence[Drawn], depth: int, looking: Looking, is_alone: bool = False) -> bool:
    """Whether all views from the side draw a line at a depth over a corner's box: there a round may end, and a sharp corner go on; or one that may
    be no longer."""
    own, box = FRAMES[looking.view], min(its, key=width).quarter.box
    sides = [view for view in VIEWS if view != looking.view and view in looking.given.lines and own.sight in (FRAMES[view].right, FRAMES[view].up)]
    return bool(sides) and all(is_covered(view, own.sight, depth, box, looking, is_alone) for view in sides)


def is_covered(view: str, sight: int, depth: int, box: tuple[float, float, float, float], looking: Looking, is_alone: bool) -> bool:
    """Whether a view from the side draws a line at a depth along a sight, all over a box of the view along the sight; or also one that ends with the
    box, or is met there by another line, or goes on before another round."""
    own, frame = FRAMES[looking.view], FRAMES[view]
    across = frame.right if sight == frame.up else frame.up
    at, way = 0 if across == own.right else 1, 0 if across == frame.right else 1
    low, high = box[at], box[at + 2]
    spans = sorted((min(it.start[way], it.end[way]), max(it.start[way], it.end[way])) for it in looking.given.lines[view]
                   if is_straight(it, NOISE) and is_level(it) == (way == 0) and abs(it.start[1 - way] - depth / looking.unit) <= NOISE)
    for begin, end in spans:
        low = max(low, end) if begin <= low + NOISE else low
    if low < high - NOISE or not is_alone:
        return low >= high - NOISE
    stops = [end for span in spans for end in span] + [end for it in looking.others for end in (it.quarter.box[at], it.quarter.box[at + 2])]
    stops += [it.start[way] for it in looking.given.lines[view] if is_straight(it, NOISE) and is_level(it) != (way == 0)
              and min(it.start[1 - way], it.end[1 - way]) - NOISE <= depth / looking.unit <= max(it.start[1 - way], it.end[1 - way]) + NOISE]
    return all(any(abs(stop - end) <= NOISE for stop in stops) for end in (box[at], box[at + 2]))


# ---- the choices of a corner

class Run(NamedTuple):
    """Layers along the sight, by their numbers, which are round together or sharp together, and which rounds fit in them."""

    depths: list[int]
    fitting: list[int]


# By depth the round that a corner has there, and its layer.
ByDepth = Mapping[int, tuple[int, Layer]]


def runs_of(found: Sequence[Drawn], numbers: Sequence[int], looking: Looking) -> list[Run]:
    """The runs of a corner's layers in which a choice is free."""
    its = [found[number] for number in numbers]
    result: list[Run] = []
    last: list[object] = []
    for depth, (low, _) in enumerate(looking.depths):
        over = {number: layer for number in numbers if (layer := layer_at(found[number], looking.depths[depth]))}
        kinds: list[object] = [(number, layer.is_full, layer.strips) for number, layer in over.items()]
        goes_on = result and result[-1].depths[-1] == depth - 1 and last == kinds
        if over and goes_on and not has_line_across(its, low, looking):
            result[-1].depths.append(depth)
        elif over:
            result.append(Run([depth], list(over)))
        last = kinds
    return result


def layer_at(it: Drawn, depths: tuple[int, int]) -> Layer | None:
    """A round's layer between two depths, where it fits there."""
    return next((layer for layer in it.layers if layer.low <= depths[0] and depths[1] <= layer.high), None)


def is_before(place: Place, it: Drawn) -> bool:
    """Whether a place lies beyond a round, in the part of its corner's box that the round turns."""
    one = it.quarter
    if isinstance(one, Quarter) and one.is_inner:
        return math.dist(place, one.corner) < one.radius and not is_beside(place, it)
    return one.is_before(place, 1e-9)


def is_turned(place: Place, it: Drawn, layer: Layer, unit: int) -> bool:
    """Whether a round turns a place in a layer: it lies beyond the round, and nothing goes on there across the corner's sides."""
    def is_in(strip: Strip) -> bool:
        if strip.across == 2:
            return all(low / unit <= at <= high / unit for low, high, at in zip(strip.low, strip.high, place))
        return strip.low[0] / unit <= place[1 - strip.across] <= strip.high[0] / unit

    return is_before(place, it) and not any(map(is_in, layer.strips))


def agrees(sample: Sample, by_depth: ByDepth, found: Sequence[Drawn], looking: Looking) -> bool:
    """Whether two columns draw what the sheet has between them, where the corner has these rounds at these depths."""
    columns = [[full != (depth in by_depth and is_turned(place, found[by_depth[depth][0]], by_depth[depth][1], looking.unit))
                for depth, full in enumerate(column)] for place, column in zip(sample.places, sample.columns)]
    # Where a round touches a wall of its own the line of contact is smooth, and may be drawn or not.
    touches = any(sample.columns[0][depth] == sample.columns[1][depth] and columns[0][depth] == columns[1][depth]
                  and any(is_beside(place, found[number]) for place in sample.places) for depth, (number, _) in by_depth.items())
    is_back = FRAMES[looking.view].sight_back
    return touches or style_between(*(it[::-1] if is_back else it for it in columns)) in sample.styles


def is_beside(place: Place, it: Drawn) -> bool:
    x0, y0, x1, y1 = it.quarter.box
    return not (x0 < place[0] < x1 and y0 < place[1] < y1)


class Choices(NamedTuple):
    """The choices of a corner, those first in which most is round; what isn't tried, and what isn't if a solid is kept all the same."""

    its: list[Chosen]
    reasons: tuple[Reason, ...] = ()
    if_kept: tuple[Reason, ...] = ()


def choices_of(numbers: Sequence[int], found: Sequence[Drawn], looking: Looking) -> Choices:
    """The choices of a corner that its view allows. Where it allows none, or they are too many, all layers in which a round fits are round."""
    its, whole = [found[number] for number in numbers], {number: found[number].layers for number in numbers}
    runs = runs_of(found, numbers, looking)
    count = math.prod(len(run.fitting) + 1 for run in runs)
    ends = (may_end(its[0]),) if may_go_over(its, looking) else ()
    if len(runs) == 1 and len(numbers) == 1:
        return Choices([whole], (), ends)
    if count > MOST_OF_CORNER:
        return Choices([whole], (not_tried(its[0], count, 1),))
    samples = list(samples_of(its, looking))
    result: list[Chosen] = []
    for chosen in itertools.product(*([*run.fitting, None] for run in runs)):
        by_depth = {depth: (number, layer) for run, number in zip(runs, chosen) if number is not None for depth in run.depths
                    if (layer := layer_at(found[number], looking.depths[depth]))}
        if {number for number, _ in by_depth.values()} == set(numbers) and all(agrees(sample, by_depth, found, looking) for sample in samples):
            result.append(layers_of({depth: number for depth, (number, _) in by_depth.items()}, whole, looking.depths))
    return Choices(result, (), ends) if result else Choices([whole], (), (*ends, not_tried(its[0], count, 1)))


def may_go_over(its: Sequence[Drawn], looking: Looking) -> bool:
    """Whether a round may go over into a sharp corner where the solid doesn't: its view draws the corner, and both views from the side a line at a
    depth that may be just as long as the corner's box is wide."""
    box = min(its, key=width).quarter.box
    corner, middle = its[0].quarter.corner, ((box[0] + box[2]) / 2, (box[1] + box[3]) / 2)
    sides = ((corner[0], middle[1]), Along.UPRIGHT), ((middle[0], corner[1]), Along.LEVEL)
    if any(styles_at(looking.given, looking.view, place, along) == {Style.NOTHING} for place, along in sides):
        return False
    return any(has_line_across(its, low, looking, True) for low, _ in looking.depths[1:])


def may_end(it: Drawn) -> Reason:
    """A round may go over into a sharp corner at some depth."""
    return Reason(Doubt.LAYERS_NOT_TRIED, f"Not checked: the {it.one} may go over into a square at a depth at which the views from the side draw a "
                  "line.", (("count", None), ("tried", 1)))


def layers_of(by_depth: Mapping[int, int], whole: Chosen, depths: Sequence[tuple[int, int]]) -> Chosen:
    """The layers of each round of a corner, by which round it has at which depth."""
    return {number: tuple(layer for layer in layers if any(by_depth.get(depth) == number and layer.low <= low and high <= layer.high
                                                           for depth, (low, high) in enumerate(depths))) for number, layers in whole.items()}


def not_tried(it: Drawn, count: int, tried: int) -> Reason:
    """At a corner, or the corners of a circle, not all choices of round layers were tried."""
    return Reason(Doubt.LAYERS_NOT_TRIED, f"Not checked: the {it.one} may be round at some depths and square at others in up to {count:,} ways; {tried:,} "
                  f"{'was' if tried == 1 else 'were'} tried.", (("count", count), ("tried", tried)))


# ---- the ways of a solid

def ways(solid: Solid, found: Sequence[Drawn], given: Given, unit: int) -> Ways:
    """All ways to round a solid back that have rounds where these were found, in some of their layers."""
    cuts, is_full = is_full_in(solid)
    corners = corners_of(found)
    largest = [max((found[number] for number in its), key=width) for its in corners]
    every: list[list[Chosen]] = []
    reasons: list[Reason] = []
    if_kept: list[Reason] = []
    for numbers, own in zip(corners, largest):
        others = [it for it in largest if it is not own and it.one.view == own.one.view]
        its = choices_of(numbers, found, Looking(given, unit, own.one.view, cuts, is_full, others))
        every.append(its.its)
        reasons += its.reasons
        if_kept += its.if_kept
    units: list[list[Chosen]] = []
    count = 1
    for together in circles_of(found, corners):
        size = math.prod(len(every[at]) for at in together)
        plain = alike(together, every, found)
        if size > len(plain):
            reasons.append(not_tried(largest[together[0]], size, len(plain)))
        units.append(plain)
        count *= len(plain)
    made = [with_layers(found, its) for its in itertools.islice(itertools.product(*units), MOST)]
    if count > len(made):
        reasons.append(Reason(Doubt.LAYERS_NOT_TRIED, f"Not checked: a solid can be rounded in {count:,} ways; {len(made)} were tried.",
                              (("count", count), ("tried", len(made)))))
    return Ways(made, count, tuple(dict.fromkeys(reasons)), tuple(dict.fromkeys(if_kept)))


def circles_of(found: Sequence[Drawn], corners: Sequence[Sequence[int]]) -> list[list[int]]:
    """Corners that belong together, since they have quarters of one whole circle, by their numbers."""
    groups: list[tuple[set[int], list[int]]] = []
    for at, numbers in enumerate(corners):
        circles = {id(found[number].one) for number in numbers if isinstance(found[number].one, Squared) and found[number].one.is_circle}
        same = [group for group in groups if group[0] & circles]
        merged = circles.union(*(its for its, _ in same)), [*(one for _, its in same for one in its), at]
        groups = [group for group in groups if group not in same] + [merged]
    return [its for _, its in groups]


def alike(together: Sequence[int], every: Sequence[Sequence[Chosen]], found: Sequence[Drawn]) -> list[Chosen]:
    """The choices of corners that belong together in which all quarters of each circle are round in the same layers; where there are none, the first
    one."""
    result: list[Chosen] = []
    for its in itertools.islice(itertools.product(*(every[at] for at in together)), MOST_OF_CIRCLE):
        layers = {number: own for chosen in its for number, own in chosen.items()}
        spans: dict[int, set[tuple[tuple[int, int], ...]]] = defaultdict(set)
        for number, own in layers.items():
            if found[number].one.is_circle:
                spans[id(found[number].one)].add(tuple((layer.low, layer.high) for layer in own))
        if all(len(kinds) == 1 for kinds in spans.values()):
            result.append(layers)
    return result or [{number: own for at in together for number, own in every[at][0].items()}]


def with_layers(found: Sequence[Drawn], its: Sequence[Chosen]) -> list[Drawn]:
    layers = {number: own for chosen in its for number, own in chosen.items()}
    return [one._replace(layers=layers[number]) for number, one in enumerate(found)]
