"""Level and upright edges as runs: pieces that touch or lie upon one another are one, and coordinates are made whole."""
import itertools
import math
from collections import defaultdict
from collections.abc import Callable, Iterable, Sequence
from fractions import Fraction
from typing import NamedTuple

from ..core.advice import Noisy
from ..core.messages import Refused
from ..dxf.drawing import Place
from ..dxf.reader import Box, Edge, Source

# How many times as far apart as the tolerance different coordinates of a view have to be.
APART = 4
# How many times as long as the tolerance a line is that another export of its sheet has to have too: curves are written in shorter pieces.
LEAST = 4
# The greatest denominator that is looked for where coordinates fit no decimals: thirds, sevenths, sixty-fourths.
MOST_PARTS = 64
# The most decimals that recon reads.
MOST_DECIMALS = 6


class Run(NamedTuple):
    """A stretch of one style: upright or level, at a coordinate across it, from one along it to a greater one; with one of the
    edges that it was drawn by. An oblique edge is kept with its box."""

    hidden: bool
    upright: bool
    at: float
    low: float
    high: float
    edge: Edge
    oblique: bool = False

    def box(self) -> Box:
        if self.oblique:
            (a, b), (c, d) = self.edge.start, self.edge.end
            return min(a, c), min(b, d), max(a, c), max(b, d)
        return (self.at, self.low, self.at, self.high) if self.upright else (self.low, self.at, self.high, self.at)


class Piece(NamedTuple):
    """An edge as it is drawn: at a coordinate across it, from one along it to a greater one."""

    at: float
    low: float
    high: float
    edge: Edge


Row = list[Piece]


def rows_of(edges: Iterable[Edge], tolerance: float) -> tuple[dict[tuple[bool, bool], Row], list[Run], int]:
    """The level and the upright edges by style and way, those that are neither, and how many have no length."""
    rows: dict[tuple[bool, bool], Row] = defaultdict(list)
    oblique, short = [], 0
    for edge in edges:
        (a, b), (c, d) = edge.start, edge.end
        width, height = abs(a - c), abs(b - d)
        if width <= tolerance and height <= tolerance:
            short += 1
        elif min(width, height) > tolerance:
            oblique.append(Run(edge.hidden, False, 0.0, 0.0, 0.0, edge, True))
        elif width <= tolerance:
            rows[edge.hidden, True].append(Piece((a + c) / 2, min(b, d), max(b, d), edge))
        else:
            rows[edge.hidden, False].append(Piece((b + d) / 2, min(a, c), max(a, c), edge))
    return rows, oblique, short


def runs_of(edges: Sequence[Edge], tolerance: float) -> tuple[list[Run], int, int]:
    """The runs of edges, how many pieces were joined with others, and how many edges have no length."""
    rows, runs, short = rows_of(edges, tolerance)
    pieces = 0
    for (hidden, upright), row in rows.items():
        row.sort(key=lambda piece: piece.at)
        lines: list[Row] = []
        for piece in row:
            if lines and piece.at - lines[-1][0].at <= tolerance:
                lines[-1].append(piece)
            else:
                lines.append([piece])
        for line in lines:
            joined = joined_along(line, tolerance)
            pieces += len(line) - len(joined)
            runs += [Run(hidden, upright, line[0].at, low, high, edge) for low, high, edge in joined]
    return runs, pieces, short


def joined_along(line: Row, tolerance: float) -> list[tuple[float, float, Edge]]:
    """The stretches of one line, each once."""
    stretches: list[tuple[float, float, Edge]] = []
    for _, low, high, edge in sorted(line, key=lambda piece: piece.low):
        if stretches and low <= stretches[-1][1] + tolerance:
            stretches[-1] = stretches[-1][0], max(stretches[-1][1], high), stretches[-1][2]
        else:
            stretches.append((low, high, edge))
    return stretches


def hidden_by(whole: Sequence[Edge], visible: Sequence[Edge], tolerance: float) -> list[Edge]:
    """The edges of a sheet with those hidden that the same sheet without hidden lines lacks, cut where that begins and ends."""
    plain = [edge._replace(hidden=False) for edge in whole]
    seen, _, _ = runs_of([edge._replace(hidden=False) for edge in visible], tolerance)
    lines: dict[bool, list[Run]] = {way: sorted((run for run in seen if run.upright == way and not run.oblique), key=lambda it: it.at)
                                    for way in (False, True)}
    edges: list[Edge] = []
    covered: set[int] = set()
    for run in runs_of(plain, tolerance)[0]:
        if run.oblique:
            edges.append(run.edge._replace(hidden=not any(it.oblique and are_one(it.edge, run.edge, tolerance) for it in seen)))
            continue
        beside = [it for it in lines[run.upright] if abs(it.at - run.at) <= 2 * tolerance and it.low < run.high - tolerance
                  and it.high > run.low + tolerance]
        covered |= {id(it) for it in beside if run.low - tolerance <= it.low and it.high <= run.high + tolerance}
        stops = sorted({run.low, run.high, *(stop for it in beside for stop in (it.low, it.high)
                                             if run.low + tolerance < stop < run.high - tolerance)})
        for low, high in itertools.pairwise(stops):
            is_seen = any(it.low <= (low + high) / 2 <= it.high for it in beside)
            start, end = ((run.at, it) if run.upright else (it, run.at) for it in (low, high))
            edges.append(Edge(not is_seen, start, end, run.edge.colour, run.edge.source))
    lost = [run for way in lines.values() for run in way if id(run) not in covered and run.high - run.low > LEAST * tolerance]
    if lost:
        raise Refused(f"the sheets aren't two exports of one drawing: the one without hidden lines has {lost[0].edge.source} at "
                      f"{lost[0].edge.start}, which the other lacks")
    return edges


def are_one(one: Edge, other: Edge, tolerance: float) -> bool:
    """Whether two edges have the same ends."""
    return any(max(math.dist(one.start, a), math.dist(one.end, b)) <= 2 * tolerance
               for a, b in ((other.start, other.end), (other.end, other.start)))


# ---- oblique lines

def off(place: Place, line: tuple[Place, Place]) -> float:
    """How far a place lies from a line through two others."""
    (x, y), (right, up) = line
    return abs((place[0] - x) * (up - y) - (place[1] - y) * (right - x)) / math.dist(*line)


def along(place: Place, line: Edge) -> float:
    """How far along a line a place lies, from its start on."""
    return sum((b - a) * (it - a) for a, b, it in zip(line.start, line.end, place)) / math.dist(line.start, line.end)


# ---- whole coordinates

class At(NamedTuple):
    """A coordinate of a view: how far it is from the view's least one, the view, and on the sheet by its axis and of what."""

    length: float
    view: str
    axis: str
    place: float
    source: Source

    def told(self, where: Callable[[Source], str]) -> str:
        return f"{self.axis} = {self.place:.9g} (that of a {where(self.source)})"


def apart(values: Iterable[At], tolerance: float, where: Callable[[Source], str]) -> None:
    """Refuses coordinates that are farther apart than noise and nearer than edges are."""
    for one, other in itertools.pairwise(sorted(values, key=lambda it: it.length)):
        if tolerance < other.length - one.length < APART * tolerance:
            off = other.length - one.length
            raise Noisy(f"{one.view} has coordinates {off:.3g} apart, {one.told(where)} and {other.told(where)}: more than noise, which is {tolerance:.3g}, "
                        f"and less than an edge", off, off / APART)


class Measure(NamedTuple):
    """How lengths of a sheet become whole: multiplied by a number and with so many decimals; and how far they are moved at most."""

    times: Fraction
    decimals: int
    moved: float

    def units(self, length: float) -> int:
        return int(round(length * float(self.times) * 10**self.decimals))


def fits(values: Iterable[float], times: Fraction, decimals: int, tolerance: float) -> float | None:
    """How far values are from so many decimals at most, where that is noise: below the tolerance, and a tenth of the last decimal."""
    unit = 10.0**-decimals
    most = min(tolerance * float(times), unit / 10)
    worst = 0.0
    for value in values:
        scaled = value * float(times)
        off = abs(scaled - round(scaled / unit) * unit)
        # What a double of this size can't tell apart is no noise of the sheet.
        if off > most + 4 * math.ulp(abs(scaled)):
            return None
        worst = max(worst, off)
    return worst / float(times)


def measure_of(values: Sequence[float], scale: Fraction, decimals: int | None, tolerance: float) -> Measure | None:
    """The least number of decimals that lengths have, multiplied by the scale; else the least parts of a unit that they are; or none."""
    for count in range(MOST_DECIMALS + 1) if decimals is None else [decimals]:
        moved = fits(values, scale, count, tolerance)
        if moved is not None:
            return Measure(scale, count, moved)
    if decimals is None:
        for parts in range(3, MOST_PARTS + 1):
            moved = fits(values, scale * parts, 0, tolerance)
            if moved is not None:
                return Measure(scale * parts, 0, moved)
    return None


def without_noise(length: float, tolerance: float) -> float:
    """A length with the fewest decimals that it has but for noise; as it is where it has more than are read."""
    counts = (count for count in range(MOST_DECIMALS + 1) if fits([length], Fraction(1), count, tolerance) is not None)
    return next((round(length, count) for count in counts), length)
