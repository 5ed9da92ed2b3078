"""Squaring off: each circle of a sheet becomes its bounding square, each quarter round its sharp corner, in the same linetype.

A quarter of a cylinder along a view's sight shows in the other views what its sharp corner shows there; so a solid with rounds has the
squared drawing once its rounds are sharp. Of a solid S of the squared drawing R is made by emptying what lies between a quarter and its
corner, in the layers where the corner's inside is full, and by filling it where the inside is empty. This is right both ways where

1. in such a layer full changes to empty, or the reverse, all along both sides of the corner, and nothing else of the boundary comes
   between the round and the corner but a round whose disc lies within the other's; or the inside is full, and along some sides a wall goes
   on that the round touches: there the line of contact is an edge, which the sheet is read without as a tangent one; a fillet of the same corner,
   whose radius is no greater, may go on behind such a boss, or be filled by it;
2. in the layers next to it no boundary runs along these sides, but that of such a wall;
3. where quarters end a wall of some length goes on, along the round or across it;
4. rounds of different views don't meet in space, but for holes and bosses that are taken off (`crossed.py`).

Then along each sight line of another view R is S with ends moved past no other end, and each style is the same. 3 is checked here, and
refused; where 1 may fail on the sheet, it is told that other solids may be missed; 1 is looked at again for each solid (`rounded.py`),
and each is drawn again and compared with the sheet (`compared.py`), by which 2 and 4 are seen: what fails is lost, never wrong.
"""
import itertools
import math
from collections.abc import Iterator, Sequence
from typing import NamedTuple

from ..core.advice import InTheWay
from ..dxf import curves
from ..dxf.drawing import Place
from ..dxf.reader import Arc, Box, Edge

# How many times the tolerance arcs of one circle may lie apart, coordinates of lines beside them, and the ends of lines upon them.
OF_ONE, BESIDE, UPON = 10, 20, 30
# What comes before the option by which an entity is left out.
THREAD = "; a thread is left out by"
# How far from its end a round is looked at, in degrees.
INTO = 0.02


class Quarter(NamedTuple):
    """A quarter of a circle, to the right or left of its centre (1, -1), above or below it; it rounds the corner across from that. An
    inner one is squared off to the circle's centre: it is a fillet whose ends stand free, and the quarter disc goes with it."""

    centre: Place
    radius: float
    right: int
    up: int
    is_inner: bool = False

    @property
    def corner(self) -> Place:
        return self.centre[0] + self.right * self.radius, self.centre[1] + self.up * self.radius

    @property
    def ends(self) -> tuple[Place, Place]:
        """Its ends on the upright and on the level side of its square."""
        return (self.corner[0], self.centre[1]), (self.centre[0], self.corner[1])

    @property
    def box(self) -> Box:
        return box_of([self.corner, *self.ends])

    def across(self) -> "Quarter":
        """The quarter whose centre and corner have changed places."""
        return Quarter(self.corner, self.radius, -self.right, -self.up, not self.is_inner)

    def along(self, share: float) -> Place:
        """A place on the round, some share of it from its upright side on."""
        if self.is_inner:
            return self.across().along(share)
        turn = share * math.pi / 2
        return self.centre[0] + self.right * self.radius * math.cos(turn), self.centre[1] + self.up * self.radius * math.sin(turn)

    def is_before(self, place: Place, tolerance: float) -> bool:
        """Whether a place lies between the round and its sharp corner, or on the sides of the corner."""
        right, up = ((place[at] - self.centre[at]) * way for at, way in ((0, self.right), (1, self.up)))
        inside = tolerance < right <= self.radius + tolerance and tolerance < up <= self.radius + tolerance
        return inside and math.hypot(right, up) > self.radius + tolerance


class Slant(NamedTuple):
    """An oblique edge across a box (`chamfers.py`): the sharp corner that it cuts off, or fills, and the one across from that."""

    centre: Place
    corner: Place

    @property
    def is_inner(self) -> bool:
        return False

    @property
    def right(self) -> int:
        return 1 if self.corner[0] > self.centre[0] else -1

    @property
    def up(self) -> int:
        return 1 if self.corner[1] > self.centre[1] else -1

    @property
    def ends(self) -> tuple[Place, Place]:
        """The edge's ends, on the upright and on the level side of its box at the corner."""
        return (self.corner[0], self.centre[1]), (self.centre[0], self.corner[1])

    @property
    def box(self) -> Box:
        return box_of([self.corner, self.centre])

    def across(self) -> "Slant":
        """The same edge, which cuts off the other corner."""
        return Slant(self.corner, self.centre)

    def along(self, share: float) -> Place:
        (a, b), (c, d) = self.ends
        return a + share * (c - a), b + share * (d - b)

    def is_before(self, place: Place, tolerance: float) -> bool:
        """Whether a place lies between the edge and its sharp corner, or on the sides of the corner."""
        right, up = ((place[at] - self.centre[at]) / (self.corner[at] - self.centre[at]) for at in (0, 1))
        noise = tolerance / min(abs(a - b) for a, b in zip(self.centre, self.corner))
        return max(right, up) <= 1 + noise and right + up > 1 + noise


class Round(NamedTuple):
    """What is drawn of one circle: the numbers of its quarters, and its pieces of one style, from angle to angle."""

    centre: Place
    radius: float
    numbers: tuple[int, ...]
    pieces: tuple[tuple[float, float, bool], ...]
    drawn: Arc
    is_inner: bool = False

    def quarter(self, number: int) -> Quarter:
        one = Quarter(self.centre, self.radius, 1 if number in (0, 3) else -1, 1 if number in (0, 1) else -1)
        return one.across() if self.is_inner else one

    @property
    def quarters(self) -> list[Quarter]:
        return list(map(self.quarter, self.numbers))

    @property
    def box(self) -> Box:
        """The box round what is drawn of it: a quarter's is that of its square."""
        return box_of([self.at(angle) for low, high, _ in self.pieces for angle in (low, high)])

    def is_drawn(self, angle: float) -> bool:
        return any(low <= angle % 360 <= high for low, high, _ in self.pieces)

    def at(self, angle: float) -> Place:
        return curves.at(self.centre, self.radius, angle)

    @property
    def cuts(self) -> list[float]:
        """Where it ends within a quarter, cut by a wall."""
        return [at for low, high, _ in self.pieces for at, way in ((low, -INTO), (high, INTO)) if at % 90 and not self.is_drawn(at + way)]

    def __str__(self) -> str:
        what, (x, y) = "circle" if len(self.numbers) == 4 else "round", (round(it, 6) + 0.0 for it in self.centre)
        return f"{what} of radius {self.radius:.6g} at {x:.6g}, {y:.6g} ({self.drawn.source})"


def box_of(places: Sequence[Place]) -> Box:
    xs, ys = [place[0] for place in places], [place[1] for place in places]
    return min(xs), min(ys), max(xs), max(ys)


def arc_box(arc: Arc) -> Box:
    turns = [arc.start, arc.start + arc.sweep, *(at for at in range(0, 720, 90) if arc.start <= at <= arc.start + arc.sweep)]
    return box_of([arc.at(it) for it in turns])


# ---- the circles

def rounds_of(arcs: Sequence[Arc], tolerance: float) -> list[Round]:
    """The arcs by their circles."""
    circles: list[list[Arc]] = []
    for arc in arcs:
        same = next((its for its in circles if are_of_one(its[0], arc, tolerance)), None)
        if same:
            same.append(arc)
        else:
            circles.append([arc])
    return [round_of(its, tolerance) for its in circles]


def are_of_one(one: Arc, other: Arc, tolerance: float) -> bool:
    noise = min(OF_ONE * tolerance, one.radius / 200)
    return math.dist(one.centre, other.centre) <= noise and abs(one.radius - other.radius) <= noise


def stops_of(arcs: Sequence[Arc], tolerance: float) -> list[float]:
    """The angles at which arcs of one circle begin, end, or come into the next quarter."""
    noise = math.degrees(4 * tolerance / arcs[0].radius)
    stops = [0.0, 90.0, 180.0, 270.0, 360.0]
    for stop in [at % 360 for arc in arcs for at in (arc.start, arc.start + arc.sweep)]:
        stops += [stop] if all(abs(stop - it) > noise for it in stops) else []
    return sorted(stops)


def round_of(arcs: Sequence[Arc], tolerance: float) -> Round:
    """What arcs of one circle draw, visible over hidden."""
    pieces: list[tuple[float, float, bool]] = []
    for low, high in itertools.pairwise(stops_of(arcs, tolerance)):
        styles = [arc.hidden for arc in arcs if ((low + high) / 2 - arc.start) % 360 <= arc.sweep]
        if styles and pieces and pieces[-1][1:] == (low, all(styles)) and low % 90:
            pieces[-1] = pieces[-1][0], high, all(styles)
        elif styles:
            pieces.append((low, high, all(styles)))
    covered = {int(low // 90) for low, _, _ in pieces}
    return Round(arcs[0].centre, arcs[0].radius, tuple(sorted(covered)), tuple(pieces), arcs[0])


# ---- lines beside them

def is_level(edge: Edge) -> bool:
    return abs(edge.start[1] - edge.end[1]) < abs(edge.start[0] - edge.end[0])


def is_straight(edge: Edge, noise: float) -> bool:
    return min(abs(a - b) for a, b in zip(edge.start, edge.end)) <= noise


def covers(edge: Edge, place: Place, tolerance: float) -> bool:
    return all(min(a, b) - tolerance <= at <= max(a, b) + tolerance for a, b, at in zip(edge.start, edge.end, place))


def check_ends(one: Round, edges: Sequence[Edge], rounds: Sequence[Round], tolerance: float) -> None:
    """Refuses a round at whose end no line goes on, along the round's way or across it as a wall."""
    for quarter, number in zip(one.quarters, one.numbers):
        for at, end in enumerate(quarter.ends):
            stop = math.degrees(math.atan2(end[1] - one.centre[1], end[0] - one.centre[0]))
            into = INTO if (at == 0) == (number % 2 == 0) else -INTO
            if one.is_drawn(stop + into) and not one.is_drawn(stop - into) and not goes_on(quarter, at, end, edges, tolerance):
                why = met_told(one, end, rounds, tolerance) or ("no line goes on: it is a thread, a circle that is cut, or one of two rounds that bend "
                      "to different sides without a wall between them")
                raise InTheWay(f"a {one} ends at {end[0]:.6g}, {end[1]:.6g}, where {why}", [one.drawn.source], THREAD)


def met_told(one: Round, place: Place, rounds: Sequence[Round], tolerance: float) -> str:
    """How a round ends at another one, in words; nothing where none is drawn at its end."""
    noise = BESIDE * tolerance
    for other in (it for it in rounds if it is not one and abs(math.dist(place, it.centre) - it.radius) <= noise):
        angle = math.degrees(math.atan2(place[1] - other.centre[1], place[0] - other.centre[0]))
        apart = math.dist(one.centre, other.centre)
        if any(map(other.is_drawn, (angle - INTO, angle, angle + INTO))):
            if abs(apart - one.radius - other.radius) <= noise:
                return f"it goes over into a {other}, which bends to the other side, without a wall between them"
            if abs(apart - abs(one.radius - other.radius)) <= noise:
                return f"it goes over into a {other}, or touches it"
            return f"a {other} cuts it: rounds are read that level and upright walls cut, and no others"
    return ""


def is_on(one: Round, place: Place, tolerance: float) -> bool:
    """Whether a place lies upon what is drawn of a round."""
    x, y = (it - centre for it, centre in zip(place, one.centre))
    return abs(math.hypot(x, y) - one.radius) <= UPON * tolerance and one.is_drawn(math.degrees(math.atan2(y, x)))


def goes_on(quarter: Quarter, at: int, end: Place, edges: Sequence[Edge], tolerance: float) -> bool:
    """Whether a line goes on at an end of a quarter, on its upright side or its level one; or goes back from it to the corner, as a wall does that
    a boss touches and that ends there."""
    ways = ((0, -quarter.up), (1, 0), (-1, 0)) if at == 0 else ((-quarter.right, 0), (0, 1), (0, -1))
    beside = [(end[0] + 3 * tolerance * x, end[1] + 3 * tolerance * y) for x, y in ways]
    back = [((end[0] + quarter.corner[0]) / 2, (end[1] + quarter.corner[1]) / 2), quarter.corner, end]
    along = [edge for edge in edges if is_level(edge) == (at == 1)]
    return any(covers(edge, place, tolerance) for place in beside for edge in edges) or all(
        any(covers(edge, place, tolerance) for edge in along) for place in back)


def doubts_of(one: Round, edges: Sequence[Edge], rounds: Sequence[Round], tolerance: float) -> Iterator[str]:
    """What ends, or squares off, between a round and its sharp corners. At another depth it does no harm; else no solid comes of it."""
    if one.cuts:
        yield f"a {one} is cut by walls, and doesn't stand free"
    for edge in edges:
        if any(quarter.is_before(end, tolerance) for quarter in one.quarters for end in (edge.start, edge.end)):
            yield f"a {edge.source} ends in a corner of the square of a {one}"
    for other in rounds[rounds.index(one) + 1:]:
        if any(do_meet(*it, tolerance) for a in one.quarters for b in other.quarters for it in ((a, b), (b, a))):
            yield f"a {one} or its square meets a {other}"


def sides_of(quarter: Quarter) -> list[Box]:
    return [box_of([end, quarter.corner]) for end in quarter.ends]


def do_meet(a: Quarter, b: Quarter, tolerance: float) -> bool:
    """Whether the sides at two rounds' corners touch, or one round comes before the other's corner, and none lies within the other."""
    if any(a.box[at] > b.box[at + 2] + tolerance or b.box[at] > a.box[at + 2] + tolerance for at in (0, 1)):
        return False
    touch = any(all(s[at] <= t[at + 2] + tolerance and t[at] <= s[at + 2] + tolerance for at in (0, 1))
                for s in sides_of(a) for t in sides_of(b))
    is_within = math.dist(a.centre, b.centre) + min(a.radius, b.radius) < max(a.radius, b.radius) - tolerance
    return touch or not is_within and any(a.is_before(b.along(step / 32), tolerance) for step in range(33))


# ---- squares

def image(one: Round, angle: float, edges: Sequence[Edge], rounds: Sequence[Round], tolerance: float) -> Place:
    """Where a change of style on a round comes to lie on its square: along the one line that meets it there."""
    x, y = one.at(angle)
    if abs(angle % 90) < 1e-9:
        return x, y
    met = [edge for edge in edges if covers(edge, (x, y), BESIDE * tolerance)]
    meeting = {is_level(edge) for edge in met}
    if len(meeting) != 1:
        what = "ends" if any(abs(angle - it) < 1e-9 for it in one.cuts) else "changes its style"
        why = met_told(one, (x, y), rounds, tolerance) or (f"{'two lines meet' if meeting else 'no line meets'} it: it is a thread, is cut by what is no "
              "level or upright wall, or meets another round in space")
        raise InTheWay(f"a {one} {what} at {x:.6g}, {y:.6g}, where {why}", [one.drawn.source], THREAD)
    right, up = (one.centre[at] + math.copysign(one.radius, it - one.centre[at]) for at, it in ((0, x), (1, y)))
    return (right, met[0].start[1]) if meeting.pop() else (met[0].start[0], up)


def square_of(one: Round, edges: Sequence[Edge], rounds: Sequence[Round], tolerance: float) -> Iterator[Edge]:
    """The edges that stand for a round."""
    for low, high, hidden in one.pieces:
        start, end = (image(one, angle, edges, rounds, tolerance) for angle in (low, high))
        corner = [one.quarter(int(low // 90)).corner] if all(abs(a - b) > tolerance for a, b in zip(start, end)) else []
        for a, b in itertools.pairwise([start, *corner, end]):
            yield Edge(hidden, a, b, 7, one.drawn.source)


def bare_squares(rounds: Sequence[Round]) -> list[Edge]:
    """The sides of the boxes of all pieces, by which views are found."""
    return [Edge(False, *side, 7, one.drawn.source) for one in rounds for low, high, _ in one.pieces
            for side in sides_round(box_of([one.at(low), one.at(high)]))]


def sides_round(box: Box) -> list[tuple[Place, Place]]:
    corners = [(box[0], box[1]), (box[2], box[1]), (box[2], box[3]), (box[0], box[3])]
    return list(zip(corners, corners[1:] + corners[:1]))


class Move(NamedTuple):
    """The end of a line that meets a round, moved along it, to the right or upwards, to the round's square."""

    one: Round
    along: int
    before: float
    after: float


class Squares(NamedTuple):
    """The edges of a sheet with its rounds squared off, these, where that may be wrong, and which ends of lines were moved."""

    edges: list[Edge]
    rounds: list[Round]
    doubts: list[str]
    moves: list[Move]


class Squaring:
    """Squares the rounds of a sheet off. An eager one moves each end of a line on a round, and not those alone that cut the round or
    change their style there."""

    def __init__(self, edges: Sequence[Edge], rounds: Sequence[Round], tolerance: float, is_eager: bool) -> None:
        self.edges, self.rounds, self.tolerance, self.is_eager = edges, rounds, tolerance, is_eager
        self.straight = [edge for edge in edges if is_straight(edge, tolerance)]
        self.moves: list[Move] = []

    def done(self) -> Squares:
        for one in self.rounds:
            check_ends(one, self.straight, self.rounds, self.tolerance)
        squares = [it for one in self.rounds for it in square_of(one, self.straight, self.rounds, self.tolerance)]
        doubts = [it for one in self.rounds for it in doubts_of(one, self.straight, self.rounds, self.tolerance)]
        return Squares([*map(self.lengthened, self.edges), *squares], list(self.rounds), doubts, self.moves)

    def lengthened(self, edge: Edge) -> Edge:
        """An edge whose end comes to lie on the square of a round that it meets."""
        ends = [list(edge.start), list(edge.end)]
        along = 0 if is_level(edge) else 1
        for one in self.rounds:
            for end in ends:
                self.lengthen(edge, one, along, end)
        return edge._replace(start=(ends[0][0], ends[0][1]), end=(ends[1][0], ends[1][1]))

    def lengthen(self, edge: Edge, one: Round, along: int, end: list[float]) -> None:
        if self.is_upon(one, along, end) and (self.is_eager or self.has_to_move(edge, one, along, end)):
            off = end[along] - one.centre[along]
            self.moves.append(Move(one, along, end[along], one.centre[along] + math.copysign(one.radius, off)))
            end[along] = self.moves[-1].after

    def is_upon(self, one: Round, along: int, end: Sequence[float]) -> bool:
        """Whether the end of a line lies upon a quarter of a round."""
        across, off = (end[at] - one.centre[at] for at in (1 - along, along))
        if not self.tolerance < abs(across) < one.radius - self.tolerance:
            return False
        half = math.sqrt(one.radius**2 - across**2)
        signs = [math.copysign(1, off), math.copysign(1, across)]
        signs = signs[::-1] if along else signs
        return abs(abs(off) - half) <= 12 * self.tolerance * one.radius / half and any([it.right, it.up] == signs for it in one.quarters)

    def has_to_move(self, edge: Edge, one: Round, along: int, end: Sequence[float]) -> bool:
        changes = any(it.hidden != edge.hidden and is_level(it) != bool(along) and covers(it, (end[0], end[1]), self.tolerance)
                      for it in self.straight)
        return changes or self.is_cut(one, end)

    def is_cut(self, one: Round, end: Sequence[float]) -> bool:
        """Whether the end of a line is one of those at which walls cut a round."""
        return any(math.dist(end, one.at(it)) <= UPON * self.tolerance for it in one.cuts)

    def has_bare_ends(self) -> bool:
        """Whether some line ends upon a round that isn't cut there, and no other line comes there: then it ends at the round itself, and so in all
        views at the round's square. Others may end at what happens to meet the round."""
        return any(self.is_bare(edge, one, *ends) for edge in self.straight for one in self.rounds
                   for ends in ((edge.start, edge.end), (edge.end, edge.start)))

    def is_bare(self, edge: Edge, one: Round, other: Place, end: Place) -> bool:
        along = 0 if is_level(edge) else 1
        if not self.is_upon(one, along, end) or self.is_cut(one, end):
            return False
        off = math.copysign(3 * self.tolerance, end[along] - other[along])
        beyond = (end[0] + off, end[1]) if along == 0 else (end[0], end[1] + off)
        return not any(covers(it, beyond if is_level(it) == is_level(edge) else end, self.tolerance) for it in self.straight)
