"""What a squared-off drawing says of its sheet, in comments that recon passes over: its rounds, by which solids are rounded back; and the
lines and arcs of each view, with which they are compared. All are from a view's least corner on, in the drawing's unit:

    draft reading 1 of 3
    draft moved 0.00005                     how far coordinates of the drawing lie from the sheet's at most
    draft round TOP 40 25 6 1234            a centre, a radius, and the numbers of quarters; `inner` or `cut` behind them
    draft arc TOP solid 40 25 6 0 360       from an angle on, so many degrees counterclockwise
    draft line FRONT dashed 34 0 34 8
    draft smooth FRONT upright solid 8 0 8  left out as a tangent edge or a seam: at, from, to
    draft cone TOP 40 25 3 4 0 2.2 sure     a centre, from a radius at a depth on to another, and whether nothing else can stand for it
    draft chamfer FRONT 8 12 20 30 back     the sharp corner of an oblique edge, and the one across from that; whether a wall goes back
    draft hole TOP 40 25 6 0 8              a hole or boss that was taken off: a centre, a radius, from a depth on to another
    draft hole TOP 40 25 6 0 8 crossing 0 5 the same of one that crosses rounds, and between which depths its middle tells which of both it is
    draft bend FRONT solid 40 25 41 25.3 .. a curve that is no arc, by places along it
    draft doubt WORDS
    draft suspect WORDS                     a curve that the other views don't confirm (`unconfirmed.py`), the most suspicious first
"""
import re
from collections.abc import Callable, Iterator
from typing import NamedTuple

from ..core.messages import Refused
from ..dxf.drawing import FURTHER, VIEWS, Place, content_of, pairs
from ..dxf.reader import Arc, Edge, Source
from ..geometry.free_curves import Bend
from .rounds import Quarter, Round, Slant

NOWHERE = Source("drawn", "", "")
MOST = 200_000
# How many places of a curve stand in one comment, and with how many decimals.
MOST_PLACES, DECIMALS = 8, 5
VIEW = "|".join((*VIEWS, *FURTHER))
FORMS = {
    "round": rf"({VIEW}) # # # ([1-4]{{1,4}})( inner)?( cut)?", "arc": rf"({VIEW}) (solid|dashed) # # # # #",
    "line": rf"({VIEW}) (solid|dashed) # # # #", "smooth": rf"({VIEW}) (upright|level) (solid|dashed) # # #",
    "cone": rf"({VIEW}) # # # # # #( sure)?", "reading": r"([1-9]\d{0,5}) of ([1-9]\d{0,5})", "moved": r"(\d{1,12}(?:\.\d{1,9})?)",
    "chamfer": rf"({VIEW}) # # # #( back)?", "hole": rf"({VIEW}) # # # # #(?: crossing # #)?",
    "bend": rf"({VIEW}) (solid|dashed)((?: -?\d{{1,12}}(?:\.\d{{1,9}})?){{4,{2 * MOST_PLACES}}})", "doubt": "(.*)", "suspect": "(.*)",
}


class Squared(NamedTuple):
    """A round that was squared off: its view, its quarters, and whether a wall cuts it."""

    view: str
    centre: Place
    radius: float
    quarters: tuple[Quarter, ...]
    is_cut: bool

    @property
    def is_circle(self) -> bool:
        return len(self.quarters) == 4

    def __str__(self) -> str:
        what = "circle" if self.is_circle else "round"
        return f"{what} of {self.view} at {self.centre[0]:.6g}, {self.centre[1]:.6g}, of radius {self.radius:.6g}"


class Chamfer(NamedTuple):
    """An oblique edge that was squared off (`chamfers.py`): its view, its corner, and whether a wall goes back along a side of that."""

    view: str
    slant: Slant
    is_back: bool = False

    @property
    def quarters(self) -> tuple[Slant]:
        return self.slant,

    @property
    def is_circle(self) -> bool:
        return False

    @property
    def is_cut(self) -> bool:
        return False

    def __str__(self) -> str:
        return "oblique edge of {} from {:.6g}, {:.6g} to {:.6g}, {:.6g}".format(self.view, *self.slant.ends[0], *self.slant.ends[1])


class Stretch(NamedTuple):
    """A stretch of a line that may be a tangent edge or a seam of a round: in a view, upright or level, at, from, to. The owners are the
    rounds that it may be of, by their views and radii; and of how many rounds that are no whole circles it likely is one."""

    view: str
    is_upright: bool
    at: float
    low: float
    high: float
    hidden: bool
    owners: frozenset[tuple[str, float]] = frozenset()
    likely: int = 0

    def edge(self) -> Edge:
        ends = ((self.at, self.low), (self.at, self.high)) if self.is_upright else ((self.low, self.at), (self.high, self.at))
        return Edge(self.hidden, *ends, 7, NOWHERE)


class Cone(NamedTuple):
    """A cone that was taken off or squared off (`cones.py`): the view along its axis, its centre there, from a radius at its neck's depth
    along the axis, from the part's least corner on, to its end's, which is 0 at a point; and whether it is one wherever it fits."""

    view: str
    centre: Place
    radius: float
    neck: float
    end_radius: float
    end: float
    is_sure: bool

    def times(self, factor: float) -> "Cone":
        x, y = self.centre
        return self._replace(centre=(x * factor, y * factor), radius=self.radius * factor, neck=self.neck * factor,
                             end_radius=self.end_radius * factor, end=self.end * factor)


class Hole(NamedTuple):
    """A hole or a boss that was taken off (`holes.py`): the view along its axis, its centre there and its radius, and from which depth along
    the axis to which it goes; and of one that crosses other rounds (`crossed.py`) between which depths its middle is full or empty throughout,
    which tells which of both it is."""

    view: str
    centre: Place
    radius: float
    low: float
    high: float
    probe: tuple[float, float] | None = None

    def times(self, factor: float) -> "Hole":
        x, y = self.centre
        probe = None if self.probe is None else (self.probe[0] * factor, self.probe[1] * factor)
        return Hole(self.view, (x * factor, y * factor), self.radius * factor, self.low * factor, self.high * factor, probe)


class Given(NamedTuple):
    """What a drawing's comments say: the rounds, the lines and arcs by their views, what was left out as smooth, where squaring off may be
    wrong, the cones, and which reading of the sheet it is, of how many: one of a greater number changes more than to leave lines out; the
    chamfers, the holes and bosses that were taken off, the curves that other views don't confirm, and those that are no arcs; and how far the
    drawing's coordinates lie from the sheet's at most."""

    rounds: list[Squared]
    lines: dict[str, list[Edge]]
    arcs: dict[str, list[Arc]]
    smooth: list[Stretch]
    doubts: list[str]
    cones: list[Cone]
    reading: tuple[int, int] = (1, 1)
    chamfers: tuple[Chamfer, ...] = ()
    holes: tuple[Hole, ...] = ()
    suspects: tuple[str, ...] = ()
    bends: tuple[Bend, ...] = ()
    moved: float = 0.0

    @property
    def is_crossed(self) -> bool:
        """Whether holes or bosses were taken off that cross other rounds: then no formula tells the volume."""
        return any(it.probe for it in self.holes)

    @property
    def squared(self) -> list[Squared | Chamfer]:
        """All that was squared off."""
        return [*self.rounds, *self.chamfers]

    @property
    def kinds(self) -> str:
        """What was squared off, in words."""
        return " and ".join([*(["rounds"] if self.rounds or self.holes or not self.chamfers else []), *(["chamfers"] if self.chamfers else [])])

    @property
    def least(self) -> float:
        """The least radius, or side of a chamfer's corner."""
        sides = [abs(a - b) for it in self.chamfers for a, b in zip(it.slant.centre, it.slant.corner)]
        return min([*(it.radius for it in self.rounds), *(it.radius for it in self.holes), *sides])

    def extent(self, axis: int) -> float:
        """How far the part reaches along an axis of space."""
        view, at = {0: ("FRONT", 0), 1: ("TOP", 1), 2: ("FRONT", 1)}[axis]
        ends = [end[at] for it in self.lines.get(view, []) for end in (it.start, it.end)]
        return max([*ends, *(it.centre[at] + it.radius for it in self.arcs.get(view, []) if reaches(it, at))], default=0.0)


def times(given: Given, factor: int) -> Given:
    """The same in a smaller unit."""
    def place(it: Place) -> Place:
        return it[0] * factor, it[1] * factor

    def quarter(it: Quarter) -> Quarter:
        return it._replace(centre=place(it.centre), radius=it.radius * factor)

    return given._replace(
        rounds=[it._replace(centre=place(it.centre), radius=it.radius * factor, quarters=tuple(map(quarter, it.quarters))) for it in given.rounds],
        lines={view: [it._replace(start=place(it.start), end=place(it.end)) for it in its] for view, its in given.lines.items()},
        arcs={view: [it._replace(centre=place(it.centre), radius=it.radius * factor) for it in its] for view, its in given.arcs.items()},
        smooth=[it._replace(at=it.at * factor, low=it.low * factor, high=it.high * factor) for it in given.smooth],
        cones=[it.times(factor) for it in given.cones],
        chamfers=tuple(it._replace(slant=Slant(place(it.slant.centre), place(it.slant.corner))) for it in given.chamfers),
        holes=tuple(it.times(factor) for it in given.holes),
        bends=tuple(it._replace(places=tuple(map(place, it.places))) for it in given.bends),
        moved=given.moved * factor,
    )


def reaches(arc: Arc, at: int) -> bool:
    """Whether an arc comes to its circle's greatest place to the right, or upwards."""
    return (90 * at - arc.start) % 360 <= arc.sweep


# ---- writing

def plain(*values: float) -> str:
    """Numbers, with no more than nine decimals."""
    return " ".join(f"{value:.9f}".rstrip("0").rstrip(".") if round(value, 9) else "0" for value in values)


def number_of(quarter: Quarter) -> int:
    """The number of a quarter of its circle, from 1 on, as it is drawn."""
    one = quarter.across() if quarter.is_inner else quarter
    return {(1, 1): 1, (-1, 1): 2, (-1, -1): 3, (1, -1): 4}[one.right, one.up]


def styled(hidden: bool) -> str:
    return "dashed" if hidden else "solid"


def rows_of(given: Given) -> Iterator[str]:
    yield f"reading {given.reading[0]} of {given.reading[1]}"
    if plain(given.moved) != "0":
        yield f"moved {plain(given.moved)}"
    for one in given.rounds:
        marks = (" inner" if one.quarters[0].is_inner else "") + (" cut" if one.is_cut else "")
        yield f"round {one.view} {plain(*one.centre, one.radius)} {''.join(map(str, map(number_of, one.quarters)))}{marks}"
    for view, arcs in given.arcs.items():
        yield from (f"arc {view} {styled(it.hidden)} {plain(*it.centre, it.radius, it.start, it.sweep)}" for it in arcs)
    for view, lines in given.lines.items():
        yield from (f"line {view} {styled(it.hidden)} {plain(*it.start, *it.end)}" for it in lines)
    for it in given.smooth:
        way = "upright" if it.is_upright else "level"
        yield f"smooth {it.view} {way} {styled(it.hidden)} {plain(it.at, it.low, it.high)}"
    for cone in given.cones:
        yield f"cone {cone.view} {plain(*cone.centre, *cone[2:6])}{' sure' if cone.is_sure else ''}"
    yield from (f"chamfer {it.view} {plain(*it.slant.corner, *it.slant.centre)}{' back' if it.is_back else ''}" for it in given.chamfers)
    for hole in given.holes:
        yield f"hole {hole.view} {plain(*hole.centre, *hole[2:5])}" + (f" crossing {plain(*hole.probe)}" if hole.probe else "")
    for bend in given.bends:
        for at in range(0, len(bend.places) - 1, MOST_PLACES - 1):
            places = (round(length, DECIMALS) for place in bend.places[at:at + MOST_PLACES] for length in place)
            yield f"bend {bend.view} {styled(bend.hidden)} {plain(*places)}"
    yield from (f"doubt {text}" for text in given.doubts)
    yield from (f"suspect {text}" for text in given.suspects)


def comments(given: Given) -> str:
    return pairs(*((999, f"draft {row}") for row in rows_of(given)))


# ---- reading

def pattern(form: str) -> "re.Pattern[str]":
    return re.compile(form.replace("#", r"(-?\d{1,12}(?:\.\d{1,9})?)"))


PATTERNS = {word: pattern(form) for word, form in FORMS.items()}


def take_round(given: Given, view: str, *told: str) -> None:
    x, y, radius = map(float, told[:3])
    if radius <= 0:
        raise Refused("a round without a radius")
    numbers = tuple(sorted({int(it) - 1 for it in told[3]}))
    one = Round((x, y), radius, numbers, (), Arc(False, (x, y), radius, 0, 360, NOWHERE), bool(told[4]))
    given.rounds.append(Squared(view, (x, y), radius, tuple(one.quarters), bool(told[5])))


def take_arc(given: Given, view: str, style: str, *told: str) -> None:
    x, y, radius, start, sweep = map(float, told)
    given.arcs.setdefault(view, []).append(Arc(style == "dashed", (x, y), radius, start, sweep, NOWHERE))


def take_line(given: Given, view: str, style: str, *told: str) -> None:
    a, b, c, d = map(float, told)
    given.lines.setdefault(view, []).append(Edge(style == "dashed", (a, b), (c, d), 7, NOWHERE))


def take_smooth(given: Given, view: str, way: str, style: str, *told: str) -> None:
    at, low, high = map(float, told)
    given.smooth.append(Stretch(view, way == "upright", at, low, high, style == "dashed"))


def take_cone(given: Given, view: str, *told: str) -> None:
    x, y, radius, neck, end_radius, end = map(float, told[:6])
    if radius <= 0 or end_radius < 0 or neck == end:
        raise Refused("a cone without a radius or a height")
    given.cones.append(Cone(view, (x, y), radius, neck, end_radius, end, bool(told[6])))


def chamfer_in(view: str, *told: str) -> Chamfer:
    a, b, c, d = map(float, told[:4])
    if a == c or b == d:
        raise Refused("a chamfer without a width or a height")
    return Chamfer(view, Slant((c, d), (a, b)), bool(told[4]))


def hole_in(view: str, *told: str) -> Hole:
    x, y, radius, low, high = map(float, told[:5])
    probe = None if told[5] is None else (float(told[5]), float(told[6]))
    if radius <= 0 or low >= high or probe and probe[0] >= probe[1]:
        raise Refused("a hole without a radius or a depth")
    return Hole(view, (x, y), radius, low, high, probe)


def bend_in(view: str, style: str, places: str) -> Bend:
    its = [float(it) for it in places.split()]
    if len(its) % 2:
        raise Refused("a curve whose last place lacks a coordinate")
    return Bend(view, style == "dashed", tuple(zip(its[::2], its[1::2])))


def take_doubt(given: Given, text: str) -> None:
    given.doubts.append(text)


TAKES: dict[str, Callable[..., None]] = {
    "round": take_round, "arc": take_arc, "line": take_line, "smooth": take_smooth, "cone": take_cone, "doubt": take_doubt,
}


def given_in(lines: list[str]) -> Given | None:
    """What a drawing says of the sheet that it was squared off from; nothing where it wasn't."""
    given, count = Given([], {}, {}, [], [], []), 0
    for number, text in content_of(lines).comments:
        name, _, words = text.partition(" ")
        word, _, rest = words.partition(" ")
        if name != "draft" or word not in FORMS:
            continue
        count += 1
        told = PATTERNS[word].fullmatch(rest)
        if told is None or count > MOST:
            raise Refused(f"line {number + 1:,} isn't what `draft sheet` writes of a squared-off sheet: {text[:60]}")
        if word == "reading":
            given = given._replace(reading=(int(told[1]), int(told[2])))
        elif word == "moved":
            given = given._replace(moved=float(told[1]))
        elif word == "chamfer":
            given = given._replace(chamfers=(*given.chamfers, chamfer_in(*told.groups())))
        elif word == "hole":
            given = given._replace(holes=(*given.holes, hole_in(*told.groups())))
        elif word == "bend":
            given = given._replace(bends=(*given.bends, bend_in(*told.groups())))
        elif word == "suspect":
            given = given._replace(suspects=(*given.suspects, told[1]))
        else:
            TAKES[word](given, *told.groups())
    return given if given.squared or given.holes else None


