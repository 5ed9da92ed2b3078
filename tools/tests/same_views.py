"""Groups of different solids that have the same views: boxes, cylinders and rounds, made by FreeCAD. A family makes candidates, which are drawn
along each of the three axes, as people draw: lines that go on are joined, and a visible line hides the hidden ones under it. Those that are drawn
alike are a group."""
import itertools
import math
import pathlib
import random
from collections import defaultdict
from collections.abc import Callable, Iterable, Sequence
from typing import Any, NamedTuple

import ezdxf

from drafting.cad.compare import drawn, rows_of, slants_of, style_at
from drafting.cad.freecad import FreeCAD
from drafting.cad.rounded_shapes import read_back

from .rounded_parts import are_same, box, chamfered, cylinder, filleted

VIEWS = ("FRONT", "TOP", "SIDE")
GAP = 20.0
# With how many decimals places are compared; no part has a place between.
DECIMALS = 3
# Stretches of a view: of a line or a circle, from where to where, and whether hidden.
Stretch = tuple[tuple[float, ...], float, float, bool]
Look = tuple[frozenset[Stretch], ...]
Plan = tuple[float, float]


class Group(NamedTuple):
    """Solids that have the same views, and these: the stretches of FRONT, TOP and SIDE, from the part's least corner on."""

    members: list[Any]
    look: Look


# ---- drawing as people draw

def look_of(shape: Any) -> Look:
    """What the views of a shape show, each line and arc as long as it goes on in one style."""
    shape = at_zero(read_back(shape))
    return tuple(view_of(shape, view) for view in VIEWS)


def at_zero(shape: Any) -> Any:
    around = shape.BoundBox
    shape.translate(FreeCAD.Vector(*(-round(it, DECIMALS) for it in (around.XMin, around.YMin, around.ZMin))))
    return shape


def view_of(shape: Any, view: str) -> frozenset[Stretch]:
    made = drawn(shape, view)
    assert not made.bends, f"a curve that is no arc in {view}"
    found: set[Stretch] = set()
    for key, row in rows_of(made.lines, made.arcs, slants_of(made.lines)).items():
        stops = sorted({round(end, DECIMALS) for low, high, _ in row for end in (low, high)})
        runs: list[tuple[float, float, str]] = []
        for low, high in itertools.pairwise(stops):
            style = style_at(row, (low + high) / 2)
            if high - low < 2 * 10**-DECIMALS or style == "nothing":
                continue
            if runs and runs[-1][2] == style and low - runs[-1][1] < 2 * 10**-DECIMALS:
                runs[-1] = runs[-1][0], high, style
            else:
                runs.append((low, high, style))
        found |= {(key, low, high, style == "dashed") for low, high, style in runs}
    return frozenset(found)


def write(look: Look, file: pathlib.Path) -> None:
    """Draws views as a sheet in third angle, hidden lines dashed."""
    doc = ezdxf.new("R2010", setup=True)
    doc.header["$INSUNITS"] = 4
    if "HIDDEN" not in doc.linetypes:
        doc.linetypes.add("HIDDEN", [0.375, 0.25, -0.125])
    places = (100.0, 100.0), (100.0, 100 + reach(look[0], 1) + GAP), (100 + reach(look[0], 0) + GAP, 100.0)
    for stretches, place in zip(look, places):
        for stretch in sorted(stretches):
            add(doc.modelspace(), stretch, place)
    doc.saveas(file)


def reach(stretches: Iterable[Stretch], at: int) -> float:
    """How far a view reaches to the right, or upwards, at most."""
    return max(max(it[0][at] + it[0][2] if len(it[0]) == 3 else 0.0, *(end[at] for end in ends_of(it))) for it in stretches)


def ends_of(stretch: Stretch) -> list[Plan]:
    key, low, high, _ = stretch
    if len(key) == 2:
        return [(key[1], it) if key[0] else (it, key[1]) for it in (low, high)]
    if len(key) == 3:
        return [(key[0] + key[2] * math.cos(it / key[2]), key[1] + key[2] * math.sin(it / key[2])) for it in (low, high)]
    length = math.dist(key[:2], key[2:])
    return [(key[0] + it / length * (key[2] - key[0]), key[1] + it / length * (key[3] - key[1])) for it in (low, high)]


def add(space: Any, stretch: Stretch, place: Plan) -> None:
    key, low, high, hidden = stretch
    look = {"linetype": "HIDDEN" if hidden else "CONTINUOUS"}
    if len(key) != 3:
        space.add_line(*((x + place[0], y + place[1]) for x, y in ends_of(stretch)), dxfattribs=look)
        return
    centre = key[0] + place[0], key[1] + place[1]
    if high - low > 2 * math.pi * key[2] - 0.01:
        space.add_circle(centre, key[2], dxfattribs=look)
    else:
        space.add_arc(centre, key[2], *(round(math.degrees(it / key[2]), 2) for it in (low, high)), dxfattribs=look)


def groups_of(candidates: Iterable[Any], axis: int = 2) -> list[Group]:
    """The groups among some candidates, each of at least two different solids, whose own third axis is turned to one: TOP, FRONT or SIDE then sees
    them as they are seen from above."""
    groups: dict[Look, list[Any]] = defaultdict(list)
    for shape in (turned(it, axis) for it in candidates):
        members = groups[look_of(shape)]
        if shape.isValid() and not any(are_same(shape, other) for other in members):
            members.append(shape)
    return [Group(members, look) for look, members in groups.items() if len(members) > 1]


def turned(shape: Any, axis: int) -> Any:
    """A shape whose top looks to the viewer of SIDE (0), FRONT (1) or TOP (2)."""
    rows = {0: (0, 0, 1, 1, 0, 0, 0, 1, 0), 1: (1, 0, 0, 0, 0, -1, 0, 1, 0), 2: (1, 0, 0, 0, 1, 0, 0, 0, 1)}[axis]
    return shape.transformed(FreeCAD.Matrix(*rows[:3], 0, *rows[3:6], 0, *rows[6:], 0, 0, 0, 0, 1), True)


# ---- families of solids, each looked at from above

Family = Callable[[int], Iterable[Any]]
FAMILIES: dict[str, Family] = {}


def family(make: Family) -> Family:
    """A family, by its name: it makes solids of so many plates, or, of holes and bosses, with so many in a row."""
    FAMILIES[make.__name__] = make
    return make


def fused(its: Sequence[Any]) -> Any:
    return its[0].multiFuse(list(its[1:])).removeSplitter()


def stack(plates: Sequence[Any], more: Sequence[Any] = (), step: float = 8) -> Any:
    """Plates that lie apart above each other, each 4 high, and what holds them."""
    its = []
    for number, plate in enumerate(plates):
        one = plate.copy()
        one.translate(FreeCAD.Vector(0, 0, number * step))
        its.append(one)
    return fused([*its, *more])


def chosen(kinds: Sequence[Any], count: int) -> Iterable[tuple[Any, ...]]:
    return itertools.product(kinds, repeat=count)


def cornered(kind: tuple[str, float], plate: Any, corner: Plan) -> Any:
    """A plate whose corner is sharp, round or cut off."""
    what, size = kind
    make = {"round": filleted, "chamfer": chamfered}.get(what)
    return make(plate, size, 2, lambda point: math.dist((point.x, point.y), corner) < 1e-6) if make else plate


SHARP, ROUND = ("sharp", 0.0), ("round", 6.0)


def shelved(kinds: Sequence[tuple[str, float]], cover: bool, count: int) -> Iterable[Any]:
    """Shelves on a wall, under a cover or not, each with a corner of some kind."""
    top = 8 * count
    wall = [box(0, 24, 0, 40, 30, top - 4), *([box(0, -5, top, 46, 30, top + 4), box(0, 24, 0, 40, 30, top + 4)] if cover else [])]
    for its in chosen(kinds, count):
        yield stack([cornered(kind, box(0, 0, 0, 40, 30, 4), (40, 0)) for kind in its], wall)


@family
def shelves_under_a_cover(count: int) -> Iterable[Any]:
    return shelved((ROUND, SHARP), True, count)


@family
def shelves_in_sight(count: int) -> Iterable[Any]:
    return shelved((ROUND, SHARP), False, count)


@family
def shelves_of_mixed_radii(count: int) -> Iterable[Any]:
    return shelved((("round", 10.0), ROUND, SHARP), True, count)


@family
def lugs(count: int) -> Iterable[Any]:
    """Lugs on a wall, whose ends are round or square."""
    for its in chosen((0, 6), count):
        ends = [fused([box(0, 0, 0, 18, 12, 4), cylinder(2, (18, 6), 0, 4, 6)]) if radius else box(0, 0, 0, 24, 12, 4) for radius in its]
        yield stack(ends, [box(-6, -4, 0, 0, 16, 8 * count - 4)])


@family
def lugs_with_bores(count: int) -> Iterable[Any]:
    """The same, with a bore through all."""
    for shape in lugs(count):
        yield shape.cut(cylinder(2, (18, 6), -1, 40, 3))


def bored(radius: float, cover: float, count: int) -> Iterable[Any]:
    """Plates on a wall with a round or square opening, under one with a round one or none."""
    top = 8 * count
    lid = box(0, 0, top, 40, 40, top + 4)
    more = [box(0, 34, 0, 40, 40, top + 4), lid.cut(cylinder(2, (20, 16), top, top + 4, cover)) if cover else lid]
    for its in chosen((True, False), count):
        square = box(20 - radius, 16 - radius, 0, 20 + radius, 16 + radius, 4)
        tools = [cylinder(2, (20, 16), 0, 4, radius) if is_round else square for is_round in its]
        yield stack([box(0, 0, 0, 40, 40, 4).cut(tool) for tool in tools], more)


@family
def openings_under_a_round_hole(count: int) -> Iterable[Any]:
    return bored(10, 10, count)


@family
def openings_under_a_wider_hole(count: int) -> Iterable[Any]:
    return bored(8, 12, count)


@family
def openings_under_a_smaller_hole(count: int) -> Iterable[Any]:
    return bored(10, 5, count)


@family
def openings_under_a_cover(count: int) -> Iterable[Any]:
    return bored(8, 0, count)


@family
def cheeks(count: int) -> Iterable[Any]:
    """Cheeks on a base whose bores are round or square."""
    for its in chosen((True, False), count):
        tools = [cylinder(2, (20, 20), 0, 4, 7) if is_round else box(13, 13, 0, 27, 27, 4) for is_round in its]
        yield stack([box(0, 0, 0, 40, 34, 4).cut(tool) for tool in tools], [box(-8, -4, -6, 48, 0, 8 * count + 2)])


def covered(count: int) -> list[Any]:
    """A wall behind some plates, and a cover above them."""
    return [box(0, 26, 0, 40, 30, 8 * count + 4), box(0, 0, 8 * count, 40, 30, 8 * count + 4)]


@family
def slots(count: int) -> Iterable[Any]:
    """Plates under a cover, with slots whose ends are round or square."""
    for its in chosen((0, 1), count):
        rounded = fused([box(12, 12, 0, 28, 20, 4), cylinder(2, (12, 16), 0, 4, 4), cylinder(2, (28, 16), 0, 4, 4)])
        tools = [rounded if end else box(8, 12, 0, 32, 20, 4)
                 for end in its]
        yield stack([box(0, 0, 0, 40, 30, 4).cut(tool) for tool in tools], covered(count))


@family
def slots_with_one_round_end(count: int) -> Iterable[Any]:
    for its in chosen((0, 1), count):
        tools = [box(8, 12, 0, 32, 20, 4) if not end else fused([box(8, 12, 0, 28, 20, 4), cylinder(2, (28, 16), 0, 4, 4)]) for end in its]
        yield stack([box(0, 0, 0, 40, 30, 4).cut(tool) for tool in tools], covered(count))


@family
def corners_of_pockets(count: int) -> Iterable[Any]:
    """Plates under a cover with windows, of which one corner is round or sharp."""
    for its in chosen((ROUND, SHARP), count):
        tools = [cornered(kind, box(8, 6, 0, 32, 22, 4), (8, 6)) for kind in its]
        yield stack([box(0, 0, 0, 40, 30, 4).cut(tool) for tool in tools], covered(count))


@family
def all_corners_of_pockets(count: int) -> Iterable[Any]:
    for its in chosen((3, 0), count):
        tools = [filleted(box(8, 6, 0, 32, 22, 4), radius, 2) if radius else box(8, 6, 0, 32, 22, 4) for radius in its]
        yield stack([box(0, 0, 0, 40, 30, 4).cut(tool) for tool in tools], covered(count))


@family
def pillars(count: int) -> Iterable[Any]:
    """Round or square pillars above each other between plates."""
    for its in chosen((True, False), count):
        posts = [cylinder(2, (20, 15), 4, 8, 6) if is_round else box(14, 9, 4, 26, 21, 8) for is_round in its]
        yield stack([box(0, 0, 0, 40, 30, 4).fuse(post) for post in posts], [box(0, 0, 8 * count, 40, 30, 8 * count + 4)])


@family
def fillets_in_corners(count: int) -> Iterable[Any]:
    """Angles under a cover, whose inner corner has a fillet or not."""
    for its in chosen((True, False), count):
        plates = [box(0, 0, 0, 30, 8, 4).fuse(box(0, 0, 0, 8, 30, 4)).removeSplitter() for _ in its]
        made = [cornered(ROUND if has else SHARP, plate, (8, 8)) for has, plate in zip(its, plates)]
        yield stack(made, [box(0, 0, 0, 4, 4, 8 * count + 4), box(-4, -4, 8 * count, 34, 34, 8 * count + 4)])


def deep(places: Sequence[Plan], radius: float, depths: Sequence[float], block: Any) -> Iterable[Any]:
    for its in itertools.product(depths, repeat=len(places)):
        shape = block
        for place, depth in zip(places, its):
            shape = shape.cut(cylinder(2, place, 20 - depth, 20, radius))
        yield shape


def in_rows(count: int) -> list[Plan]:
    """Places in two rows of so many."""
    return [(10.0 + 20 * along, up) for along in range(count) for up in (10.0, 30.0)]


def block(count: int) -> Any:
    return box(0, 0, 0, 20 * count, 40, 20)


@family
def holes_of_mixed_depth(count: int) -> Iterable[Any]:
    return deep(in_rows(count), 4, (5, 12), block(count))


@family
def holes_through_or_blind(count: int) -> Iterable[Any]:
    return deep(in_rows(count), 4, (8, 20), block(count))


@family
def holes_of_mixed_depth_round_a_bore(count: int) -> Iterable[Any]:
    return deep(in_rows(count), 3, (5, 12), block(count).cut(cylinder(2, (20, 20), 0, 20, 9)))


@family
def holes_through_or_blind_round_a_bore(count: int) -> Iterable[Any]:
    return deep(in_rows(count), 3, (8, 20), block(count).cut(cylinder(2, (20, 20), 0, 20, 9)))


@family
def bosses_of_mixed_height(count: int) -> Iterable[Any]:
    places = in_rows(count)
    for its in itertools.product((4, 9), repeat=len(places)):
        yield fused([box(0, 0, 0, 20 * count, 40, 8), *(cylinder(2, place, 8, 8 + height, 5) for place, height in zip(places, its))])


@family
def bosses_round_a_bore(count: int) -> Iterable[Any]:
    for shape in bosses_of_mixed_height(count):
        yield shape.cut(cylinder(2, (20, 20), 0, 8, 7))


@family
def openings_upon_each_other(count: int) -> Iterable[Any]:
    """Layers upon each other, of which every second one is wider, with a round or square opening in each."""
    for its in chosen((True, False), count):
        layers = []
        for number, is_round in enumerate(its):
            wide = 5 if number % 2 else 0
            tool = cylinder(2, (20, 20), 0, 8, 9) if is_round else box(11, 11, 0, 29, 29, 8)
            layer = box(-wide, -wide, 0, 40 + wide, 40 + wide, 8).cut(tool)
            layer.translate(FreeCAD.Vector(0, 0, 8 * number))
            layers.append(layer)
        yield fused(layers)


@family
def sections_of_a_shaft(count: int) -> Iterable[Any]:
    """A shaft between collars, round or square."""
    for its in chosen((True, False), count):
        its_all = [cylinder(2, (20, 20), 0, 4, 14)]
        for number, is_round in enumerate(its):
            low = 4 + 12 * number
            its_all += [cylinder(2, (20, 20), low, low + 8, 7) if is_round else box(13, 13, low, 27, 27, low + 8)]
            its_all += [cylinder(2, (20, 20), low + 8, low + 12, 14)]
        yield fused(its_all)


# ---- random families

def random_family(seed: int) -> list[Any]:
    """Plates of random sizes above each other on a wall, that touch or not, whose corners at one place are round or sharp, in all ways."""
    chance = random.Random(seed)
    count, low, its = chance.randint(2, 3), 0.0, []
    corner = chance.choice((24.0, 30.0)), chance.choice((0.0, 4.0))
    radii = chance.sample((3.0, 5.0, 8.0), chance.randint(1, 2))
    for _ in range(count):
        wide, deep_to = chance.choice((corner[0], corner[0], 36.0)), chance.choice((corner[1], corner[1], -6.0))
        high = low + chance.choice((3.0, 5.0))
        its.append((wide, deep_to, low, high))
        low = high + chance.choice((0.0, 3.0, 4.0))
    kinds: list[Sequence[tuple[str, float]]] = [[SHARP, *(("round", radius) for radius in radii)] for _ in its]
    wall = [box(0, 18, 0, 40, 24, low + 3), *([box(0, -8, low, 40, 24, low + 3)] if chance.random() < 0.5 else [])]
    made = []
    for choice in itertools.product(*kinds):
        plates = [cornered(kind, box(0, deep_to, a, wide, 24, b), (wide, deep_to)) for kind, (wide, deep_to, a, b) in zip(choice, its)]
        made.append(fused([*plates, *wall]))
    return made
