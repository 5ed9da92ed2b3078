"""Parts with holes, bosses and rounds made in FreeCAD, and their sheets, drawn by hidden line removal as people draw them: random ones, and
one for each question."""
import math
import pathlib
import random
from collections.abc import Callable, Iterable
from typing import Any

import ezdxf

from drafting.cad.compare import SHARP, drawn, projected
from drafting.cad.freecad import FreeCAD, Part
from drafting.cad.rounded_shapes import read_back

AXES = (FreeCAD.Vector(1, 0, 0), FreeCAD.Vector(0, 1, 0), FreeCAD.Vector(0, 0, 1))
Box = tuple[list[float], list[float]]
GAP = 20.0


# ---- what parts are made of

def box(*ends: float) -> Any:
    """A box by its least and its greatest corner."""
    low, high = ends[:3], ends[3:]
    return Part.makeBox(*(b - a for a, b in zip(low, high)), FreeCAD.Vector(*low))


def spot(axis: int, plan: Iterable[float], at: float) -> list[float]:
    x, y = plan
    place = [x, y]
    place.insert(axis, at)
    return place


def cylinder(axis: int, plan: tuple[float, float], low: float, high: float, radius: float) -> Any:
    """A cylinder along an axis, by the place of its centre along the two other ones."""
    return Part.makeCylinder(radius, high - low, FreeCAD.Vector(*spot(axis, plan, low)), AXES[axis])


def cone(axis: int, plan: tuple[float, float], at: float, end: float, radius: float, end_radius: float) -> Any:
    """A cone along an axis, from a radius at one place to another radius, or a point, at another one."""
    way = AXES[axis] * math.copysign(1, end - at)
    return Part.makeCone(radius, end_radius, abs(end - at), FreeCAD.Vector(*spot(axis, plan, at)), way)


def drilled(axis: int, plan: tuple[float, float], top: float, bottom: float, radius: float, angle: float = 118) -> Any:
    """What a drill takes away, down to a bottom and on to a point of an angle."""
    height = math.copysign(radius / math.tan(math.radians(angle / 2)), bottom - top)
    return cylinder(axis, plan, min(top, bottom), max(top, bottom), radius).fuse(cone(axis, plan, bottom, bottom + height, radius, 0))


def sunk(axis: int, plan: tuple[float, float], top: float, bottom: float, radius: float, wide: float) -> Any:
    """A hole with a countersink of 90 degrees at its top."""
    depth = math.copysign(wide - radius, bottom - top)
    return cylinder(axis, plan, min(top, bottom), max(top, bottom), radius).fuse(cone(axis, plan, top, top + depth, wide, radius))


Chosen = Callable[[Any], Any]


def edges_along(shape: Any, axis: int, chosen: Chosen) -> list[Any]:
    """The edges along an axis, all or those whose first point is chosen."""
    others = [it for it in range(3) if it != axis]
    return [edge for edge in shape.Edges if len(edge.Vertexes) == 2 and chosen(edge.Vertexes[0].Point)
            and all(abs(edge.Vertexes[0].Point[it] - edge.Vertexes[1].Point[it]) < 1e-9 for it in others)]


def filleted(shape: Any, radius: float, axis: int, chosen: Chosen = lambda point: True) -> Any:
    """The shape with its edges along an axis rounded."""
    return shape.makeFillet(radius, edges_along(shape, axis, chosen))


def chamfered(shape: Any, size: float, axis: int, chosen: Chosen = lambda point: True) -> Any:
    """The shape with its edges along an axis cut off straight, as much of both sides."""
    return shape.makeChamfer(size, edges_along(shape, axis, chosen))


def prism(axis: int, corners: Iterable[tuple[float, float]], low: float, high: float) -> Any:
    """A prism along an axis, by the places of its corners along the two other ones."""
    places = [FreeCAD.Vector(*spot(axis, corner, low)) for corner in corners]
    return Part.Face(Part.makePolygon([*places, places[0]])).extrude(AXES[axis] * (high - low))


def obround(axis: int, one: tuple[float, float], other: tuple[float, float], low: float, high: float, radius: float) -> Any:
    """A slot with round ends between two centres."""
    across = [radius if a == b else 0.0 for a, b in zip(one, other)]
    least = [min(a, b) - off for a, b, off in zip(one, other, across)]
    most = [max(a, b) + off for a, b, off in zip(one, other, across)]
    ends = cylinder(axis, one, low, high, radius).fuse(cylinder(axis, other, low, high, radius))
    return ends.fuse(box(*spot(axis, least, low), *spot(axis, most, high))).removeSplitter()


# ---- random parts

class Maker:
    """Makes one random part, whose features stand free: a box with rounded edges, a step, pockets, a boss, and holes along all axes."""

    def __init__(self, chance: random.Random) -> None:
        self.chance = chance
        self.size = [chance.randint(30, 70), chance.randint(30, 60), chance.randint(15, 40)]
        self.shape = box(0, 0, 0, *self.size)
        self.used: list[Box] = []

    def take(self, low: list[float], high: list[float]) -> bool:
        """Whether a place is free, which is then taken."""
        free = all(any(low[it] > b[it] + 1 or a[it] > high[it] + 1 for it in range(3)) for a, b in self.used)
        self.used += [(low, high)] if free else []
        return free

    def made(self) -> Any:
        steps = (self.edges, self.step, self.pocket, self.boss)
        for step in steps:
            if self.chance.random() < 0.6:
                step()
        for _ in range(self.chance.randint(1, 5)):
            self.hole()
        return self.shape.removeSplitter()

    def edges(self) -> None:
        (x, y, z), radius = self.size, self.chance.randint(2, 6)
        corners = [corner for corner in ((0, 0), (x, 0), (0, y), (x, y)) if self.chance.random() < 0.6]
        if corners:
            self.used += [([a - radius, b - radius, 0], [a + radius, b + radius, z]) for a, b in corners]
            self.shape = filleted(self.shape, radius, 2, lambda point: (round(point.x), round(point.y)) in corners)

    def step(self) -> None:
        x, y, z = self.size
        depth, width = self.chance.randint(4, z - 6), self.chance.randint(5, x // 3)
        low, high = [0.0, 0.0, float(z - depth)], [float(width), float(y), float(z)]
        if self.take(low, high):
            self.shape = self.shape.cut(box(*low, *high))

    def pocket(self) -> None:
        x, y, z = self.size
        wide, deep = self.chance.randint(9, x // 2 - 2), self.chance.randint(6, 8)
        at, up = self.chance.randint(3, x - wide - 3), self.chance.randint(3, y - deep - 3)
        low = self.chance.choice((0, self.chance.randint(3, z - 3)))
        if not self.take([at, up, low], [at + wide, up + deep, z]):
            return
        radius, middle = deep / 2, up + deep / 2
        tool = obround(2, (at + radius, middle), (at + wide - radius, middle), low, z, radius)
        if self.chance.random() < 0.5:
            tool = filleted(box(at, up, low, at + wide, up + deep, z), 2, 2)
        self.shape = self.shape.cut(tool)

    def boss(self) -> None:
        (x, y, z), radius, height = self.size, self.chance.randint(4, 8), self.chance.randint(3, 12)
        plan = self.chance.randint(radius + 1, x - radius - 1), self.chance.randint(radius + 1, y - radius - 1)
        if self.take(spot(2, [it - radius for it in plan], z - 1), spot(2, [it + radius for it in plan], z + height)):
            self.shape = self.shape.fuse(cylinder(2, plan, z, z + height, radius))
            inner = self.chance.choice((0, radius - 2))
            if inner:
                self.shape = self.shape.cut(cylinder(2, plan, z + 1, z + height, inner))

    def hole(self) -> None:
        axis, radius = self.chance.choice((2, 2, 1, 0)), self.chance.choice((1, 1.5, 2, 2.5, 3, 4))
        wide = radius + self.chance.choice((1, 1.5, 2))
        spans = [self.size[it] for it in range(3) if it != axis]
        if min(spans) < 2 * wide + 4:
            return
        x, y = (self.chance.randint(math.ceil(wide) + 1, span - math.ceil(wide) - 1) for span in spans)
        depth = self.chance.choice((self.size[axis], self.chance.randint(3, self.size[axis] - 3)))
        if not self.take(spot(axis, (x - wide, y - wide), 0), spot(axis, (x + wide, y + wide), depth)):
            return
        self.shape = self.shape.cut(cylinder(axis, (x, y), 0, depth, radius))
        if self.chance.random() < 0.4:
            self.shape = self.shape.cut(cylinder(axis, (x, y), 0, self.chance.randint(1, max(1, depth // 2)), wide))


def random_part(seed: int) -> Any:
    """A random part of one solid with some round, or nothing."""
    shape = Maker(random.Random(seed)).made()
    is_round = any(face.Surface.TypeId == "Part::GeomCylinder" for face in shape.Faces)
    return shape if is_round and shape.isValid() and len(shape.Solids) == 1 else None


# ---- random parts whose holes cross

class Crosser:
    """Makes one random part in which a bore, or a shaft, is crossed by holes of another view: ports of a block, a set screw's hole through a hub, or a
    pin's through a shaft; along any axes."""

    def __init__(self, chance: random.Random) -> None:
        self.chance = chance
        self.along, self.across = chance.sample((0, 1, 2), 2)
        self.radius = chance.randint(5, 9)
        self.narrow = chance.choice((1.5, 2, 2.5, 3, 4, self.radius))

    def plan(self, axis: int, place: list[float]) -> tuple[float, float]:
        x, y = (at for number, at in enumerate(place) if number != axis)
        return x, y

    def made(self) -> Any:
        return self.chance.choice((self.block, self.block, self.hub, self.shaft))()

    def block(self) -> Any:
        size = [self.chance.randint(36, 50) for _ in range(3)]
        centre = [float(self.chance.randint(self.radius + 5, it - self.radius - 5)) for it in size]
        shape = box(0, 0, 0, *size).cut(cylinder(self.along, self.plan(self.along, centre), 0, size[self.along], self.radius))
        slack = 3 - self.along - self.across
        for at in self.chance.sample((0.3, 0.7), self.chance.randint(1, 2)):
            place, wide = list(centre), min(self.narrow, self.radius - 1 if self.chance.random() < 0.7 else self.radius)
            place[self.along] = float(round(at * size[self.along]))
            place[slack] += self.chance.choice((0, 0, 0, 1, -1)) if wide < self.radius - 1 else 0
            depth = self.chance.choice((size[self.across], centre[self.across]))
            shape = shape.cut(cylinder(self.across, self.plan(self.across, place), 0, depth, min(wide, 4)))
        return shape.removeSplitter()

    def hub(self) -> Any:
        wide, thick = self.radius + self.chance.randint(3, 5), self.chance.randint(6, 9)
        middle = [22.0, 22.0]
        shape = cylinder(self.along, (22, 22), 0, thick, 22).fuse(cylinder(self.along, (22, 22), thick, thick + 20, wide))
        shape = shape.cut(cylinder(self.along, (22, 22), 0, thick + 20, self.radius)).removeSplitter()
        place = [*middle[:self.along], thick + 10.0, *middle[self.along:]]
        end = self.chance.choice((22, 44))
        return shape.cut(cylinder(self.across, self.plan(self.across, place), 0, end, min(self.narrow, self.radius - 1, 4))).removeSplitter()

    def shaft(self) -> Any:
        wide = self.radius + 4
        shape = cylinder(self.along, (16, 16), 0, 25, wide).fuse(cylinder(self.along, (16, 16), 25, 45, wide - 3))
        place = [16.0, 16.0]
        for at in self.chance.sample((10.0, 35.0), self.chance.randint(1, 2)):
            there = self.plan(self.across, [*place[:self.along], at, *place[self.along:]])
            shape = shape.cut(cylinder(self.across, there, 0, 32, min(self.narrow, 4)))
        return shape.removeSplitter()


def crossing_part(seed: int) -> Any:
    """A random part whose holes cross rounds of another view."""
    shape = Crosser(random.Random(seed)).made()
    assert shape.isValid() and len(shape.Solids) == 1
    return shape


# ---- sheets

More = Callable[[Any, dict[str, tuple[float, float]]], None]


def sheet_of(
    shape: Any, file: pathlib.Path, more: More | None = None, groups: Iterable[int] = SHARP, views: Iterable[str] = ("FRONT", "TOP", "SIDE")
) -> None:
    """Draws a shape as a sheet in third angle, with hidden lines dashed and smooth edges left out, or some groups of edges."""
    shape = read_back(shape)
    doc = ezdxf.new("R2010", setup=True)
    if "HIDDEN" not in doc.linetypes:
        doc.linetypes.add("HIDDEN", [0.375, 0.25, -0.125])
    doc.header["$INSUNITS"] = 4
    around = shape.BoundBox
    wide, deep, tall = (round(it, 3) for it in (around.XLength, around.YLength, around.ZLength))
    x, y, z = around.XMin, around.YMin, around.ZMin
    right = 100 + wide + GAP
    every = {"FRONT": (100 - x, 100 - z), "TOP": (100 - x, 100 + tall + GAP - y), "SIDE": (right - y, 100 - z),
             "LEFT": (100 - GAP + y, 100 - z), "REAR": (right + deep + GAP + x + wide, 100 - z), "BOTTOM": (100 - x, 100 - GAP + y)}
    places = {view: every[view] for view in views}
    for view, place in places.items():
        draw(doc.modelspace(), shape, view, place, groups)
    if more:
        more(doc.modelspace(), places)
    doc.saveas(file)


def draw(space: Any, shape: Any, view: str, place: tuple[float, float], groups: Iterable[int]) -> None:
    made = drawn(shape, view, tuple(groups))
    for arc in made.arcs:
        look = {"linetype": "HIDDEN" if arc.hidden else "CONTINUOUS"}
        centre = arc.centre[0] + place[0], arc.centre[1] + place[1]
        if arc.sweep == 360:
            space.add_circle(centre, arc.radius, dxfattribs=look)
        else:
            space.add_arc(centre, arc.radius, arc.start, arc.start + arc.sweep, dxfattribs=look)
    for line in made.lines:
        ends = [(x + place[0], y + place[1]) for x, y in (line.start, line.end)]
        space.add_line(*ends, dxfattribs={"linetype": "HIDDEN" if line.hidden else "CONTINUOUS"})
    for hidden, points in bent(shape, view, groups):
        look, there = {"linetype": "HIDDEN" if hidden else "CONTINUOUS"}, [(x + place[0], y + place[1]) for x, y in points]
        if are_in_line(points):
            space.add_line(there[0], there[-1], dxfattribs=look)
        else:
            space.add_spline(there, dxfattribs=look)


def bent(shape: Any, view: str, groups: Iterable[int]) -> Iterable[tuple[bool, list[tuple[float, float]]]]:
    """What of a view is neither a level or upright line nor an arc, as points."""
    for it in projected(shape, view, tuple(groups)):
        extents = [max(its) - min(its) for its in zip(*it.places)]
        if it.fine and min(extents) >= 1e-6:
            yield it.hidden, it.fine


def are_in_line(points: list[tuple[float, float]]) -> bool:
    (ax, ay), (bx, by), (cx, cy) = points[0], points[len(points) // 2], points[-1]
    return abs((bx - ax) * (cy - ay) - (by - ay) * (cx - ax)) < 1e-6


# ---- comparing with the part

def middle(shape: Any) -> Any:
    total = FreeCAD.Vector(0, 0, 0)
    for solid in shape.Solids:
        total += solid.CenterOfMass * solid.Volume
    return total * (1 / shape.Volume)


def are_same(one: Any, other: Any) -> bool:
    """Whether two shapes are the same, once their middles are in one place: by volume and by what one alone has. Where FreeCAD fails at shapes that
    lie a rounding error apart, they are moved by so many whole parts of a unit."""
    off = middle(one) - middle(other)
    return abs(one.Volume - other.Volume) < 1e-6 * other.Volume and any(
        apart(one, other, way) < 1e-6 * other.Volume for way in (off, FreeCAD.Vector(*(round(it, 4) for it in off))))


def apart(one: Any, other: Any, way: Any) -> float:
    """What of two shapes one alone has, once the other one is moved; without end where FreeCAD can't tell it."""
    moved = other.copy()
    moved.translate(way)
    try:
        return float(one.cut(moved).Volume + moved.cut(one).Volume)
    except RuntimeError:
        return math.inf
