"""Solids of a squared-off drawing rounded back as FreeCAD's shapes: what lies between a quarter round and its sharp corner is cut from a
full corner, or added to an empty one; squares of whole circles become what is round them, and then cylinders are added or cut.
"""
import math
import tempfile
from collections.abc import Iterator, Sequence
from typing import NamedTuple

from ..core.messages import Refused
from ..dxf.drawing import Place
from ..recon.answer import Solid
from ..rounds import holes
from ..rounds.cones import Fitted, volume_by_pi
from ..rounds.features import Given, Hole, Squared
from ..rounds.restore import Drawn, Layer, Strip, by_rounds, is_behind, spot, volume_of
from ..rounds.rounds import Quarter, Slant
from .freecad import FreeCAD, Part, load
from .shells import shape_of

# How far apart places that are one may be told, which have nine decimals.
TOLD = 1e-8
# How wide, of a hole that crosses other rounds, the middle is that tells whether it is one.
MIDDLE = 0.01


class Tool(NamedTuple):
    """A shape that is cut from a solid, or added to it."""

    shape: "Part.Shape"
    is_added: bool


class Whole(NamedTuple):
    """A whole circle in one layer: its square prism, which the solid has full or empty, and its cylinder."""

    radius: float
    is_full: bool
    square: "Part.Shape"
    cylinder: "Part.Shape"


def vector(view: str, place: Place, depth: float) -> "FreeCAD.Vector":
    return FreeCAD.Vector(*spot(view, place, depth))


def prism(view: str, sides: Sequence["Part.Shape"], depth: float) -> "Part.Shape":
    return Part.Face(Part.Wire(list(sides))).extrude(vector(view, (0, 0), depth))


def whole_of(one: Squared, layer: Layer, unit: int) -> Whole:
    view, radius, foot = one.view, one.radius, layer.low / unit
    low, high = ([round((at + way * radius) * unit) / unit for at in one.centre] for way in (-1, 1))
    places = (low[0], low[1]), (high[0], low[1]), (high[0], high[1]), (low[0], high[1])
    corners = [vector(view, place, foot) for place in places]
    depth = (layer.high - layer.low) / unit
    square = prism(view, list(map(Part.makeLine, corners, corners[1:] + corners[:1])), depth)
    return Whole(radius, layer.is_full, square, Part.makeCylinder(radius, depth, vector(view, one.centre, foot), vector(view, (0, 0), 1)))


def corner_of(view: str, quarter: Quarter | Slant, layer: Layer, unit: int) -> "Part.Shape":
    """What lies between a quarter round, or a chamfer, and its sharp corner in a layer, without where something goes on across the corner's
    sides."""
    quarter = in_units(quarter, unit)
    first, corner, last, middle = (vector(view, place, layer.low / unit) for place in (quarter.ends[0], quarter.corner, quarter.ends[1], quarter.along(0.5)))
    across = Part.makeLine(last, first) if isinstance(quarter, Slant) else Part.Arc(last, middle, first).toShape()
    sides = [Part.makeLine(first, corner), Part.makeLine(corner, last), across]
    tool = prism(view, sides, (layer.high - layer.low) / unit)
    for strip in layer.strips:
        tool = tool.cut(box_of(view, quarter, layer, strip, unit))
    return tool


def in_units(one: Quarter | Slant, unit: int) -> Quarter | Slant:
    """A chamfer whose ends, or a quarter round whose sharp corner, are where the solid has them. A round that is d beside a plane that it touches is
    tangent to it no more: it ends the root of 2 r d before that, and leaves a sliver that no tolerance mends."""
    centre, corner = (tuple(round(at * unit) / unit for at in place) for place in (one.centre, one.corner))
    if isinstance(one, Slant):
        return Slant((centre[0], centre[1]), (corner[0], corner[1]))
    x, y = (at + end - own for at, end, own in zip(one.centre, corner, one.corner))
    return one._replace(centre=(x, y))


def box_of(view: str, quarter: Quarter | Slant, layer: Layer, strip: Strip, unit: int) -> "Part.Shape":
    """Where something goes on across a corner's side: it is kept as far as the round."""
    x0, y0, x1, y1 = quarter.box
    low, high = [x0, y0], [x1, y1]
    if strip.across == 2:
        low, high = [strip.low[0] / unit, strip.high[0] / unit], [strip.low[1] / unit, strip.high[1] / unit]
    else:
        low[1 - strip.across], high[1 - strip.across] = strip.low[0] / unit, strip.high[0] / unit
    size = spot(view, (high[0] - low[0], high[1] - low[1]), (layer.high - layer.low) / unit)
    return Part.makeBox(*size, vector(view, (low[0], low[1]), layer.low / unit))


def runs_of(layers: Sequence[Layer]) -> Iterator[Layer]:
    """Layers that follow each other as one."""
    run: Layer | None = None
    for layer in layers:
        if run and run.high == layer.low and run[2:] == layer[2:] and not layer.strips:
            run = run._replace(high=layer.high)
            continue
        if run:
            yield run
        run = layer
    if run:
        yield run


def applied(shape: "Part.Shape", tool: Tool) -> "Part.Shape":
    if not tool.is_added:
        return shape.cut(tool.shape)
    return shape.fuse(tool.shape) if shape.Solids else tool.shape


def read_back(shape: "Part.Shape") -> "Part.Shape":
    """The shape as a STEP file has it: reading one marks the smooth edges, which aren't drawn."""
    with tempfile.NamedTemporaryFile(suffix=".step") as file:
        shape.exportStep(file.name)
        return load(file.name)


def tools_of(found: Sequence[Drawn], unit: int, by_formula: bool) -> tuple[list[Whole], list[Tool]]:
    """The whole circles, and what is cut or added at other corners; behind a greater round of the same corner once that is cut."""
    wholes: list[Whole] = []
    corners: list[Tool] = []
    behind: list[Tool] = []
    for group in by_rounds(found):
        one = group[0].one
        if isinstance(one, Squared) and one.is_circle and all(it.layers == group[0].layers for it in group) and by_formula:
            wholes += [whole_of(one, layer, unit) for layer in group[0].layers]
            continue
        for it in group:
            its = [Tool(corner_of(it.one.view, it.quarter, run, unit), not run.is_full) for run in runs_of(it.layers)]
            (behind if any(is_behind(it, other) for other in found) else corners).extend(its)
    return wholes, [it for it in (*corners, *behind) if it.shape.Solids]


def cone_tools(it: Fitted) -> Iterator[Tool]:
    """What puts a cone back, round the narrower of its circles: where it was squared to a step that is wider than it, that is taken back before."""
    cone, height = it.cone, abs(it.end - it.neck)
    foot, way = vector(cone.view, cone.centre, it.neck), vector(cone.view, (0, 0), math.copysign(1, it.end - it.neck))
    least = min(cone.radius, cone.end_radius)

    def beyond(shape: "Part.Shape") -> "Part.Shape":
        return shape.cut(Part.makeCylinder(least, height, foot, way)) if least else shape

    if cone.end_radius > cone.radius:
        yield Tool(beyond(Part.makeCylinder(cone.end_radius, height, foot, way)), not it.is_full)
    yield Tool(beyond(Part.makeCone(cone.radius, cone.end_radius, height, foot, way)), it.is_full)


def put_back(shape: "Part.Shape", hole: Hole) -> "Part.Shape":
    """The shape with what was taken off: a hole where it is full there, a boss where it is empty; of what crosses other rounds in its middle."""
    def cylinder_of(radius: float, low: float, high: float) -> "Part.Shape":
        return Part.makeCylinder(radius, high - low, vector(hole.view, hole.centre, low), vector(hole.view, (0, 0), 1))

    cylinder = cylinder_of(hole.radius, hole.low, hole.high)
    within = cylinder_of(hole.radius * MIDDLE, *hole.probe) if hole.probe else cylinder
    share = within.common(shape).Volume / within.Volume
    if 1e-6 < share < 1 - 1e-6:
        raise Refused("something else comes into a hole or boss that was taken off")
    return applied(shape, Tool(cylinder, share < 0.5))


def rounded_shape(
    solid: Solid, found: Sequence[Drawn], cones: Sequence[Fitted], given: Given, unit: int, by_formula: bool
) -> "Part.Shape":
    """The shape of a solid rounded back. Squares of whole circles become what is round them, the least ones first; then the cylinders are
    added or cut, the greatest ones first; before, other corners are cut or filled, and in the end cones, holes and bosses put back."""
    shape, cylinders = shape_of(solid).scale(1 / unit), []
    wholes, corners = tools_of(found, unit, by_formula)
    for it in sorted(wholes, key=lambda whole: whole.radius):
        cylinder = it.cylinder
        if abs(it.square.common(shape).Volume - it.is_full * it.square.Volume) > 1e-7 * it.square.Volume:
            # Something that isn't round stands within the round.
            cylinder = cylinder.common(shape) if it.is_full else cylinder.cut(shape)
        shape = applied(shape, Tool(it.square, not it.is_full))
        cylinders.append(Tool(cylinder, it.is_full))
    for tool in [*corners, *reversed(cylinders), *(tool for cone in cones for tool in cone_tools(cone))]:
        shape = applied(shape, tool)
    # A boss comes before the hole in it, as what is wider.
    for hole in sorted(given.holes, key=lambda it: (it.probe is not None, -it.radius if it.probe else 0)):
        shape = put_back(shape, hole)
    if not by_formula or given.is_crossed:
        return checked(read_back(shape.removeSplitter()), None, given.moved)
    plain, by_pi = volume_of(solid, found, unit, given.moved)
    volume = float(plain) + float(by_pi + volume_by_pi(cones, unit, given.moved) + holes.volume_by_pi(solid, found, given, unit)) * math.pi
    return checked(read_back(shape.removeSplitter()), volume, given.moved)


def turned_round(shape: "Part.Shape") -> "Part.Shape":
    """The shape in a mirror, x turned round, from 0 on."""
    turned = shape.mirror(FreeCAD.Vector(0, 0, 0), FreeCAD.Vector(1, 0, 0))
    turned.translate(FreeCAD.Vector(-turned.BoundBox.XMin, 0, 0))
    return turned


def checked(shape: "Part.Shape", volume: float | None, moved: float) -> "Part.Shape":
    """The shape, where it is valid, and has the volume that the formula tells: but for how far coordinates are moved, by which the sides of a square
    come nearer or go apart, over all of its surface. FreeCAD's own noise, some 1e-14 of the surface, is less than what places are told with."""
    if not shape.isValid() or not shape.Solids:
        raise Refused("FreeCAD makes no valid solid of it")
    if volume is not None and abs(shape.Volume - volume) > shape.Area * (2 * moved + TOLD):
        raise Refused(f"FreeCAD's volume of it is {shape.Volume:.9g}, and {volume:.9g} was to come")
    return shape
