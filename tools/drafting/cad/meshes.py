"""Solids that are rounded back, as a page shows them in space: of each its faces in triangles and its edges, by FreeCAD."""
import itertools
import math
from collections.abc import Iterable, Iterator
from typing import Any

from ..rounds.features import Given
from ..rounds.verify import Kept
from ..solve.pipeline import Asked
from .freecad import FreeCAD, Part
from .rounded_shapes import turned_round

# The fewest sides of a circle, and at how small an angle, as its sine, faces go on smoothly across an edge, which isn't drawn then.
SIDES, SMOOTH = 48, 1e-3
# To how many parts of a unit of the answer places are told.
PARTS = 100


def fineness(given: Given) -> float:
    """How far from its face a triangle may lie, in the drawing's unit: as far as the sides of the least circle do."""
    return given.least * (1 - math.cos(math.pi / SIDES))


def told(places: "Iterable[FreeCAD.Vector]", unit: int) -> list[float]:
    """Places one after another, in units of the answer."""
    return [round(at * unit * PARTS) / PARTS for place in places for at in place]


def is_drawn(shape: "Part.Shape", edge: "Part.Edge") -> bool:
    """Whether two faces meet at an edge otherwise than smoothly."""
    faces = shape.ancestorsOfType(edge, Part.Face)
    if len(faces) != 2:
        return False
    middle = edge.valueAt((edge.FirstParameter + edge.LastParameter) / 2)
    one, other = (face.normalAt(*face.Surface.parameter(middle)) for face in faces)
    return bool(one.cross(other).Length > SMOOTH or one.dot(other) < 0)


def mesh_of(shape: "Part.Shape", fine: float, unit: int) -> dict[str, Any]:
    """The faces, each with points of its own, as triangles of these; and the edges that are drawn, each as a way from point to point."""
    points: list[float] = []
    triangles: list[int] = []
    for face in shape.Faces:
        its, corners = face.tessellate(fine)
        triangles += [len(points) // 3 + at for at in itertools.chain(*corners)]
        points += told(its, unit)
    ways = [told(edge.discretize(Deflection=fine), unit) for edge in shape.Edges if is_drawn(shape, edge)]
    return {"points": points, "triangles": triangles, "edges": ways}


def meshes(kept: Iterable[Kept], given: Given, asked: Asked) -> Iterator[dict[str, Any]]:
    """What is drawn of each solid that has a shape, by its choice, with its volume in words."""
    fine = fineness(given)
    for one in kept:
        if one.shape is not None:
            shape = turned_round(one.shape) if asked.origin.mirrored else one.shape
            yield {"choice": one.solid.choice, "volume": asked.rounded_volume(one), **mesh_of(shape, fine, 10**asked.decimals)}
