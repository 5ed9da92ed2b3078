"""Where an entity's points lie on the sheet. Texts, hatches, inserts and polylines have theirs in a system of their own, whose x runs to the left
where the entity is seen from below, as it is in a mirrored block. Nothing else reads coordinates of these kinds."""
import math
from collections.abc import Callable
from typing import Any

from .drawing import Place


def of(entity: Any, point: Any) -> Place:
    """A point that an entity has, in the sheet's coordinates. Of a kind whose points are the sheet's own it stays."""
    return placing(entity)(point)


def placing(entity: Any) -> Callable[[Any], Place]:
    """What brings an entity's points, of two or three coordinates, to those of the sheet."""
    extrusion = entity.dxf.get("extrusion")
    if extrusion is None or entity.dxftype() in IN_THE_SHEET or (extrusion.x, extrusion.y, extrusion.z) == (0.0, 0.0, 1.0):
        return lambda point: (float(point[0]), float(point[1]))
    system = entity.ocs()
    elevation = getattr(entity.dxf.get("elevation", 0.0), "z", entity.dxf.get("elevation", 0.0))

    def placed(point: Any) -> Place:
        at = system.to_wcs((float(point[0]), float(point[1]), float(point[2]) if len(point) > 2 else float(elevation)))
        return at.x, at.y

    return placed


# Kinds whose points are the sheet's own, whatever their extrusion says (DXF Reference, "Object Coordinate Systems").
IN_THE_SHEET = ("LINE", "POINT", "MTEXT", "LEADER", "3DFACE", "SPLINE", "ELLIPSE", "MLINE", "IMAGE", "WIPEOUT")


def direction(entity: Any, angle: float) -> Place:
    """Where an angle of an entity points on the sheet, as a vector of length 1; angles are in degrees from its own x on, those of dimensions too,
    whose points are the sheet's."""
    turn = math.radians(angle)
    extrusion = entity.dxf.get("extrusion")
    if extrusion is None or entity.dxftype() in IN_THE_SHEET or (extrusion.x, extrusion.y, extrusion.z) == (0.0, 0.0, 1.0):
        return math.cos(turn), math.sin(turn)
    way = entity.ocs().to_wcs((math.cos(turn), math.sin(turn), 0.0))
    return way.x, way.y


def angle(entity: Any, angle: float) -> float:
    """An angle of an entity on the sheet, in degrees."""
    x, y = direction(entity, angle)
    return math.degrees(math.atan2(y, x))
