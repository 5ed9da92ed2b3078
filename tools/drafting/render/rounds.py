"""Rounds as pictures show them: the views of a squared-off drawing as its sheet had them, and solids with rounds, seen from the front, the
left and above."""
import math
from collections.abc import Iterator
from typing import Any

from ..dxf import curves
from ..dxf.drawing import Line, Place
from ..dxf.reader import Arc
from ..rounds.features import Given
from .svg import Curve, path

# The widest chord by which an arc is drawn, in degrees; and how far a triangle may lie from a round, by its radius.
CHORD, FLAT = 6.0, 0.05


def views_of(given: Given) -> tuple[dict[str, list[Line]], dict[str, list[Curve]]]:
    """The lines and the rounds of each view, as the sheet had them."""
    lines = {view: [Line(it.hidden, it.start, it.end, (0, 0)) for it in its] for view, its in given.lines.items()}
    return lines, {view: [(it.hidden, places_of(it)) for it in its] for view, its in given.arcs.items()}


def places_of(arc: Arc) -> list[Place]:
    count = max(2, math.ceil(arc.sweep / CHORD))
    return [curves.at(arc.centre, arc.radius, arc.start + arc.sweep * at / count) for at in range(count + 1)]


def is_towards(corners: list[Place]) -> bool:
    """Whether a triangle is seen from its outer side: it goes round counterclockwise."""
    (ax, ay), (bx, by), (cx, cy) = corners
    return (bx - ax) * (cy - ay) - (by - ay) * (cx - ax) > 0


def outlines(face: Any, flat: float) -> Iterator[list[list[Place]]]:
    """A face that is seen, as loops of places: whole where it is plane, else in triangles."""
    if face.Surface.TypeId == "Part::GeomPlane":
        if face.normalAt(0, 0).y < -1e-9:
            yield [[(it.x, it.z) for it in wire.discretize(Deflection=flat)] for wire in face.Wires]
        return
    points, triangles = face.tessellate(flat)
    for corners in ([(points[at].x, points[at].z) for at in it] for it in triangles):
        if is_towards(corners):
            yield [corners]


class Seen:
    """A solid as it is seen once it is turned and raised: its faces, and its visible edges, to the right and upwards."""

    def __init__(self, shape: Any, turned: float, raised: float, least: float) -> None:
        from ..cad.freecad import FreeCAD, TechDraw
        from ..cad.project import DIRECTIONS
        shape = shape.copy()
        shape.rotate(FreeCAD.Vector(0, 0, 0), FreeCAD.Vector(0, 0, 1), math.degrees(turned))
        shape.rotate(FreeCAD.Vector(0, 0, 0), FreeCAD.Vector(1, 0, 0), math.degrees(raised))
        self.faces = [loops for face in shape.Faces for loops in outlines(face, least * FLAT)]
        self.edges: list[list[Place]] = []
        direction, place = DIRECTIONS["FRONT"]
        groups = TechDraw.projectEx(shape, FreeCAD.Vector(*direction))
        for edge in (edge for number in (0, 3) if not groups[number].isNull() for edge in groups[number].Edges):
            low, high = edge.ParameterRange
            count = 1 if edge.Curve.TypeId == "Part::GeomLine" else 24
            places = [edge.valueAt(low + (high - low) * at / count) for at in range(count + 1)]
            self.edges.append([place(it.x, it.y) for it in places])

    def drawn(self, left: float, bottom: float, scale: float, least: Place) -> Iterator[str]:
        """The solid with the least corner of what is seen there, on a scale."""
        def there(it: Place) -> Place:
            return left + scale * (it[0] - least[0]), bottom - scale * (it[1] - least[1])

        for loops in self.faces:
            inside = " ".join("M" + " L".join(f"{x:.1f},{y:.1f}" for x, y in map(there, loop)) + "Z" for loop in loops)
            yield f'<path class="face front" fill-rule="evenodd" d="{inside}"/>'
        yield from (path(map(there, places), "edge") for places in self.edges)

    def box(self) -> tuple[Place, Place]:
        places = [place for loops in self.faces for loop in loops for place in loop]
        xs, ys = zip(*places)
        return (min(xs), min(ys)), (max(xs), max(ys))
