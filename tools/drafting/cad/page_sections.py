"""The sections of a page of FreeCAD, drawn anew as its views are: of what is left of the part behind a plane the edges that are seen, and the faces
in the plane."""
from typing import Any

from ..core.messages import Refused
from ..core.page import Cut, Page
from ..dxf.drawing import Place
from ..dxf.reader import Edge, Source
from ..geometry.segments import Run, runs_of
from ..projection.draw import FRAMES
from ..sections.areas import Hatch, Segment, area_of
from .compare import SHARP, ends_of, projected
from .freecad import FreeCAD, Part
from .redraw import COLOUR, matrix_of, turned

# How near to a plane a face lies that is in it.
NEAR = 1e-6
# How far around the part what is cut off reaches.
AROUND = 1.0


def left_behind(page: Page, cut: Cut) -> Any:
    """What is left of the part behind a section's plane, along the drawing's axes."""
    part, frame = turned(page.part, matrix_of(page.frame).inverse()), FRAMES[cut.looks]
    its = part.BoundBox
    low, high = ([it - AROUND for it in (its.XMin, its.YMin, its.ZMin)], [it + AROUND for it in (its.XMax, its.YMax, its.ZMax)])
    if not low[frame.sight] < cut.at < high[frame.sight]:
        raise Refused("whose plane lies beside the part")
    (high if frame.sight_back else low)[frame.sight] = cut.at
    return part.common(Part.makeBox(*(b - a for a, b in zip(low, high)), FreeCAD.Vector(*low)))


def lines_of(left: Any, cut: Cut, tolerance: float) -> list[Run]:
    """The edges that are seen of it; refused where one is no level or upright line."""
    edges = []
    for it in projected(left, cut.looks, SHARP):
        if not it.hidden:
            ends = (it.places[0], it.places[-1]) if it.edge.Curve.TypeId == "Part::GeomLine" else ends_of(it.places)
            if ends is None:
                raise Refused("which shows a curve")
            edges.append(Edge(False, *ends, COLOUR, Source("line", cut.label, "", view=cut.label)))
    runs = runs_of(edges, tolerance)[0]
    if not runs or any(run.oblique for run in runs):
        raise Refused("which shows an oblique edge" if runs else "which shows nothing")
    return runs


def faces_in(left: Any, cut: Cut) -> list[Hatch]:
    """The faces of it that lie in the plane."""
    frame = FRAMES[cut.looks]

    def flat(vertex: Any) -> Place:
        its = tuple(vertex.Point)
        return its[frame.right] * (-1 if frame.right_back else 1), its[frame.up] * (-1 if frame.up_back else 1)

    return [Hatch([[flat(vertex) for vertex in wire.OrderedVertexes] for wire in face.Wires], "face", "")
            for face in left.Faces if all(abs(tuple(vertex.Point)[frame.sight] - cut.at) < NEAR for vertex in face.Vertexes)]


def drawn(page: Page, cut: Cut, tolerance: float) -> tuple[list[Run], list[Segment]]:
    """The lines of a section, and the outline of its area, where it shows that."""
    left = left_behind(page, cut)
    runs = lines_of(left, cut, tolerance)
    return runs, area_of(faces_in(left, cut), [], runs, tolerance) if cut.has_area else []
