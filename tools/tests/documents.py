"""Documents of FreeCAD as people make them: parts and pages of TechDraw with projection groups and single views."""
import itertools
import math
import pathlib
from collections.abc import Sequence
from typing import Any

from drafting.cad.freecad import FreeCAD, Part
from drafting.cad.project import part_of

from .parts import Box

TEMPLATE = "/usr/share/freecad/Mod/TechDraw/Templates/A3_Landscape_blank.svg"
Way = tuple[float, float, float]
# The views of groups that are asked for beside FRONT, in turn.
SETS = (("Top", "Right"), ("Top", "Left"), ("Bottom", "Right"), ("Bottom", "Left"), ("Top", "Right", "Left", "Rear", "Bottom"),
        ("Rear", "Top", "Left"), ("Top", "Right", "FrontTopRight"))
FRONT = ((0.0, -1.0, 0.0), (1.0, 0.0, 0.0))


def vector(way: Sequence[float]) -> Any:
    return FreeCAD.Vector(*way)


def placement(place: Sequence[float] = (0, 0, 0), axis: Sequence[float] = (0, 0, 1), degrees: float = 0) -> Any:
    return FreeCAD.Placement(vector(place), FreeCAD.Rotation(vector(axis), degrees))


def box(width: float, depth: float, height: float, x: float = 0, y: float = 0, z: float = 0) -> Any:
    return Part.makeBox(width, depth, height, vector((x, y, z)))


def of_boxes(boxes: Sequence[Box], size: float = 10) -> Any:
    """The part of boxes that are added and cut off, each unit so large."""
    shape: Any = None
    for word, low, high in boxes:
        one = Part.makeBox(*(size * (b - a) for a, b in zip(low, high)), vector([size * it for it in low]))
        shape = one if shape is None else shape.fuse(one) if word == "add" else shape.cut(one)
    return part_of(shape)


def quartered(choice: str = "01101001") -> Any:
    """Of a cube in eight cells those of a choice, told as 0 and 1, x fastest: three solids have its views, of which 10110110 is told from the
    two others by its left view."""
    cells = [box(10, 10, 10, 10 * (at % 2), 10 * (at // 2 % 2), 10 * (at // 4)) for at, full in enumerate(choice) if full == "1"]
    return cells[0].multiFuse(cells[1:]).removeSplitter()


def without_a_corner() -> Any:
    """A cube of whose corner a piece with four sides is cut off: oblique edges in each view."""
    corners = [vector(at) for at in ((20, 20, 20), (14, 20, 20), (20, 12, 20), (20, 20, 15))]
    sides = [Part.Face(Part.makePolygon([*its, its[0]])) for its in itertools.combinations(corners, 3)]
    return box(20, 20, 20).cut(Part.Solid(Part.Shell(sides)))


def corner() -> Any:
    """A cube that looks otherwise from each side."""
    shape = box(30, 30, 30)
    for x, y, z in ((0, 0, 0), (20, 20, 20), (20, 0, 10)):
        shape = shape.cut(box(10, 10, 10, x, y, z))
    return shape


def tell(view: Any, told: dict[str, object]) -> None:
    """Has a view show hidden lines, and be as it is told otherwise."""
    view.HardHidden = True
    for name, value in told.items():
        setattr(view, name, value)


class Document:
    """A document that is made."""

    def __init__(self, name: str = "Made") -> None:
        self.doc = FreeCAD.newDocument(name)

    def add(self, kind: str, name: str) -> Any:
        return self.doc.addObject(kind, name)

    def feature(self, shape: Any, label: str = "Part", placed: Any = None) -> Any:
        feature = self.add("Part::Feature", "Shape")
        feature.Label, feature.Shape = label, shape
        if placed is not None:
            feature.Placement = placed
        return feature

    def page(self, label: str = "Page", angle: str = "Third Angle") -> Any:
        page, template = self.add("TechDraw::DrawPage", "Page"), self.add("TechDraw::DrawSVGTemplate", "Template")
        template.Template, page.Template, page.Label, page.ProjectionType = TEMPLATE, template, label, angle
        return page

    def group(self, page: Any, sources: Sequence[Any], names: Sequence[str] = ("Top", "Right"), scale: float = 1.0,
              front: tuple[Sequence[float], Sequence[float]] = FRONT, **told: object) -> Any:
        """A projection group with Front and other views, and what is told of each of them; with hidden lines unless that is told."""
        group = self.add("TechDraw::DrawProjGroup", "ProjGroup")
        page.addView(group)
        group.Source = list(sources)
        group.addProjection("Front")
        group.Anchor.Direction, group.Anchor.RotationVector, group.Anchor.XDirection = vector(front[0]), vector(front[1]), vector(front[1])
        for name in names:
            group.addProjection(name)
        group.ScaleType, group.Scale = "Custom", scale
        for view in group.Views:
            tell(view, told)
        return group

    def single(self, page: Any, sources: Sequence[Any], direction: Sequence[float], right: Sequence[float], scale: float = 1.0,
               **told: object) -> Any:
        view = self.add("TechDraw::DrawViewPart", "View")
        page.addView(view)
        view.Source, view.Direction, view.XDirection, view.ScaleType, view.Scale = list(sources), vector(direction), vector(right), "Custom", scale
        tell(view, told)
        return view

    def section(self, page: Any, base: Any, normal: Sequence[float], origin: Sequence[float], letter: str = "A", **told: object) -> Any:
        """A section of what a view shows, which looks straight at its plane from what is cut off, unless something else is told."""
        section = self.add("TechDraw::DrawViewSection", "Section")
        page.addView(section)
        section.BaseView, section.Source, section.SectionNormal, section.SectionOrigin = base, base.Source, vector(normal), vector(origin)
        section.Direction, section.XDirection = vector(normal), vector((0, 1, 0) if normal[0] else (1, 0, 0))
        section.SectionSymbol, section.ScaleType, section.Scale = letter, "Custom", 1
        for name, value in told.items():
            setattr(section, name, value)
        return section

    def saved(self, folder: str, name: str = "made") -> pathlib.Path:
        """Saves and closes it."""
        self.doc.recompute()
        path = pathlib.Path(folder, f"{name}.FCStd")
        self.doc.saveAs(str(path))
        self.close()
        return path

    def close(self) -> None:
        FreeCAD.closeDocument(self.doc.Name)


def turn(degrees: float) -> tuple[Way, Way]:
    """What a front view looks along, and its right, once the part is turned round z."""
    angle = math.radians(degrees)
    return (math.sin(angle), -math.cos(angle), 0.0), (math.cos(angle), math.sin(angle), 0.0)
