"""The solids of an answer where the part of a page of FreeCAD stands in its document: which of them is that part, and in what the others
differ from it.

Which one it is, is told by size, surface and middle, and where several agree in these by the cells in which the solids differ. Differences
are those of the answer's own solids: these have coordinates in common, and with shapes that all but touch OpenCASCADE may not come to an
end.
"""
import math
from collections.abc import Iterator, Sequence
from typing import Any, NamedTuple

from ..core.messages import Refused
from ..core.page import Page
from ..projection.cells import grid_round
from ..recon.answer import Solid
from ..solve.pipeline import Asked
from .freecad import FreeCAD
from .redraw import placed
from .shells import shape_of

# By which share sizes may differ that are one, and how near to a wall a place is on it.
NOISE, NEAR = 1e-4, 1e-6
# At how many places solids are told apart.
MOST_PROBES = 400


class Stood(NamedTuple):
    """A solid where it stands, whether it is the part, and what it has more and less than that, where the part is among the solids."""

    shape: Any
    is_part: bool = False
    more: Any = None
    less: Any = None


def page_of(asked: Asked) -> Page:
    if asked.page is None:
        raise Refused("the drawing is of no page of FreeCAD")
    return asked.page


def own_part(page: Page) -> Any:
    """The document's own part where it stands."""
    part = page.part.copy()
    part.Placement = page.outer * part.Placement
    return part


def solids_of(asked: Asked) -> Sequence[Solid]:
    return [kept.solid for kept in asked.kept] if asked.rounds else asked.answer().solids


def shapes_of(asked: Asked) -> Iterator[Any]:
    """The shapes of an answer in the sheet's unit, from their least corner on: of a sheet with rounds those that are kept."""
    for kept in asked.kept:
        yield kept.shape.scaled(float(1 / asked.origin.times))
    for solid in solids_of(asked) if not asked.rounds else ():
        yield shape_of(solid).scaled(float(1 / asked.per_unit()))


# ---- which one is the part

def middle_of(shape: Any) -> Any:
    weighted = [solid.CenterOfMass * solid.Volume for solid in shape.Solids]
    return sum(weighted, FreeCAD.Vector()) * (1 / shape.Volume)


def are_alike(one: Any, other: Any) -> bool:
    """Whether two shapes have one size, surface and middle."""
    far = NOISE * math.dist(*((box.XMin, box.YMin, box.ZMin) if at == 0 else (box.XMax, box.YMax, box.ZMax) for box in [other.BoundBox] for at in (0, 1)))
    same = abs(one.Volume - other.Volume) <= NOISE * other.Volume and abs(one.Area - other.Area) <= NOISE * other.Area
    return bool(same and (middle_of(one) - middle_of(other)).Length <= far)


def is_within(shape: Any, place: Any) -> bool:
    return any(solid.isInside(place, NEAR, False) for solid in shape.Solids)


def probes(asked: Asked) -> list[Any]:
    """The middles of cells in which the solids of the answer differ, where they stand."""
    solids, page = solids_of(asked), page_of(asked)
    grid = grid_round(solids)
    full = [grid.cells(it) for it in solids]
    either, both = 0, grid.every
    for its in full:
        either, both = either | its, both & its
    cells = list(grid.all_in(either & ~both))
    per_unit, places = float(asked.per_unit()), []
    for cell in cells[::-(-len(cells) // MOST_PROBES) or 1]:
        middle = [(cut[at] + cut[at + 1]) / 2 / per_unit for cut, at in zip(grid.cuts, cell)]
        places.append(placed_point(middle, page))
    return places


def placed_point(place: Sequence[float], page: Page) -> Any:
    x, y, z = (least + at for least, at in zip(page.least, place))
    along, into, up = page.frame
    return page.outer.multVec(along * x + into * y + up * z)


def part_among(asked: Asked, shapes: Sequence[Any]) -> int | None:
    """Which of the shapes is the part, from 0 on; none where none is."""
    part = own_part(page_of(asked))
    alike = [at for at, shape in enumerate(shapes) if are_alike(shape, part)]
    if len(alike) > 1:
        wanted = [(place, is_within(part, place)) for place in probes(asked)]
        alike = [at for at in alike if all(is_within(shapes[at], place) == it for place, it in wanted)]
    return alike[0] if len(alike) == 1 else None


def stood(asked: Asked) -> Iterator[Stood]:
    """The solids of the answer to a page, in their order."""
    page = page_of(asked)
    shapes = [placed(shape, page) for shape in shapes_of(asked)]
    part = part_among(asked, shapes)
    for at, shape in enumerate(shapes):
        if part is None or at == part:
            yield Stood(shape, at == part)
        else:
            differing = shape.cut(shapes[part]), shapes[part].cut(shape)
            yield Stood(shape, False, *(it if it.Volume > NOISE * NOISE * shape.Volume else None for it in differing))
