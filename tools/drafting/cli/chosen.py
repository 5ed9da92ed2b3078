"""Saves a solid of a drawing or a sheet that is told by its choice, as it was listed by a search that was cut or stopped: OUT.stl,
its boundary as triangles, OUT.dxf, its views, or OUT.step, by FreeCAD; in the sheet's unit.

The program writes none of a search that isn't whole. So this solid is made here, of the blocks that the program tells: it is drawn by
the definitions, and refused where it hasn't all views of the drawing.
"""
import argparse
import itertools
import pathlib
from collections.abc import Callable, Iterator
from fractions import Fraction
from typing import NamedTuple

from ..core.messages import Refused, say, write_result
from ..dxf.drawing import places_of, views_of, written
from ..explain.judge import Drawing, solid_cells
from ..projection.cells import Grid as Cells
from ..projection.draw import grid_of, sheet_of, shown_of, strokes_shown
from ..projection.sections import shown_in
from ..recon import blocks, faults
from ..recon.answer import FAULT, Face, Point, Solid
from ..recon.blocks import Blocks
from ..solve import pipeline
from .clean import GAP

NAME = "chosen"
HELP = "save a solid that is told by its choice, of a search that was cut"


def add_arguments(parser: argparse.ArgumentParser) -> None:
    parser.add_argument("drawing", metavar="IN.dxf")
    parser.add_argument("choice", metavar="CHOICE", help="for each block whether the solid fills it, as `solve` lists it: 0110..")
    parser.add_argument("output", metavar="OUT", help="the file to write: .stl, .dxf or .step")
    pipeline.add_arguments(parser)


class Chosen(NamedTuple):
    """A solid by its choice: what was asked, its grid, and its cells there as bits, as the drawing shows it."""

    asked: pipeline.Asked
    blocks: Blocks
    choice: str

    def cells(self) -> tuple[Cells, int]:
        """The solid as it is: turned back where the drawing shows it in a mirror."""
        blocks = self.blocks.turned_round() if self.asked.origin.mirrored else self.blocks
        return blocks.grid, blocks.full(self.choice)


def chosen_by(arguments: argparse.Namespace) -> Chosen:
    """The solid of the choice; refused where it hasn't the drawing's views."""
    asked = blocks.ask(arguments, lambda note: say(f"draft chosen: {note}"))
    if FAULT.fullmatch(head := asked.run.text.partition("\n")[0]):
        raise Refused("; ".join(faults.told(head, asked.lines)))
    sheet = sheet_of(views_of(asked.lines), asked.decimals)
    further = shown_in(asked.lines, asked.decimals, arguments.sections)
    its, drawing = blocks.blocks_in(asked.run.text), Drawing(grid_of(sheet), further)
    if set(arguments.choice) - set("01") or not drawing.shows(solid_cells(its.grid, its.full(arguments.choice), drawing.grid)):
        raise Refused("the solid of this choice hasn't the views of the drawing")
    return Chosen(asked, its, arguments.choice)


# ---- its boundary

def squares_of(grid: Cells, full: int) -> Iterator[Face]:
    """The sides of full cells beside which the next one isn't full, each with its corners to the left around, seen from outside."""
    cells = set(grid.all_in(full))
    for cell, axis, side in itertools.product(sorted(cells), range(3), (0, 1)):
        beside = (*cell[:axis], cell[axis] + (1 if side else -1), *cell[axis + 1:])
        if beside not in cells:
            yield side_of(grid, cell, axis, side)


def side_of(grid: Cells, cell: Point, axis: int, side: int) -> Face:
    corners: list[Point] = []
    for u, v in ((0, 0), (1, 0), (1, 1), (0, 1)):
        more = {axis: side, (axis + 1) % 3: u, (axis + 2) % 3: v}
        x, y, z = (grid.cuts[at][cell[at] + more[at]] for at in range(3))
        corners.append((x, y, z))
    x, y, z = ((2 * side - 1) * (at == axis) for at in range(3))
    return Face((x, y, z), [corners if side else corners[::-1]])


def triangles(faces: Iterator[Face], per_unit: Fraction) -> str:
    """The faces as ASCII STL, two triangles each."""
    def vertex(point: Point) -> str:
        told = (value / per_unit for value in point)
        return "vertex " + " ".join(str(it.numerator) if it.denominator == 1 else repr(float(it)) for it in told)

    rows = ["solid recon"]
    for face in faces:
        a, b, c, d = face.loops[0]
        for corners in ((a, b, c), (a, c, d)):
            rows += [f"facet normal {' '.join(map(str, face.outward))}", "outer loop", *map(vertex, corners), "endloop", "endfacet"]
    return "\n".join([*rows, "endsolid recon"]) + "\n"


# ---- the files

def as_stl(solid: Chosen, path: str) -> None:
    write_result(triangles(squares_of(*solid.cells()), solid.asked.per_unit()), path)


def as_dxf(solid: Chosen, path: str) -> None:
    """The drawing's views, one line for each run."""
    grid, full = solid.blocks.grid, solid.blocks.full(solid.choice)
    cells = list(grid.all_in(full))
    width, depth, height = (cut[-1] - cut[0] for cut in grid.cuts)
    places = places_of(width, depth, height, GAP * 10**solid.asked.decimals)
    views = {view: strokes_shown(shown_of(cells, grid.cuts, view), *places[view]) for view in views_of(solid.asked.lines) if view in places}
    write_result(written(views, solid.asked.decimals, solid.asked.origin), path)


def as_step(solid: Chosen, path: str) -> None:
    from ..cad.freecad import save
    from ..cad.shells import shape_of
    grid, full = solid.cells()
    shape = shape_of(Solid(solid.choice, grid.volume(full), list(squares_of(grid, full)))).removeSplitter()
    save(shape.scale(float(1 / solid.asked.per_unit())) if solid.asked.per_unit() != 1 else shape, path, solid.asked.origin.unit)


FORMS: dict[str, Callable[[Chosen, str], None]] = {".stl": as_stl, ".dxf": as_dxf, ".step": as_step}


def run(arguments: argparse.Namespace) -> int:
    form = FORMS.get(pathlib.Path(arguments.output).suffix.lower())
    if form is None:
        raise Refused(f"{arguments.output} ends in none of {', '.join(FORMS)}")
    form(chosen_by(arguments), arguments.output)
    return 0
