"""Draws a drawing as one of recon's stages has it, from the front, the left and above: the grid; the pseudo wire frame, the edges that
a solid may have; the virtual faces, which these edges close off; or the blocks between them, moved apart.

Blocks are those that recon tells; the others are found here, by the definitions (`wire.py`), and not by the proved program.
"""
import argparse
import itertools
import pathlib
from collections.abc import Iterable, Iterator
from typing import NamedTuple

from ..core.messages import write_result
from ..dxf.drawing import Place, lines_within, views_of
from ..projection.draw import Grid, grid_of, sheet_of
from ..projection.wireframe import Bits, Box, places_of, pseudo_edges, thinned, virtual_faces
from ..recon import blocks, process
from ..recon.answer import Point
from .picture import LABEL, MARGIN, farther_of, flat, sides_of
from .svg import label, path

NAME = "stages"
HELP = "draw a drawing as grid, pseudo wire frame, virtual faces or blocks"
SHOWN = ("grid", "wire", "faces", "blocks")

# The width of the picture, in pixels, and how far blocks move apart, beside their distance from the middle.
WIDTH, APART = 380, 0.55

STYLE = """
  rect { fill: #ffffff }
  path { stroke: #17212b; stroke-width: 1.5; stroke-linecap: round; stroke-linejoin: round; fill: none }
  .grid { stroke: #c3ccd6; stroke-width: 1 }
  .virtual { fill: #4f7ca8; fill-opacity: 0.16; stroke: #4f7ca8; stroke-width: 0.6 }
  .top { fill: #f3f6f9 }
  .front { fill: #d2deea }
  .left { fill: #a3b9cf }
  text { font: 15px Helvetica, Arial, sans-serif; fill: #17212b; text-anchor: middle }
"""

Corner = tuple[float, float, float]


class Shape(NamedTuple):
    """What is drawn: its kind, its corners, and whether it is closed."""

    kind: str
    corners: list[Corner]
    closed: bool = False


class Stage(NamedTuple):
    """What a stage shows, from the back to the front, and how it is called."""

    shapes: list[Shape]
    told: str


# ---- the parts of a box

def point_of(box: Box, place: int) -> Point:
    """The cell of a place of the box, or its least corner."""
    _, row, layer = box.strides
    return place % row - 1, place % layer // row - 1, place // layer - 1


def spanned(cuts: list[list[int]], point: Point, axes: tuple[int, ...]) -> list[Corner]:
    """The corners of what begins at a grid point and reaches to the next coordinate along some axes: of an edge, or of a face."""
    steps: list[Point] = [(0,), (1,)] if len(axes) == 1 else [(0, 0), (1, 0), (1, 1), (0, 1)]
    corners = []
    for step in steps:
        far = dict(zip(axes, step))
        x, y, z = (float(cut[at + far.get(axis, 0)]) for axis, (cut, at) in enumerate(zip(cuts, point)))
        corners.append((x, y, z))
    return corners


def edges_drawn(box: Box, cuts: list[list[int]], edges: Bits, kind: str) -> list[Shape]:
    return [Shape(kind, spanned(cuts, point_of(box, place), (axis,))) for axis in range(3) for place in places_of(edges[axis])]


def every_edge(box: Box) -> Bits:
    """All edges of the grid."""
    x, y, z = (box.inside([size + (at != axis) for at, size in enumerate(box.sizes)]) for axis in range(3))
    return x, y, z


# ---- the stages

def stage_of(arguments: argparse.Namespace) -> Stage:
    data, shown = pathlib.Path(arguments.drawing).read_bytes(), arguments.shown
    lines = lines_within(data)
    if shown == "blocks":
        return blocks_stage(blocks.of(arguments, data, lines, arguments.decimals))
    return wire_stage(thinned(grid_of(sheet_of(views_of(lines), arguments.decimals))), shown)


def wire_stage(grid: Grid, shown: str) -> Stage:
    """The grid, the wire frame or the faces."""
    box = Box(grid.cuts)
    lines = edges_drawn(box, grid.cuts, every_edge(box), "grid")
    if shown == "grid":
        x, y, z = box.sizes
        return Stage(lines, f"{x} by {y} by {z} grid cells")
    edges = pseudo_edges(grid, box)
    wire = edges_drawn(box, grid.cuts, edges, "edge")
    if shown == "wire":
        return Stage(lines + wire, f"{len(wire)} pseudo edges of {len(lines)} grid edges")
    faces = virtual_faces(box, edges)
    axes = ((1, 2), (0, 2), (0, 1))
    drawn = [Shape("virtual", spanned(grid.cuts, point_of(box, place), axes[axis]), True)
             for axis in range(3) for place in places_of(faces[axis])]
    return Stage(lines + from_back(drawn), f"{len(drawn)} virtual faces")


def blocks_stage(told: blocks.Blocks) -> Stage:
    drawn = [shape for cells in told.cells for shape in block_drawn(told.grid.cuts, set(told.grid.all_in(cells)))]
    return Stage(from_back(drawn), f"{told.count} blocks")


def block_drawn(cuts: list[list[int]], cells: set[Point]) -> Iterator[Shape]:
    """The sides of a block that are seen, moved away from the middle of the box."""
    middle = [sum(cut[at] + cut[at + 1] for at in ats) / (2 * len(ats)) for cut, ats in zip(cuts, zip(*cells))]
    x, y, z = (APART * (at - (cut[0] + cut[-1]) / 2) for cut, at in zip(cuts, middle))
    for kind, around, _ in sides_of(cuts, cells):
        yield Shape(kind, [(corner[0] + x, corner[1] + y, corner[2] + z) for corner in around], True)


def from_back(shapes: Iterable[Shape]) -> list[Shape]:
    """Shapes from the one whose middle is the farthest from the viewer on."""
    return sorted(shapes, key=lambda shape: -sum(map(farther_of, shape.corners)) / len(shape.corners))


# ---- the picture

def picture(stage: Stage) -> Iterator[str]:
    seen = [flat(corner) for corner in itertools.chain.from_iterable(shape.corners for shape in stage.shapes)]
    left, top = (min(point[axis] for point in seen) for axis in (0, 1))
    width, height = max(point[0] for point in seen) - left, max(point[1] for point in seen) - top
    scale = (WIDTH - 2 * MARGIN) / width
    tall = scale * height + 2 * MARGIN + LABEL

    def place(corner: Corner) -> Place:
        x, y = flat(corner)
        return MARGIN + scale * (x - left), MARGIN + scale * (y - top)

    yield f'<svg xmlns="http://www.w3.org/2000/svg" width="{WIDTH}" height="{tall:.0f}" viewBox="0 0 {WIDTH} {tall:.0f}">'
    yield f"<style>{STYLE}</style>"
    yield '<rect width="100%" height="100%" rx="8"/>'
    yield from (path(map(place, shape.corners), shape.kind, closed=shape.closed) for shape in stage.shapes)
    yield label(WIDTH / 2, tall - MARGIN / 2, stage.told)
    yield "</svg>"


def add_arguments(parser: argparse.ArgumentParser) -> None:
    parser.add_argument("drawing", metavar="FILE.dxf", help="a drawing as recon reads it")
    parser.add_argument("shown", choices=SHOWN, help="the stage")
    parser.add_argument("--decimals", type=int, choices=range(7), default=0, help="how many decimals coordinates have, 0 to 6")
    process.add_arguments(parser)
    parser.add_argument("-o", "--output", metavar="OUT.svg", help="the file to write, else standard output")


def run(arguments: argparse.Namespace) -> int:
    write_result("".join(f"{line}\n" for line in picture(stage_of(arguments))), arguments.output)
    return 0
