"""Draws a drawing as a picture: its views in third-angle places and, where a file with what recon solve writes for it is
given too (`-` for standard input), the first of the solids, seen from the front, the left and above. A drawing that `draft sheet` squared
off from a sheet with rounds is drawn as the sheet had it, and those solids that are kept, by FreeCAD.

What is proved is the program, and not this: it reads a drawing simply, looks for no fault, and only makes pictures.
"""
import argparse
import functools
import itertools
import math
from collections.abc import Callable, Iterator, Mapping
from typing import NamedTuple

from ..core.messages import Refused, write_result
from ..dxf import reader
from ..dxf.drawing import Place, Views, lines_within, origin_of, views_of
from ..projection.cells import Grid, grid_round
from ..recon import process
from ..recon.answer import CUT, FAULT, Point, Solid, answer_of, text_of
from ..rounds.features import Given, given_in
from ..rounds.verify import LACKING, outcome
from ..solve import pipeline
from . import rounds
from .rounds import Seen
from .svg import VIEWS, Curve, label, path, views_drawn

NAME = "picture"
HELP = "draw a drawing and its first solids as a picture"

# Sizes on the picture, in pixels.
MARGIN, LABEL = 24, 26
BETWEEN = 56
SOLIDS = {0: 0, 1: 260, 2: 220, 3: 176}
MOST_SOLIDS = 6

STYLE = """
  rect { fill: #ffffff }
  path { stroke: #17212b; stroke-width: 2; stroke-linecap: round; stroke-linejoin: round; fill: none }
  .dashed { stroke-dasharray: 7 5; stroke-linecap: butt }
  .guide { stroke: #d5dbe1; stroke-width: 1 }
  .face { stroke: none; shape-rendering: crispEdges }
  .top { fill: #f3f6f9 }
  .front { fill: #d2deea }
  .left { fill: #a3b9cf }
  text { font: 15px Helvetica, Arial, sans-serif; fill: #17212b; text-anchor: middle }
  .small { font-size: 13px; fill: #66727e }
"""
MARKED = "  .marked { stroke: #d9480f; stroke-width: 9; stroke-opacity: 0.5 }\n"

# Lines of a linetype without a meaning, where there are some.
UNKNOWN = "  .unknown { stroke: #b3261e; stroke-dasharray: 1 5 }\n"

# The faces that are seen: the axis that each looks along, and whether to its greater side.
FACES = {"top": (2, 1), "front": (1, 0), "left": (0, 0)}

# From where they are seen: turned from the front to the left, since solids of one drawing look the same from the right,
# and raised; not in isometry, in which cells would stand exactly before others.
TURNED, RAISED = math.radians(32), math.radians(27)


# ---- the solids

def flat(point: tuple[float, ...]) -> Place:
    """Where a point in space is seen, to the right and downwards."""
    x, y, z = point
    farther = x * math.sin(TURNED) + y * math.cos(TURNED)
    return x * math.cos(TURNED) - y * math.sin(TURNED), -farther * math.sin(RAISED) - z * math.cos(RAISED)


def farther_of(point: tuple[float, ...]) -> float:
    """How far from the viewer a point in space is, beside others."""
    x, y, z = point
    return (x * math.sin(TURNED) + y * math.cos(TURNED)) * math.cos(RAISED) - z * math.sin(RAISED)


def moved(cell: Point, axis: int, side: int) -> Point:
    """The cell's neighbour along an axis, at its greater side or its less."""
    return tuple(it + (side or -1) * (number == axis) for number, it in enumerate(cell))


# A side of a cell: its kind, its corners, and those of its own sides that are edges of the solid.
Side = tuple[str, list[Point], list[list[Point]]]


def faces_of(grid: Grid, solid: Solid) -> Iterator[Side]:
    """The sides of a solid's cells that are seen unless another cell hides them, from the back to the front."""
    return sides_of(grid.cuts, set(grid.all_in(grid.cells(solid))))


def sides_of(cuts: list[list[int]], cells: set[Point]) -> Iterator[Side]:
    """The same of some cells between coordinates of each axis."""
    for cell in sorted(cells, key=lambda it: (it[2], -it[0], -it[1])):
        for kind, (axis, side) in FACES.items():
            if moved(cell, axis, side) in cells:
                continue
            u, v = (it for it in range(3) if it != axis)

            def corner(at_u: int, at_v: int) -> Point:
                place = [0, 0, 0]
                place[axis], place[u], place[v] = cell[axis] + side, cell[u] + at_u, cell[v] + at_v
                return tuple(cut[it] for cut, it in zip(cuts, place))

            edges = []
            for across, at in itertools.product((u, v), (0, 1)):
                beside = moved(cell, across, at)
                if beside not in cells or moved(beside, axis, side) in cells:
                    edges.append([corner(at, 0), corner(at, 1)] if across == u else [corner(0, at), corner(1, at)])
            yield kind, [corner(0, 0), corner(1, 0), corner(1, 1), corner(0, 1)], edges


def places_of(count: int, left: float, top: float, size: float) -> list[tuple[float, float]]:
    """The middle and the bottom of the square of each solid, in rows of three from there."""
    return [(left + size * (number % 3 + 0.5), top + (size + 2 * LABEL) * (number // 3) + size) for number in range(count)]


def labels(number: int, volume: str, middle: float, bottom: float) -> Iterator[str]:
    yield label(middle, bottom + LABEL, f"solid {number + 1}")
    yield label(middle, bottom + LABEL + 19, f"volume {volume}", "small")


def solids_drawn(solids: list[Solid], left: float, top: float, size: float) -> Iterator[str]:
    """The solids in rows from there, each in a square of this size, in one scale and place."""
    grid = grid_round(solids)
    corners = [flat(point) for point in itertools.product(*((cut[0], cut[-1]) for cut in grid.cuts))]
    least = [min(point[axis] for point in corners) for axis in (0, 1)]
    extent = [max(point[axis] for point in corners) - least[axis] for axis in (0, 1)]
    scale = (size - 30) / max(extent)
    for number, (solid, (middle, bottom)) in enumerate(zip(solids, places_of(len(solids), left, top, size))):

        def place(point: Point) -> Place:
            x, y = flat(point)
            return middle + scale * (x - least[0] - extent[0] / 2), bottom - scale * (extent[1] + least[1] - y)

        for kind, around, edges in faces_of(grid, solid):
            yield path(map(place, around), f"face {kind}", closed=True)
            yield from (path(map(place, ends), "edge") for ends in edges)
        yield from labels(number, str(solid.volume), middle, bottom)


def rounded_drawn(shapes: list[tuple[Seen, str]], left: float, top: float, size: float) -> Iterator[str]:
    """Solids with rounds and their volumes, as `solids_drawn` draws those without."""
    boxes = [one.box() for one, _ in shapes]
    scale = min((size - 30) / max(high[0] - low[0], high[1] - low[1]) for low, high in boxes)
    for number, ((one, volume), (low, high), (middle, bottom)) in enumerate(zip(shapes, boxes, places_of(len(shapes), left, top, size))):
        yield from one.drawn(middle - scale * (high[0] - low[0]) / 2, bottom, scale, low)
        yield from labels(number, volume, middle, bottom)


# ---- the picture

class Beside(NamedTuple):
    """What is drawn beside the views: of so many solids some, each with what draws them; and what has to be said of them."""

    shown: int
    drawn: Callable[[float, float, float], Iterator[str]]
    note: str


def picture(views: Views, text: str | None, marked: int | None = None) -> Iterator[str]:
    """The picture of some views and of an answer; the lines of the views that a number of the file tells are marked."""
    if not any(views.values()):
        raise Refused("no line is on the layer FRONT, TOP or SIDE: of a sheet `draft sheet` draws the views")
    answer = None if text is None else answer_of(text, MOST_SOLIDS)
    beside = Beside(len(answer.solids), functools.partial(solids_drawn, answer.solids), note_on(answer.head, answer.listed, len(answer.solids))) if answer else None
    return whole_picture(views, beside, marked)


def rounded_picture(lines: list[str], given: Given, text: str | None) -> Iterator[str]:
    """The picture of a drawing that was squared off from a sheet with rounds, as the sheet had it, and of the solids that are kept."""
    views, curves = rounds.views_of(given)
    if text is None:
        return whole_picture(views, None, None, curves)
    answer = answer_of(text)
    found = outcome(answer, given, answer.decimals)
    if not found.is_compared:
        raise Refused(LACKING)
    asked = pipeline.Asked(b"", lines, answer.decimals, origin_of(lines), process.Run(0, text, 0.0))
    shapes = [(rounds.Seen(one.shape, TURNED, RAISED, given.least), asked.rounded_volume(one)) for one in found.kept[:MOST_SOLIDS]]
    note = f"{len(found.kept)} solids, of which {MOST_SOLIDS} are shown" if len(found.kept) > MOST_SOLIDS else "" if found.kept else "no solid is kept"
    return whole_picture(views, Beside(len(shapes), functools.partial(rounded_drawn, shapes), note), None, curves)


def whole_picture(
    views: Views, solids: Beside | None, marked: int | None, curves: Mapping[str, list[Curve]] = {}
) -> Iterator[str]:
    """The picture of some views, and of solids beside them."""
    columns = min(solids.shown, 3) if solids else 0
    size = SOLIDS[columns]
    solids_height = math.ceil((solids.shown if solids else 0) / 3) * (size + 2 * LABEL)
    height = max(VIEWS, solids_height) + 2 * (MARGIN + LABEL)
    width = 2 * MARGIN + VIEWS
    parts = list(views_drawn(views, MARGIN, (height - VIEWS) / 2, marked, curves=curves))
    if solids:
        beside = width + BETWEEN - MARGIN
        across = max(columns * size, 260)
        width += BETWEEN + across
        parts += solids.drawn(beside, (height - solids_height) / 2, size) if solids.shown else []
        parts += [label(beside + across / 2, height - MARGIN if solids.shown else height / 2, solids.note, "small")] if solids.note else []
    size_told = f'width="{width:.0f}" height="{height:.0f}" viewBox="0 0 {width:.0f} {height:.0f}"'
    yield f'<svg xmlns="http://www.w3.org/2000/svg" {size_told}>'
    unknown = any('class="unknown"' in part for part in parts)
    yield f"<style>{STYLE}{UNKNOWN if unknown else ''}{MARKED if marked else ''}</style>"
    yield '<rect width="100%" height="100%" rx="8"/>'
    yield from parts
    yield "</svg>"


def note_on(head: str, count: int, shown: int) -> str:
    """What has to be said beside the solids that are shown."""
    if FAULT.fullmatch(head):
        return head
    many = f"{count} solids, of which {shown} are shown" if count > shown else ""
    if CUT.fullmatch(head):
        return f"{head}: {many or f'{count} solids'}, and there may be more"
    return many or ("" if count else "no solid has these views")


def add_arguments(parser: argparse.ArgumentParser) -> None:
    parser.add_argument("drawing", metavar="FILE.dxf")
    parser.add_argument("answer", metavar="ANSWER", nargs="?", help="what recon solve wrote for it; - for standard input")
    parser.add_argument("-o", "--output", metavar="OUT.svg", help="the file to write, else standard output")


def run(arguments: argparse.Namespace) -> int:
    text, lines = text_of(arguments.answer) if arguments.answer else None, lines_within(reader.dxf_of(arguments.drawing))
    given = given_in(lines)
    rows = rounded_picture(lines, given, text) if given else picture(views_of(lines), text)
    write_result("".join(f"{line}\n" for line in rows), arguments.output)
    return 0
