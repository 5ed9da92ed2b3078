"""Judges an answer by another program: clingo (apt-get install gringo) lists all solids of the drawing from the column rule, in
the twenty lines of views.lp beside this file, and knows nothing of blocks, of searches or of the proved program. Each
solid of the answer is drawn by the definitions too and compared with the drawing, and so are clingo's where there are further views;
solids have to be the same ones, each once, in the stated order, and each has to fill just the blocks of its choice, as the program
tells them. The answer is read from the file ANSWER (`-` for standard input), or else had by running the program.

Of an answer that was cut it is judged that what it lists is right. The status is 1 where something differs. Nodes and faults aren't
judged.
"""
import argparse
import itertools
import pathlib
import re
from collections.abc import Iterator
from typing import NamedTuple

from ..core.messages import Progress, Refused, many, say, write_result
from ..dxf.drawing import decimals_of, lines_within, views_of
from ..messages.controls import option
from ..projection.cells import Grid as Cells, grid_round
from ..projection.draw import Cell, Grid, Shown, grid_of, panels_of, sheet_of
from ..projection.sections import Layer, shown_in, shown_of_layer
from ..recon import blocks
from ..recon.answer import CUT, FAULT, Answer, answer_of, text_of
from ..recon.blocks import Blocks
from ..rounds.features import given_in
from ..solve import pipeline
from . import clingo

NAME = "judge"
HELP = "check an answer by another program, clingo, from other words"

MOST, SEARCH = 10_000, 600.0
FULL = re.compile(r"full\(c\((\d+),(\d+),(\d+)\)\)")

Solid = frozenset[Cell]


def add_arguments(parser: argparse.ArgumentParser) -> None:
    parser.add_argument("drawing", metavar="FILE.dxf")
    parser.add_argument("answer", metavar="ANSWER", nargs="?", help="what recon solve wrote for it; - for standard input")
    parser.add_argument("--most", type=int, default=MOST, help=f"of how many solids at most ({MOST:,})")
    parser.add_argument("--search", type=float, default=SEARCH, metavar="SECONDS", help=f"how long clingo may take ({SEARCH:g} s)")
    blocks.add_argument(parser)
    pipeline.add_arguments(parser)


# ---- the solids of an answer

def grid_cells(cuts: list[int], low: int, high: int) -> range:
    """The grid cells between two coordinates of an axis; refused where the drawing shows nothing at one of them."""
    if low not in cuts or high not in cuts:
        raise Refused("it has a corner where the drawing shows nothing")
    return range(cuts.index(low), cuts.index(high))


def solid_cells(cells: Cells, full: int, grid: Grid) -> Solid:
    """The grid cells of the drawing that a solid fills."""
    found: set[Cell] = set()
    for k, layer in enumerate(cells.rows(full)):
        for j, row in enumerate(layer):
            for i in (at for at, text in enumerate(row) if text == "1"):
                box = ((cut[at], cut[at + 1]) for cut, at in zip(cells.cuts, (i, j, k)))
                x, y, z = (grid_cells(cut, *ends) for cut, ends in zip(grid.cuts, box))
                found.update(itertools.product(x, y, z))
    return frozenset(found)


def solids_of(answer: Answer, grid: Grid) -> Iterator[tuple[int, Solid | Refused]]:
    """The solids of an answer with their numbers, or why one is none of this grid."""
    for number, told in enumerate(answer.solids, 1):
        Progress.show(f"solid {number:,} of {len(answer.solids):,}")
        try:
            cells = grid_round([told])
            yield number, solid_cells(cells, cells.cells(told), grid)
        except Refused as refusal:
            yield number, refusal


class Drawing(NamedTuple):
    """A drawing: its main views on their grid, and what each further view and each section shows that it has."""

    grid: Grid
    further: dict[Layer, Shown]

    def fits(self, solid: Solid) -> bool:
        """Whether a solid, drawn by the definitions, has the further views and the sections."""
        return all(shown_of_layer(solid, self.grid.cuts, layer) == shown for layer, shown in self.further.items())

    def shows(self, solid: Solid) -> bool:
        """Whether a solid, drawn by the definitions, has all views."""
        sizes = [len(cut) - 1 for cut in self.grid.cuts]
        rows = (row for view in self.grid.views for row in panels_of(solid, sizes, view).items())
        return all(self.grid.panels[row] == styles for row, styles in rows) and self.fits(solid)


def comes_first(first: Solid, second: Solid) -> bool:
    """Whether the first of two solids has the least cell in which they differ, by z, then y, then x."""
    return min(first ^ second, key=lambda cell: cell[::-1]) in first


def complaints_of(solids: list[tuple[int, Solid | Refused]], drawing: Drawing) -> Iterator[str]:
    """What is wrong with the solids of an answer, by themselves."""
    seen: dict[Solid, int] = {}
    last: Solid | None = None
    for number, solid in solids:
        if isinstance(solid, Refused):
            yield f"solid {number}: {solid}"
            continue
        if not drawing.shows(solid):
            yield f"solid {number} doesn't have these views"
        if solid in seen:
            yield f"solid {number} is solid {seen[solid]} once more"
        elif last is not None and not comes_first(last, solid):
            yield f"solid {number} comes before the one that stands before it, by the stated order"
        seen.setdefault(solid, number)
        last = solid


def others(answer: Answer, solids: list[tuple[int, Solid | Refused]], its: Blocks) -> Iterator[str]:
    """Which solids of an answer aren't those of the blocks of their choices."""
    for told, (number, solid) in zip(answer.solids, solids):
        if not isinstance(solid, Refused) and not its.are_of(told):
            yield f"solid {number} has other blocks than its choice tells"


# ---- the solids that clingo finds

def found_solids(drawing: Drawing, most: int, seconds: float) -> set[Solid]:
    """All solids of the drawing; refused where those of its three main views are too many, or aren't found in time."""
    Progress.show(f"clingo looks for all solids, for {seconds:g} seconds at most", 0)
    found = clingo.ask("views.lp", clingo.facts_of(drawing.grid), [f"--models={most + 1}"], seconds)
    if not found.done:
        raise Refused(f"clingo wasn't done within {seconds:g} seconds: nothing is judged")
    if len(found.models) > most:
        raise Refused(f"there are more than {most:,} solids: nothing is judged ({option('most')})")
    solids = {
        frozenset((int(told[1]), int(told[2]), int(told[3])) for atom in atoms if (told := FULL.fullmatch(atom)))
        for atoms, _ in found.models
    }
    return {solid for solid in solids if drawing.fits(solid)}


def compared(mine: set[Solid], solids: list[tuple[int, Solid | Refused]]) -> Iterator[str]:
    """Where the solids of an answer aren't those that clingo found."""
    told = {solid for _, solid in solids if not isinstance(solid, Refused)}
    for number, solid in solids:
        if not isinstance(solid, Refused) and solid not in mine:
            yield f"solid {number} is none of those that clingo finds"
    missing = len(mine - told)
    if missing:
        yield f"{many(missing, 'solid')} that clingo finds {'is' if missing == 1 else 'are'} not in the answer"


def judged(answer: Answer, drawing: Drawing, its: Blocks, most: int, seconds: float) -> str:
    """What is found right, in words; refused where something differs, after each such thing was said."""
    solids = list(solids_of(answer, drawing.grid))
    wrong = [*complaints_of(solids, drawing), *others(answer, solids, its)]
    count = many(answer.listed, "solid")
    if CUT.fullmatch(answer.head):
        right = f"The answer was cut. What it lists, {count}, has these views, each once, in the stated order."
    else:
        mine = found_solids(drawing, most, seconds)
        wrong += compared(mine, solids)
        right = f"The same: {count} by clingo and in the answer, each once, in the stated order."
    for complaint in wrong:
        say(f"draft judge: {complaint}")
    if wrong:
        raise Refused(f"the answer isn't right: {many(len(wrong), 'difference')}")
    return right


def run(arguments: argparse.Namespace) -> int:
    if arguments.answer:
        answer = answer_of(text_of(arguments.answer))
        data = pathlib.Path(arguments.drawing).read_bytes()
        lines = lines_within(data)
        decimals = answer.decimals if answer.solids else decimals_of(lines, arguments.sections)
    else:
        asked = pipeline.ask(arguments.drawing, arguments, lambda note: say(f"draft judge: {note}"))
        answer, data, lines, decimals = answer_of(asked.run.text), asked.data, asked.lines, asked.decimals
        for text in asked.rounds.cause if asked.rounds else ():
            say(f"draft judge: no solid is kept once it is rounded back. {text}")
    if given := given_in(lines):
        say(f"draft judge: what is judged are the solids of the drawing with its {given.kinds} squared off")
    if FAULT.fullmatch(answer.head):
        raise Refused(f"a fault isn't judged: {answer.head}")
    drawing = Drawing(grid_of(sheet_of(views_of(lines), decimals)), shown_in(lines, decimals, arguments.sections))
    its = blocks.of(arguments, data, lines, decimals)
    write_result(judged(answer, drawing, its, arguments.most, arguments.search) + "\n", None)
    return 0
