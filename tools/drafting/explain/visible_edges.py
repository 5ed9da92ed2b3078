"""Solids that have the visible edges of a drawing without hidden lines, as programs export it that leave these out: clingo lists some, from
the column rule in views.lp, with a hidden edge anywhere. It looks on the coordinates that the visible lines show, for so many solids and
seconds; so these are some, and that there is no other isn't proved. Each is drawn here by the definitions, and the program is asked about
its drawing with the hidden lines.
"""
import argparse
import itertools
import math
from typing import NamedTuple

from ..core.messages import Refused, Usage, many, say, write_result
from ..messages.controls import option
from ..projection.draw import DASHED, SOLID, STYLES, Cell, Grid, Panels, Row, Sheet, grid_of, panels_of, runs_of
from ..recon import faults, process, many as trials
from ..recon.answer import FAULT
from ..rounds.features import given_in
from ..solve import pipeline
from . import judge, clingo

# How many solids and seconds clingo takes, unless the arguments say otherwise.
MOST, SEARCH = 100, 60.0
# The status of such a list; it is none of recon's.
UNPROVED = 13

# A hidden line: its row, the segment that it begins with and the one behind its last.
Hidden = tuple[Row, int, int]


class Found(NamedTuple):
    """A solid in grid cells, what it shows, and its hidden lines."""

    cells: frozenset[Cell]
    panels: Panels
    hidden: frozenset[Hidden]


def add_arguments(parser: argparse.ArgumentParser) -> None:
    parser.add_argument("--visible-edges-alone", action="store_true", help="hidden lines aren't drawn: list some solids that have the visible "
                        f"edges, by clingo, of which nothing is proved; status {UNPROVED}")
    parser.add_argument("--most", type=int, default=MOST, metavar="N", help=f"with it: how many solids clingo looks for (else {MOST})")
    parser.add_argument("--search", type=float, default=SEARCH, metavar="SECONDS", help=f"with it: how long clingo may take (else {SEARCH:g})")


def drawn(cells: frozenset[Cell], grid: Grid) -> Found:
    """A solid that clingo found, drawn by the definitions; refused where other edges of it are visible."""
    sizes = [len(cut) - 1 for cut in grid.cuts]
    panels = {row: styles for view in grid.views for row, styles in panels_of(cells, sizes, view).items()}
    if any([style == SOLID for style in panels[row]] != [style == SOLID for style in styles] for row, styles in grid.panels.items()):
        raise Refused("clingo lists a solid that, drawn by the definitions, has other visible edges")
    hidden = ((row, low, high) for row, styles in panels.items() for style, low, high in runs_of(styles) if style == DASHED)
    return Found(cells, panels, frozenset(hidden))


def some_solids(grid: Grid, most: int, seconds: float) -> tuple[list[Found], bool]:
    """Some solids that have the visible edges, those with the fewest hidden lines first; and whether clingo knows no more on this grid."""
    facts = clingo.facts_of(grid).replace(",blank)", ",unseen)") + "\n:- style(S,unseen), seen(S)."
    found = clingo.ask("views.lp", facts, [f"--models={most}"], seconds)
    solids = {
        frozenset((int(told[1]), int(told[2]), int(told[3])) for atom in atoms if (told := judge.FULL.fullmatch(atom)))
        for atoms, _ in found.models
    }
    return sorted((drawn(cells, grid) for cells in solids), key=lambda it: (len(it.hidden), sorted(it.cells))), found.done and not found.more


# ---- what is told

def line_told(line: Hidden, grid: Grid, sheet: Sheet) -> str:
    """A hidden line in the coordinates of the sheet."""
    row, low, high = line
    at, along = grid.ats(row)[row.number], grid.along(row)
    ends = ((at, along[it]) if row.upright else (along[it], at) for it in (low, high))
    return f"  {row.view} " + " to ".join(f"({right}, {up})" for right, up in (sheet.place(row.view, *end) for end in ends)) + f": {STYLES[DASHED]}"


def solid_told(number: int, solid: Found, grid: Grid, asked: pipeline.Asked) -> str:
    lengths = [[high - low for low, high in itertools.pairwise(cut)] for cut in grid.cuts]
    volume = sum(math.prod(lengths[axis][at] for axis, at in enumerate(cell)) for cell in solid.cells)
    ends = [(cut[min(its)], cut[max(its) + 1]) for cut, its in zip(grid.cuts, zip(*solid.cells))]
    sizes = " by ".join(asked.length(high - low) for low, high in ends)
    return f"solid {number}: {sizes}, volume {asked.volume(volume)}, {many(len(solid.hidden), 'hidden line')}"


def settling_told(solids: list[Found], grid: Grid, asked: pipeline.Asked, arguments: argparse.Namespace, listed: int) -> list[str]:
    """The hidden lines that would settle it: of each solid or of those that have the same ones, with what the program lists so drawn."""
    groups: dict[frozenset[Hidden], list[int]] = {}
    for number, solid in enumerate(solids, 1):
        groups.setdefault(solid.hidden, []).append(number)
    every = frozenset.intersection(*groups) if len(groups) > 1 else frozenset()
    path, sheet = process.find(arguments.program), asked.sheet()
    rows = ["hidden lines of all of them", *(line_told(line, grid, sheet) for line in sorted(every))] if every else []
    for hidden, its in list(groups.items())[:listed]:
        tried = trials.Tried(grid._replace(panels=solids[its[0] - 1].panels))
        outcome = trials.outcome(path, tried.words, tried.changed(()))
        numbers = f"solid{'s' * (len(its) > 1)} {', '.join(map(str, its))}"
        if (outcome.count or 0) < len(its) and not outcome.more:
            raise Refused(f"the program says of the drawing with the hidden lines of {numbers}: {outcome.words}")
        rows.append(f"{'further ' if every else ''}hidden lines of {numbers}; with them drawn the program lists {outcome.words}")
        rows += [line_told(line, grid, sheet) for line in sorted(hidden - every)] or ["  none"]
    return rows


def told(solids: list[Found], is_done: bool, grid: Grid, asked: pipeline.Asked, arguments: argparse.Namespace, listed: int) -> list[str]:
    """The solids in words, so many one by one, and the hidden lines by which they would be told apart."""
    have = "solid has" if len(solids) == 1 else "solids have"
    rows = [f"At least {len(solids):,} {have} these visible edges; that there is no other isn't proved." if solids
            else "No solid was found that has these visible edges; that there is none isn't proved."]
    end = "it knows no more of them" if is_done else "it was cut there"
    rows.append(f"clingo looked for {arguments.most:,} solids, for {arguments.search:g} seconds, whose corners lie where visible lines do: {end}.")
    rows += [solid_told(number, solid, grid, asked) for number, solid in enumerate(solids[:listed], 1)]
    rows += [f".. and {len(solids) - listed:,} more"] if len(solids) > listed else []
    return rows + settling_told(solids, grid, asked, arguments, listed)


def run(arguments: argparse.Namespace, listed: int) -> int:
    if arguments.answer or arguments.expect is not None:
        raise Usage(f"{option('answer')} and {option('expect')} are of what recon lists, and {option('visible-edges-alone')} asks clingo")
    if arguments.sections:
        raise Usage(f"{option('sections')} has recon read sections, and {option('visible-edges-alone')} asks clingo, of the main views")
    least = argparse.Namespace(**{**vars(arguments), "nodes": 1, "solids": 1})
    asked = pipeline.ask(arguments.drawing, least, lambda note: say(f"draft solve: {note}"))
    head = asked.run.text.partition("\n")[0]
    if FAULT.fullmatch(head):
        raise Refused("; ".join(faults.told(head, asked.lines)))
    if given_in(asked.lines):
        raise Refused(f"the sheet has circles or arcs: {option('visible-edges-alone')} is of drawings without them")
    grid = grid_of(asked.sheet())
    if hidden := sum(style == DASHED for styles in grid.panels.values() for style, *_ in runs_of(styles)):
        raise Usage(f"{many(hidden, 'hidden line')} of the drawing: {option('visible-edges-alone')} is of drawings without them")
    solids, is_done = some_solids(grid, max(1, arguments.most), arguments.search)
    write_result("".join(f"{row}\n" for row in told(solids, is_done, grid, asked, arguments, listed)), None)
    return UNPROVED
