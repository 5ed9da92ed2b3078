"""Asking clingo, another program that knows nothing of the proved one, about the views of a drawing."""
import json
import math
import os
import pathlib
import shutil
import subprocess
from typing import NamedTuple

from ..core.messages import Refused
from ..projection.draw import FRAMES, Cell, Grid, Row, axis_of

HERE = pathlib.Path(__file__).resolve().parent
# What clingo calls the styles.
WORDS = ("blank", "dashed", "solid")
# From so many bytes of facts on several threads are worth their while.
LARGE = 200_000


class Found(NamedTuple):
    """What clingo found: the atoms of each model with what it costs, the least of these costs, whether it was done in time (it
    knows that no cost is less, or that there is no model), and whether there may be more models."""

    models: list[tuple[list[str], int]]
    least: int | None
    done: bool
    more: bool


def is_there() -> bool:
    return shutil.which("clingo") is not None


def name_of(cell: Cell, sizes: tuple[int, int, int]) -> str:
    """A grid cell's name; what isn't in the box is outside, and empty."""
    return f"c({cell[0]},{cell[1]},{cell[2]})" if all(0 <= at < size for at, size in zip(cell, sizes)) else "out"


def beside(grid: Grid, row: Row, segment: int, depth: int) -> tuple[Cell, Cell]:
    """The two grid cells beside a segment of a row, at a depth from the viewer."""
    frame = FRAMES[row.view]
    cells = []
    for before in (1, 0):
        right, up = (row.number - before, segment) if row.upright else (segment, row.number - before)
        cell = [0, 0, 0]
        cell[frame.right], cell[frame.up] = right, up
        cell[frame.sight] = len(grid.cuts[frame.sight]) - 2 - depth if frame.sight_back else depth
        cells.append((cell[0], cell[1], cell[2]))
    return cells[0], cells[1]


def segment_name(row: Row, segment: int) -> str:
    return f"s({row.view.lower()},{'upright' if row.upright else 'level'},{row.number},{segment})"


def unit_of(grid: Grid) -> int:
    """The length that all lengths between grid coordinates are whole times of."""
    return math.gcd(*(high - low for cut in grid.cuts for low, high in zip(cut, cut[1:])))


def facts_of(grid: Grid) -> str:
    """A drawing's grid cells, and for each segment its style, its length and the pairs of cells beside it."""
    x, y, z = (len(cut) - 1 for cut in grid.cuts)
    sizes = x, y, z
    facts = [f"cell(c({i},{j},{k}))." for i in range(x) for j in range(y) for k in range(z)]
    unit = unit_of(grid)
    for row, styles in grid.panels.items():
        along = grid.along(row)
        depths = sizes[FRAMES[row.view].sight]
        for segment, style in enumerate(styles):
            name = segment_name(row, segment)
            facts.append(f"style({name},{WORDS[style]}). length({name},{(along[segment + 1] - along[segment]) // unit}).")
            for depth in range(depths):
                first, second = (name_of(cell, sizes) for cell in beside(grid, row, segment, depth))
                facts.append(f"pair({name},{depth},{first},{second}).")
    return "\n".join(facts)


def laws_of(grid: Grid) -> str:
    """Which segments meet at each point of a view, and which show the same plane or slice of space."""
    facts = []
    points = set()
    for row, styles in grid.panels.items():
        for segment in range(len(styles)):
            name = segment_name(row, segment)
            for at in (segment, segment + 1):
                place = (row.number, at) if row.upright else (at, row.number)
                point = f"p({row.view.lower()},{place[0]},{place[1]})"
                points.add(point)
                facts.append(f"meets({point},{name}).")
            facts.append(f"shows(plane({axis_of(row.view, not row.upright)},{row.number}),{row.view.lower()},{name}).")
            facts.append(f"shows(slice({axis_of(row.view, row.upright)},{segment}),{row.view.lower()},{name}).")
    return "\n".join([*facts, *(f"point({point})." for point in sorted(points))])


def ask(rules: str, facts: str, options: list[str], seconds: float) -> Found:
    """Runs clingo on rules of this folder and facts."""
    if not is_there():
        raise Refused("clingo isn't there: apt-get install gringo")
    threads = len(os.sched_getaffinity(0)) if len(facts) > LARGE else 1
    command = [
        "clingo", str(HERE / rules), "-", "--outf=2", f"--time-limit={max(1, round(seconds))}", f"--parallel-mode={threads}", *options
    ]
    ended = subprocess.run(command, input=facts, capture_output=True, text=True)
    try:
        told = json.loads(ended.stdout)
        witnesses = [it for call in told["Call"] for it in call.get("Witnesses", [])]
        models = [(it["Value"], it["Costs"][0] if "Costs" in it else 0) for it in witnesses]
        done = told["Result"] in ("SATISFIABLE", "UNSATISFIABLE", "OPTIMUM FOUND") and told["Models"].get("Optimum") != "unknown"
        more = told["Models"]["More"] != "no"
    except (ValueError, KeyError, TypeError):
        raise Refused(f"clingo failed: {ended.stderr.strip()[:300] or 'no answer'}") from None
    least = min((cost for _, cost in models), default=None)
    return Found(models, least, done, more)
