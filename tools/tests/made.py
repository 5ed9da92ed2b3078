"""Random solids, their drawings, and mistakes in these, for the tests of why, settle and judge."""
import itertools
import random
from collections.abc import Iterable, Iterator

from drafting.dxf.drawing import VIEWS, written
from drafting.projection.draw import DASHED, SOLID, Cell, Grid, Panels, Row, panels_of, runs_of

Run = tuple[Row, int, int, int]
Canon = frozenset[tuple[str, bool, int, int, int, int]]


def in_space(numbers: Iterable[int]) -> Cell:
    x, y, z = numbers
    return x, y, z


def cells_of(*along: range) -> Iterator[Cell]:
    """The cells of a box, by the numbers that they have along its axes."""
    return map(in_space, itertools.product(*along))


def random_solid(rng: random.Random, size: int, boxes: int) -> set[Cell]:
    """Boxes that are added and cut off, in a cube of so many grid cells; moved to the least coordinates."""
    cells: set[Cell] = set()
    for _ in range(boxes):
        ends = [sorted(rng.sample(range(size + 1), 2)) for _ in range(3)]
        box = set(cells_of(*(range(low, high) for low, high in ends)))
        cells = cells | box if rng.random() < 0.6 or not cells - box else cells - box
    least = [min(cell[axis] for cell in cells) for axis in range(3)]
    return {(x - least[0], y - least[1], z - least[2]) for x, y, z in cells}


def scattered(rng: random.Random, sizes: tuple[int, int, int], full: float) -> set[Cell]:
    """Cells that are full by chance, of which one is, at least, at the beginning of each axis."""
    return {cell for cell in cells_of(*map(range, sizes)) if rng.random() < full} | {(0, 0, 0)}


def pierced(rng: random.Random) -> set[Cell]:
    """A small box with most of the cells of a lattice cut out, of which some are open to one side: its three views tend to have several
    solids, and its further views to rule out some of these."""
    sizes, begins = [rng.randint(3, 5) for _ in range(3)], [rng.randint(0, 1) for _ in range(3)]
    return {cell for cell in cells_of(*map(range, sizes))
            if any((at - begin) % 2 for at, begin in zip(cell, begins)) or rng.random() < 0.2}


def random_cuts(rng: random.Random, cells: Iterable[Cell]) -> list[list[int]]:
    """Grid coordinates of random distances, from 0 on."""
    cuts = []
    for axis in range(3):
        steps = [rng.choice((1, 2, 3, 5, 10)) for _ in range(max(cell[axis] for cell in cells) + 1)]
        cuts.append([0, *itertools.accumulate(steps)])
    return cuts


def drawn(cells: Iterable[Cell], cuts: list[list[int]]) -> Grid:
    """The three views of a solid."""
    sizes, panels = [len(cut) - 1 for cut in cuts], {}
    for view in VIEWS:
        panels.update(panels_of(list(cells), sizes, view))
    return Grid(cuts, panels, {})


def runs(grid: Grid) -> list[Run]:
    """The runs of all rows: row, style, first segment, and the one behind the last."""
    return [(row, *run) for row, styles in grid.panels.items() for run in runs_of(styles)]


def lines_of_runs(grid: Grid, told: Iterable[Run]) -> dict[str, list[tuple[bool, tuple[int, int], tuple[int, int]]]]:
    """The lines of a drawing, the views standing apart on the sheet."""
    views: dict[str, list[tuple[bool, tuple[int, int], tuple[int, int]]]] = {view: [] for view in VIEWS}
    wide, tall = grid.cuts[0][-1], grid.cuts[2][-1]
    places = {"FRONT": (0, 0), "TOP": (0, tall + 10), "SIDE": (wide + 10, 0)}
    for row, style, low, high in told:
        along, at = grid.along(row), grid.ats(row)[row.number]
        x, y = places[row.view]
        start, end = ((x + at, y + along[it]) if row.upright else (x + along[it], y + at) for it in (low, high))
        views[row.view].append((style == DASHED, start, end))
    return views


def file_of(grid: Grid, told: Iterable[Run] | None = None) -> str:
    """A drawing's file, of its runs or of others."""
    return written(lines_of_runs(grid, runs(grid) if told is None else told), 0)


def without(grid: Grid, view: str) -> str:
    """A drawing's file in which one view isn't drawn."""
    return file_of(grid, [run for run in runs(grid) if run[0].view != view])


def voids(count: int) -> Grid:
    """A row of cubes along the diagonal, each with eight voids, of whose drawing there are 35 to the power of their number solids."""
    cells = {
        (x + 6 * number, y + 6 * number, z + 6 * number)
        for number in range(count) for x, y, z in itertools.product(range(5), repeat=3) if not {x, y, z} <= {1, 3}
    }
    return drawn(cells, [list(range(6 * count)) for _ in range(3)])


# ---- mistakes

def dropped(rng: random.Random, grid: Grid, told: list[Run]) -> list[Run]:
    """One line is missing."""
    lost = rng.randrange(len(told))
    return told[:lost] + told[lost + 1:]


def flipped(rng: random.Random, grid: Grid, told: list[Run]) -> list[Run]:
    """One line has the other style."""
    at = rng.randrange(len(told))
    row, style, low, high = told[at]
    return [*told[:at], (row, DASHED + SOLID - style, low, high), *told[at + 1:]]


def added(rng: random.Random, grid: Grid, told: list[Run]) -> list[Run]:
    """One line too many."""
    row = rng.choice(list(grid.panels))
    low, high = sorted(rng.sample(range(len(grid.panels[row]) + 1), 2))
    return [*told, (row, rng.choice((DASHED, SOLID)), low, high)]


def moved(rng: random.Random, grid: Grid, told: list[Run]) -> list[Run]:
    """One line stands at the next coordinate."""
    at = rng.randrange(len(told))
    row, style, low, high = told[at]
    numbers = [it for it in (row.number - 1, row.number + 1) if 0 <= it < len(grid.ats(row))]
    return [*told[:at], (row._replace(number=rng.choice(numbers)), style, low, high), *told[at + 1:]]


MISTAKES = (dropped, flipped, added, moved)


def painted(grid: Grid, told: Iterable[Run]) -> Panels:
    """What lines show: a solid one wins over a dashed one."""
    panels = {row: bytes(len(styles)) for row, styles in grid.panels.items()}
    for row, style, low, high in told:
        over = bytes(max(style, old) for old in panels[row][low:high])
        panels[row] = panels[row][:low] + over + panels[row][high:]
    return panels


def canon(grid: Grid, panels: Panels) -> Canon:
    """What a drawing shows, by its runs, each view moved to least coordinates 0: the same for the same drawing on any grid."""
    found = []
    for row, styles in panels.items():
        along, at = grid.along(row), grid.ats(row)[row.number]
        found += [(row.view, row.upright, at, along[low], along[high], style) for style, low, high in runs_of(styles)]
    least: dict[tuple[str, bool], int] = {}
    for view, upright, at, low, _, _ in found:
        for key, value in (((view, upright), at), ((view, not upright), low)):
            least[key] = min(value, least.get(key, value))
    return frozenset(
        (view, upright, at - least[view, upright], low - least[view, not upright], high - least[view, not upright], style)
        for view, upright, at, low, high, style in found
    )
