"""What a page of FreeCAD leaves open that doesn't show hidden lines: the verdict is of the page with them, and of the page as it is clingo
looks for a second solid that has what it shows, for some seconds, as `visible.py` says; that there is none isn't proved."""
import argparse

from ..core.messages import Refused
from ..messages.controls import command
from ..projection.draw import BLANK, DASHED, Grid, grid_of
from ..solve import pipeline
from .visible_edges import some_solids

# How many solids clingo looks for, and for how many seconds.
MOST, SEARCH = 40, 5.0


def shown_alone(grid: Grid, lacking: set[str]) -> Grid:
    """What a page shows of its main views, some of which lack hidden lines."""
    return grid._replace(panels={row: styles.replace(bytes([DASHED]), bytes([BLANK])) if row.view in lacking else styles
                                 for row, styles in grid.panels.items()})


def count_of(grid: Grid, lacking: set[str]) -> int:
    """How many solids were found that have what a page shows."""
    found, _ = some_solids(shown_alone(grid, lacking), MOST, SEARCH)
    return sum(all(styles == grid.panels[row] for row, styles in solid.panels.items() if row.view not in lacking) for solid in found)


def told(asked: pipeline.Asked, arguments: argparse.Namespace) -> list[str]:
    """What is said of a page that lacks hidden lines, beside the verdict; nothing of any other drawing."""
    if asked.page is None or not asked.page.lacking or getattr(arguments, "visible_edges_alone", False):
        return []
    labels = [view.label for view in asked.page.lacking]
    names = " and ".join([", ".join(labels[:-1]), labels[-1]] if labels[:-1] else labels)
    first = f"This is said of the page with hidden lines, which it doesn't show in {names}."
    if asked.rounds:
        return [first, "What the page leaves open as it is isn't looked for where there are circles or arcs."]
    try:
        count = count_of(grid_of(asked.sheet()), {view.name for view in asked.page.lacking})
    except Refused as refusal:
        return [first, f"What the page leaves open as it is isn't known: {refusal}"]
    if count > 1:
        return [first, f"As it is the page leaves open which solid is meant: at least {count} have what it shows ({command('solve', 'visible-edges-alone')})."]
    return [first, f"No second solid was found that has what the page shows as it is, by clingo in {SEARCH:g} seconds; that there is none isn't proved."]
