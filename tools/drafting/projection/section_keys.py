"""What a section shows of many solids, by their cells as bits: solids of one key look alike in it.

A section shows an edge between two neighbouring columns where the first full cells behind the plane differ in depth, as columns do that are
filled behind these. So it is told by shifts of whole solids.
"""
import functools
import operator
from collections.abc import Hashable, Sequence

from .cells import Grid
from .draw import FRAMES
from .sections import Section, kept_by, shown_of_layer


class Sight:
    """The cells of a grid along the sight of a view: in layers across it, beside the last one also an empty one."""

    def __init__(self, grid: Grid, view: str) -> None:
        self.frame = FRAMES[view]
        self.count = len(grid.cuts[self.frame.sight]) - 1
        self.stride = grid.strides[self.frame.sight]
        self.layers = [grid.layer(self.frame.sight, at) for at in range(self.count)]
        self.beside = [grid.strides[axis] for axis in (self.frame.right, self.frame.up)]
        self.first = [grid.layer(axis, len(grid.cuts[axis]) - 2 if back else 0)
                      for axis, back in ((self.frame.right, self.frame.right_back), (self.frame.up, self.frame.up_back))]

    def within(self, numbers: range) -> int:
        """All cells of some layers."""
        return functools.reduce(operator.or_, self.layers[numbers.start:numbers.stop], 0)

    def filled(self, cells: int) -> int:
        """The cells, and all that lie behind them."""
        step = 1
        while step < self.count:
            if self.frame.sight_back:
                cells |= cells >> step * self.stride & self.within(range(self.count - step))
            else:
                cells |= cells << step * self.stride & self.within(range(step, self.count))
            step *= 2
        return cells

    def projected(self, cells: int) -> int:
        """The places, in the first layer, of the columns in which some cell is."""
        wide = 1
        while wide < self.count:
            step = min(wide, self.count - wide)
            cells |= cells >> step * self.stride
            wide += step
        return cells & self.layers[0]

    def lines(self, cells: int) -> tuple[int, ...]:
        """The edges that are seen of the cells, to the right and upwards."""
        filled = self.filled(cells)
        return tuple(self.projected(filled ^ filled << stride) for stride in self.beside)

    def begins(self, cells: int) -> bool:
        """Whether the cells reach to where the view begins, so that what it shows of them isn't moved."""
        return all(cells & first for first in self.first)


def keys_of(grid: Grid, solids: Sequence[int], section: Section) -> list[Hashable]:
    """What a section shows of each solid; None where that is nothing."""
    sight = Sight(grid, section.view)
    kept = sight.within(kept_by(section, grid.cuts[sight.frame.sight]))
    left = [full & kept for full in solids]
    if all(sight.begins(cells) for cells in left if cells):
        keys: list[Hashable] = [(cells if section.is_area else sight.lines(cells)) if cells else None for cells in left]
        return keys
    shown = {cells: shown_of_layer(grid.all_in(cells), grid.cuts, section) for cells in set(left)}
    return [shown[cells] or None for cells in left]
