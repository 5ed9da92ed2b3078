"""What further views and sections show of the solids of a drawing, by the definitions: by it solids are told apart."""
from collections import Counter
from collections.abc import Hashable, Iterator, Sequence
from fractions import Fraction
from typing import NamedTuple

from ..core.messages import Progress
from ..dxf.drawing import FURTHER, VIEWS
from ..projection.cells import Grid as Cells
from ..projection.draw import AXES, FRAMES, Cell, Sheet, columns_of, style_between
from ..projection.section_keys import keys_of as section_shows
from ..projection.sections import Layer, Section
from ..recon import process


class Solids(NamedTuple):
    """The solids of an answer: their grid, and the cells of each as a number of bits."""

    cells: Cells
    full: list[int]

    @property
    def sizes(self) -> list[int]:
        return [len(cut) - 1 for cut in self.cells.cuts]

    def cells_in(self, full: int) -> list[Cell]:
        return list(self.cells.all_in(full))

    def varying(self) -> int:
        """The cells that some of the solids have and others don't."""
        either, both = 0, self.cells.every
        for full in self.full:
            either, both = either | full, both & full
        return either & ~both


class Means(NamedTuple):
    """A view, or the lines or the area of a section, and for each solid what it shows: solids of one key look alike in it, and None is nothing,
    which can't be drawn. Of a section also what it shows, the axis that it is across, and which cells it cuts."""

    place: str
    keys: list[Hashable]
    layer: Layer
    kind: str = ""
    section: tuple[int, int] | None = None

    @property
    def name(self) -> str:
        return f"{self.place} ({self.kind})" if self.kind else self.place

    @property
    def sizes(self) -> list[int]:
        """How many solids each group has, the largest first; where nothing can be drawn all are left."""
        return sorted((count if key is not None else len(self.keys) for key, count in Counter(self.keys).items()), reverse=True)

    def alike(self, number: int) -> set[int]:
        """The solids that one as this is drawn of a solid leaves."""
        drawn = self.keys[number]
        return {other for other, key in enumerate(self.keys) if drawn in (key, None)}

    def tells_as(self, other: "Means") -> bool:
        """Whether this tells apart whatever another one does, whichever solid is meant."""
        return None not in self.keys and len(set(zip(self.keys, other.keys))) == len(set(self.keys))


# ---- what views and sections show

def view_keys(solids: Solids, view: str, varying: list[Cell]) -> Means:
    """What a view shows of each solid, beside the columns in which the solids differ at all."""
    frame, sizes = FRAMES[view], solids.sizes
    places = set(columns_of(varying, sizes, frame))
    around = {(i + dx, j + dy) for i, j in places for dx, dy in ((0, 0), (1, 0), (-1, 0), (0, 1), (0, -1))}
    keys: list[Hashable] = []
    for full in solids.full:
        Progress.show(f"{view}: {len(keys):,} of {len(solids.full):,} solids")
        columns = columns_of(solids.cells_in(full), sizes, frame)
        shown = {place: columns.get(place, 0) for place in around}
        keys.append(tuple(
            style_between(shown[i, j], shown[i + dx, j + dy])
            for i, j in sorted(places) for dx, dy in ((1, 0), (-1, 0), (0, 1), (0, -1))
        ))
    return Means(view, keys, view)


def section_keys(solids: Solids, sheet: Sheet, varying: list[Cell]) -> Iterator[Means]:
    """What sections between each two neighbouring grid planes show of the solids, where these differ there: the area, and from both sides the
    lines, unless these tell no more than what is told already."""
    for axis, cut in enumerate(solids.cells.cuts):
        for at in sorted({cell[axis] for cell in varying}):
            place = f"section across {AXES[axis]} between {' and '.join(sheet.between(axis, cut, *cut[at:at + 2]))}"
            plane = plane_between(cut[at] - cut[0], cut[at + 1] - cut[0], sheet.decimals)
            if plane is None:
                continue
            told: list[Means] = []
            for view, is_area in ways_across(axis):
                Progress.show(f"{place}, {view}")
                section, kind = Section(view, plane, is_area), "area" if is_area else f"lines from {sheet.name(view)}"
                one = Means(place, section_shows(solids.cells, solids.full, section), section, kind, (axis, at))
                told += [] if any(other.tells_as(one) for other in told) else [one]
            yield from told


def ways_across(axis: int) -> list[tuple[str, bool]]:
    """What a section across an axis may show: its area, seen as in a main view, and its lines, seen so or from the other side."""
    views = [view for view in (*VIEWS, *FURTHER) if FRAMES[view].sight == axis]
    return [(views[0], True), *((view, False) for view in views)]


def plane_between(low: int, high: int, decimals: int) -> Fraction | None:
    """A plane between two coordinates, in units of the last decimal: about in the middle, with as few decimals as can be, at most 6."""
    for places in range(process.MOST_DECIMALS + 1):
        unit = Fraction(10**decimals, 10**places)
        plane = round(Fraction(low + high, 2) / unit) * unit
        if low < plane < high:
            return plane
    return None


def all_means(solids: Solids, sheet: Sheet) -> tuple[list[Means], list[Means]]:
    """What each view that isn't drawn, a main one first, and each section shows of the solids; of the sections the best ones first."""
    varying = solids.cells_in(solids.varying())
    views = [view_keys(solids, view, varying) for view in (*sheet.missing, *FURTHER)]
    return views, best_first(list(section_keys(solids, sheet, varying)))


def best_first(means: Sequence[Means]) -> list[Means]:
    return sorted(means, key=lambda it: (it.sizes[0], -len(it.sizes)))
