"""The layers of sections, SECTION_<VIEW>_<N> and AREA_<VIEW>_<N>, as recon reads them with --sections: which ones a drawing has, what they
show, and what they would show of a solid, by their definition.

N is where the plane lies on the view's sight axis, from the part's least coordinate on. FRONT, LEFT and BOTTOM keep what lies from there
on, the others what lies before. SECTION shows what is left, its hidden edges left out; AREA the outline of what the plane cuts.
"""
import bisect
import itertools
from collections import defaultdict
from collections.abc import Iterable, Sequence
from decimal import Decimal
from fractions import Fraction
from typing import NamedTuple

from ..dxf.drawing import FURTHER, SECTION, Line, Stroke, sections_drawn, strokes_in, strokes_in_units, views_of
from .draw import FRAMES, Cell, Cuts, Shown, shown_by, shown_of, strokes_of


class Section(NamedTuple):
    """A layer of a section: its view, where its plane lies, in units of the drawing's last decimal, and whether it shows the area alone."""

    view: str
    at: Fraction
    is_area: bool = False

    def layer(self, decimals: int, with_point: bool = True) -> str:
        """The layer's name in a drawing of so many decimals. A release before 2000 takes no points in names: there 1.5 is spelled 15E-1."""
        value = self.at / 10**decimals
        places = next(it for it in itertools.count() if (value * 10**it).denominator == 1)
        spelled = f"{Decimal(value.numerator) / value.denominator:f}" if with_point else f"{int(value * 10**places)}E-{places}"
        return f"{'AREA' if self.is_area else 'SECTION'}_{self.view}_{spelled if places else value}"


# What a drawing may show beside the main views: a further view, or a section.
Layer = str | Section


def named(layer: str, decimals: int) -> Section | None:
    """The section that a layer names in a drawing of so many decimals."""
    told = SECTION.fullmatch(layer.upper())
    return Section(told[2], Fraction(Decimal(told[3])) * 10**decimals, told[1] == "AREA") if told else None


def layers_in(lines: list[str]) -> list[str]:
    """The layers of sections on which a drawing has lines."""
    return list(sections_drawn(lines))


def views_told(lines: list[str], with_sections: bool) -> str:
    """What a drawing shows, in words: its views, and its sections where these are read."""
    return "these views and sections" if with_sections and layers_in(lines) else "these views"


def sections_of(lines: list[str], decimals: int) -> dict[Section, list[Line]]:
    """The lines of a drawing's sections that recon reads, those of layers that name one section together: dashed ones it doesn't."""
    found: dict[Section, list[Line]] = defaultdict(list)
    for layer, its in sections_drawn(lines).items():
        section, solid = named(layer, decimals), [line for line in its if not line.dashed]
        if section and solid:
            found[section] += solid
    return found


def further_lines(lines: list[str], decimals: int, with_sections: bool) -> dict[Layer, Sequence[Line]]:
    """The lines of a drawing's further views, and where they are read of its sections."""
    views, found = views_of(lines), dict[Layer, Sequence[Line]]()
    for view in filter(views.__contains__, FURTHER):
        found[view] = views[view]
    for section, its in sections_of(lines, decimals).items() if with_sections else ():
        found[section] = its
    return found


def shown_in(lines: list[str], decimals: int, with_sections: bool) -> dict[Layer, Shown]:
    """What a drawing shows in its further views, and where they are read in its sections, in units."""
    return {layer: shown_by(strokes_of(layer_of(layer, decimals), its, decimals))
            for layer, its in further_lines(lines, decimals, with_sections).items()}


def strokes_in_all(lines: list[str], decimals: int, with_sections: bool) -> dict[str, list[Stroke]]:
    """The strokes of a drawing's views, and where they are read of its sections, in units; by their layers where these units are whole."""
    sections = sections_of(lines, decimals) if with_sections else {}
    return {**strokes_in(lines, decimals), **strokes_in_units({it.layer(0): its for it, its in sections.items()}, decimals)}


# ---- what they show of a solid

def layer_of(layer: Layer, decimals: int, with_point: bool = True) -> str:
    """The name of a layer in a drawing of so many decimals, whose release takes points in names or doesn't."""
    return layer.layer(decimals, with_point) if isinstance(layer, Section) else layer


def least_of(cells: Iterable[Cell], cuts: Cuts, section: Section) -> tuple[int, int]:
    """Where what a section shows of a solid begins in the whole view, to the right and upwards."""
    frame = FRAMES[section.view]
    kept = kept_by(section, cuts[frame.sight])
    its = [cell for cell in cells if cell[frame.sight] in kept]
    right, up = (min(cut[-1] - cut[cell[axis] + 1] if back else cut[cell[axis]] - cut[0] for cell in its)
                 for axis, back in ((frame.right, frame.right_back), (frame.up, frame.up_back)) for cut in [cuts[axis]])
    return right, up


def kept_by(section: Section, cut: list[int]) -> range:
    """Which of the grid cells between some coordinates along its sight a section shows: one through which the plane goes is left in part, and
    shows what it would as a whole."""
    at, is_back = cut[0] + section.at, FRAMES[section.view].sight_back
    through = (bisect.bisect_left(cut, at) if is_back else bisect.bisect_right(cut, at)) - 1
    every = range(len(cut) - 1)
    return every[through:through + 1] if section.is_area else every[:through + 1] if is_back else every[through:]


def shown_of_layer(cells: Iterable[Cell], cuts: Cuts, layer: Layer) -> Shown:
    """What a further view or a section shows of a solid, in grid cells between some cuts."""
    if not isinstance(layer, Section):
        return shown_of(cells, cuts, layer)
    axis = FRAMES[layer.view].sight
    kept = kept_by(layer, cuts[axis])
    return shown_of((cell for cell in cells if cell[axis] in kept), cuts, layer.view, with_hidden=False)
