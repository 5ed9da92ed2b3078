"""What is wrong where solids have the three main views of a drawing, and none of these its further views and sections too: how many of them
have each, whether some have all of it without one of the sections, or with that seen from the other side or mirrored, and what would have to
be drawn otherwise for the solid that is nearest to them. Views are drawn here, by the definitions; so drawn, the program is asked how many
solids there are.
"""
import itertools
import pathlib
from collections import defaultdict
from collections.abc import Callable, Iterable, Iterator, Mapping, Sequence
from fractions import Fraction
from typing import NamedTuple

from ..core.messages import Progress, Refused, many
from ..dxf.drawing import Line
from ..projection.cells import grid_round
from ..projection.draw import BLANK, DASHED, SOLID, STYLES, Sheet, Shown, Stroke, shown_by, strokes_of, strokes_shown
from ..projection.sections import Layer, Section, layer_of, shown_of_layer
from ..recon import process, many as trials
from ..recon.answer import Solid, answer_of, have_views

# How many solids are drawn.
MOST = 4_096


class Stretch(NamedTuple):
    """A stretch of a line of a view or section, from one coordinate to a greater one, and its styles in the drawing and in the view of a
    solid."""

    layer: Layer
    upright: bool
    at: int
    low: int
    high: int
    drawn: int
    shown: int

    @property
    def length(self) -> int:
        return self.high - self.low


def stretches_unlike(layer: Layer, drawn: Shown, shown: Shown) -> Iterator[Stretch]:
    """Where a view or section is drawn otherwise than it shows a solid."""
    rows: dict[tuple[bool, int], list[tuple[int, int, int, bool]]] = defaultdict(list)
    for runs, is_drawn in ((drawn, True), (shown, False)):
        for upright, at, style, low, high in runs:
            rows[upright, at].append((style, low, high, is_drawn))
    for (upright, at), row in sorted(rows.items()):
        ends = sorted({end for _, first, last, _ in row for end in (first, last)})
        for low, high in itertools.pairwise(ends):
            styles = [max((style for style, first, last, it in row if it == is_drawn and first <= low and high <= last), default=BLANK)
                      for is_drawn in (True, False)]
            if styles[0] != styles[1]:
                yield Stretch(layer, upright, at, low, high, *styles)


def shown_by_solid(solid: Solid, layers: Iterable[Layer]) -> dict[Layer, Shown]:
    """What some views and sections show of a solid."""
    grid = grid_round([solid])
    cells = list(grid.all_in(grid.cells(solid)))
    return {layer: shown_of_layer(cells, grid.cuts, layer) for layer in layers}


def lines_of(stretch: Stretch, strokes: list[Stroke]) -> list[int]:
    """The lines of the file that draw a stretch; the strokes begin at 0."""
    row = (it for it in strokes if (it.upright, it.at) == (stretch.upright, stretch.at))
    return sorted({it.told[0] for it in row if it.low < stretch.high and it.high > stretch.low})


def was_drawn(style: int) -> str:
    return "not drawn" if style == BLANK else f"drawn {STYLES[style]}"


def stretch_told(stretch: Stretch, sheet: Sheet, strokes: list[Stroke]) -> str:
    """A stretch in words, in the coordinates of the sheet; that of a section of a sheet from where the section begins."""
    x, y = (min(it.low if it.upright == way else it.at for it in strokes) for way in (False, True))
    moved = [it._replace(at=it.at - across, low=it.low - along, high=it.high - along)
             for it in strokes for across, along in [(x, y) if it.upright else (y, x)]]
    name = layer_of(stretch.layer, sheet.decimals)
    here = sheet._replace(origins={**sheet.origins, name: (x, y)})
    start, end = ((stretch.at, at) if stretch.upright else (at, stretch.at) for at in (stretch.low, stretch.high))
    is_beside = sheet.back and isinstance(stretch.layer, Section)
    places = [(sheet.length(it[0]), sheet.length(it[1])) if is_beside else here.place(name, *it) for it in (start, end)]
    place = " to ".join(f"({right}, {up})" for right, up in places)
    lines = "" if is_beside else here.told(name, start, end, lines_of(stretch, moved))
    return f"{name} {place}{lines}: {was_drawn(stretch.drawn)}; the solid shows {STYLES[stretch.shown]}"


# ---- sections otherwise than they are drawn

OTHER_SIDE = {"FRONT": "REAR", "REAR": "FRONT", "TOP": "BOTTOM", "BOTTOM": "TOP", "SIDE": "LEFT", "LEFT": "SIDE"}
Drawn = dict[Layer, Shown]


def mirrored(shown: Shown) -> Shown:
    """What is shown, right and left exchanged."""
    wide = max(at if upright else high for upright, at, _, _, high in shown)
    return frozenset((True, wide - at, style, low, high) if upright else (False, at, style, wide - high, wide - low)
                     for upright, at, style, low, high in shown)


def otherwise(further: Drawn, decimals: int) -> Iterator[tuple[str, Drawn]]:
    """The ways to take one of the sections, lines and area together, otherwise, in words."""
    planes: dict[tuple[str, Fraction], list[Section]] = defaultdict(list)
    for layer in further:
        if isinstance(layer, Section):
            planes[layer.view, layer.at].append(layer)
    for (view, _), its in planes.items():
        names = " and ".join(it.layer(decimals) for it in its)
        others = {layer: shown for layer, shown in further.items() if layer not in its}
        yield f"without {names}", others
        yield f"with {names} seen from the other side, as {OTHER_SIDE[view]}", {**others, **{it._replace(view=OTHER_SIDE[view]): further[it] for it in its}}
        yield f"with {names} mirrored", {**others, **{it: mirrored(further[it]) for it in its}}


def with_layers(main: bytes, further: Drawn) -> bytes:
    """The main views with further layers, in whole units."""
    return trials.with_entities(main, (
        trials.entity(layer_of(layer, 0), DASHED if dashed else SOLID, *((str(x), str(y)) for x, y in ends))
        for layer, shown in further.items() for dashed, *ends in strokes_shown(shown, 0, 0)
    ))


def otherwise_told(ask: Callable[[Drawn], trials.Outcome], further: Drawn, decimals: int) -> list[str]:
    """What is told of sections that are taken otherwise, where a drawing has some."""
    ways = [(words, ask(its)) for words, its in otherwise(further, decimals)]
    rows = [f"{words[0].upper()}{words[1:]}: the program lists {outcome.words}." for words, outcome in ways if outcome.count or outcome.more]
    return rows if rows or not ways else ["None has them without one of the sections, or with it seen from the other side or mirrored."]


def told(
    path: pathlib.Path, words: list[object], sheet: Sheet, drawn: Mapping[Layer, Sequence[Line]], main: bytes, listed: str, views: str
) -> list[str]:
    """What is told of a drawing with such further views and sections, told by their lines, where the program lists these solids of its main
    views, which are the lines of another file; such words say what all of it shows."""
    strokes = {layer: strokes_of(layer_of(layer, sheet.decimals), its, sheet.decimals) for layer, its in drawn.items()}
    further = {layer: shown_by(its) for layer, its in strokes.items()}

    def ask(layers: Drawn) -> trials.Outcome:
        return trials.outcome(path, [*words, process.SECTIONS], with_layers(main, layers), process.MOST_NODES, process.MOST_SOLIDS)

    solids = answer_of(listed, MOST).solids
    unlike: list[list[Stretch]] = []
    fitting = dict.fromkeys(further, 0)
    for number, solid in enumerate(solids, 1):
        Progress.show(f"solid {number:,} of {len(solids):,}")
        shown = shown_by_solid(solid, further)
        unlike.append([it for layer in further for it in stretches_unlike(layer, further[layer], shown[layer])])
        for layer in further:
            fitting[layer] += shown[layer] == further[layer]
    Progress.clear()
    nearest = min(range(len(solids)), key=lambda number: sum(it.length for it in unlike[number]))
    if not unlike[nearest]:
        raise Refused("the program says that no solid has these views, and one was found here that has them")
    counts = ", ".join(f"{many(count, 'has', 'have')} {layer_of(layer, sheet.decimals)}" for layer, count in fitting.items())
    main_views = f"the {'two' if sheet.missing else 'three'} main views"
    rows = [f"{have_views(0, views=views)}. {many(len(solids), 'solid has', 'solids have')} {main_views}; of these {counts}.",
            *otherwise_told(ask, further, sheet.decimals),
            f"Nearest is solid {nearest + 1} of them, for which there would have to be drawn otherwise:"]
    rows += [f"  {stretch_told(it, sheet, strokes[it.layer])}" for it in unlike[nearest]]
    return [*rows, f"  so drawn, the program lists {ask(shown_by_solid(solids[nearest], further)).words}"]
