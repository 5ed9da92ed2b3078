"""What is added to a drawing that several solids have: the lines of views and sections, where they are to stand, with the labels of sections,
and the drawing's text with these."""
import itertools
import math
import string
from collections.abc import Iterable, Iterator
from fractions import Fraction
from typing import NamedTuple

from ..core.messages import Refused
from ..dxf.drawing import entries_of, number, pairs_of, points_of
from ..projection.draw import FRAMES, Cell, Sheet, Shown, strokes_shown
from ..projection.sections import Section, least_of, shown_of_layer
from ..geometry.components import meet

# How far from one another views are drawn, in the drawing's unit, and how many letters high and wide a section is, about.
GAP, LETTERS = 10, 16


class Added(NamedTuple):
    """A line to be added: its layer, whether it is dashed, its ends on the sheet in units, and where what is on this layer begins."""

    view: str
    dashed: bool
    start: tuple[int, int]
    end: tuple[int, int]
    begin: tuple[int, int]


class Label(NamedTuple):
    """A text to be added: its layer, what it says, where it begins, and how high its letters are, in units."""

    layer: str
    text: str
    place: tuple[int, int]
    high: int


def main_places(sheet: Sheet, sizes: list[int], gap: int) -> dict[str, tuple[int, int]]:
    """Where the main views begin on the sheet; the one that isn't drawn in line with the others, or right of all where they stand there."""
    if not sheet.missing:
        return sheet.origins
    its = dict(sheet.origins)
    view = sheet.missing[0]
    x, y = its["FRONT"] if view != "FRONT" else (its["TOP"][0], its["SIDE"][1])
    place = {"FRONT": (x, y), "TOP": (x, y + sizes[2] + gap), "SIDE": (x + sizes[0] + gap, y)}[view]
    boxes = {name: (right, up, right + sizes[FRAMES[name].right], up + sizes[FRAMES[name].up])
             for name, (right, up) in {**its, view: place}.items()}
    if any(meet(box, boxes[view], 0) for name, box in boxes.items() if name != view):
        place = max(box[2] for name, box in boxes.items() if name != view) + gap, y
    return {**its, view: place}


def place_on_sheet(view: str, sheet: Sheet, cuts: list[list[int]]) -> tuple[int, int]:
    """Where a view that is added begins on the sheet: a main one in line with the others, LEFT to the left of FRONT, REAR to the right of
    SIDE, BOTTOM below FRONT."""
    wide, deep, _ = sizes = [cut[-1] - cut[0] for cut in cuts]
    gap = GAP * 10**sheet.decimals
    its = main_places(sheet, sizes, gap)
    (x, y), (side, beside) = its["FRONT"], its["SIDE"]
    gap = side - x - wide if side > x + wide else gap
    return {**its, "LEFT": (x - gap - deep, y), "REAR": (side + deep + gap, beside), "BOTTOM": (x, y - gap - deep)}[view]


def lines_of_view(view: str, shown: Shown, sheet: Sheet, cuts: list[list[int]]) -> list[Added]:
    """The lines of a further view, one for each run, where it stands on the sheet."""
    begin = place_on_sheet(view, sheet, cuts)
    return [Added(view, *stroke, begin) for stroke in strokes_shown(shown, *begin)]


def planes_of(sections: Iterable[Section]) -> Iterator[list[Section]]:
    """What is drawn of each plane, lines before areas: an area as it is seen where its plane's lines are."""
    planes: dict[tuple[int, Fraction], list[Section]] = {}
    for one in sorted(sections, key=lambda it: it.is_area):
        its = planes.setdefault((FRAMES[one.view].sight, one.at), [])
        its.append(one._replace(view=its[0].view) if its and one.is_area else one)
    yield from planes.values()


def lines_of_sections(
    sections: Iterable[Section], cells: list[Cell], cuts: list[list[int]], lines: list[str], decimals: int, floor: int
) -> tuple[list[Added], list[Label]]:
    """The lines and labels of sections of a solid, in a row below a drawing: lines and area of one plane over one another."""
    sizes = [cut[-1] - cut[0] for cut in cuts]
    gap, high = GAP * 10**decimals, max(sizes) // LETTERS + 1
    right = ends_of(lines, decimals)[0]
    letters = (letter for letter in string.ascii_uppercase if not any(f"{letter}-{letter}" in line for line in lines))
    added: list[Added] = []
    labels: list[Label] = []
    for layers in planes_of(sections):
        frame, letter = FRAMES[layers[0].view], next(letters, "A")
        low = floor - gap - sizes[frame.up]
        for layer in layers:
            name, (x, y) = layer.layer(decimals, takes_points(lines)), least_of(cells, cuts, layer)
            begin = right + x, low + y
            added += [Added(name, *stroke, begin) for stroke in strokes_shown(shown_of_layer(cells, cuts, layer), *begin)]
        text = f"{'AREA' if layers[0].is_area else 'SECTION'} {letter}-{letter}"
        labels.append(Label(added[-1].view, text, (right, low - 2 * high), high))
        right += max(sizes[frame.right], LETTERS * high) + gap
    return added, labels


def ends_of(lines: list[str], decimals: int) -> tuple[int, int]:
    """The least coordinates at which something stands in a drawing, in units."""
    places = [place for entry in entries_of(lines) if entry.section == "ENTITIES" for place in points_of(entry) if all(map(math.isfinite, place))]
    x, y = (math.floor(min((place[way] for place in places), default=0) * 10**decimals) for way in (0, 1))
    return x, y


def takes_points(lines: list[str]) -> bool:
    """Whether the drawing's release, 2000 or a later one, takes points in names."""
    pairs = list(itertools.takewhile(lambda pair: pair[1:] != (2, "ENTITIES"), pairs_of(lines)))
    return any(one[1:] == (9, "$ACADVER") and other[2] >= "AC1015" for one, other in itertools.pairwise(pairs))


def with_lines(lines: list[str], added: Iterable[Added], decimals: int, labels: Iterable[Label] = ()) -> str:
    """The drawing's text with lines and labels added at the end of its first section of entities."""
    section, end = "", None
    for line, code, value in pairs_of(lines):
        section = value.upper() if code == 2 and section == "?" else section
        section = "?" if (code, value.upper()) == (0, "SECTION") else section
        if (code, value.upper()) == (0, "ENDSEC") and section == "ENTITIES":
            end = line - 1
            break
    if end is None:
        raise Refused("the drawing has no section of entities that ends")
    more = []
    for it in added:
        more += ["0", "LINE", "8", it.view, "6", "HIDDEN" if it.dashed else "CONTINUOUS"]
        for (right, up), codes in ((it.start, ("10", "20", "30")), (it.end, ("11", "21", "31"))):
            more += [codes[0], number(right, decimals), codes[1], number(up, decimals), codes[2], "0"]
    for label in labels:
        more += ["0", "TEXT", "8", label.layer, "10", number(label.place[0], decimals), "20", number(label.place[1], decimals), "30", "0",
                 "40", number(label.high, decimals), "1", label.text]
    return "\n".join([*lines[:end], *more, *lines[end:]]) + "\n"
