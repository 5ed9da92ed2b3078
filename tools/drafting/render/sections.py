"""The sections of a drawing as pictures: what is drawn of each, with its area hatched, and its plane as a line in the views that look along it."""
import html
import itertools
import re
import string
from collections import defaultdict
from collections.abc import Callable, Iterator, Mapping, Sequence
from fractions import Fraction
from typing import NamedTuple

from ..dxf.drawing import Line, Place, Views, content_of, entries_of
from ..projection.draw import AXES, FRAMES
from ..projection.sections import named, sections_of
from ..sections.layers import MIRRORED
from .svg import Plane, View

# How wide or high the picture of a section is, and what is free around it, in pixels; and of how many places it is tried whether an area lies there.
SIZE, AROUND, MOST_PLACES = 150, 8, 20_000
# What a label on a section's layer says, as `draft settle` writes it, and a comment of `draft sheet`; and how finely coordinates are told.
LETTER, COMMENT, PLACES = re.compile(r"\b([A-Z])-\1\b"), re.compile(r"draft section (\S{1,2}) (\S+)"), 6


class DrawnSection(NamedTuple):
    """A section that a drawing has: its view, where its plane lies from the part's least coordinate on, in units of the last decimal; its lines, and
    the outline of its area, as drawn; and its letter, where it has one."""

    view: str
    at: Fraction
    lines: Sequence[Line] = ()
    area: Sequence[Line] = ()
    letter: str = ""

    @property
    def axis(self) -> int:
        return FRAMES[self.view].sight

    def told(self, length: Callable[[Fraction], str]) -> str:
        """Where its plane lies and how it is seen, in words."""
        return f"{self.letter and f'{self.letter}-{self.letter}, '}{AXES[self.axis]} = {length(self.at)} from {self.view}"

    def in_a_mirror(self, wide: int) -> "DrawnSection":
        """The same of the mirror image of a part that is so wide, x turned round."""
        return self._replace(view=MIRRORED.get(self.view, self.view), at=wide - self.at if self.axis == 0 else self.at)


def drawn_sections(lines: list[str], decimals: int) -> list[DrawnSection]:
    """The sections of a drawing. Each has the letter of its label; where there are several the others have the letters that are left."""
    planes: dict[tuple[str, Fraction], DrawnSection] = {}
    for layer, its in sections_of(lines, decimals).items():
        section = planes.setdefault(layer[:2], DrawnSection(*layer[:2]))
        planes[layer[:2]] = section._replace(area=its) if layer.is_area else section._replace(lines=its)
    letters = {plane: letter for plane, letter in labels_of(lines, decimals) if plane in planes}
    left = (it for it in string.ascii_uppercase if it not in letters.values())
    return [section._replace(letter=letters.get(plane, "") or (next(left, "") if len(planes) > 1 else "")) for plane, section in planes.items()]


def labels_of(lines: list[str], decimals: int) -> Iterator[tuple[tuple[str, Fraction], str]]:
    """The letters of sections: those that a sheet has for them, and those of labels on their layers."""
    for _, comment in content_of(lines).comments:
        told = COMMENT.fullmatch(comment)
        if told and (layer := named(told[2], decimals)):
            yield layer[:2], told[1]
    for entry in entries_of(lines):
        if entry.section == "ENTITIES" and entry.name == "TEXT":
            layer, letter = named(entry.values.get(8, ""), decimals), LETTER.search(entry.values.get(1, ""))
            if layer and letter:
                yield layer[:2], letter[1]


# ---- its plane in the views

def planes_in(sections: Sequence[DrawnSection], views: Views, decimals: int, length: Callable[[Fraction], str]) -> dict[str, list[Plane]]:
    """The planes of sections in those views that look along them, from each view's least corner on."""
    found: dict[str, list[Plane]] = defaultdict(list)
    for section, name in itertools.product(sections, filter(views.get, views)):
        frame, view = FRAMES[name], View(views[name], None)
        if frame.sight != section.axis:
            is_upright = frame.right == section.axis
            is_back, reach = (frame.right_back, view.width) if is_upright else (frame.up_back, view.height)
            at = float(section.at / 10**decimals)
            told = f"The plane of section {section.told(length)}"
            looks_ahead = FRAMES[section.view].sight_back == is_back
            found[name].append(Plane(is_upright, reach - at if is_back else at, looks_ahead, section.letter, told))
    return found


# ---- what is drawn of it

Runs = Mapping[tuple[bool, float], Sequence[tuple[float, float]]]


def runs_in(view: View) -> Runs:
    """The upright and level stretches of a view from its least corner on: those of one way and coordinate together, each by its ends."""
    found: dict[tuple[bool, float], list[tuple[float, float]]] = defaultdict(list)
    for _, start, end in view.strokes:
        (a, b), (c, d) = ((round(x - view.left, PLACES), round(y - view.low, PLACES)) for x, y in (start, end))
        if a == c:
            found[True, a].append((b, d))
        elif b == d:
            found[False, b].append((a, c))
    return dict(found)


def within(outline: Runs) -> list[tuple[Place, Place]]:
    """The rectangles within an outline, by two corners each; none where it isn't closed."""
    uprights = sorted((at, *run) for (is_upright, at), its in outline.items() for run in its if is_upright)
    found: list[tuple[Place, Place]] = []
    for low, high in itertools.pairwise(sorted({end for _, *ends in uprights for end in ends})):
        ats = [at for at, start, end in uprights if start <= low and high <= end]
        if len(ats) % 2:
            return []
        found += [((left, low), (right, high)) for left, right in zip(ats[::2], ats[1::2])]
    return found


def place_of(outline: Runs, lines: Runs) -> Place | None:
    """Where the outline of an area lies among the lines of its section, of which it is always a part; None where that isn't told."""
    def has(is_upright: bool, at: float, low: float, high: float) -> bool:
        return any(start <= round(low, PLACES) and round(high, PLACES) <= end for start, end in lines.get((is_upright, round(at, PLACES)), ()))

    def lies_at(x: float, y: float) -> bool:
        return all(has(True, at + x, low + y, high + y) if is_upright else has(False, at + y, low + x, high + x)
                   for (is_upright, at), its in outline.items() for low, high in its)

    rights, ups = ([at for is_upright, at in lines if is_upright == way] for way in (True, False))
    if len(rights) * len(ups) > MOST_PLACES:
        return None
    places = [(x, y) for x in rights for y in ups if lies_at(x, y)]
    return places[0] if len(places) == 1 else None


def hatch(outline: Runs, left: float, bottom: float, scale: float) -> str:
    """What is within an outline, hatched, with its lower left corner there."""
    parts = [f"M{left + scale * x:.2f},{bottom - scale * y:.2f}H{left + scale * right:.2f}V{bottom - scale * up:.2f}H{left + scale * x:.2f}Z"
             for (x, y), (right, up) in within(outline)]
    return f'<path class="hatched" d="{"".join(parts)}"/>' if parts else ""


Told = Callable[[str, Place, Place], str]


def picture_of(label: str, lines: View | None, area: View | None, place: Place, told: Told) -> str:
    """Lines and an area as a picture; the area's least corner is at this place of the lines, from their least corner on."""
    drawn = [it for it in (lines, area) if it]
    wide, high = max(it.width for it in drawn), max(it.height for it in drawn)
    scale = SIZE / (max(wide, high) or 1)
    left, bottom = AROUND, AROUND + scale * high
    parts: list[str] = []
    if area:
        x, y = left + scale * place[0], bottom - scale * place[1]
        parts = [hatch(runs_in(area), x, y, scale), *([] if lines else area.drawn(x, y, scale, told))]
    parts += lines.drawn(left, bottom, scale, told) if lines else []
    size = f"0 0 {scale * wide + 2 * AROUND:.1f} {scale * high + 2 * AROUND:.1f}"
    return f'<svg viewBox="{size}" role="img" aria-label="{html.escape(label)}">{"".join(parts)}</svg>'


def pictures_of(section: DrawnSection, label: str, told: Told) -> Iterator[str]:
    """A section as a picture; its area as another one, where it isn't told where that lies among its lines."""
    lines, area = (View(its, None) if its else None for its in (section.lines, section.area))
    place = place_of(runs_in(area), runs_in(lines)) if lines and area else (0.0, 0.0)
    if place is not None:
        yield picture_of(label, lines, area, place, told)
    else:
        yield picture_of(label, lines, None, (0.0, 0.0), told)
        yield picture_of(f"{label}, its area", None, area, (0.0, 0.0), told)


def figures(sections: Sequence[DrawnSection], length: Callable[[Fraction], str], measured: Callable[[str, str, Place, Place], str]) -> str:
    """The sections of a drawing as figures."""
    shown = []
    for section in sections:
        name = f"Section {section.told(length)}"
        pictures = "".join(pictures_of(section, name, lambda kind, low, high: measured(name, kind, low, high)))
        shown.append(f"<figure>{pictures}<figcaption>{html.escape(name)}</figcaption></figure>")
    return f'<div class="cuts">{"".join(shown)}</div>' if shown else ""
