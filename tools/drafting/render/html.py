"""What a page shows of a drawing and of its answer, as pieces of HTML: the words at the top, and the views."""
import functools
import html
from collections.abc import Mapping, Sequence
from fractions import Fraction
from typing import NamedTuple

from ..core.verdict import Kind, Verdict, not_read
from ..dxf.drawing import Origin, Place, Views
from ..messages import verdict as in_words
from ..recon import faults
from ..rounds.features import Given
from ..solve import pipeline
from ..solve.readings import Readings
from . import sections as section_pictures, rounds as seen
from .sections import DrawnSection
from .svg import BEYOND, VIEWS, Curve, views_drawn

# The most lines of an entity that are shown whole; else how many lines of the file are shown before and behind the one that a fault
# names, and how much of each.
MOST_LINES, BESIDE, WIDTH = 60, 4, 100
MARGIN = 26
# The style of each verdict on the page.
STYLES = {Kind.UNIQUE: "unique", Kind.AMBIGUOUS: "ambiguous", Kind.NOT_DECIDED: "undecided", Kind.IMPOSSIBLE: "impossible", Kind.NOT_READ: "fault"}


class Units(NamedTuple):
    """How lengths are told: how many decimals coordinates of the answer have, and how the drawing stands for its sheet."""

    decimals: int
    origin: Origin

    def told(self, value: Fraction | int) -> str:
        """A length in units of the answer's last decimal."""
        return pipeline.measure(Fraction(value) / (self.origin.times * 10**self.decimals), self.origin.unit).replace(",", "")

    def for_script(self) -> dict[str, object]:
        """The same for the page's scripts: how many of the answer's units one of the sheet's has, as a fraction, and the unit."""
        per_unit = self.origin.times * 10**self.decimals
        return {"per": [str(per_unit.numerator), str(per_unit.denominator)], "unit": self.origin.unit}


def paragraph(text: str, kind: str = "plain") -> str:
    return f'<p class="{kind}">{text}</p>'


# ---- what is told in words

def excerpt(lines: list[str], named: int, whole: tuple[int, int] | None) -> str:
    """The lines of the file around the named one, which may be the one behind the last; or all lines of its entity."""
    first, last = whole if whole and whole[1] - whole[0] < MOST_LINES else (named - BESIDE, named + BESIDE)
    shown = []
    for number in range(max(1, first), last + 1):
        text = lines[number - 1][:WIDTH] if number <= len(lines) else "the end of the file" if number == named else None
        if text is not None:
            row = html.escape(f"{number:>8}  {text}")
            shown.append(f'<span class="named">{row}</span>' if number == named else row)
    return "<pre>" + "\n".join(shown) + "</pre>"


def verdict_told(its: Verdict, more: str = "") -> str:
    """What the user came for, large: the verdict in a word, and as a sentence; below it, what leaves it open and what to do. The page's scripts fill
    the last line, where they know more."""
    first, *rest = in_words.sentence_alone(its).split("\n")
    text = html.escape(first.rstrip(".")) + "."
    why = "".join(paragraph(html.escape(line.strip()), "reason") for line in [*rest, *in_words.reasons(its), *in_words.advice(its)])
    return (f'<div class="verdict {STYLES[its.kind]}"><p class="word">{in_words.word(its)}</p><p class="count">{text}</p>'
            f'<p class="then">{more}</p></div>{why}')


def fault_told(head: str, lines: list[str]) -> str:
    """What is wrong, what it is about and what to change; of a linetype without a meaning the whole entity."""
    named = faults.line_named(head)
    entity = faults.entity_at(lines, named)
    whole = (entity.first, entity.last) if entity and faults.name_of(head) == "Linetype" else None
    wrong, *about = faults.told(head, lines)
    wrong = wrong.removesuffix(f" ({head})")
    text = "".join(paragraph(html.escape(words[0].upper() + words[1:]) + ".", "about") for words in about)
    text += excerpt(lines, named, whole) if named else ""
    at = f"Line {named:,} of the file: " if named else ""
    return verdict_told(not_read(wrong)) + (
        f'<div class="notice fault"><strong>{at}<code>{html.escape(head)}</code></strong>{text}</div>')


def refused_told(text: str) -> str:
    """Why a file isn't read."""
    return verdict_told(not_read(text))


def head_told(its: Verdict, head: str, rounds: Readings | None = None) -> str:
    """How a search ended: the verdict; of a sheet with rounds what came of its squared-off drawing; and the program's own figures below, small."""
    told = "".join(paragraph(html.escape(line.strip()), "reason") for line in (in_words.details(rounds) if rounds else ()))
    return verdict_told(its) + told + paragraph(f"The program's own words: <code>{html.escape(head)}</code>", "muted figures")


# ---- the views

def sizes_told(views: Views, units: Units) -> str:
    """How far each view reaches to the right and upwards."""
    rows = []
    for view, lines in views.items():
        points = [point for line in lines for point in (line.start, line.end)]
        if points:
            sizes = [max(along) - min(along) for along in zip(*points)]
            rows.append(view + " " + " × ".join(units.told(round(size * 10**units.decimals)) for size in sizes))
    return html.escape("; ".join(rows))


def views_told(
    views: Views, units: Units, marked: int | None = None, curves: Mapping[str, list[Curve]] = {}, sections: Sequence[DrawnSection] = (),
) -> str:
    """The views as a picture, in which each line tells its place and length, with the planes of sections; and these as pictures below it."""
    # Of many lines the ends are at few coordinates.
    told = functools.cache(lambda at: units.told(round(at * 10**units.decimals)))

    def measured(view: str, kind: str, low: Place, high: Place) -> str:
        ends = [", ".join(map(told, end)) for end in (low, high)]
        return f"{view}, {ends[0]} to {ends[1]}: {told(abs(high[0] - low[0] + high[1] - low[1]))} long, {kind}"

    margin = MARGIN + (BEYOND if sections else 0)
    size = VIEWS + 2 * margin
    planes = section_pictures.planes_in(sections, views, units.decimals, units.told)
    parts = "".join(views_drawn(views, margin, margin, marked, measured, curves, planes))
    return (f'<svg viewBox="0 0 {size} {size}" role="img" aria-label="The views">{parts}</svg>'
            f"{section_pictures.figures(sections, units.told, measured)}")


def drawing_told(views: Views, units: Units, head: str = "", given: Given | None = None, sections: Sequence[DrawnSection] = ()) -> str:
    """The views, and the sections, with what is to be said of them; where the answer's first line is a fault, with the line that it names; and
    with their rounds, where these were squared off."""
    if not any(views.values()):
        return paragraph("No line of a view can be read.")
    lines, curves = seen.views_of(given) if given else (views, {})
    picture = views_told(lines, units, faults.line_named(head), curves, sections)
    note = paragraph(sizes_told(views, units), "muted sizes-told") + paragraph("Point at a line to see its length.", "muted measured")
    if 'class="marked"' in picture:
        note += paragraph("In red, the line of the drawing that the fault names.", "muted")
    if 'class="unknown"' in picture:
        note += paragraph("Dotted, lines of a linetype that tells no style.", "muted")
    return picture + note
