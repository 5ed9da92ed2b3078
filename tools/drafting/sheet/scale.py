"""Whether a sheet is drawn to scale: what its dimensions say, compared with the lengths that they span.

A dimension says what its words say, where they were written over or stand in its block, else its measured length times its factor or
that of its style. All that lie within a view are compared. Where they agree on one ratio that isn't the scale in use, the sheet would
come out in a wrong size; where some don't agree with the others, some words were written over, or a line was moved without them.
"""
import argparse
import bisect
import math
import re
from collections.abc import Callable, Iterator, Sequence
from fractions import Fraction
from typing import Any, NamedTuple

from ..core import notes
from ..core.messages import Refused, many
from ..core.notes import Tell
from ..dxf import places
from ..dxf.drawing import MILLIMETRES, Place
from ..dxf.reader import Arrow, Box, Kept, Sheet, Source
from ..messages.controls import option, without
from ..sections.cutting_plane_marks import Word, words_of
from .groups import Group

# The kinds of dimensions that say a length, as the lowest three bits of group code 70 have them.
LINEAR, ALIGNED, DIAMETER, RADIUS = 0, 1, 3, 4
# How far outside a view's box a dimension of it may begin, as a part of the view's size.
MARGIN = 0.02
# How exact a ratio is that several dimensions agree on, and the greatest denominator of a scale that is named.
EXACT, MOST_PARTS = 1e-6, 1000
# How far beside the line between two arrow heads a number may stand, in heights of its letters, and how far from its middle.
BESIDE, HALFWAY = 2.5, 0.1
# How many dimensions a refusal names.
NAMED = 6
# Scales of ISO 5455, and some that are seen beside them: one dimension alone that says another ratio was written over.
USUAL = {Fraction(it) for it in (1, 2, 3, 4, 5, 10, 15, 20, 25, 30, 40, 50, 75, 100, 200, 250, 500, 1000)} | {Fraction(5, 2)}
# How units are written in dimensions. Parts in the one are often dimensioned in the other.
MARKS = {'"': "in", "''": "in", "″": "in", "in": "in", "inch": "in", "mm": "mm", "cm": "cm", "m": "m", "ft": "ft"}

CODES = (("%%c", "⌀"), ("%%C", "⌀"), ("%%d", "°"), ("%%D", "°"), ("%%p", "±"), ("%%P", "±"), ("\\P", " "), ("\u00a0", " "))
STACKED = re.compile(r"\\S([^;^#/]*)[#^/]([^;]*);")
# What may stand before the number: how often, and signs that it is a diameter, a radius, a square or for reference.
NUMBER = re.compile(
    r"\s*(?:\d+\s*[x×*]\s*)?(?:(?:SQ|DIA|[R⌀Ø∅φΦ□~≈=(\[])\.?\s*)*"
    r"(?:(?P<feet>\d+)\s*['′](?!['′])\s*-?\s*)?"
    r"(?:(?:(?P<whole>\d+)[ -]+)?(?P<above>\d+)/(?P<below>[1-9]\d*)|(?P<plain>\d{1,3}(?:[ '’]\d{3})+(?!\d)|\d+(?:[.,]\d+)?|[.,]\d+))?"
    r"\s*(?P<unit>''|[\"″]|(?:mm|cm|inch|in|m|ft)(?![a-z]))?", re.I,
)

# Of a part larger or smaller than this, in millimetres, the unit is asked about; and texts that are higher or lower speak against it.
LARGEST, SMALLEST = 20_000, 1
HIGHEST_TEXT, LOWEST_TEXT = 1_000, Fraction("0.2")
# How a title block or a note says the unit of a sheet's lengths, in the languages of title blocks.
NAMES = {"mm": "mm|millim[eèé]tres?|millimeters?|millimetern?|mil[ií]metros?|millimetri", "cm": "cm|centim[eè]tres?|centimeters?",
         "m": "met(?:re|er)s?|metern|metros|metri", "in": "inch(?:es)?|zoll|pouces?|pulgadas?|pollici"}
SAYS_UNIT = re.compile(
    r"\b(?:dim(?:ension)?s?|units?|ma(?:ß|ss)e|einheit(?:en)?|cotes?|unit[ée]s?|cotas?|unidad(?:es)?|quote|unità)\b\.?"
    r"(?:\s+(?:are|is|alle|sont|est|son|sono))?\s*(?:[:=]|in|en|em|dans)?\s*"
    r"(?:" + "|".join(f"(?P<{unit}_>{words})" for unit, words in NAMES.items()) + r")\b", re.I)

Where = Callable[[Source], str]


class Said(NamedTuple):
    """A length that words say, and half of their last place: what they may have been rounded by."""

    length: float
    half: float = 0.0


class Dimension(NamedTuple):
    """A dimension: what it says, in the ways in which its words may be read; the length that it spans, and its ends on the sheet; and
    whether its words were written over."""

    said: list[Said]
    words: str
    span: float
    ends: tuple[Place, Place]
    is_written: bool
    source: Source

    def off(self, ratio: float, tolerance: float) -> tuple[bool, bool]:
        """Whether it says another length than so many times the one that it spans, and whether it says that one rounded."""
        exact = any(abs(it.length - ratio * self.span) <= max(tolerance * ratio, EXACT * it.length) for it in self.said)
        rounded = any(abs(it.length - ratio * self.span) <= it.half + tolerance * ratio for it in self.said)
        return not exact and not rounded, not exact and rounded and self.is_written


# ---- what a dimension says

def plain(words: str) -> str:
    """The words of a dimension without codes of their form."""
    from ezdxf.tools.text import fast_plain_mtext
    words = STACKED.sub(r" \1/\2", words)
    for code, sign in CODES:
        words = words.replace(code, sign)
    return " ".join(str(fast_plain_mtext(words)).split())


def numbers_of(words: str, unit: str) -> list[Said]:
    """The lengths that words may say in the sheet's unit; none where they say no plain length: an angle, a thread, a letter."""
    found = NUMBER.match(words)
    if not found or "°" in words or not (found["plain"] or found["above"] or found["feet"]):
        return []
    inches, half = Fraction(0), Fraction(0)
    others = []
    if found["above"]:
        inches = Fraction(int(found["whole"] or 0)) + Fraction(int(found["above"]), int(found["below"]))
    elif found["plain"]:
        text = re.sub(r"[ '’]", "", found["plain"]).replace(",", ".")
        inches, half = Fraction("0" + text if text[0] == "." else text), Fraction(1, 2 * 10 ** len(text.partition(".")[2]))
        if re.fullmatch(r"[1-9]\d{0,2},\d{3}", found["plain"]):
            others.append(Said(float(1000 * inches), 0.5))
    length = inches + 12 * int(found["feet"] or 0)
    told = "in" if found["feet"] else MARKS.get((found["unit"] or "").lower(), "")
    if told and unit in MILLIMETRES and told != unit:
        times = MILLIMETRES[told] / MILLIMETRES[unit]
        others.append(Said(float(length * times), float(half * times)))
    return [Said(float(length), float(half)), *others]


def text_in_block(entity: Any) -> str:
    """The words that a dimension's block shows."""
    if not entity.dxf.hasattr("geometry"):
        return ""
    its = [it for it in entity.virtual_entities() if it.dxftype() in ("TEXT", "MTEXT")]
    return plain(its[0].text if its[0].dxftype() == "MTEXT" else its[0].dxf.text) if len(its) == 1 else ""


def span_of(entity: Any, kind: int) -> tuple[float, Place, Place] | None:
    """The length that a dimension spans, and the places between which."""
    names = ("defpoint2", "defpoint3") if kind in (LINEAR, ALIGNED) else ("defpoint", "defpoint4")
    if not all(entity.dxf.hasattr(name) for name in names):
        return None
    start, end = (entity.dxf.get(name) for name in names)
    length = math.dist((start.x, start.y), (end.x, end.y))
    if kind == LINEAR:
        right, up = places.direction(entity, entity.dxf.get("angle", 0.0))
        length = abs((end.x - start.x) * right + (end.y - start.y) * up)
    return (length, (start.x, start.y), (end.x, end.y)) if math.isfinite(length) and length > 0 else None


def dimension_of(kept: Kept, unit: str) -> Dimension | None:
    """What a dimension says and spans; nothing where it says no length."""
    entity = kept.entity
    kind = entity.dxf.get("dimtype", 0) & 7
    spanned = span_of(entity, kind) if kind in (LINEAR, ALIGNED, DIAMETER, RADIUS) else None
    if spanned is None:
        return None
    span, *ends = spanned
    factor = abs(entity.override().get("dimlfac", 1.0) or 1.0)
    measured = factor * (entity.dxf.get("actual_measurement", 0.0) or span)
    raw = str(entity.dxf.get("text", ""))
    written = raw.strip() not in ("", "<>")
    if raw and not raw.strip():
        return None
    words = plain(raw.replace("<>", f"{measured:.9g}")) if written else text_in_block(entity)
    said = numbers_of(words, unit)
    if "<>" in raw or not written and (not said or any(abs(it.length - measured) <= it.half for it in said)):
        said, words = [Said(measured)], words or f"{measured:.9g}"
    return Dimension(said, words, span, (ends[0], ends[1]), written and "<>" not in raw, kept.source) if said else None


def dimensions_of(sheet: Sheet) -> Iterator[Dimension]:
    """The dimensions of a sheet that say a length."""
    for kept in sheet.kept:
        if kept.source.kind == "DIMENSION":
            try:
                found = dimension_of(kept, sheet.unit)
            except Exception:  # whatever a broken dimension makes ezdxf stumble on
                continue
            if found:
                yield found


def tip_of(arrow: Arrow) -> Place:
    """The corner of an arrow head that is farthest from the others."""
    return max(arrow.tips, key=lambda tip: sum(math.dist(tip, other) for other in arrow.tips))


def exploded_in(sheet: Sheet, tolerance: float) -> Iterator[Dimension]:
    """What dimensions say that were taken apart: numbers halfway between two arrow heads."""
    tips = [tip_of(arrow) for arrow in sheet.arrows]
    for word in words_of(sheet) if tips else ():
        said = numbers_of(word.text, sheet.unit) if NUMBER.fullmatch(word.text) else []
        ends = tips_beside(word, tips, tolerance) if said else None
        if ends:
            yield Dimension(said, word.text, math.dist(*ends), ends, False, word.source)


def tips_beside(word: Word, tips: Sequence[Place], tolerance: float) -> tuple[Place, Place] | None:
    """The two tips in one level or upright line halfway between which a word stands."""
    for axis in (0, 1):
        near = sorted((tip for tip in tips if abs(tip[1 - axis] - word.place[1 - axis]) <= BESIDE * word.high), key=lambda tip: tip[axis])
        at = bisect.bisect([tip[axis] for tip in near], word.place[axis])
        if 0 < at < len(near):
            start, end = near[at - 1], near[at]
            halfway = abs((start[axis] + end[axis]) / 2 - word.place[axis]) <= word.high + HALFWAY * (end[axis] - start[axis])
            if halfway and abs(start[1 - axis] - end[1 - axis]) <= 3 * tolerance < end[axis] - start[axis]:
                return start, end
    return None


def lies_in(box: Box, place: Place) -> bool:
    margin = MARGIN * max(box[2] - box[0], box[3] - box[1])
    return box[0] - margin <= place[0] <= box[2] + margin and box[1] - margin <= place[1] <= box[3] + margin


# ---- what they agree on

def scale_told(ratio: Fraction) -> str:
    """A scale in words: 1:2 where real lengths are twice as long as drawn."""
    one, other = (ratio, "1:{}") if ratio >= 1 else (1 / ratio, "{}:1")
    number = f"{float(one):.10g}"
    return other.format(number) if Fraction(number) == one else f"{ratio.denominator}:{ratio.numerator}"


def is_usual(ratio: Fraction) -> bool:
    return max(ratio, 1 / ratio) in USUAL


def ratios_of(dimensions: Sequence[Dimension]) -> set[Fraction]:
    """The ratios that some dimension says, and the usual ones near to these, since words may be rounded."""
    values = [it.length / dimension.span for dimension in dimensions for it in dimension.said]
    values = [value for value in values if 1e-5 < value < 1e5]
    usual = USUAL | {1 / it for it in USUAL}
    return {Fraction(1)} | {it for it in usual if any(abs(value / it - 1) < 0.1 for value in values)} | {
        Fraction(value).limit_denominator(MOST_PARTS) if value > 1 else 1 / Fraction(1 / value).limit_denominator(MOST_PARTS) for value in values
    }


class Agreed(NamedTuple):
    """A ratio, the dimensions that don't say it, and those that say it rounded."""

    ratio: Fraction
    off: list[Dimension]
    rounded: list[Dimension]


def agreed_on(ratio: Fraction, dimensions: Sequence[Dimension], tolerance: float) -> Agreed:
    found = [(it, *it.off(float(ratio), tolerance)) for it in dimensions]
    return Agreed(ratio, [it for it, off, _ in found if off], [it for it, _, rounded in found if rounded])


def agreed(dimensions: Sequence[Dimension], tolerance: float) -> Agreed:
    """What most of the dimensions agree on, of several ratios the one nearest to 1; rounded words say usual ratios alone."""
    def unlike(it: Agreed) -> tuple[int, int, bool, float]:
        odd = not is_usual(it.ratio)
        return len(it.off) + len(it.rounded) * odd, len(it.rounded), odd, abs(math.log(it.ratio))

    return min((agreed_on(ratio, dimensions, tolerance) for ratio in ratios_of(dimensions)), key=unlike)


def told(dimension: Dimension, where: Where) -> str:
    (a, b), (c, d) = dimension.ends
    return f"{where(dimension.source)}, says {dimension.words!r} from {a:.9g}, {b:.9g} to {c:.9g}, {d:.9g}, a length of {dimension.span:.9g}"


def named(dimensions: Sequence[Dimension], where: Where) -> str:
    more = [f"and {len(dimensions) - NAMED} more"] if len(dimensions) > NAMED else []
    return "\n  ".join(["", *(told(it, where) for it in dimensions[:NAMED]), *more])


def unit_told(ratio: Fraction, unit: str) -> str:
    """The unit that dimensions are in, where lengths are in another one: inches in millimetres, or the other way round."""
    other = {"in": "mm", "mm": "in"}.get(unit, "")
    return other if other and ratio == MILLIMETRES[unit] / MILLIMETRES[other] else ""


def is_scale(ratio: Fraction, dimensions: Sequence[Dimension]) -> bool:
    """Whether a ratio may be that of a scale, rather than of one dimension that was written over."""
    return is_usual(ratio) or len({round(it.span, 6) for it in dimensions}) > 1


def says(count: int) -> str:
    return f"{many(count, 'dimension')} {'says' if count == 1 else 'say'}"


def spanned(count: int) -> str:
    return "the length that it spans" if count == 1 else "the lengths that they span"


class Scale(NamedTuple):
    """What drawn lengths are multiplied by, as the user says or as the sheet is taken; and whether the user said it."""

    times: Fraction
    is_said: bool


def checked(sheet: Sheet, views: Sequence[Group], scale: Scale, arguments: argparse.Namespace, where: Where, tell: Tell) -> Fraction:
    """The scale of a sheet: the one in use, or the one that its dimensions and a text of it say. What the dimensions say is told; refused
    where that is a wrong size, unless lengths are to be taken as they are drawn."""
    every = list(dimensions_of(sheet))
    if not every:
        return checked_exploded(list(exploded_in(sheet, arguments.tolerance)), sheet, scale, arguments, where, tell)
    dimensions = [it for it in every if any(all(lies_in(view.box, end) for end in it.ends) for view in views)]
    if len(dimensions) < len(every):
        lost = len(every) - len(dimensions)
        tell(notes.left_out(f"{many(lost, 'dimension')} of no view, which nothing is compared with", lost))
    if not dimensions:
        return scale.times
    used, best = (agreed_on(scale.times, dimensions, arguments.tolerance), agreed(dimensions, arguments.tolerance))
    is_better = not best.off and best.ratio != scale.times and is_scale(best.ratio, dimensions) and len(best.rounded) < len(used.rounded)
    if not used.off and not is_better:
        if used.rounded:
            tell(notes.warning(f"{says(len(used.rounded))} a rounded length, and lengths are as drawn:{named(used.rounded, where)}",
                               len(used.rounded)))
        at_scale = f", at the scale {scale_told(scale.times)}" if scale.times != 1 else ""
        tell(notes.found(f"{says(len(dimensions))} {spanned(len(dimensions))}{at_scale}", len(dimensions)))
        return scale.times
    if not best.off and (unit := unit_told(best.ratio / scale.times, sheet.unit)):
        tell(notes.found(f"{says(len(dimensions))} in {unit} {spanned(len(dimensions))} in {sheet.unit}", len(dimensions)))
        return scale.times
    if arguments.as_drawn:
        off = used.off or used.rounded
        tell(notes.warning(f"lengths are taken as drawn, and {off_told(off, dimensions)} another:{named(off, where)}", len(off)))
        return scale.times
    if not best.off and not scale.is_said and scale_told(best.ratio) in sheet.scales:
        tell(notes.changed(f"lengths taken at the scale {scale_told(best.ratio)}, which a text says and {many(len(dimensions), 'dimension')} too",
                           len(dimensions)))
        return best.ratio
    raise Refused(refusal(dimensions, used, best, scale, where))


def checked_exploded(
    dimensions: Sequence[Dimension], sheet: Sheet, scale: Scale, arguments: argparse.Namespace, where: Where, tell: Tell
) -> Fraction:
    """The scale of a sheet whose dimensions were taken apart, where which number is of which arrows is known less surely: refused where all
    of several agree on another scale."""
    used, best = agreed_on(scale.times, dimensions, arguments.tolerance), agreed(dimensions, arguments.tolerance)
    numbers = many(len(dimensions), "number")
    if not used.off:
        if dimensions:
            verb = "says" if len(dimensions) == 1 else "say"
            tell(notes.found(f"{numbers} between arrow heads {verb} {spanned(len(dimensions))}", len(dimensions)))
        return scale.times
    if best.off or best.rounded or not is_scale(best.ratio, dimensions) or len(dimensions) < 2 or arguments.as_drawn:
        tell(notes.warning(f"{len(used.off)} of {numbers} between arrow heads say another length:{named(used.off, where)}", len(used.off)))
        return scale.times
    if not scale.is_said and scale_told(best.ratio) in sheet.scales:
        tell(notes.changed(f"lengths taken at the scale {scale_told(best.ratio)}, which a text says and {numbers} between arrow heads too",
                           len(dimensions)))
        return best.ratio
    raise Refused(refusal(dimensions, used, best, scale, where))


def off_told(off: Sequence[Dimension], dimensions: Sequence[Dimension]) -> str:
    return f"{len(off)} of {many(len(dimensions), 'dimension')} {'says' if len(off) == 1 else 'say'}"


def refusal(dimensions: Sequence[Dimension], used: Agreed, best: Agreed, scale: Scale, where: Where) -> str:
    """Why dimensions and lengths don't agree, and what to say."""
    agree = [it for it in dimensions if it not in best.off]
    if len(agree) * 2 <= len(dimensions) or best.ratio == scale.times or not is_scale(best.ratio, agree):
        return (f"{off_told(used.off, dimensions)} another length than {spanned(len(used.off))}, so that the size of the part isn't told: words "
                f"were written over, or lines moved without them. Draw them right, or say {option('as-drawn')}:{named(used.off, where)}")
    taken = f"taken by {option('scale', scale_told(scale.times))}" if scale.is_said else "drawn"
    way = f"say {option('scale', scale_told(best.ratio))}" if best.ratio != 1 else without('scale')
    times = float(best.ratio / scale.times)
    text = f"{says(len(agree))} {times:.6g} times the lengths as {taken}, so that the part would come out in a wrong size"
    if best.off:
        neither = f"{len(best.off)} {'says' if len(best.off) == 1 else 'say'} neither"
        return (f"{text}, and {neither}: {way}, with {option('as-drawn')} where {'it was' if len(best.off) == 1 else 'these were'} written over:"
                f"{named(best.off, where)}\n  beside {told(agree[0], where)}")
    return f"{text}: {way}, or say {option('as-drawn')} where the dimensions are wrong:{named(agree[:2], where)}"


# ---- whether the unit can be meant

def is_likely(size: Fraction | float, unit: str) -> bool:
    """Whether a part may be so large, in a unit that is known."""
    return unit not in MILLIMETRES or SMALLEST - 1e-9 <= float(MILLIMETRES[unit]) * float(size) <= LARGEST


def units_said(sheet: Sheet, times: Fraction, tolerance: float) -> dict[str, Source]:
    """The units that dimensions with a unit and texts of the sheet say its lengths are in, each with the first entity that does."""
    found: dict[str, Source] = {}
    for it in dimensions_of(sheet):
        number = NUMBER.match(it.words)
        mark = MARKS.get((number["unit"] or "").lower(), "") if number else ""
        lengths = it._replace(said=it.said[:1])
        if mark and lengths.off(float(times), tolerance) == (False, False):
            found.setdefault(mark, it.source)
        elif mark and sheet.unit and not it.off(float(times), tolerance)[0]:
            found.setdefault(sheet.unit, it.source)
    for word in words_of(sheet):
        if said := SAYS_UNIT.search(word.text):
            found.setdefault(next(unit for unit in NAMES if said[f"{unit}_"]), word.source)
    return found


def check_size(sheet: Sheet, views: Sequence[Group], times: Fraction, arguments: argparse.Namespace, where: Where, tell: Tell) -> None:
    """Asks about the unit of a part that can hardly be so large or so small, unless it is said, or dimensions or texts of the sheet say it, in which
    case the sheet's lengths are in that."""
    size = float(times) * max(max(view.width, view.height) for view in views)
    if arguments.unit or is_likely(size, sheet.unit):
        return
    said = units_said(sheet, times, arguments.tolerance)
    if len(said) == 1:
        unit, source = next(iter(said.items()))
        if unit != sheet.unit:
            tell(notes.changed(f"lengths are in {unit}, as {where(source)} says, and not in {sheet.unit}, in which the part would be {size:.6g} "
                               f"{sheet.unit} long"))
            sheet.unit = unit
        return
    ways = [unit for unit in dict.fromkeys(("mm", "in", sheet.unit)) if unit == sheet.unit or is_likely(size, unit)]
    other = f", or {option('unit', sheet.unit)} where it is right"
    say = " or ".join(option("unit", unit) for unit in ways if unit != sheet.unit) + other if len(ways) > 1 else option("unit", sheet.unit)
    raise Refused(f"the file says that lengths are in {sheet.unit}, so that the part is {size:.6g} {sheet.unit} long, which can hardly be meant"
                  f"{texts_against(sheet)}: say {say}", "unit", ways)


def texts_against(sheet: Sheet) -> str:
    """What the heights of texts say against the unit of a sheet."""
    high = [word.high for word in words_of(sheet) if word.high > 0]
    odd = next((it for it in high if not LOWEST_TEXT <= Fraction(it) * MILLIMETRES[sheet.unit] <= HIGHEST_TEXT), None)
    return f"; a text would be {odd:.6g} {sheet.unit} high" if odd else ""
