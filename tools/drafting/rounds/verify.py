"""What comes of the solids of a squared-off drawing once they are rounded back: which are kept, each by itself without a doubt; by FreeCAD
each is made, drawn again and compared with the sheet, and without FreeCAD that is told."""
import itertools
import math
from collections.abc import Sequence
from fractions import Fraction
from typing import Any, NamedTuple

from ..core.messages import Progress, Refused, many
from ..core.verdict import Doubt, Reason
from ..recon.answer import Answer, Solid
from . import holes, round_layers
from .cones import Fitted, choices, volume_by_pi
from .features import Given
from .restore import Drawn, volume_of, ways_of

# Of how many solids of a squared drawing FreeCAD makes shapes.
MOST = 200
# How many solids that differ from the sheet are told one by one.
MOST_TOLD = 3
# How many differences from the sheet are counted of one attempt to restore a solid.
COUNTED = 8
LACKING = "not compared with the sheet, since FreeCAD isn't there: apt-get install --no-install-recommends freecad-python3"


class Differs(Refused):
    """A restored solid whose views aren't the sheet's: the first difference, and how many there are, COUNTED at most."""

    def __init__(self, text: str, count: int) -> None:
        super().__init__(text)
        self.count = count


class Kept(NamedTuple):
    """A solid that is kept: its number in the program's list, its volume as a number and a number of pi, in the drawing's unit, where the
    formula holds, and its shape, where FreeCAD is there."""

    number: int
    solid: Solid
    volume: tuple[Fraction, Fraction] | None
    shape: Any
    doubt: str = ""

    def size(self) -> float:
        """The volume, as near as a number tells it."""
        return float(self.volume[0]) + float(self.volume[1]) * math.pi if self.volume else float(self.shape.Volume)


class Rounds(NamedTuple):
    """A way to round a solid back: the layers of its rounds, its cones, and whether the volume's formula holds for it."""

    drawn: Sequence[Drawn]
    cones: Sequence[Fitted]
    by_formula: bool


class Outcome(NamedTuple):
    """What came of a squared drawing's solids: how many it has, how many can't be rounded back, why others aren't kept, and those that
    are; whether they were compared with the sheet; how many weren't looked at; what was squared off, in words; and what was not tried or may be
    missing, so that the verdict isn't decided."""

    listed: int
    lost: int
    others: list[str]
    kept: list[Kept]
    is_compared: bool
    unseen: int = 0
    kinds: str = "rounds"
    reasons: tuple[Reason, ...] = ()

    def told(self) -> list[str]:
        """In words, beside the solids that are kept: whether these were compared with the sheet, and what became of the others."""
        rows = []
        if self.kept and self.is_compared:
            them = "the solid, and its views are" if len(self.kept) == 1 else f"each of {many(len(self.kept), 'solid')}, and their views are"
            rows.append(f"Checked: FreeCAD redrew {them} the sheet's.")
        gone = [f"{self.lost:,} can't be rounded again"] if self.lost else []
        gone += [f"{len(self.others):,} {'differs' if len(self.others) == 1 else 'differ'} from the sheet once rounded again"] if self.others else []
        if gone or not self.kept:
            left = f" Of these {' and '.join(gone)}." if gone else ""
            rows.append(f"With its {self.kinds} squared off the drawing has {many(self.listed, 'solid')}.{left}")
        return [*rows, *(f"  {text}" for text in self.others[:MOST_TOLD])]


def tools() -> tuple[Any, Any] | None:
    """What makes shapes and compares them, where FreeCAD is there."""
    try:
        from ..cad import rounded_shapes as bodies, compare as compared
    except Refused:
        return None
    return bodies, compared


def outcome(answer: Answer, given: Given, decimals: int) -> Outcome:
    """What comes of an answer's solids."""
    unit, with_shapes = 10**decimals, tools()
    result = Outcome(answer.listed, 0, [], [], with_shapes is not None, max(0, answer.listed - MOST), given.kinds)
    for number, solid in enumerate(answer.solids[:MOST], 1):
        Progress.show(f"solid {number:,} of {len(answer.solids):,} is rounded back")
        some, why, reasons = rounded_back(number, solid, given, unit, with_shapes)
        result.kept.extend(some)
        result = result._replace(reasons=tuple(dict.fromkeys((*result.reasons, *reasons))))
        if not some and why:
            result.others.append(f"solid {number}: {why}")
        elif not some:
            result = result._replace(lost=result.lost + 1)
    Progress.clear()
    return by_tangent_edges(result)


def by_tangent_edges(result: Outcome) -> Outcome:
    """Where some solids have the tangent edges that the sheet draws, those alone."""
    if all(one.doubt for one in result.kept):
        return result
    others = [f"solid {one.number}: {one.doubt}" for one in result.kept if one.doubt]
    if not others:
        return result
    reason = Reason(Doubt.TANGENT_EDGES_DIFFER, f"May miss: {many(len(others), 'solid')} that would match if the sheet drew other tangent edges.",
                    (("solids", len(others)),))
    return result._replace(kept=[one for one in result.kept if not one.doubt], others=[*result.others, *others], reasons=(*result.reasons, reason))


def rounded_back(
    number: int, solid: Solid, given: Given, unit: int, with_shapes: tuple[Any, Any] | None
) -> tuple[list[Kept], str, tuple[Reason, ...]]:
    """A solid rounded back, in all ways for which the formula holds, else in the first other one, each with all choices of round layers that its
    views allow; or why it isn't kept, nothing where it can't be rounded back at all; and what isn't tried."""
    some: list[Kept] = []
    why = ""
    reasons: list[Reason] = []
    refusals: list[Refused] = []
    seen: list[list[Drawn]] = []
    for every, by_formula in ways_of(solid, given, unit):
        if some and not by_formula:
            break
        its = round_layers.ways(solid, every, given, unit)
        reasons += its.reasons
        for way in (it for it in its.made if it not in seen):
            seen.append(way)
            more, cause = in_one_way(number, solid, (way, by_formula), given, unit, with_shapes)
            some += more
            reasons += its.if_kept if more else ()
            if isinstance(cause, str):
                why = why or cause
            else:
                refusals += cause
    return some, nearest(refusals) or why, tuple(dict.fromkeys(reasons))


def in_one_way(
    number: int, solid: Solid, its: tuple[list[Drawn], bool], given: Given, unit: int, with_shapes: tuple[Any, Any] | None
) -> tuple[list[Kept], str | list[Refused]]:
    """A solid rounded back in one way, for which the volume's formula holds or doesn't; or why it can't be tried, or why the attempts failed."""
    (way, by_formula), some = its, list[Kept]()
    if with_shapes is None and not (by_formula and not given.is_crossed):
        return [], f"{'crossed by holes' if given.is_crossed else 'cut by walls'}, which needs FreeCAD"
    every = choices(solid, way, given, unit)
    if not every:
        return [], "its holes and bosses don't have the places of all cones"
    refusals: list[Refused] = []
    for chosen in every:
        volume = None
        if by_formula and not given.is_crossed:
            plain, by_pi = volume_of(solid, way, unit, given.moved)
            volume = plain, by_pi + volume_by_pi(chosen, unit, given.moved) + holes.volume_by_pi(solid, way, given, unit)
        try:
            shape, doubt = shape_and_doubt(solid, Rounds(way, chosen, by_formula), given, unit, with_shapes) if with_shapes else (None, "")
            some.append(Kept(number, solid, volume, shape, doubt))
        except Refused as refusal:
            refusals.append(refusal)
    return some, refusals


def nearest(refusals: Sequence[Refused]) -> str:
    """Why the attempt failed that came nearest to the sheet: the first one with the fewest differences, else the first of all; nothing where
    none failed."""
    return str(min(refusals, key=lambda it: it.count if isinstance(it, Differs) else COUNTED + 1)) if refusals else ""


def shape_and_doubt(solid: Solid, its: Rounds, given: Given, unit: int, with_shapes: tuple[Any, Any]) -> tuple[Any, str]:
    """The shape, and what of its smooth edges isn't as on the sheet; refused where its views aren't the sheet's."""
    bodies, compared = with_shapes
    if bare := list(itertools.islice(compared.unexplained(given, its.drawn, unit), 1)):
        raise Refused(bare[0])
    try:
        shape = bodies.rounded_shape(solid, its.drawn, its.cones, given, unit, its.by_formula)
        large = compared.enlarged(shape, given)
        differing = list(itertools.islice(compared.differences(*large), COUNTED))
        other, lacking = compared.smooth_doubts(*large) if given.smooth and not differing else (0, 0)
    except Refused:
        raise
    except Exception as failure:  # whatever OpenCASCADE stumbles on
        raise Refused(f"FreeCAD can't make or draw it: {' '.join(str(failure).split())[:80] or type(failure).__name__}") from None
    if differing:
        raise Differs(differing[0], len(differing))
    words = [f"{many(other, 'line')} left out as tangent edges it has otherwise"] if other else []
    return shape, "; ".join([*words, *([f"{many(lacking, 'tangent edge')} of it the sheet doesn't draw"] if lacking else [])])
