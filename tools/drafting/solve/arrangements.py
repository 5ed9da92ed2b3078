"""In which angle the views of a sheet are read, where their places alone say it: both are tried.

Where three or more views stand round a main one, third and first angle give different parts, mostly mirror images. What stands above and to the
right of a view may be seen from above and from the right, or from below and from the left. A right side view beside TOP, and a bottom view
above FRONT in first angle, are such sheets. The other angle costs one more search of recon; where both have a solid, the solids are compared.
"""
import argparse
import itertools
import time
from collections.abc import Iterator, Sequence
from typing import Any, NamedTuple

from ..core import notes
from ..core.messages import Refused
from ..core.notes import Note, Tell
from ..core.verdict import Doubt, Reason
from ..dxf.drawing import lines_within, missing_in, views_of
from ..recon import many as trials, process
from ..recon.answer import Point, Solid, answer_of, sizes_of
from ..rounds.features import given_in
from ..rounds.verify import Kept
from ..sheet import pipeline as sheet
from ..sheet.titles import OTHER
from ..sheet.two_views import AngleContradicted, AngleOpen, TwoReadings
from . import readings

# For how many seconds the readings of a sheet with rounds are looked through for one that has a solid.
SECONDS = 10.0
# The part of its volume by which two shapes of one part may differ.
NOISE = 1e-6
SEEN = {"third": "what stands to the right of a view shows the part from the right", "first": "what stands to the right of a view shows it from the left"}


class Found(NamedTuple):
    """What one angle gives: recon's solids of the first drawing that has some, whether these are all, how many there are in words, whether
    curves or oblique edges were squared off, and whether all readings were looked through."""

    angle: str
    solids: Sequence[Solid]
    outcome: trials.Outcome
    is_rounded: bool = False
    is_through: bool = True

    @property
    def has_any(self) -> bool:
        """Whether there is a solid, or may be."""
        return bool(self.outcome.count or self.outcome.more) or not self.is_through

    @property
    def words(self) -> str:
        volume = f" of volume {self.solids[0].volume:,} in units of the last decimal" if len(self.solids) == 1 and not self.is_rounded else ""
        return f"{SEEN[self.angle]}; {self.outcome.words}{volume}"


def drawn_of(path: str | None, arguments: argparse.Namespace, tell: Tell, ask: readings.Asker) -> sheet.Drawn:
    """What a sheet is drawn as: in the angle that the user or the sheet says, or in which alone some solid has its views. Refused where both
    angles give solids that aren't the same, and nothing says the angle."""
    said: list[Note] = []
    try:
        drawn, why = sheet.draw_readings(path, arguments, said.append), None
    except Refused as refusal:
        if arguments.angle is not None or sorted(refusal.ways) != sorted(OTHER) or getattr(arguments, "visible_edges_alone", False):
            raise
        drawn, why = None, refusal
    if why is not None:
        angle, has_doubt = between(path, arguments, why, ask), False
    elif drawn and drawn.angle and arguments.angle is None:
        angle, has_doubt = beside(path, arguments, drawn, ask)
    else:
        angle, has_doubt = "", False
    if angle or drawn is None:
        which = "two views, in" if isinstance(why, TwoReadings) else "views in"
        said = [notes.found(f"{which} {angle} angle, since in the other no solid has them")]
        drawn = sheet.draw_readings(path, with_angle(arguments, angle), said.append)
    for note in said:
        tell(note)
    return not_checked(drawn) if has_doubt else drawn


def with_angle(arguments: argparse.Namespace, angle: str) -> argparse.Namespace:
    return argparse.Namespace(**{**vars(arguments), "angle": angle})


def not_checked(drawn: sheet.Drawn) -> sheet.Drawn:
    reason = Reason(Doubt.ANGLE_NOT_CHECKED, f"Not checked: the views are read in {drawn.angle} angle; in {OTHER[drawn.angle]} angle they may show "
                    "another part.", (("angle", drawn.angle),))
    return drawn._replace(reasons=(*drawn.reasons, reason))


# ---- which angle

def between(path: str | None, arguments: argparse.Namespace, why: Refused, ask: readings.Asker) -> str:
    """The angle in which alone some solid has the views of a sheet that can be placed in both; else refused."""
    both = [found(angle, sheet.draw_readings(path, with_angle(arguments, angle), notes.tell_none), arguments) for angle in why.ways]
    fitting = [it for it in both if it.has_any]
    if len(fitting) == 1:
        return fitting[0].angle
    if len(fitting) == 2 and not isinstance(why, TwoReadings):
        return settled(path, arguments, fitting[0], fitting[1], ask)
    raise why.with_words(f"\n  recon lists {'; '.join(f'in {it.angle} angle {it.outcome.words}' for it in both)}")


def beside(path: str | None, arguments: argparse.Namespace, drawn: sheet.Drawn, ask: readings.Asker) -> tuple[str, bool]:
    """The other angle than a drawing's, where that alone has a solid, else nothing; and whether the other one couldn't be tried."""
    if getattr(arguments, "visible_edges_alone", False):
        return "", not drawn.angle_by
    try:
        rival = found(OTHER[drawn.angle], sheet.draw_readings(path, with_angle(arguments, OTHER[drawn.angle]), notes.tell_none), arguments)
    except process.TimedOut:
        return "", not drawn.angle_by
    except Refused:
        return "", not drawn.angle_by and not drawn.has_sections
    if not rival.has_any:
        return "", False
    own = found(drawn.angle, sheet.draw_readings(path, arguments, notes.tell_none), arguments)
    if drawn.angle_by:
        if not own.has_any:
            raise AngleContradicted(drawn.angle, drawn.angle_by, rival.angle, rival.outcome.words)
        return "", False
    if not own.has_any:
        return rival.angle, False
    angle = settled(path, arguments, own, rival, ask)
    return (angle if angle != drawn.angle else ""), False


def settled(path: str | None, arguments: argparse.Namespace, own: Found, rival: Found, ask: readings.Asker) -> str:
    """The angle of two that both have solids: the first one where the solids are the same parts, or where the other one's can't be restored;
    else refused."""
    if not own.is_rounded and not rival.is_rounded:
        if are_whole(own) and are_whole(rival) and are_same(own.solids, rival.solids):
            return own.angle
        raise AngleOpen({it.angle: it.words for it in (own, rival)})
    kept = {it.angle: restored(path, with_angle(arguments, it.angle), ask) for it in (own, rival)}
    if not all(kept.values()):
        return rival.angle if kept[rival.angle] else own.angle
    if are_same_shapes(kept[own.angle], kept[rival.angle]):
        return own.angle
    raise AngleOpen({angle: f"{SEEN[angle]}; {trials.Outcome(len(its)).words}" for angle, its in kept.items()})


def restored(path: str | None, arguments: argparse.Namespace, ask: readings.Asker) -> list[Kept]:
    """The solids of a sheet in an angle, its curves and oblique edges restored."""
    tried = readings.readings(sheet.draw_readings(path, arguments, notes.tell_none), ask, arguments)
    return [one for it in tried.kept for one in it.outcome.kept]


# ---- what one angle gives

def drawings_of(drawn: sheet.Drawn) -> Iterator[sheet.Drawn]:
    """The drawings of the likely readings of a sheet, the first one first."""
    yield drawn
    for group in drawn.others:
        its = [one for one in group.its if isinstance(one, sheet.Drawn)]
        if not all(one.is_plain for one in its):
            return
        yield from (one for one in its if one.text != drawn.text)


def found(angle: str, drawn: sheet.Drawn, arguments: argparse.Namespace) -> Found:
    """What an angle gives of a sheet's readings: the first that has a solid, or may have one."""
    until, result = time.monotonic() + SECONDS, None
    for one in drawings_of(drawn):
        if result and time.monotonic() > until:
            return result._replace(is_through=False)
        lines = lines_within(one.text.encode())
        words: list[object] = ["solve", *([process.TWO_VIEWS] if missing_in(views_of(lines)) else []), *([process.SECTIONS] if one.has_sections else [])]
        words += [*(["--decimals", one.decimals] if one.decimals else []), "--nodes", trials.NODES, "--solids", trials.SOLIDS]
        run = process.run(process.find(arguments.program), words, one.text.encode(), arguments.seconds)
        outcome = trials.outcome_of(run)
        result = Found(angle, answer_of(run.text).solids, outcome, given_in(lines) is not None)
        if result.has_any:
            break
    assert result is not None
    return result


# ---- the same part, however it is turned

# A rotation: for each axis which one goes there, and whether backwards.
Rotation = tuple[tuple[int, int], ...]


def rotations() -> list[Rotation]:
    """The 24 rotations of space that keep the axes; no mirror images."""
    its = []
    for order in itertools.permutations(range(3)):
        odd = sum(a > b for a, b in itertools.combinations(order, 2)) % 2
        its += [tuple(zip(order, signs)) for signs in itertools.product((1, -1), repeat=3) if signs.count(-1) % 2 == odd]
    return its


ROTATIONS = rotations()
Form = tuple[tuple[Point, tuple[tuple[Point, ...], ...]], ...]


def turned(solid: Solid, rotation: Rotation) -> Form:
    """The faces of a solid, turned and moved to least coordinates 0, in one order."""
    corners = [corner for face in solid.faces for loop in face.loops for corner in loop]
    least = [min(sign * corner[axis] for corner in corners) for axis, sign in rotation]

    def moved(corner: Point) -> Point:
        return tuple(sign * corner[axis] - low for (axis, sign), low in zip(rotation, least))

    def from_least(loop: Sequence[Point]) -> tuple[Point, ...]:
        its = list(map(moved, loop))
        at = its.index(min(its))
        return tuple(its[at:] + its[:at])

    return tuple(sorted((tuple(sign * face.outward[axis] for axis, sign in rotation), tuple(sorted(map(from_least, face.loops)))) for face in solid.faces))


def form_of(solid: Solid) -> Form:
    """What a solid and all its rotations have in common: the least of their forms."""
    return min(turned(solid, rotation) for rotation in ROTATIONS)


def are_whole(it: Found) -> bool:
    return not it.outcome.more and it.outcome.count == len(it.solids)


def are_same(some: Sequence[Solid], others: Sequence[Solid]) -> bool:
    """Whether two lists have the same parts, however these are turned."""
    if sorted((it.volume, sorted(sizes_of(it))) for it in some) != sorted((it.volume, sorted(sizes_of(it))) for it in others):
        return False
    return {form_of(it) for it in some} == {form_of(it) for it in others}


def are_same_shapes(some: Sequence[Kept], others: Sequence[Kept]) -> bool:
    """Whether two lists of restored solids have the same parts; where FreeCAD isn't there, and they aren't known, no."""
    its, rest = [it.shape for it in some], [it.shape for it in others]
    if any(it is None for it in (*its, *rest)):
        return False
    return all(any(is_turned(one, other) for other in rest) for one in its) and all(any(is_turned(one, other) for other in its) for one in rest)


def is_turned(one: Any, other: Any) -> bool:
    """Whether a shape is another one, turned and moved."""
    if abs(one.Volume - other.Volume) > NOISE * other.Volume:
        return False
    return any(are_one(turned_shape(one, rotation), other) for rotation in ROTATIONS)


def turned_shape(shape: Any, rotation: Rotation) -> Any:
    """A shape, turned round the origin. Its surfaces stay what they are: planes, cylinders, cones."""
    rows = [[float(sign * (axis == at)) for at in range(3)] for axis, sign in rotation]
    matrix = type(shape.Placement.toMatrix())
    return shape.transformed(matrix(*rows[0], 0, *rows[1], 0, *rows[2], 0, 0, 0, 0, 1), copy=True)


def are_one(one: Any, other: Any) -> bool:
    """Whether two shapes are the same, wherever they stand. Both have the same volume."""
    sizes = zip(*((box.XLength, box.YLength, box.ZLength) for box in (one.BoundBox, other.BoundBox)))
    if any(abs(a - b) > 1e-3 * other.BoundBox.DiagonalLength for a, b in sizes):
        return False
    moved = one.translated(centre_of(other) - centre_of(one))
    return bool(moved.cut(other).Volume + other.cut(moved).Volume <= NOISE * other.Volume)


def centre_of(shape: Any) -> Any:
    """The centre of a shape's mass, as a vector."""
    centre = shape.Solids[0].CenterOfMass * 0
    for solid in shape.Solids:
        centre += solid.CenterOfMass * (solid.Volume / shape.Volume)
    return centre
