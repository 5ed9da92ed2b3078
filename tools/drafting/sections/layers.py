"""The sections of a sheet as layers SECTION_<VIEW>_<N> and AREA_<VIEW>_<N>, which recon reads with --sections.

Which plane a section is of its label says, by the letter at the arrows of a cutting-plane line (`planes.py`). Its lines are written without
hidden ones, and the outline of its hatch (`areas.py`). Where a section shows the outline alone it may be a removed one, and is an area.
Its coordinates have to be the part's own: else it is drawn at another scale, turned, unfolded, or of another part. A plane upon a face
is refused, since what it cuts isn't told. All that can't be read is refused by what it is, as a half, an offset or a broken-out section.

Of a sheet with rounds sections are read once all is squared off, where they show a solid and that squared off alike (`section_rounds.py`).

A rib that is drawn uncut, arrows that point the wrong way and a section that stands upside down are seen by no more than that no solid
has the layers too, which `solve` says.
"""
import argparse
from collections.abc import Callable, Iterator, Mapping, Sequence
from fractions import Fraction
from typing import NamedTuple

from ..core import notes
from ..core.advice import Advisable, GetsFurther, InTheWay
from ..core.messages import Refused, many
from ..core.notes import Tell
from ..core.page import Page
from ..dxf import places
from ..dxf.drawing import Place, Stroke, number, pairs
from ..dxf.reader import HATCHES, SCALE, Edge, Kept, Sheet, Source
from ..geometry.segments import MOST_DECIMALS, Measure, Run
from ..messages.controls import option
from ..projection.draw import FRAMES
from ..projection.sections import Section
from ..rounds import in_sections
from ..rounds.in_sections import Rounds
from ..rounds.rounds import OF_ONE
from ..sheet.groups import Group, group_of, united
from ..sheet.placement import Placed
from .areas import Hatch, Segment, area_of, distinct
from .cutting_plane_marks import Mark, Word, is_head, sides_of, words_of
from .cutting_planes import Plane, plane_of
from .recognize import Cut, are_told, hatch_lines, holding, is_dot, lies_across, boxes_of

# What a left view is called where it stands for SIDE, and all views are drawn in a mirror.
MIRRORED = {"SIDE": "LEFT", "LEFT": "SIDE"}
# How far below its label, and how far to its side, the scale of a section may stand, in heights of its letters.
BELOW, BESIDE = 3, 12
# Between what is written, in units of the drawing.
MARGIN = 10


class NotRead(Advisable):
    """Refused for a section that can't be read; where the sheet gets further without its group, it says so."""

    def __init__(self, text: str, number: int, sources: frozenset[Source]) -> None:
        super().__init__(text)
        self.number, self.sources = number, sources

    def advised(self, edges: Sequence[Source], gets_further: GetsFurther) -> Refused:
        words = f"group={self.number}"
        return Refused(f"{self}; without it the views are read by {option('leave-out', words)}" if gets_further({"leave_out": [words]}) else str(self))


class CutView(NamedTuple):
    """A section of a sheet: its letter and label, its group, the plane, its solid lines and the outline of its area, as drawn; how it was turned and
    then moved to be a view of the part; and whether all that is seen of the part behind the plane is known to be drawn."""

    letter: str
    plane: Plane
    group: Group
    lines: list[Segment]
    area: list[Segment]
    turns: int = 0
    moved: Place = (0.0, 0.0)
    is_whole: bool = False

    @property
    def is_outline(self) -> bool:
        """Whether it shows the outline of its area alone, as a removed section does."""
        return bool(self.area) and not self.is_whole and abs(length_of(self.lines) - length_of(self.area)) < 1e-6 * length_of(self.lines)

    def layers(self) -> dict[str, list[Segment]]:
        """Its lines by the kinds of their layers."""
        return {kind: its for kind, its in (("SECTION", [] if self.is_outline else self.lines), ("AREA", self.area)) if its}

    def place(self, place: Place, times: float) -> Place:
        """A place of the sheet in the view that the section is of, where lengths are so many times as drawn."""
        x, y = times * place[0], times * place[1]
        for _ in range(self.turns):
            x, y = y, -x
        return x + self.moved[0], y + self.moved[1]


def length_of(segments: Sequence[Segment]) -> float:
    return sum(it.high - it.low for it in segments)


# ---- the part's coordinates

class Part(NamedTuple):
    """The part as the sheet shows it: its views by their own names, its coordinates along each axis, from its least one on, and its rounds."""

    views: Mapping[str, Group]
    axes: list[list[float]]
    tolerance: float
    rounds: Rounds

    def along(self, view: str, way: int) -> list[float]:
        """The coordinates that a view shows to the right, or upwards, from its least one on."""
        frame = FRAMES[view]
        axis, is_back = (frame.up, frame.up_back) if way else (frame.right, frame.right_back)
        return [self.axes[axis][-1] - it for it in reversed(self.axes[axis])] if is_back else self.axes[axis]


def part_of(placed: Placed, rounds: Rounds, tolerance: float) -> Part:
    names = {view: MIRRORED.get(view, view) if placed.mirrored else view for view in placed.views}
    views = {names[view]: group for view, group in placed.views.items()}
    found: list[set[float]] = [set(), set(), set()]
    for view, group in views.items():
        frame = FRAMES[view]
        for way, axis, is_back in ((0, frame.right, frame.right_back), (1, frame.up, frame.up_back)):
            places = (it for run in group.runs for it in (run.box()[way], run.box()[way + 2]))
            found[axis] |= {group.box[way + 2] - it if is_back else it - group.box[way] for it in places}
    return Part(views, [distinct(its, 3 * tolerance) for its in found], tolerance, {names[view]: its for view, its in rounds.items()})


# ---- how a section stands on the sheet

def turned(segments: Sequence[Segment], turns: int) -> list[Segment]:
    """Stretches turned clockwise by so many quarters."""
    its = list(segments)
    for _ in range(turns):
        its = [Segment(not it.is_upright, *((-it.at, it.low, it.high) if it.is_upright else (it.at, -it.high, -it.low))) for it in its]
    return its


def snapped(segments: Sequence[Segment], view: str, part: Part) -> list[Segment] | None:
    """Stretches at the part's own coordinates, as a view shows them; none where they don't fit these."""
    tables: list[dict[float, float]] = []
    for way in (0, 1):
        values = sorted({at for it in segments for at in ((it.at,) if it.is_upright == (way == 0) else (it.low, it.high))})
        table = next(filter(None, (moved(values, first, part.along(view, way), 3 * part.tolerance) for first in part.along(view, way))), None)
        if table is None:
            return None
        tables.append(table)
    return [Segment(it.is_upright, *(tables[not it.is_upright][it.at], *(tables[it.is_upright][at] for at in (it.low, it.high)))) for it in segments]


def moved(values: Sequence[float], first: float, coordinates: Sequence[float], reach: float) -> dict[float, float] | None:
    """Which of some coordinates each value is, where the least one is the first; none where one is none."""
    table = {}
    for value in values:
        nearest = min(coordinates, key=lambda it: abs(value - values[0] + first - it))
        if abs(value - values[0] + first - nearest) > reach:
            return None
        table[value] = nearest
    return table


def turns_by_projection(section: CutView, part: Part) -> int | None:
    """By how many quarters a section stands turned that is projected from the view of its line; none where it doesn't stand in line with that."""
    view, looks, way = FRAMES[section.plane.view], FRAMES[section.plane.looks], 1 if section.plane.is_upright else 0
    box, own, reach = part.views[section.plane.view].box, section.group.box, 3 * part.tolerance
    if own[way] < box[way] - reach or own[way + 2] > box[way + 2] + reach:
        return None
    axis, is_back = (view.up, view.up_back) if way else (view.right, view.right_back)
    first, its_back = (0, looks.right_back) if looks.right == axis else (1, looks.up_back)
    return (2 * (is_back != its_back) + (0 if first == way else 1 if way else 3)) % 4


def stands_beside_front(section: CutView, part: Part) -> bool:
    """Whether a section that shows the height stands in the row of FRONT."""
    front, own, reach = part.views.get("FRONT"), section.group.box, 3 * part.tolerance
    return bool(front and FRAMES[section.plane.looks].up == 2 and own[1] >= front.box[1] - reach and own[3] <= front.box[3] + reach)


def upright(section: CutView, part: Part) -> CutView:
    """A section at the part's own coordinates, turned as its view shows it."""
    projected = turns_by_projection(section, part)
    fits = {turns: it for turns in range(4) if (it := fitted(section, turned, turns, part)) is not None}
    fitting = [turns for turns in fits if turns != 2 or projected == 2]
    if not fitting:
        raise Refused(why_none(section, part, 2 in fits))
    looks_alike = projected is not None and {0, projected} <= set(fitting) and set(fits[0].lines) == set(fits[projected].lines)
    if projected and {0, projected} <= set(fitting) and not looks_alike and not stands_beside_front(section, part):
        raise Refused(f"it stands in line with {section.plane.view}, and may be turned by {90 * projected} degrees or not, which isn't told: draw it in the "
                      "row of FRONT")
    if projected in fitting and 0 not in fitting:
        return fits[projected]
    if 0 not in fitting and len(fitting) > 1:
        raise Refused(f"it may be turned by {' or '.join(str(90 * it) for it in fitting)} degrees, which isn't told")
    return fits[0 if 0 in fitting else fitting[0]]


Turn = Callable[[Sequence[Segment], int], list[Segment]]


def fitted(section: CutView, turn: Turn, turns: int, part: Part) -> CutView | None:
    """A section turned in some way and at the part's own coordinates; none where it doesn't fit these."""
    its = turn([*section.lines, *section.area], turns)
    both = snapped(its, section.plane.looks, part)
    if both is None:
        return None
    right, up = (next((there.at - here.at for here, there in zip(its, both) if here.is_upright == way), 0.0) for way in (True, False))
    return section._replace(lines=both[:len(section.lines)], area=both[len(section.lines):], turns=turns, moved=(right, up))


def why_none(section: CutView, part: Part, is_upside_down: bool) -> str:
    """Why a section fits the part's coordinates in no way in which one may stand."""
    def in_a_mirror(segments: Sequence[Segment], turns: int) -> list[Segment]:
        return turned(list(map(mirrored, segments)), turns)

    if is_upside_down or any(fitted(section, in_a_mirror, turns, part) for turns in range(4)):
        return "its coordinates are the part's in a mirror or upside down alone: its arrows point the wrong way, or it stands upside down"
    return ("its coordinates aren't the part's, any way it is turned: it is drawn at another scale, which its label would have to say, or is an aligned "
            "section, unfolded, or one of another part")


# ---- where the plane lies

def gap_of(plane: Plane, part: Part) -> tuple[float, float]:
    """The neighbouring coordinates of the part between which a plane lies."""
    axis = FRAMES[plane.looks].sight
    its, name = part.axes[axis], "xyz"[axis]
    if any(abs(it - plane.at) <= 3 * part.tolerance for it in its):
        raise Refused(f"its plane lies upon a face of the part, at {name} = {plane.at:.6g}, and what it cuts there isn't told: move it off the face")
    low = max((it for it in its if it < plane.at), default=None)
    high = min((it for it in its if it > plane.at), default=None)
    if low is None or high is None:
        raise Refused(f"its plane, at {name} = {plane.at:.6g}, lies beside the part, which goes to {its[-1]:.6g}")
    return low, high


def whole_place(plane: Plane, part: Part, measure: Measure) -> int | None:
    """A plane's coordinate in units, or where the solid is cut alike; none where no unit is within the part's box there."""
    low, high = map(measure.units, gap_of(plane, part))
    frame = FRAMES[plane.looks]
    within = min(max(measure.units(plane.at), low + 1), high - 1)
    if low < within < high:
        return within
    at = high if frame.sight_back else low
    return at if 0 < at < measure.units(part.axes[frame.sight][-1]) else None


def fine_enough(planes: Sequence[Plane], part: Part, measure: Measure) -> Measure:
    """The measure, with more decimals where a plane needs them."""
    while any(whole_place(plane, part, measure) is None for plane in planes):
        if measure.decimals == MOST_DECIMALS:
            raise Refused(f"a section's plane lies between coordinates that are nearer than the {many(MOST_DECIMALS, 'decimal')} that recon reads tell")
        measure = measure._replace(decimals=measure.decimals + 1)
    return measure


# ---- what a group shows

def hatches_in(group: Group, groups: Sequence[Group], sheet: Sheet, tolerance: float) -> Iterator[Hatch]:
    """The hatches whose sides lie in a group, and in none of the others that is less."""
    for kept in sheet.kept:
        if kept.source.kind in HATCHES and not is_head(kept.entity):
            its = list(boxes_of(kept))
            if any(lies_across(group, box, is_filled, kept, tolerance) for box, is_filled, _ in its):
                raise Refused(f"the {kept.source} reaches beyond its lines")
            if all(lies_in(group, groups, box, kept, tolerance) and not (is_filled and is_dot(box, group)) for box, is_filled, _ in its):
                paths = sides_of(kept.entity)
                if not paths or not all(paths):
                    raise Refused(f"the {kept.source} has a bent side")
                angle = places.angle(kept.entity, kept.entity.dxf.get("pattern_angle", 0.0)) % 180
                yield Hatch(paths, str(kept.source), f"{kept.entity.dxf.get('pattern_name', '')} at {angle:.0f}")


def lies_in(group: Group, groups: Sequence[Group], box: tuple[float, float, float, float], kept: Kept, tolerance: float) -> bool:
    number = holding(groups, box, kept, tolerance)
    return number is not None and groups[number] is group


def lines_in(group: Group, groups: Sequence[Group], sheet: Sheet, tolerance: float) -> list[Edge]:
    """The hatch lines that are drawn in a group: on a layer of their own, or among its lines."""
    found = [run.edge for run in hatch_lines(group.runs, tolerance)]
    for kept in sheet.kept:
        if kept.source.kind == "LINE":
            (a, b, _), (c, d, _) = kept.entity.dxf.start, kept.entity.dxf.end
            if lies_in(group, groups, (min(a, c), min(b, d), max(a, c), max(b, d)), kept, tolerance):
                found.append(Edge(False, (a, b), (c, d), 7, kept.source))
    return found


def segment_of(run: Run, times: float) -> Segment:
    return Segment(run.upright, times * run.at, times * run.low, times * run.high)


def shown_in(group: Group, groups: Sequence[Group], sheet: Sheet, times: float, tolerance: float) -> tuple[list[Segment], list[Segment]]:
    """The solid lines of a section and the outline of its area, with lengths so many times as drawn."""
    lines = lines_in(group, groups, sheet, tolerance)
    hatches = list(hatches_in(group, groups, sheet, tolerance))
    if oblique := next((run for run in group.runs if run.oblique and run.edge not in lines), None):
        raise Refused(f"its {oblique.edge.source} is oblique")
    runs = [run for run in group.runs if not run.oblique and not run.hidden]
    if not runs:
        raise Refused("it has no solid line")
    area = area_of(hatches, lines, runs, tolerance) if hatches or lines else []
    return [segment_of(run, times) for run in runs], [Segment(it.is_upright, times * it.at, times * it.low, times * it.high) for it in area]


def times_of(label: Word, sheet: Sheet, times: Fraction) -> float:
    """How many times a section's lengths are to be multiplied to be those of the views: by the scale in its label, or right below that."""
    near = (word for word in words_of(sheet) if word is not label and 0 < label.place[1] - word.place[1] < BELOW * label.high
            and abs(label.place[0] - word.place[0]) < BESIDE * label.high)
    for word in (label, *near):
        if told := SCALE.search(word.text):
            return float(Fraction(told[2]) / Fraction(told[1]) / times)
    return 1.0


# ---- all sections of a sheet

def letter_of(cut: Cut) -> str:
    letters = {letter for letter, _ in cut.why.labels}
    if not letters:
        raise Refused("it has no label A-A, which tells its plane: a half, broken-out, revolved or removed section, or one whose letters are missing")
    if len(letters) > 1:
        raise Refused(f"it has the labels {' and '.join(f'{it}-{it}' for it in sorted(letters))}")
    return letters.pop()


def in_one(cuts: Sequence[Cut]) -> list[Cut]:
    """The sections, of which pieces without a label are of the nearest one with a label."""
    labelled = [cut for cut in cuts if cut.why.labels]
    pieces: dict[int, list[Group]] = {}
    for cut in cuts:
        if labelled and not cut.why.labels:
            nearest = min(range(len(labelled)), key=lambda at: between(labelled[at].group, cut.group))
            pieces.setdefault(nearest, []).append(cut.group)
    if not labelled:
        return list(cuts)
    return [cut._replace(group=united([cut.group, *pieces[at]])) if at in pieces else cut for at, cut in enumerate(labelled)]


def between(one: Group, other: Group) -> float:
    """How far two groups stand apart."""
    return max(max(one.box[at] - other.box[at + 2], other.box[at] - one.box[at + 2], 0.0) for at in (0, 1))


class Reader(NamedTuple):
    """What sections are read by: the sheet, the ends of its cutting-plane lines, the part, how many times lengths are multiplied, its sections, and
    what of the sheet is squared off so that a section shows it otherwise, if anything is."""

    sheet: Sheet
    marks: Sequence[Mark]
    part: Part
    times: Fraction
    cuts: Sequence[Cut]
    unlike: str = ""

    def read(self, cut: Cut) -> CutView:
        """A section; refused where it isn't one of a single plane, or not of this part."""
        letter, tolerance = letter_of(cut), self.part.tolerance
        if any(other is not cut and letter in {it for it, _ in other.why.labels} for other in self.cuts):
            raise Refused(f"two groups have the label {letter}-{letter}")
        if self.unlike:
            raise Refused(self.unlike)
        if curve := next(iter(cut.group.curves), None):
            raise Refused(f"its {curve.source} {curve.why}")
        plane = plane_of(letter, self.marks, self.sheet.chains, self.part.views, tolerance)
        gap_of(plane, self.part)
        in_sections.check_plane(plane, self.part.views, self.part.rounds, OF_ONE * tolerance)
        groups = [*self.part.views.values(), *(it.group for it in self.cuts)]
        times = times_of(cut.why.labels[0][1], self.sheet, self.times)
        lines, area = shown_in(cut.group, groups, self.sheet, times, tolerance)
        its = in_sections.within(cut.group, self.sheet.arcs, tolerance)
        in_sections.check_radii(its, times, plane.looks, self.part.rounds, tolerance)
        section = upright(CutView(letter, plane, cut.group, lines, area), self.part)
        in_sections.check_shown(its, lambda place: section.place(place, times), plane.looks, self.part.views, self.part.rounds, tolerance)
        return section

    def checked(self, cut: Cut) -> CutView:
        """The same, with the section's name where it is refused."""
        try:
            return self.read(cut)
        except Refused as cause:
            name = "".join(f" {letter}-{letter}" for letter, _ in cut.why.labels[:1])
            text = f"section{name}, {cut}, which is one since {cut.why}, isn't read: {cause}"
            sources = frozenset(it.edge.source for it in cut.group.runs) | {it.source for it in cut.group.curves}
            if cut.number is None:
                kept = [run.edge.source for group in self.part.views.values() for run in group.runs]
                raise InTheWay(text, list(sources), "; without it the views are read by", kept) from None
            raise NotRead(text, cut.number, sources) from None


class Layers(NamedTuple):
    """The layers of a sheet's sections, with their strokes, how lengths become whole, with the decimals that the planes need, and each layer's letter."""

    strokes: dict[str, list[Stroke]]
    measure: Measure
    letters: dict[str, str]

    @property
    def comments(self) -> str:
        """The letters as a drawing says them."""
        return pairs(*((999, f"draft section {letter} {name}") for name, letter in self.letters.items()))


def layers_of(
    sheet: Sheet, marks: Sequence[Mark], placed: Placed, times: Fraction, measure: Measure, arguments: argparse.Namespace, tell: Tell,
    rounds: Rounds = {}, unlike: str = "",
) -> Layers:
    """The layers of the sections beside the views. Each is told; where no cutting-plane line and no label tells of a plane they are left out.
    Refused where a section can't be read, also since what is squared off of the sheet is shown otherwise by one."""
    part, cuts = part_of(placed, rounds, arguments.tolerance), in_one(placed.sections)
    if not are_told(cuts, marks):
        for cut in cuts:
            which = f"group {cut.number}, " if cut.number else ""
            tell(notes.left_out(f"a section, {which}since {cut.why}; it has no label A-A, which tells its plane: {cut.group}"))
        cuts = []
    reader = Reader(sheet, marks, part, times, cuts, unlike)
    sections = [*(reader.checked(cut) for cut in cuts), *(of_page(sheet.page, part, tell) if sheet.page else ())]
    measure = fine_enough([it.plane for it in sections], part, measure)
    layers: dict[str, list[Segment]] = {}
    for section in sections:
        its = named(section, part, measure, placed.mirrored)
        for name, segments in its.items():
            if sorted(layers.setdefault(name, segments)) != sorted(segments):
                raise Refused(f"section {section.letter}-{section.letter} is of the same plane as another one, {name}, and shows something else")
        told(section, list(its), part, measure, tell)
    letters = {name: section.letter for section in sections for name in named(section, part, measure, placed.mirrored)}
    return Layers(dict(stood(layers, placed, measure)), measure, letters)


def of_page(page: Page, part: Part, tell: Tell) -> Iterator[CutView]:
    """The sections of a page of FreeCAD. One that isn't read is left out, which is told: a page shows nothing of another part in it."""
    from ..cad import page_sections  # which stands on FreeCAD
    for cut in page.cuts:
        try:
            plane = Plane("", False, cut.looks, cut.at - page.least[FRAMES[cut.looks].sight])
            gap_of(plane, part)
            runs, area = page_sections.drawn(page, cut, part.tolerance)
            section = fitted(CutView(cut.letter, plane, group_of(runs), [segment_of(run, 1.0) for run in runs], area, is_whole=True), turned, 0, part)
            if section is None:
                raise Refused("its coordinates aren't those of the views")
            yield section
        except Refused as why:
            tell(notes.left_out(f"section {cut.label} of page {page.label}: {why}"))


def named(section: CutView, part: Part, measure: Measure, is_mirrored: bool) -> dict[str, list[Segment]]:
    """The layers of a section by their names, in a mirror where the drawing shows the part in one."""
    plane = section.plane
    view, at = plane.looks, whole_place(plane, part, measure)
    assert at is not None
    if is_mirrored:
        view = MIRRORED.get(view, view)
        at = measure.units(part.axes[0][-1]) - at if FRAMES[view].sight == 0 else at
    its = section.layers()
    names = {kind: Section(view, Fraction(at), kind == "AREA").layer(measure.decimals, with_point=False) for kind in its}
    return {names[kind]: [mirrored(it) for it in lines] if is_mirrored else lines for kind, lines in its.items()}


def mirrored(it: Segment) -> Segment:
    return Segment(True, -it.at, it.low, it.high) if it.is_upright else Segment(False, it.at, -it.high, -it.low)


def told(section: CutView, names: Sequence[str], part: Part, measure: Measure, tell: Tell) -> None:
    hidden = sum(run.hidden for run in section.group.runs)
    if hidden:
        tell(notes.left_out(f"{many(hidden, 'hidden line')} of section {section.letter}-{section.letter}", hidden))
    at = whole_place(section.plane, part, measure)
    what = f"SECTION {section.letter}-{section.letter} is what {section.plane.looks} shows behind {'xyz'[FRAMES[section.plane.looks].sight]} = " \
           f"{number(at or 0, measure.decimals)}"
    what += f", drawn turned by {90 * section.turns} degrees" if section.turns else ""
    what += "; its outline alone, which may be that of a removed section, is taken as its area" if section.is_outline else ""
    what += "" if section.area else "; no hatch tells its area"
    tell(notes.found(f"{what}: {'layer' if len(names) == 1 else 'layers'} {', '.join(names)}"))


def stood(layers: Mapping[str, list[Segment]], placed: Placed, measure: Measure) -> Iterator[tuple[str, list[Stroke]]]:
    """The strokes of layers in units, one beside another to the right of where all views stand."""
    sizes = [measure.units(sum(it.width + it.height for it in placed.views.values()))]
    right = 2 * sizes[0] + 6 * MARGIN * 10**measure.decimals
    for name, segments in layers.items():
        x, y = (min(it.at if it.is_upright == (way == 0) else it.low for it in segments) for way in (0, 1))
        strokes = []
        for it in segments:
            least = (x, y) if it.is_upright else (y, x)
            at, low, high = (measure.units(value) - measure.units(least[way]) for value, way in ((it.at, 0), (it.low, 1), (it.high, 1)))
            ends = ((at, low), (at, high)) if it.is_upright else ((low, at), (high, at))
            strokes.append((False, (ends[0][0] + right, ends[0][1]), (ends[1][0] + right, ends[1][1])))
        yield name, strokes
        right = max(end[0] for _, *ends in strokes for end in ends) + MARGIN * 10**measure.decimals
