"""Which strokes of a sheet are which view: by the names of their layers or blocks, else by their places."""
import bisect
import itertools
import re
from collections import Counter, defaultdict
from collections.abc import Callable, Container, Iterable, Iterator, Mapping, Sequence
from typing import NamedTuple

from ..core import notes as noted
from ..core.advice import InTheWay
from ..core.messages import Refused, many
from ..core.notes import Note, Thing
from ..dxf.drawing import FURTHER, VIEWS, is_of_section
from ..dxf.reader import Box, Edge, Source, Unread
from ..geometry.segments import Run
from ..messages.controls import option
from ..projection.draw import FRAMES
from ..sections.recognize import NO_SECTION, Cut, TellSections, Why, among_named, together
from .titles import Contradicted, Said, Title, angle_said, check_names
from .groups import MOST_GROUPS, Group, frames, group_of, has_extent, holds, merged, pieces_of, title_blocks, united

# The words that name a view in the name of a layer or block.
NAMES = {
    word: view for view, words in (
        ("FRONT", "FRONT FRONTVIEW VORDERANSICHT"), ("TOP", "TOP PLAN TOPVIEW DRAUFSICHT"),
        ("SIDE", "SIDE RIGHT RIGHTSIDE RIGHTVIEW SIDEVIEW"), ("LEFT", "LEFT LEFTSIDE LEFTVIEW"),
        ("REAR", "REAR BACK REARVIEW BACKVIEW RUECKANSICHT"), ("BOTTOM", "BOTTOM BOTTOMVIEW UNTERANSICHT"),
    ) for word in words.split()
}
# What is said of groups beside the views.
ONE = "stands a group that is no view of the same part where it stands, and whether it is one of another isn't told; it is left out by"
SEVERAL = "stand groups that are no views of the same part where they stand, and whether they are of another isn't told; they are left out by"
# How many groups or curves a refusal names.
MOST_NAMED = 12
# How far views may be shifted against one another, as a part of the largest group that may be one; and of how many runs that is tried.
SHIFT, MOST_SHIFTED = 0.05, 3000
WAYS = (("to the left", "to the right"), ("down", "up"))
# How many ways to part a sheet by cuts are looked at; else those by one cut upwards and one across.
MOST_CUTS = 20_000


class Placed(NamedTuple):
    """The three views and those beside them, whether the part is seen in a mirror (the side view is the left one, and there is no right
    one), what was found and left out, whether names told the views, and not their places, and the sections beside them. Where places told the views
    also in which angle they are read, and the texts of the sheet that say so."""

    views: dict[str, Group]
    mirrored: bool
    notes: list[Note]
    by_names: bool = False
    sections: Sequence[Cut] = ()
    angle: str = ""
    angle_by: str = ""


class Hints(NamedTuple):
    """What the user says of places, and what else of the sheet tells."""

    tolerance: float
    angle: str | None = None
    leave_out: frozenset[int] = frozenset()
    texts: Sequence[tuple[float, float]] = ()
    sections: TellSections = lambda groups, left_out: {}
    curves: Sequence[Unread] = ()
    titles: Sequence[Title] = ()
    projection: Said = Said("")
    # How far views may be shifted against one another, beyond the tolerance.
    shift: float = 0.0


class OtherAngle(Refused):
    """Texts of the sheet say that its views are in this angle, for which the sheet has to be turned."""

    def __init__(self, said: Said) -> None:
        super().__init__(f"the views are in {said.angle} angle, as {said.words} says")
        self.said = said


# ---- what isn't a view

def why_no_view(group: Group, hints: Hints) -> str:
    """Why a group beside the views is none."""
    oblique = sum(run.oblique for run in group.runs)
    if not group.runs:
        return "no line is in it"
    if not has_extent(group, hints.tolerance):
        return "a line alone is no view"
    if 4 * oblique >= len(group.runs):
        return "it is drawn with oblique lines, as an isometric view is"
    x0, y0, x1, y1 = group.box
    written = sum(x0 <= x <= x1 and y0 <= y <= y1 for x, y in hints.texts)
    return f"{many(written, 'text stands', 'texts stand')} in it, as in a title block" if written else ""


# ---- by names

def view_named(source: Source) -> str:
    """The view that a file is of, or that a layer or a block names, with the words of its name apart."""
    if source.view:
        return source.view
    for name in (source.layer, source.block):
        if is_of_section(name):
            continue
        words = re.split(r"[^A-Z]+", name.upper())
        views = {NAMES[word] for word in words if word in NAMES}
        if len(views) == 1:
            return views.pop()
    return ""


def named_views(edges: Iterable[Edge], tolerance: float) -> dict[str, list[Edge]] | None:
    """The edges by the views that their layers or blocks name, and the others, where FRONT, TOP and a side view are named; or where two
    of these are, and nothing else stands on the sheet."""
    named: dict[str, list[Edge]] = defaultdict(list)
    for edge in edges:
        named[view_named(edge.source)].append(edge)
    main = main_named(named)
    return named if len(main) == 3 or len(main) == 2 and are_within(named, tolerance) else None


def box_of(edges: Iterable[Edge]) -> Box:
    xs, ys = zip(*(place for edge in edges for place in (edge.start, edge.end)))
    return min(xs), min(ys), max(xs), max(ys)


def are_within(named: Mapping[str, Sequence[Edge]], tolerance: float) -> bool:
    """Whether the edges that no name tells the view of lie within the boxes of views."""
    boxes = [box_of(its) for view, its in named.items() if view]
    return all(any(holds(box, box_of([edge]), tolerance) for box in boxes) for edge in named.get("", ()))


def with_a_side(views: dict[str, Group]) -> dict[str, Group]:
    """The views in their order, the left one in the place of SIDE where there is no right one."""
    named = views if not is_mirrored(views) else {"SIDE" if view == "LEFT" else view: group for view, group in views.items()}
    return {view: named[view] for view in (*VIEWS, *FURTHER) if view in named}


def is_mirrored(views: Container[str]) -> bool:
    """Whether the left view stands for SIDE: all views are drawn in a mirror."""
    return "LEFT" in views and "SIDE" not in views


def main_named(names: Iterable[str]) -> list[str]:
    """Which of the main views are named; a left view is one where there is no right one."""
    named = {"SIDE" if name == "LEFT" else name for name in names}
    return [view for view in VIEWS if view in named]


def without_told(views: Mapping[str, Group]) -> str:
    """Which main view is missing, in words."""
    return "".join(f"; two views, without {view}" for view in VIEWS if view not in views)


def by_names(views: dict[str, list[Run]], others: list[Run], hints: Hints) -> Placed:
    """The views that layers or blocks name; other lines within the box of one are taken with it."""
    tolerance = hints.tolerance
    named = {view: list(runs) for view, runs in views.items()}
    boxes = {view: group_of(its).box for view, its in named.items()}
    taken, left, outside = Counter[Thing](), Counter[Thing](), list[Run]()
    for run in others:
        holding = [view for view, box in boxes.items() if holds(box, run.box(), tolerance)]
        layer = run.edge.source.layer
        if len(holding) > 1:
            raise Refused(f"{run.edge.source} lies within the boxes of {' and '.join(holding)}, and its layer names none of them")
        if holding:
            named[holding[0]].append(run)
            taken[Thing(f"lines on layer {layer} taken to {holding[0]}, in whose box they lie", layer, view=holding[0])] += 1
        else:
            outside.append(run)
    its_own = {view: group_of(its) for view, its in named.items()}
    check_names(hints.titles, {view: group.box for view, group in its_own.items()})
    groups = with_a_side(its_own)
    every = list(groups.values())
    sections = among_named(groups, outside, hints.sections, tolerance)
    cut = {id(run) for section in sections for run in section.group.runs}
    for run in outside:
        if id(run) not in cut:
            left[Thing(f"lines on layer {run.edge.source.layer}, outside the boxes of the named views", run.edge.source.layer)] += 1
    by_what = "the names of " + ("files" if every[0].first.file else "layers or blocks")
    by_what = "the directions in which they look" if every[0].first.is_drawn else by_what
    seen = noted.found(f"the views by {by_what}: {', '.join(sorted(named))}{without_told(groups)}")
    check_extents(groups, tolerance)
    return Placed(groups, is_mirrored(named), [seen, *noted.counted("found", taken), *noted.counted("left out", left)], True, sections)


def extents_of(view: str, group: Group) -> list[tuple[int, str, float]]:
    """The axes that a view shows, and how far it reaches along each, in words and as a length."""
    frame = FRAMES[view]
    return [(frame.right, f"{view} is wide", group.width), (frame.up, f"{view} is high", group.height)]


def check_extents(views: dict[str, Group], tolerance: float) -> None:
    """Refuses views that don't agree in what two of them show."""
    known: dict[int, tuple[str, float]] = {}
    for view, group in views.items():
        for axis, told, extent in extents_of(view, group):
            first, size = known.setdefault(axis, (told, extent))
            if abs(size - extent) > 3 * tolerance:
                raise Refused(f"the views don't agree: {first} {size:.9g}, and {told} {extent:.9g}")


# ---- by places

class Way(NamedTuple):
    """Groups as views, in third angle (TOP above FRONT) or first (below): FRONT, TOP, a side view, and others that stand with them."""

    angle: str
    views: dict[str, Group]

    def __str__(self) -> str:
        """Where the views stand, in words."""
        views, front = self.views, self.views["FRONT"].box
        told = [f"TOP {'above' if self.angle == 'third' else 'below'} FRONT"] if "TOP" in views else []
        for view, name in (("SIDE", "the right side view"), ("LEFT", "the left side view"), ("REAR", "the rear view")):
            if view in views:
                told.append(f"{name} to {'its' if told else 'the'} {'left' if views[view].box[0] < front[0] else 'right'}"
                            f"{'' if told else ' of FRONT'}")
        told += [f"the bottom view {'below' if self.angle == 'third' else 'above'} it"] if "BOTTOM" in views else []
        return " and ".join([", ".join(told[:-1]), told[-1]] if told[:-1] else told)


class InLine(NamedTuple):
    """The groups that stand in line with one: to its left and right, below and above it, the nearest ones first."""

    left: list[Group]
    right: list[Group]
    below: list[Group]
    above: list[Group]


def in_line(front: Group, groups: Sequence[Group], tolerance: float, shift: float = 0.0) -> InLine:
    def beside(axis: int) -> tuple[list[Group], list[Group]]:
        box, ends = front.box, (1 - axis, 3 - axis)
        lined = [it for it in groups if it is not front and all(abs(it.box[at] - box[at]) <= 3 * tolerance + shift for at in ends)]
        before = [it for it in lined if it.box[axis + 2] <= box[axis] + tolerance]
        behind = [it for it in lined if it.box[axis] >= box[axis + 2] - tolerance]
        return sorted(before, key=lambda it: -it.box[axis + 2]), sorted(behind, key=lambda it: it.box[axis])

    return InLine(*beside(0), *beside(1))


def ways_of(groups: Sequence[Group], hints: Hints) -> Iterator[Way]:
    """The ways to take groups as the views: TOP right above or below FRONT, a side view beside it, and of the others those that stand
    where they have to."""
    for front in groups:
        it = in_line(front, groups, hints.tolerance, hints.shift)
        for angle, tops, bottoms, rights, lefts in (
            ("third", it.above, it.below, it.right, it.left), ("first", it.below, it.above, it.left, it.right)
        ):
            for top in tops if hints.angle in (None, angle) else []:
                if shows_alike("TOP", top, front, top, hints.tolerance):
                    views = views_beside(front, top, bottoms, rights, lefts, hints.tolerance)
                    if "SIDE" in views or "LEFT" in views:
                        yield Way(angle, views)


def views_beside(
    front: Group, top: Group, bottoms: list[Group], rights: list[Group], lefts: list[Group], tolerance: float
) -> dict[str, Group]:
    """FRONT and TOP, and of the groups that stand where another view has to the nearest that shows the same part: the rear view stands
    behind a side view, as seen from FRONT."""
    views = {"FRONT": front, "TOP": top}

    def take(view: str, groups: list[Group]) -> None:
        nearest = next((it for it in groups if shows_alike(view, it, front, top, tolerance)), None)
        if nearest is not None:
            views.setdefault(view, nearest)

    for view, groups in (("SIDE", rights), ("LEFT", lefts)):
        take(view, groups)
        if view in views:
            take("REAR", groups[next(at for at, it in enumerate(groups) if it is views[view]) + 1:])
    take("BOTTOM", bottoms)
    return views


def stretches_of(group: Group, axis: int, tolerance: float, is_turned: bool = False) -> list[float]:
    """The ends of the stretches along an axis that the lines of a group cover, from its least one on, or turned round."""
    ends: list[float] = []
    for low, high in sorted((box[axis], box[axis + 2]) for box in group.boxes()):
        if ends and low <= ends[-1] + tolerance:
            ends[-1] = max(ends[-1], high)
        else:
            ends += [low, high]
    first, last = ends[0], max(ends)
    return [last - end for end in reversed(ends)] if is_turned else [end - first for end in ends]


def shows_alike(view: str, group: Group, front: Group, top: Group, tolerance: float) -> bool:
    """Whether a group, taken as a view, covers the same stretches of each axis as FRONT does of x and z and TOP of y, as views of one part
    do even where it is in pieces."""
    frame = FRAMES[view]
    for way, axis, back in ((0, frame.right, frame.right_back), (1, frame.up, frame.up_back)):
        one = stretches_of(top, 1, tolerance) if axis == 1 else stretches_of(front, axis // 2, tolerance)
        other = stretches_of(group, way, tolerance, back)
        if len(one) != len(other) or any(abs(a - b) > 3 * tolerance for a, b in zip(one, other)):
            return False
    return True


def cuts(groups: Sequence[Group], axis: int, tolerance: float) -> list[float]:
    """The places between groups along an axis."""
    stretches = sorted((group.box[axis], group.box[axis + 2]) for group in groups)
    places, end = [], stretches[0][1]
    for low, high in stretches[1:]:
        if low > end + tolerance:
            places.append((low + end) / 2)
        end = max(end, high)
    return places


def some_of(places: Sequence[float], most: int) -> list[tuple[float, ...]]:
    """All choices of one to so many of some places."""
    return [chosen for count in range(1, most + 1) for chosen in itertools.combinations(places, count)]


def ways_by_cuts(groups: Sequence[Group], hints: Hints) -> Iterator[Way]:
    """The ways to take all groups as views that cuts upwards and across part, as where a part is in pieces."""
    xs, ys = (cuts(groups, axis, hints.tolerance) for axis in (0, 1))
    upwards, across = some_of(xs, 3), some_of(ys, 2)
    if len(upwards) * len(across) > MOST_CUTS:
        upwards, across = some_of(xs, 1), some_of(ys, 1)
    for x, y in itertools.product(upwards, across):
        parts: dict[tuple[int, int], list[Group]] = defaultdict(list)
        for group in groups:
            parts[bisect.bisect(x, group.box[0]), bisect.bisect(y, group.box[1])].append(group)
        if 3 <= len(parts) <= len(FRAMES):
            yield from (way for way in ways_of([united(its) for its in parts.values()], hints) if len(way.views) == len(parts))


def complete_ways(views: Sequence[Group], ways: Sequence[Way], hints: Hints) -> list[Way]:
    """The ways that take all groups as views, each by itself or several as one, each once."""
    found: dict[frozenset[tuple[str, Box]], Way] = {}
    single = (way for way in ways if all(any(group is it for it in way.views.values()) for group in views))
    for way in itertools.chain(single, ways_by_cuts(views, hints)):
        found.setdefault(frozenset((view, group.box) for view, group in way.views.items()), way)
    return list(found.values())


def by_places(runs: Sequence[Run], hints: Hints) -> Placed:
    """The views by their places, once what is round all the rest is left out; refused where that doesn't tell. Where curves that can't be
    read are in the way, they are named."""
    try:
        return placed_by(runs, hints)
    except OtherAngle:
        raise
    except Refused as refusal:
        if shifted := placed_shifted(runs, hints):
            return shifted
        if not hints.curves:
            raise
        try:
            return placed_by(runs, hints._replace(curves=()))
        except Refused:
            raise refusal.with_words(curves_told(hints.curves)) from None


def placed_shifted(runs: Sequence[Run], hints: Hints) -> Placed | None:
    """The views where they aren't quite in line, as where one was moved by hand: the lengths that two of them share are the same, and by so small
    a shift there is one way to take them."""
    if len(runs) > MOST_SHIFTED:
        return None
    try:
        size = max(max(group.width, group.height) for group in standing(runs, hints).kept)
        placed = placed_by(runs, hints._replace(shift=SHIFT * size))
    except Refused:
        return None
    return placed._replace(notes=[*placed.notes, *shifts_of(placed.views, hints.tolerance)])


def shifts_of(views: Mapping[str, Group], tolerance: float) -> Iterator[Note]:
    """By how much views aren't in line with FRONT."""
    front = views["FRONT"].box
    for view, group in views.items():
        axis = 0 if FRAMES[view].right == FRAMES["FRONT"].right and FRAMES[view].up != FRAMES["FRONT"].up else 1
        off = group.box[axis] - front[axis]
        if abs(off) > 3 * tolerance:
            yield noted.found(f"{view} is {abs(off):.6g} too far {WAYS[axis][off > 0]} to be in line with FRONT; it is read as in line, since their "
                              "lengths agree", view=view)


def curves_told(curves: Sequence[Unread]) -> str:
    """The first of some curves, in words."""
    rows = [f"{it.source}, at {it.box[0]:.6g}, {it.box[1]:.6g}, {it.why}" for it in curves if it.box]
    more = [f"and {len(rows) - MOST_NAMED} more"] if len(rows) > MOST_NAMED else []
    return "\n  ".join(["\nand what isn't read may be in the way:", *rows[:MOST_NAMED], *more])


class Standing(NamedTuple):
    """What stands on a sheet: all groups, those that aren't left out as asked, those that are no sections either, which ones are sections and
    why, by their numbers from 0 on, the frames, and what is left out."""

    groups: list[Group]
    kept: list[Group]
    chosen: list[Group]
    cut: dict[int, Why]
    around: list[Group]
    left: list[Note]

    @property
    def sections(self) -> list[Cut]:
        return [Cut(number + 1, self.groups[number], why) for number, why in sorted(self.cut.items())]


def standing(runs: Sequence[Run], hints: Hints, least: int = 3) -> Standing:
    """What stands on a sheet, once what is round all the rest is left out, where so many groups or more are left."""
    pieces, around = frames(pieces_of(runs, hints.tolerance, hints.curves), hints.tolerance, least)
    left = [noted.left_out(f"{'a frame round all the rest' if has_extent(it, hints.tolerance) else 'between frames'}, {it}") for it in around]
    if len(pieces) > MOST_GROUPS:
        raise Refused(f"{len(pieces):,} groups of lines that don't touch")
    groups = merged(pieces, hints.tolerance)
    asked = [group for number, group in enumerate(groups, 1) if number in hints.leave_out]
    left += [noted.left_out(f"group {number}, as asked: {group}") for number, group in enumerate(groups, 1) if number in hints.leave_out]
    cut = {number: why for number, why in hints.sections(groups, asked).items() if number + 1 not in hints.leave_out}
    kept = [group for number, group in enumerate(groups, 1) if number not in hints.leave_out]
    chosen = [group for group in kept if not any(group is groups[number] for number in cut)]
    if not kept:
        raise Refused("no group of lines is left")
    return Standing(groups, kept, chosen, cut, around, left)


def placed_by(runs: Sequence[Run], hints: Hints) -> Placed:
    """The views by their places."""
    it = standing(runs, hints)
    groups, kept, chosen, cut, around, left = it
    ways = list(ways_of([group for group in chosen if has_extent(group, hints.tolerance)], hints))
    views = [group for group in chosen if not why_no_view(group, hints)]
    found = []
    # Where some groups alone are views of a part, another one may be of the same part: then all together are views too.
    if len(views) > 3 and (complete := complete_ways(views, ways, hints)):
        ways, chosen = complete, [group for group in chosen if why_no_view(group, hints)]
        count = len(ways[0].views)
        if count < len(views):
            found.append(noted.found(f"{many(len(views), 'group')} of lines taken as {count} views, parted by cuts upwards and across", len(views)))
    said = said_of(ways, hints)
    ways = [way for way in ways if said.angle in ("", way.angle)] if len(ways) > 1 else ways
    if len(ways) != 1:
        refuse_in_place(groups, kept, cut, hints)
        told = [f"\n  group {number + 1} is a section, since {why}" for number, why in cut.items()]
        raise no_way(groups, chosen, ways, hints).with_words("".join(told))
    way = ways[0]
    if said.angle not in ("", way.angle):
        raise OtherAngle(said)
    others = [group for group in chosen if not any(group is it for it in way.views.values())]
    left += beside(groups, others, title_blocks(around, list(way.views.values()), hints.tolerance), hints)
    front, top = way.views["FRONT"], way.views["TOP"]
    sizes = f"{front.width:.9g} wide, {top.height:.9g} deep and {front.height:.9g} high"
    found.append(noted.found(f"{way.angle}-angle views, {way}: a part {sizes}"))
    if said.angle:
        found.append(noted.found(f"{said.angle} angle, as the text {said.words} says"))
    return Placed(with_a_side(way.views), is_mirrored(way.views), [*found, *left], sections=it.sections, angle=way.angle, angle_by=said.words)


def said_of(ways: Sequence[Way], hints: Hints) -> Said:
    """The angle that texts of the sheet say, where the user doesn't say one and all ways have the same FRONT."""
    if hints.angle or not ways or any(way.views["FRONT"].box != ways[0].views["FRONT"].box for way in ways):
        return Said("")
    try:
        return angle_said(hints.titles, hints.projection, {view: group.box for view, group in ways[0].views.items()})
    except Contradicted as refusal:
        raise refusal.with_words(f": say which angle is meant by {option('angle', 'third')} or {option('angle', 'first')}") from None


def refuse_in_place(groups: Sequence[Group], kept: Sequence[Group], cut: dict[int, Why], hints: Hints) -> None:
    """Refuses sections that stand in the places of views, with the views that are needed."""
    for way in ways_of(kept, hints) if cut else ():
        places = {view: number for view, group in way.views.items() for number in cut if groups[number] is group}
        if places:
            stand = "; ".join(f"in the place of {view} stands group {number + 1}, {groups[number]}, which is a section, since {cut[number]}"
                              for view, number in places.items())
            sources = together([cut[number] for number in places.values()]).sources
            raise InTheWay(f"{stand}: a section is no view. Draw {' and '.join(places)} uncut too", sources, NO_SECTION)


def beside(groups: Sequence[Group], others: Sequence[Group], blocks: Sequence[Group], hints: Hints) -> Iterator[Note]:
    """What is left out of the groups beside the views; refused where some may be further views."""
    unknown = []
    for group in others:
        block = next((it for it in blocks if holds(it.box, group.box, hints.tolerance)), None)
        why = why_no_view(group, hints) or block and f"it lies in a title block, {block}"
        if why:
            yield noted.left_out(f"{group}: {why}")
        else:
            unknown.append(next(at for at, it in enumerate(groups, 1) if it is group))
    if unknown:
        told = [f"group {at}, {groups[at - 1]}, whose first line is {groups[at - 1].first}" for at in unknown[:MOST_NAMED]]
        told += [f"and {len(unknown) - MOST_NAMED} more"] if len(unknown) > MOST_NAMED else []
        way = f"group={numbers_told(unknown)}"
        raise Refused(f"beside the views {ONE if len(unknown) == 1 else SEVERAL} {option('leave-out', way)}:" + "".join(f"\n  {it}" for it in told),
                      "leave-out", [way])


def numbers_told(numbers: Sequence[int]) -> str:
    """Numbers in their order, in a row as 4-9."""
    rows: list[list[int]] = []
    for number in sorted(numbers):
        if rows and rows[-1][-1] == number - 1:
            rows[-1].append(number)
        else:
            rows.append([number])
    return ",".join(str(row[0]) if len(row) == 1 else f"{row[0]}-{row[-1]}" for row in rows)


def numbers_of(text: str) -> list[int]:
    """The numbers that such words say; none where they say none."""
    if not re.fullmatch(r"\d{1,6}(-\d{1,6})?(,\d{1,6}(-\d{1,6})?)*", text):
        return []
    ends = [list(map(int, part.split("-"))) for part in text.split(",")]
    return [number for its in ends for number in range(its[0], min(its[-1], MOST_GROUPS) + 1)]


def no_way(groups: Sequence[Group], chosen: Sequence[Group], ways: Sequence[Way], hints: Hints) -> Refused:
    """The refusal of groups that can be taken in no way or in several, with what was seen."""
    seen = [f"group {number}: {group}, first {group.first}" for number, group in enumerate(groups[:MOST_NAMED], 1)]
    count = f"there are {len(ways)} ways" if ways else "there is no way"
    angle = f" in {hints.angle} angle" if hints.angle else ""
    text = f"{count} to take three of these as FRONT, TOP and SIDE{angle}"
    near, said, its = nearly(chosen, hints) if not ways else "", "", list[str]()
    if len({way.angle for way in ways}) == 2 and all(way.views["FRONT"] is ways[0].views["FRONT"] for way in ways):
        near = f"TOP may stand above FRONT (third angle) or below it (first angle): say which by {option('angle')}"
        said, its = "angle", sorted({way.angle for way in ways}, reverse=True)
    elif len(ways) > 1 and (others := [f"group={its}" for its in others_of(groups, ways)]):
        near = f"for one of several parts leave out what isn't of it, by {' or '.join(option('leave-out', it) for it in others)}"
        said, its = "leave-out", others
    rows = [text + (f": {near}" if near else ""), *seen, *(["and more"] if len(groups) > MOST_NAMED else [])]
    return Refused("\n  ".join(rows), said, its)


def others_of(groups: Sequence[Group], ways: Sequence[Way]) -> list[str]:
    """The numbers of the groups that aren't the main views of each way, where no two ways have one of these both."""
    its = [[at for at, group in enumerate(groups, 1) if any(group is way.views.get(view, way.views.get("LEFT")) for view in VIEWS)] for way in ways]
    if len(set(itertools.chain(*its))) < len(VIEWS) * len(ways):
        return []
    return [numbers_told([at for at in range(1, len(groups) + 1) if at not in one]) for one in its]


def nearly(groups: Sequence[Group], hints: Hints) -> str:
    """Why three groups that stand as views do aren't three views of one part."""
    views = [group for group in groups if not why_no_view(group, hints)]
    if len(views) != 3:
        line = ", and the two don't stand in line, as FRONT and TOP or FRONT and a side view do" if len(views) == 2 else ""
        return f"there are fewer than three{line}" if len(views) < 3 else ""
    def middle(group: Group) -> tuple[float, float]:
        return (group.box[0] + group.box[2]) / 2, (group.box[1] + group.box[3]) / 2

    def strays(order: Sequence[Group]) -> float:
        front, top, side = order
        return abs(middle(front)[0] - middle(top)[0]) + abs(middle(front)[1] - middle(side)[1])

    front, top, side = min(itertools.permutations(views), key=strays)
    pairs: list[tuple[str, Callable[[Group], float], Group, str, Callable[[Group], float], Group]] = [
        ("FRONT is wide", lambda it: it.width, front, "TOP is wide", lambda it: it.width, top),
        ("FRONT is high", lambda it: it.height, front, "SIDE is high", lambda it: it.height, side),
        ("TOP is high", lambda it: it.height, top, "SIDE is wide", lambda it: it.width, side),
        ("FRONT begins at x", lambda it: it.box[0], front, "TOP at x", lambda it: it.box[0], top),
        ("FRONT begins at y", lambda it: it.box[1], front, "SIDE at y", lambda it: it.box[1], side),
    ]
    for one, first, a, other, second, b in pairs:
        if abs(first(a) - second(b)) > 3 * hints.tolerance:
            return f"{one} {first(a):.9g}, and {other} {second(b):.9g}" + half_told(one, first(a), other, second(b), hints.tolerance)
    return ""


def half_told(one: str, first: float, other: str, second: float, tolerance: float) -> str:
    """What is said where one of two lengths is half of the other, as that of a half view is."""
    for view, length, whole in ((one, first, second), (other, second, first)):
        if " is " in view and abs(2 * length - whole) <= 3 * tolerance:
            return f"; {view.split()[0]} may be a half view, and half views aren't read: draw it whole"
    return ""
