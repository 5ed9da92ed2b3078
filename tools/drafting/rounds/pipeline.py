"""A sheet with rounds, squared off: where its views are, what of its arcs belongs to them, and for each reading of it the drawing that recon
reads, with comments that say what was squared off (`features.py`).
"""
import argparse
import itertools
import math
from collections import Counter, defaultdict
from collections.abc import Iterator, Mapping, Sequence
from fractions import Fraction
from typing import NamedTuple

from ..core import notes as noted
from ..core.messages import Refused, many
from ..core.notes import Note, Tell
from ..dxf.drawing import VIEWS, Place
from ..dxf.reader import Arc, Box, Edge, Sheet, Unread, thing_of, where
from ..geometry.free_curves import Bend
from ..geometry.segments import At, Measure, Run, runs_of, without_noise
from ..messages.rounds import tell_cones, tell_squares
from ..projection.draw import FRAMES
from ..sections import layers as section_views
from ..sections.cutting_plane_marks import Mark
from ..sections.recognize import are_told
from ..sheet import pipeline as sheet
from ..geometry.components import meet
from ..sheet.groups import Group, frames, holds, merged, pieces_of
from ..sheet.placement import Placed
from ..sheet.second_export import arcs_hidden_by, twice_hidden
from ..sheet.unreadable import refuse_oblique, refuse_unread
from . import chamfers, cones, intersections, features, holes, rounds, tangent_edges, suspects
from .cross_holes import check_crossings, crossed_holes
from .features import Cone, Given, Stretch
from .regularize import evened, upon, with_circles, with_unread
from .rounds import OF_ONE, Move, Round, Squares, arc_box, box_of, is_straight
from .tangent_edges import Reading, Views

# The decimals of coordinates that have no end, as on a bolt circle: solids go by their order alone.
ROUNDED = 4
# What is added where an oblique edge is refused.
NO_CONE = ", and of cones those at the ends of whole circles' holes and bosses, which both views from the side draw"
NO_CORNER = "; it is no corner that is cut off or filled straight through either: {}"
# The most circles and arcs of a sheet, and how many warnings of one kind are told.
MOST_ARCS, MOST_TOLD = 3_000, 8
# How far apart views may lie that a group of arcs alone is in line with.
IN_LINE = 2e-3


class Cones(NamedTuple):
    """The cones of a sheet, from the views' least corners on; what their oblique edges become, the lines across their ends that are left out,
    and those that may be their seams."""

    its: Sequence[Cone]
    flanks: Mapping[Edge, tuple[Edge, ...]]
    across: Sequence[Stretch]
    seams: Sequence[Stretch]


class Found(NamedTuple):
    """What is read of a sheet, and its cutting-plane lines: its lines, its arcs within the views, and where these are; its cones, the holes that are
    taken off, the curves where these cross rounds, the arcs in its sections, and the ways in which other oblique edges are squared to corners."""

    path: str | None
    sheet: Sheet
    marks: Sequence[Mark]
    lines: list[Edge]
    arcs: list[Arc]
    placed: Placed
    arguments: argparse.Namespace
    cones: "Cones"
    holes: Sequence[holes.Hole]
    curves: Sequence[intersections.Curve] = ()
    cut: Sequence[Arc] = ()
    corners: Sequence[tuple[chamfers.Squared, ...]] = ((),)
    has_all_corners: bool = True

    @property
    def tolerance(self) -> float:
        return float(self.arguments.tolerance)

    def views(self, rounds_of: Sequence[Round]) -> Views:
        boxes = {view: group.box for view, group in self.placed.views.items()}
        placed = [(view, one) for one in rounds_of for view, box in boxes.items() if holds(box, one.box, OF_ONE * self.tolerance)]
        closed = [*self.lines, *(edge for it in self.holes for _, edge in it.gaps)]
        return Views(boxes, closed, placed, self.tolerance, self.placed.mirrored)


# ---- which arcs are of the views

def stand_in(arc: Arc) -> Run:
    """What stands for an arc where lines are grouped: an oblique line across its box."""
    box = arc_box(arc)
    return Run(arc.hidden, False, 0.0, 0.0, 0.0, Edge(arc.hidden, box[:2], box[2:], 7, arc.source), True)


def arcs_beside(edges: Sequence[Edge], arcs: Sequence[Arc], curves: Sequence[Unread], tolerance: float) -> tuple[list[Arc], list[Arc]]:
    """The arcs in groups that have lines, or that stand in line with such a group and reach as far; and others, as the balloons of a list
    of parts. What can't be read joins groups too."""
    stand_ins = [(stand_in(arc), arc) for arc in arcs]
    its = {id(run): arc for run, arc in stand_ins}
    pieces, _ = frames(pieces_of([*runs_of(edges, tolerance)[0], *(run for run, _ in stand_ins)], tolerance, curves), tolerance)
    groups = merged(pieces, tolerance)
    boxes = [group.box for group in groups if any(id(run) not in its for run in group.runs)]
    kept: list[Arc] = []
    for group in groups:
        is_in_line = any(abs(box[at] - group.box[at]) <= IN_LINE and abs(box[at + 2] - group.box[at + 2]) <= IN_LINE for box in boxes for at in (0, 1))
        kept += [its[id(run)] for run in group.runs if is_in_line and id(run) in its]
    return kept, [arc for arc in arcs if not any(arc is it for it in kept)]


def read(path: str | None, read_sheet: Sheet, marks: Sequence[Mark], arguments: argparse.Namespace, tell: Tell) -> Found:
    """What is read of a sheet with arcs, and where its views are."""
    tolerance = arguments.tolerance
    if len(read_sheet.arcs) > MOST_ARCS:
        raise Refused(f"{len(read_sheet.arcs):,} circles and arcs, more than {MOST_ARCS:,}")
    read_sheet = with_circles(read_sheet)
    edges, arcs = read_sheet.edges, read_sheet.arcs
    if apart := next((arc for arc in arcs if arc.source.file), None):  # of oblique edges sheet.py sees to that
        raise Refused(f"in {apart.source.view} a {where(apart.source, path)} is no straight line, and circles and arcs are read where "
                      "all views stand on one sheet")
    if read_sheet.seen:
        arcs = list(arcs_hidden_by(arcs, read_sheet.seen.arcs, tolerance))
        edges = [*edges, *twice_hidden(read_sheet.whole, read_sheet.seen.edges, tolerance)]
    if any(edge.source.kind in ("SPLINE", "ELLIPSE") for edge in edges):
        edges = evened(edges, arcs)
    kept, left = arcs_beside(edges, arcs, sheet.curves_of(read_sheet), tolerance)
    bare = [*edges, *upon(rounds.bare_squares(rounds.rounds_of(kept, tolerance)), edges)]
    placed = sheet.found_views(path, read_sheet, bare, marks, arguments, noted.tell_none)
    if missing := [view for view in VIEWS if view not in placed.views]:
        raise Refused(f"{missing[0]} isn't drawn, and a sheet with circles or arcs is read where all three main views are there: draw it too")
    # What no reading changes is refused at once.
    views = Found(path, read_sheet, marks, edges, kept, placed, arguments, Cones((), {}, (), ()), ()).views(rounds.rounds_of(kept, tolerance))
    parts = intersections.parted(views, edges, kept, read_sheet.unread)
    refuse_unread(path, placed, intersections.with_meaning(parts.unread, parts), tolerance)
    read_sheet, edges, kept = with_unread(read_sheet, parts.unread), parts.edges, parts.arcs
    round_ones = cones_in(placed, edges, rounds.rounds_of(kept, tolerance), tolerance)
    views = Found(path, read_sheet, marks, edges, kept, placed, arguments, round_ones, ()).views(rounds.rounds_of(kept, tolerance))
    oblique, causes = chamfers.chamfers_of(views, round_ones.flanks)
    known = [*parts.gone, *round_ones.flanks, *(edge for one in oblique for edge in one.edges)]
    refuse_oblique(path, placed, known, lambda edge: not_taken(causes.get(edge)))
    sections = placed.sections if are_told(placed.sections, marks) else ()
    cut = [arc for arc in kept if any(meet(it.group.box, arc_box(arc), tolerance) for it in sections)]
    for arc in kept:
        if not any(holds(group.box, arc_box(arc), OF_ONE * tolerance) for group in placed.views.values()) and not any(arc is it for it in cut):
            left.append(arc)
    for note in noted.counted("left out", Counter(thing_of(arc.source, "outside the views") for arc in left)):
        tell(note)
    within = [arc for arc in kept if not any(arc is it for it in (*left, *cut))]
    every = Found(path, read_sheet, marks, edges, within, placed, arguments, round_ones, ()).views(rounds.rounds_of(within, tolerance))
    taken = [one for view, one in every.rounds if is_of_cone(view, one, placed, round_ones.its, tolerance)]
    crossed, why = crossed_holes(every, parts.met.crossings, taken)
    its = holes.holes_of(every, taken, crossed)
    check_crossings(path, parts.met, its, why)
    return Found(path, read_sheet, marks, edges, within, placed, arguments, round_ones, its, parts.met.curves, cut, *chamfers.choices(views, oblique))


def is_of_cone(view: str, one: Round, placed: Placed, its: Sequence[Cone], tolerance: float) -> bool:
    """Whether a circle is an end of a cone."""
    centre = Frame(placed.views[view], 1.0, placed.mirrored).place(one.centre)
    return any(it.view == view and math.dist(it.centre, centre) <= OF_ONE * tolerance for it in its)


def not_taken(cause: str | None) -> str:
    """What an oblique edge is none of."""
    return NO_CONE + (NO_CORNER.format(cause) if cause else "")


def cones_in(placed: Placed, edges: Sequence[Edge], its: Sequence[Round], tolerance: float) -> Cones:
    panels: dict[str, cones.Panel] = {}
    places: dict[tuple[str, Edge], list[Edge]] = defaultdict(list)
    for view, group in placed.views.items():
        frame, box, noise = Frame(group, 1.0, placed.mirrored), group.box, OF_ONE * tolerance
        circles = [one._replace(centre=frame.place(one.centre)) for one in its if len(one.numbers) == 4 and holds(box, one.box, noise)]
        for edge in edges:
            if holds(box, box_of([edge.start, edge.end]), noise):
                places[view, frame.edge(edge)].append(edge)
        panels[view] = cones.Panel((box[2] - box[0], box[3] - box[1]), [edge for at, edge in places if at == view], circles)
    found = cones.cones_of(panels, tolerance)
    flanks = list(cones.flanks_of(panels, found, tolerance))
    across, seams = ([Frame(placed.views[it.view], 1.0, placed.mirrored).on_sheet(it) for it in some(panels, found, tolerance)]
                     for some in (cones.across_ends, cones.seams_of))
    return Cones(found, {edge: it.steps(edge) for it in flanks for edge in places[it.view, it.edge]}, across, seams)


# ---- one reading

def remapped(edges: Sequence[Edge], moves: Sequence[tuple[Place, Move | chamfers.Move]], found: Found) -> list[Edge]:
    """In the views that see a round, or a chamfer, from its side, the lines where walls meet it, moved to where they meet its square: by a
    place of each."""
    noise = OF_ONE * found.tolerance
    views = found.views([])
    changes: list[tuple[Box, int, float, float]] = []
    for place, move in moves:
        for view in [it for it, box in views.boxes.items() if holds(box, box_of([place]), noise)]:
            axis = FRAMES[view].up if move.along else FRAMES[view].right
            ends = [views.depth(view, axis, it) for it in (move.before, move.after)]
            for other, box in views.boxes.items():
                if other != view and axis in (FRAMES[other].right, FRAMES[other].up):
                    before, after = (views.place(other, axis, it) for it in ends)
                    changes.append((box, 0 if FRAMES[other].right == axis else 1, before, after))
    return [moved(edge, changes, noise) for edge in edges]


def moved(edge: Edge, changes: Sequence[tuple[Box, int, float, float]], noise: float) -> Edge:
    ends = [list(edge.start), list(edge.end)]
    for box, at, before, after in changes:
        if holds(box, box_of([edge.start, edge.end]), noise):
            for end in ends:
                end[at] = after if abs(end[at] - before) <= 2 * noise else end[at]
    return edge._replace(start=(ends[0][0], ends[0][1]), end=(ends[1][0], ends[1][1]))


def squared(found: Found, reading: Reading, corners: Sequence[chamfers.Squared]) -> tuple[list[Edge], Squares]:
    """The lines that a reading leaves, and the sheet squared off, its oblique edges to some corners."""
    views = found.views(rounds.rounds_of(found.arcs, found.tolerance))
    lines = tangent_edges.without(found.lines, reading.left, found.tolerance)
    left = [*found.cones.across, *(stretch for it in found.holes for stretch in it.left)]
    closed = [*lines, *(edge for it in found.holes for _, edge in it.gaps)]
    rest = tangent_edges.without(closed, [(it, True) for it in left], found.tolerance)
    stepped, turned = chamfers.squared_off([it for edge in rest for it in found.cones.flanks.get(edge, (edge,))], corners, found.tolerance)
    in_sections, in_views = apart(remapped(stepped, [(it.one.slant.corner, it) for it in turned], found), found)
    given_edges = [*in_views, *tangent_edges.added(views, reading)]
    inner = [one.centre for view, one in views.rounds if (view, round(one.radius, 2)) in reading.inner]
    its = [one._replace(is_inner=len(one.numbers) == 1 and not one.cuts and one.centre in inner) for _, one in views.rounds
           if not any(it.one == one for it in found.holes)]
    squares = rounds.Squaring(given_edges, its, found.tolerance, reading.is_eager).done()
    if cut := [it for it in squares.moves if it.one.cuts or reading.is_eager]:
        squares = rounds.Squaring(remapped(given_edges, [(it.one.centre, it) for it in cut], found), its, found.tolerance, reading.is_eager).done()
    check_squares(views, squares)
    squares = squares._replace(edges=tangent_edges.without(squares.edges, [(it, True) for it in reading.contacts], found.tolerance))
    squares.doubts.extend(chamfers.cuts_of(turned))
    squares.doubts.extend(chamfers.doubts_of(corners, [it for it in lines if is_straight(it, OF_ONE * found.tolerance)], its, found.tolerance))
    squares.doubts.extend(f"a {it.one} {'that crosses a round may have another depth' if it.probe else 'may end where another line goes across'}"
                          for it in found.holes if it.is_open)
    squares.doubts.extend([] if found.has_all_corners else [f"its oblique edges may be squared off in more than {chamfers.MOST} ways"])
    of_sections = rounds.Squaring(in_sections, rounds.rounds_of(found.cut, found.tolerance), found.tolerance, False).done()
    return lines, squares._replace(edges=[*squares.edges, *of_sections.edges])


def check_squares(views: Views, squares: Squares) -> None:
    """Refuses a round that is cut within its quarters, and whose square reaches farther than its view."""
    noise = OF_ONE * views.tolerance
    for view, one in ((view, one) for view, one in views.rounds if one.cuts):
        own = [edge for edge in squares.edges if edge.source == one.drawn.source]
        if not all(holds(views.boxes[view], box_of([edge.start, edge.end]), noise) for edge in own):
            raise Refused(f"in {view} a {one} is cut within its quarters, and its square reaches beyond the view: such rounds aren't squared off")


def apart(edges: Sequence[Edge], found: Found) -> tuple[list[Edge], list[Edge]]:
    """The edges of the sections, and the others."""
    parted: tuple[list[Edge], list[Edge]] = [], []
    for edge in edges:
        parted[not any(holds(it.group.box, box_of([edge.start, edge.end]), OF_ONE * found.tolerance) for it in found.placed.sections)].append(edge)
    return parted


def unlike(found: Found, reading: Reading, corners: Sequence[chamfers.Squared], squares: Squares) -> str:
    """What is squared off otherwise than each circle to its square, which a section shows otherwise; nothing where nothing is."""
    cut = next((it for it in squares.rounds if it.cuts), None)
    if edge := next(iter(found.cones.flanks), None) or next((edge for it in corners for edge in it.one.edges), None):
        return f"in a view the {edge.source} is oblique, and what a section shows of such an edge isn't read"
    if hole := next(iter(found.holes), None):
        which = f"a {hole.one} crosses a round" if hole.probe else f"the square of a {hole.one} meets others"
        return f"{which}, and what a section shows of such ones isn't read"
    if cut or reading.inner or reading.is_eager:
        which = f"a {cut}" if cut else "its rounds"
        return f"{which} may be cut by walls or end free, and what a section shows of such ones isn't read"
    return ""


def measured(found: Found, placed: Placed, times: Fraction, corners: Sequence[chamfers.Squared], tell: Tell) -> Measure:
    """How lengths become whole; rounded where they have no end."""
    try:
        return sheet.measured(found.path, placed, times, found.arguments, tell, ends_of(placed, corners))
    except Refused as refusal:
        if "doesn't fit" not in str(refusal) or found.arguments.sheet_decimals is not None:
            raise
        tell(noted.changed(f"coordinates rounded to {ROUNDED} decimals, since they have no end"))
        return Measure(times, ROUNDED, 0.5 * 10**-ROUNDED / float(times))


def ends_of(placed: Placed, corners: Sequence[chamfers.Squared]) -> Iterator[At]:
    """Where oblique edges end: of a wall that goes back, or straight on, the squared-off drawing has no line there."""
    for it in corners:
        frame = Frame(placed.views[it.one.view], 1.0, placed.mirrored)
        for end in (it.one.start, it.one.end):
            yield from (At(length, it.one.view, axis, at, it.one.edges[0].source) for axis, at, length in zip("xy", end, frame.place(end)))


class Frame(NamedTuple):
    """How places of a view become those of the drawing, from the view's least corner on, in the drawing's unit."""

    group: Group
    times: float
    is_mirrored: bool

    def place(self, place: Place) -> Place:
        x, y, right, _ = self.group.box
        return (right - place[0] if self.is_mirrored else place[0] - x) * self.times, (place[1] - y) * self.times

    def on_sheet(self, it: Stretch) -> Stretch:
        """A stretch from the view's least corner on, where it lies on the sheet; not enlarged."""
        x, y, right, _ = self.group.box
        across, along = (x, y) if it.is_upright else (y, x)
        if self.is_mirrored and it.is_upright:
            return it._replace(at=right - it.at, low=it.low + along, high=it.high + along)
        if self.is_mirrored:
            return it._replace(at=it.at + across, low=right - it.high, high=right - it.low)
        return it._replace(at=it.at + across, low=it.low + along, high=it.high + along)

    def edge(self, edge: Edge) -> Edge:
        return edge._replace(start=self.place(edge.start), end=self.place(edge.end))

    def arc(self, arc: Arc) -> Arc:
        start = (180 - arc.start - arc.sweep) % 360 if self.is_mirrored else arc.start
        return arc._replace(centre=self.place(arc.centre), radius=arc.radius * self.times, start=start)

    def round(self, view: str, one: Round) -> features.Squared:
        quarters = tuple(it._replace(centre=self.place(it.centre), radius=it.radius * self.times, right=-it.right if self.is_mirrored else it.right)
                         for it in one.quarters)
        return features.Squared(view, self.place(one.centre), one.radius * self.times, quarters, bool(one.cuts))

    def hole(self, it: holes.Hole, noise: float) -> features.Hole:
        one, off = it.exact or it.one, (OF_ONE if it.exact and it.exact != it.one else 1) * noise * self.times
        (x, y), probe = self.place(one.centre), it.probe and (it.probe[0] * self.times, it.probe[1] * self.times)
        centre = (without_noise(x, off), without_noise(y, off)) if it.exact and it.exact != it.one else (x, y)
        radius, low, high = (without_noise(length * self.times, off) for length in (one.radius, it.low, it.high))
        return features.Hole(it.view, centre, radius, low, high, probe)

    def chamfer(self, it: chamfers.Squared) -> features.Chamfer:
        return features.Chamfer(it.one.view, rounds.Slant(self.place(it.slant.centre), self.place(it.slant.corner)), chamfers.End.BACK in it.ends)

    def stretch(self, it: Stretch) -> Stretch:
        ends = self.edge(it.edge())
        low, high = tangent_edges.span_of(ends, 1 if it.is_upright else 0)
        return it._replace(at=ends.start[0 if it.is_upright else 1], low=low, high=high)


def given_by(
    found: Found, placed: Placed, lines: Sequence[Edge], squares: Squares, corners: Sequence[chamfers.Squared], left: tangent_edges.Left, times: float
) -> Given:
    """What the drawing says of its sheet."""
    oblique = tuple(Frame(placed.views[it.one.view], times, placed.mirrored).chamfer(it) for it in corners)
    result, noise = Given([], {}, {}, [], squares.doubts, [it.times(times) for it in found.cones.its], chamfers=oblique, holes=tuple(
        Frame(placed.views[it.view], times, placed.mirrored).hole(it, found.tolerance) for it in found.holes)), OF_ONE * found.tolerance
    for view, group in placed.views.items():
        frame = Frame(group, times, placed.mirrored)
        for one in squares.rounds:
            if holds(group.box, one.box, noise):
                result.rounds.append(frame.round(view, one))
        result.arcs[view] = [frame.arc(it) for it in found.arcs if holds(group.box, arc_box(it), noise)]
        result.lines[view] = [frame.edge(it) for it in lines if holds(group.box, box_of([it.start, it.end]), noise)]
        result.smooth.extend(frame.stretch(it) for it, _ in left if it.view == view)
    result = result._replace(bends=tuple(Bend(it.view, it.hidden, tuple(map(Frame(placed.views[it.view], times, placed.mirrored).place, it.places)))
                                         for it in found.curves))
    if len(result.rounds) != len(squares.rounds):
        raise Refused(f"{many(len(squares.rounds) - len(result.rounds), 'round')} of the sheet lie in no view once squared off, or in two")
    return result


def moved_by(told: Given, measure: Measure, tolerance: float) -> float:
    """How far coordinates of the drawing lie from the sheet's at most, and those of corners of rounds from these, as far as that is noise."""
    unit, times = float(10**measure.decimals), float(measure.times)
    offs = [abs(at - round(at * unit) / unit) for one in told.squared for it in one.quarters for at in it.corner]
    return max([measure.moved * times, *(off for off in offs if off <= OF_ONE * tolerance * times)])


def check_within(found: Found, placed: Placed) -> None:
    """Refuses a cone that reaches farther than all else of its view: without it the views are smaller."""
    for view, group in placed.views.items():
        if found.cones.its and any(abs(a - b) > OF_ONE * found.tolerance for a, b in zip(group.box, found.placed.views[view].box)):
            raise Refused(f"in {view} the oblique edges of a cone reach farther than all other lines: recon reads level and upright edges alone, and "
                          "cones within them")


def doubts_of_cones(found: Found) -> list[str]:
    """Where the edges of cones leave more choices than are tried."""
    count = len(cones.covering(found.cones.its, found.cones.its))
    return [f"{many(len(found.cones.its), 'place')} of cones in line may have them in more than {count} ways"] if count >= cones.MOST else []


def drawn(found: Found, reading: Reading, corners: Sequence[chamfers.Squared], number: tuple[int, int], tell: Tell) -> sheet.Drawn:
    """The drawing of one reading of a sheet, with its oblique edges squared to some corners."""
    lines, squares = squared(found, reading, corners)
    squares.doubts.extend(doubts_of_cones(found))
    placed = sheet.checked_views(found.path, found.sheet, squares.edges, found.marks, found.arguments, tell)
    check_within(found, placed)
    times = sheet.scale_in_use(found.path, found.sheet, placed, found.arguments, tell)
    measure = measured(found, placed, times, corners, tell)
    left = list(reading.left)
    if reading.inner:
        views = found.views(squares.rounds)
        smooth = [(it, False) for it in tangent_edges.candidates(views) if it.owners & set(reading.inner)]
        lines, left = tangent_edges.without(lines, smooth, found.tolerance), [*left, *smooth]
    told = given_by(found, placed, lines, squares, corners, tuple(left), float(measure.times))._replace(reading=number, suspects=suspects_of(found))
    told = told._replace(moved=moved_by(told, measure, found.tolerance))
    tell_squares(told, tell)
    tell_cones(found.cones.its, tell)
    layers = layers_of(found, reading, corners, squares, placed, times, measure, tell)
    for stretch in told.smooth:
        way = "upright" if stretch.is_upright else "level"
        tell(noted.left_out(f"in {stretch.view} the {way} line at {stretch.at:.6g} from {stretch.low:.6g} to {stretch.high:.6g}, taken as a tangent edge",
                            view=stretch.view))
    for stretch in reading.contacts:
        tell(noted.changed("in {} the {} line from {:.6g}, {:.6g} to {:.6g}, {:.6g} taken as where a round touches a wall of its own height".format(
            stretch.view, "upright" if stretch.is_upright else "level", *stretch.edge().start, *stretch.edge().end), view=stretch.view))
    for text in squares.doubts[:MOST_TOLD]:
        tell(noted.warning(f"{text}: other solids may be missed"))
    if len(squares.doubts) > MOST_TOLD:
        more = len(squares.doubts) - MOST_TOLD
        tell(noted.warning(f"{many(more, 'place')} more of this kind", more))
    comments = features.comments(told) + layers.comments
    return sheet.drawn_views(found.path, found.sheet, placed, times, layers.measure, found.arguments, tell, comments, layers.strokes)


def layers_of(
    found: Found, reading: Reading, corners: Sequence[chamfers.Squared], squares: Squares, placed: Placed, times: Fraction, measure: Measure, tell: Tell
) -> section_views.Layers:
    """The layers of a sheet's sections, squared off."""
    for cut in found.sheet.page.cuts if found.sheet.page else ():
        tell(noted.left_out(f"section {cut.label}: of a page with rounds or oblique edges sections aren't read"))
    if not placed.sections:
        return section_views.Layers({}, measure, {})
    its: dict[str, list[Round]] = defaultdict(list)
    for view, one in found.views(rounds.rounds_of(found.arcs, found.tolerance)).rounds:
        its[view].append(one)
    why = unlike(found, reading, corners, squares)
    return section_views.layers_of(found.sheet, found.marks, placed, times, measure, found.arguments, tell, its, why)


def suspects_of(found: Found) -> tuple[str, ...]:
    """The curves that other views don't confirm, but for those of what is taken off, and of cones."""
    views = found.views(rounds.rounds_of(found.arcs, found.tolerance))
    taken = [it.one for it in found.holes]
    its = [(view, one) for view, one in views.rounds
           if one not in taken and not is_of_cone(view, one, found.placed, found.cones.its, found.tolerance)]
    return tuple(it.words for it in suspects.suspects(views._replace(rounds=its)))


# ---- all readings

def drawings(found: Found) -> Iterator[sheet.Alike]:
    """The drawings of a sheet by its readings, the likeliest first, or why one has none."""
    views = found.views(rounds.rounds_of(found.arcs, found.tolerance))
    # Of a page no smooth edge is drawn.
    smooth = [] if found.sheet.page else [*tangent_edges.candidates(views), *found.cones.seams]
    its, count = tangent_edges.readings(smooth, tangent_edges.kinds_of(views.rounds), [it for *_, it in tangent_edges.contacts(views)], has_bare_ends(views))
    only = found.arguments.reading
    ways = len(found.corners)
    if only is not None and not 1 <= only <= len(its) * ways:
        raise Refused(f"there is no reading {only}: {many(len(its) * ways, 'reading')} of this sheet")
    for at, reading in enumerate(its):
        numbers = [number for number in range(at * ways + 1, (at + 1) * ways + 1) if only in (None, number)]
        if numbers:
            yield sheet.Alike([tried(found, reading, number, count) for number in numbers], numbers[-1])


def has_bare_ends(views: Views) -> bool:
    """Whether in some view a line ends upon a round, and at no other line."""
    return any(rounds.Squaring(tangent_edges.within(views, view), [one for at, one in views.rounds if at == view], views.tolerance, False).has_bare_ends()
               for view in views.boxes)


def tried(found: Found, reading: Reading, number: int, count: int) -> sheet.Drawn | Refused:
    """The drawing of one reading, by its number among as many as there are ways to square the oblique edges of each; or why it has none."""
    notes: list[Note] = []
    ways = len(found.corners)
    try:
        made = drawn(found, reading, found.corners[(number - 1) % ways], (number, count * ways), notes.append)
    except Refused as refusal:
        return refusal
    return made._replace(notes=notes, is_plain=number <= count * ways)


def first(path: str | None, read_sheet: Sheet, marks: Sequence[Mark], arguments: argparse.Namespace, tell: Tell) -> sheet.Drawn:
    """The drawing of the first reading of a sheet that has one, and those of the others."""
    found = read(path, read_sheet, marks, arguments, tell)
    if not found.arcs and not any(found.corners):
        return sheet.draw_straight(path, read_sheet, marks, arguments, tell)
    others, why = drawings(found), None
    for group in others:
        for one in group.its:
            if isinstance(one, sheet.Drawn):
                is_plain = arguments.reading is not None or why is None or one.is_plain
                return one._replace(others=itertools.chain([group], others), refused=None if is_plain else why)
            why = why or one
    assert why is not None
    raise why
