"""Writes a sheet, any DXF file that ezdxf reads, as the drawing of three layers that recon reads. Blocks, polylines and exploded
dimensions are taken apart; frame, title block, texts, dimensions, centre lines, what is off or frozen and paper space are left out;
pieces are joined and coordinates made whole. Visible and hidden edges are told by linetype, else by the name of the layer, else by
what is said here; the views by the names of layers or blocks, else by their places: TOP above FRONT (third angle) or below it (first
angle), a right or a left side view beside it, or both, a rear view behind one of them, and a bottom view across from TOP. With a left
side view and no right one all views are mirrored, which a comment in the drawing says, and the commands here turn the solids back.

Circles and arcs are squared off: each circle becomes its bounding square, each quarter round its sharp corner, in the same linetype, which
comments in the drawing say (`features.py`); what that promises says `rounds.py`. Lines that may be tangent edges are left out by readings.

Each thing that is changed or left out is one line on standard error, and what can't be read without a guess is refused.
"""
import argparse
import itertools
from collections.abc import Container, Iterable, Iterator, Mapping, Sequence
from fractions import Fraction
from typing import Any, NamedTuple

from ..core import page as documents, notes as noted
from ..core.advice import Advisable
from ..core.messages import Refused, many, say, write_result
from ..core.notes import Note, Tell
from ..core.verdict import Doubt, Reason
from ..dxf.drawing import FREECAD, MILLIMETRES, VIEWS, Origin, Stroke, places_of, written
from ..dxf.reader import Edge, Sheet, Unread, read_sheet, where
from ..dxf.styles import Choice, Style, choice_of
from ..geometry.segments import MOST_DECIMALS, At, Measure, Run, apart, fits, hidden_by, measure_of, runs_of
from ..messages.controls import command, option, without
from ..sections import layers as section_views
from ..sections.cutting_plane_marks import Mark, marks_of, unlettered, without_marks, words_of as words_of_sheet
from ..sections.recognize import labels_of, sections_of
from . import noise, outlines, scale, strokes, titles, two_views, view_files
from .back_to_sheet import Paper
from .exploded_dimensions import without_dimensions
from .groups import Group
from .half_views import refuse_half
from .overlapping import moved_apart
from .placement import Hints, OtherAngle, Placed, by_names, extents_of, main_named, named_views, numbers_of, view_named
from .turned import turned
from .unreadable import (
    refuse_covered, refuse_hidden_outline, refuse_missing, refuse_oblique, refuse_strokes, refuse_unread,
    way_of_style, with_layers,
)

NAME = "sheet"
HELP = "write a sheet as people draw it as the drawing that recon reads"

TOLERANCE = 1e-4
# The most edges and runs of a sheet, and the greatest coordinate that is written.
MOST_EDGES, MOST_RUNS, FARTHEST = 300_000, 30_000, 1_000_000_000
# Between the views of what is written, in the sheet's unit.
MARGIN = 10


class Drawn(NamedTuple):
    """A drawing of three layers, made of a sheet: its text, how many decimals it has, how it stands for the sheet, and the way back. Of a
    sheet with rounds also what is told of this reading of it, the drawings of the further ones, or why one has none; and why it is refused
    unless some solid of a reading that changes more than to leave lines out, and isn't plain, is kept. Of a document of FreeCAD, its page;
    whether it has layers of the sheet's sections; and what this reading of the sheet leaves open, so that the verdict isn't decided. Where the
    places of three or more views told which they are, the angle in which these were read, and the texts of the sheet that say so."""

    text: str
    decimals: int
    origin: Origin
    paper: Paper | None = None
    notes: Sequence[Note] = ()
    others: Iterator["Alike"] = iter(())
    refused: Refused | None = None
    is_plain: bool = True
    page: documents.Page | None = None
    has_sections: bool = False
    reasons: tuple[Reason, ...] = ()
    angle: str = ""
    angle_by: str = ""


class Alike(NamedTuple):
    """Drawings of a sheet that read its lines alike and square its oblique edges to other corners, or why one has none; and as the how many
    of all the last of them is tried."""

    its: Sequence[Drawn | Refused]
    last: int


def add_options(parser: argparse.ArgumentParser) -> None:
    """What a user says of a sheet."""
    told = "color=NUMBER, layer=NAME or linetype=NAME"
    group = parser.add_argument_group("of the sheet")
    group.add_argument("--hidden", action="append", default=[], metavar="WHICH", help=f"lines that are hidden edges: {told}")
    group.add_argument("--visible", action="append", default=[], metavar="WHICH", help="lines that are visible edges")
    group.add_argument("--leave-out", action="append", default=[], metavar="WHICH", help="lines that are none; or group=NUMBER")
    group.add_argument("--visible-only", metavar="OTHER.dxf", help="the same sheet without hidden lines, as FreeCAD exports it")
    group.add_argument("--all-visible", action="store_true", help="no line is hidden, whatever its colour")
    group.add_argument("--strokes", choices=strokes.WAYS, help="what short lines in a row are: strokes of hidden lines, or edges (else found)")
    group.add_argument("--angle", choices=["third", "first"], help="how the views are placed (else as TOP stands)")
    group.add_argument("--tolerance", type=float, default=TOLERANCE, help=f"what is noise, in the sheet's unit (else {TOLERANCE:g})")
    group.add_argument("--sheet-decimals", type=int, choices=range(7), metavar="D", help="how many decimals lengths have (else found)")
    group.add_argument("--reading", type=int, metavar="N", help="of a sheet whose lines may be tangent edges the N-th reading alone")
    group.add_argument("--scale", metavar="A:B", help="drawn to real lengths: 1:2 is half as large as the part (else 1:1)")
    group.add_argument("--unit", choices=list(MILLIMETRES), help="lengths are in this unit, whatever the file tells")
    group.add_argument("--as-drawn", action="store_true", help="lengths are as drawn, at this scale, whatever dimensions say")
    group.add_argument("--pairs", action="store_true", help="NAME.visible.dxf is NAME.dxf without hidden lines, as --visible-only")
    group.add_argument("--sheet-page", metavar="NAME", help="of a document of FreeCAD (.FCStd) with several pages, which one")
    group.add_argument("--part", metavar="NAME", help="of a page of FreeCAD with views of several parts, whose")


def words_of(arguments: argparse.Namespace) -> list[str]:
    """The options of sheets as they were given, for another command."""
    words = [f"--{name.replace('_', '-')}={text}" for name in ("hidden", "visible", "leave_out") for text in getattr(arguments, name)]
    for name in ("visible_only", "angle", "sheet_decimals", "reading", "scale", "unit", "sheet_page", "part", "strokes"):
        if getattr(arguments, name) is not None:
            words.append(f"--{name.replace('_', '-')}={getattr(arguments, name)}")
    words += [f"--tolerance={arguments.tolerance!r}"] if arguments.tolerance != TOLERANCE else []
    return words + [f"--{name.replace('_', '-')}" for name in ("all_visible", "as_drawn", "pairs") if getattr(arguments, name)]


def add_arguments(parser: argparse.ArgumentParser) -> None:
    parser.add_argument("sheet", metavar="IN.dxf", nargs="?", help="the sheet, or a document of FreeCAD; - for standard input")
    parser.add_argument("-o", "--output", metavar="OUT.dxf", help="the file to write, else standard output")
    add_options(parser)
    view_files.add_options(parser)


def scale_of(text: str) -> Fraction:
    """What drawn lengths are multiplied by."""
    drawn, sign, real = text.partition(":")
    try:
        scale = Fraction(real) / Fraction(drawn)
    except (ValueError, ZeroDivisionError):
        scale = Fraction(0)
    if not sign or not Fraction(1, 100_000) <= scale <= 100_000:
        raise Refused(f"not a scale like 1:2: {text}")
    return scale


def unit_of(told: str, said: str | None, tell: Tell) -> str:
    """The unit of a sheet's lengths: what the user says, else what the file tells."""
    if said and said != told:
        tell(noted.changed(f"lengths are in {said}, as is said, and not in {told}" if told else f"lengths are in {said}, as is said"))
    else:
        tell(noted.found(f"lengths in {told}" if told else f"no unit of length is told, and none said by {option('unit')}"))
    return said or told


# ---- the edges

def edges_of(path: str | None, arguments: argparse.Namespace, tell: Tell) -> tuple[Sheet, list[Mark]]:
    """What was read of a sheet, or of a file for each view, without annotations; and the ends of its cutting-plane lines."""
    if documents.is_document(path):
        from ..cad import redraw  # which stands on FreeCAD
        return redraw.sheet_of(str(path), arguments, tell), []
    documents.check_options(arguments, False)
    choices = choices_of(arguments)
    named = view_files.files_of(arguments, path)
    sheets = list(view_files.read_views(named, choices).values()) if named else [read_sheet(str(path), choices)]
    sheets = [turned(sheet) for sheet in sheets] if is_turned(arguments) else sheets
    whole = view_files.together(sheets)
    for note in (*noted.counted("changed", whole.changed), *noted.counted("left out", whole.left)):
        tell(note)
    unit = unit_of(whole.unit, arguments.unit, tell)
    for sheet in sheets:
        sheet.unit = unit
    if len(whole.edges) > MOST_EDGES:
        raise Refused(f"{len(whole.edges):,} lines, more than {MOST_EDGES:,}")
    if visible := view_files.visible_only(arguments, path):
        seen = read_sheet(visible, choices)
        sheets[0].whole, sheets[0].seen = sheets[0].edges, turned(seen) if is_turned(arguments) else seen
        sheets[0].edges = hidden_within(sheets[0].edges, sheets[0].seen.edges, arguments.tolerance)
        hidden = sum(edge.hidden for edge in sheets[0].edges)
        tell(noted.changed(f"{many(hidden, 'line')} taken as hidden, since {visible} lacks them", hidden))
    for sheet in sheets if not visible else ():
        for note in strokes.without_strokes(sheet, arguments.tolerance, arguments.strokes):
            tell(note)
    marks = [mark for sheet in sheets for mark in without_annotations(sheet, arguments.tolerance, tell)]
    return view_files.together(sheets), marks


def choices_of(arguments: argparse.Namespace) -> list[Choice]:
    """What the user says of lines by their colours, layers and linetypes."""
    styles = (("hidden", Style.HIDDEN), ("visible", Style.VISIBLE), ("leave_out", Style.APART))
    return [choice_of(text, style) for name, style in styles for text in getattr(arguments, name) if not text.startswith("group=")]


def is_turned(arguments: argparse.Namespace) -> bool:
    """Whether the sheet is read turned by 180 degrees."""
    return bool(getattr(arguments, "is_turned", False))


def hidden_within(whole: Sequence[Edge], visible: Sequence[Edge], tolerance: float) -> list[Edge]:
    """The edges of a sheet with those hidden that the one without hidden lines lacks, by the views that their layers name: views may touch."""
    views: dict[str, tuple[list[Edge], list[Edge]]] = {}
    for at, edges in enumerate((whole, visible)):
        for edge in edges:
            views.setdefault(view_named(edge.source), ([], []))[at].append(edge)
    return [edge for its in views.values() for edge in hidden_by(*its, tolerance)]


def without_annotations(sheet: Sheet, tolerance: float, tell: Tell) -> list[Mark]:
    """Takes the lines and arrow heads of exploded dimensions and of cutting-plane lines off a sheet; the ends of the latter."""
    labels = {letter for letter, _ in labels_of(sheet)}
    # By the letter of a section's label an arrow is none of a dimension, though it ends at a stroke as those do.
    lettered = {mark.head.source for mark in marks_of(sheet, sheet.edges, (), labels, tolerance) if mark.letter in labels}
    kept, heads = without_dimensions(sheet.edges, [arrow for arrow in sheet.arrows if arrow.source not in lettered], tolerance)
    if len(kept) < len(sheet.edges):
        lines = len(sheet.edges) - len(kept)
        tell(noted.left_out(f"{many(lines, 'line')} of exploded dimensions, with {many(len(heads), 'arrow head')}", lines))
    marks = marks_of(sheet, kept, heads, labels, tolerance)
    sheet.edges = without_marks(kept, marks)
    if marks:
        letters = ", ".join(dict.fromkeys(f"{mark.letter}-{mark.letter}" for mark in marks))
        lines = len(kept) - len(sheet.edges)
        tell(noted.left_out(f"{many(lines, 'line')} at the ends of the cutting-plane lines {letters}", lines))
    # Some of these may have been taken for dimensions, which are apart as well.
    more = unlettered(sheet, sheet.edges, (), tolerance) if not marks and not labels else []
    if more:
        lines, sheet.edges = len(sheet.edges), without_marks(sheet.edges, more)
        lines -= len(sheet.edges)
        sheet.unlettered = [mark.head.source for mark in more]
        tell(noted.left_out(f"{many(lines, 'line')} at the ends of {many(len(more) // 2, 'cutting-plane line')} without letters", lines))
    gone = {head.source for head in heads} | {mark.head.source for mark in (*marks, *more)}
    sheet.unread = [it for it in sheet.unread if it.source not in gone]
    return marks


def straight_runs(edges: Mapping[str, list[Edge]], tolerance: float, tell: Tell) -> dict[str, list[Run]]:
    """The runs of the edges under each name."""
    runs: dict[str, list[Run]] = {}
    pieces = short = 0
    for name, its in edges.items():
        runs[name], joined, without = runs_of(its, tolerance)
        if len(runs[name]) > MOST_RUNS:
            raise Refused(f"{len(runs[name]):,} lines once pieces are joined, more than {MOST_RUNS:,}")
        pieces, short = pieces + joined, short + without
    if pieces:
        tell(noted.changed(f"{many(pieces, 'piece')} joined with others in their line, or drawn there twice", pieces))
    if short:
        tell(noted.left_out(f"{many(short, 'line')} without length", short))
    return runs


def placed_views(sheet: Sheet, edges: Sequence[Edge], marks: Sequence[Mark], arguments: argparse.Namespace, tell: Tell) -> Placed:
    """The views of the edges of a sheet, by their names or by their places."""
    numbers = [numbers_of(text.removeprefix("group=")) for text in arguments.leave_out if text.startswith("group=")]
    if not all(numbers):
        raise Refused("not group=NUMBER, nor several as group=4,7-9")
    named = named_views(edges, arguments.tolerance)
    runs = straight_runs(named or {"": list(edges)}, arguments.tolerance, tell)
    others = runs.pop("", [])
    if not others and not any(runs.values()):
        raise Refused("no straight line in the model space that could be an edge")
    told = sections_of(sheet, marks, arguments.tolerance)
    hints = Hints(arguments.tolerance, arguments.angle, frozenset(itertools.chain(*numbers)), sheet.texts, told.among, curves_of(sheet),
                  *texts_of(sheet))
    if named:
        if empty := [view for view, its in runs.items() if not its]:
            raise Refused(f"no straight line of {empty[0]} that could be an edge")
        placed = by_names(runs, others, hints)
    else:
        placed = two_views.by_places(others, hints)
    for note in placed.notes:
        tell(note)
    return placed


def texts_of(sheet: Sheet) -> tuple[list[titles.Title], titles.Said]:
    """The texts of a sheet that name views, and the angle that its projection's name says; of a page of FreeCAD views have their directions."""
    texts = [titles.Text(it.text, it.place) for it in words_of_sheet(sheet)] if not sheet.page else []
    return titles.titles_in(texts), titles.projection_in([*(it.text for it in texts), *sheet.stamps])


def curves_of(sheet: Sheet) -> list[Unread]:
    """What can't be read of a sheet and may be of a view."""
    return [it for it in sheet.unread if it.box and it.source.kind not in ("SOLID", "TRACE")]


def found_views(path: str | None, sheet: Sheet, edges: Sequence[Edge], marks: Sequence[Mark], arguments: argparse.Namespace, tell: Tell) -> Placed:
    """The views; where there are none without lines of an unknown style, these are named."""
    try:
        return placed_views(sheet, edges, marks, arguments, tell)
    except OtherAngle:
        raise
    except Refused:
        if unstyled := next((it for it in sheet.unread if it.linetype), None):
            raise Refused(f"a {where(unstyled.source, path)} {unstyled.why}, and without such lines the views aren't there: "
                          f"{way_of_style(unstyled)}") from None
        raise


def check_styles(placed: Placed, writers: Container[str], arguments: argparse.Namespace, tell: Tell) -> None:
    """Where no line is hidden, refuses what may tell hidden lines otherwise, by colours or by a second export."""
    runs = [run for group in placed.views.values() for run in group.runs]
    alone = getattr(arguments, "visible_edges_alone", False)
    if alone or arguments.all_visible or arguments.visible_only or arguments.pairs or any(run.hidden for run in runs):
        return
    colours = sorted({run.edge.colour for run in runs})
    layers = sorted({run.edge.source.layer for run in runs})
    if len(colours) > 1:
        raise Refused(f"no line is hidden by its linetype or layer, and the views have lines of colours {', '.join(map(str, colours))}: say "
                      f"which are hidden by {option('hidden', 'color=NUMBER')}, or {option('all-visible')}")
    if FREECAD in writers or any(layer.startswith("ProjItem") for layer in layers):
        raise Refused("a page that FreeCAD exported, which tells no linetypes: export it a second time with hidden lines off and name that "
                      f"by {option('visible-only')}, or say {option('all-visible')} where no line is hidden")
    tell(noted.warning(f"no line is hidden, on the layers {', '.join(layers)}; where some are, say which by {option('hidden')}; where they "
                       f"aren't drawn, {command('solve', 'visible-edges-alone')} lists some solids that have the visible ones"))


# ---- what is written

Whole = tuple[bool, bool, int, int, int]


def moved(group: Group, mirrored: bool) -> list[tuple[bool, bool, float, float, float]]:
    """The runs of a view from its least corner on, mirrored where that is asked for."""
    x, y, right, _ = group.box
    runs = []
    for run in group.runs:
        at, low, high = (run.at - x, run.low - y, run.high - y) if run.upright else (run.at - y, run.low - x, run.high - x)
        if mirrored and run.upright:
            at = right - x - at
        elif mirrored:
            low, high = right - x - high, right - x - low
        runs.append((run.hidden, run.upright, at, low, high))
    return runs


def plain(runs: Sequence[Whole]) -> list[Whole]:
    """The same runs, each stretch once: hidden ones without what lies under visible ones."""
    rows: dict[tuple[bool, int], list[Whole]] = {}
    for run in runs:
        rows.setdefault((run[1], run[2]), []).append(run)
    result: list[Whole] = []
    for (upright, at), row in sorted(rows.items()):
        stops = sorted({stop for run in row for stop in run[3:]})
        for low, high in zip(stops, stops[1:]):
            styles = [hidden for hidden, _, _, first, last in row if first <= low and high <= last]
            if not styles:
                continue
            last = result[-1] if result else None
            if last and last[:3] == (all(styles), upright, at) and last[4] == low:
                result[-1] = (*last[:4], high)
            else:
                result.append((all(styles), upright, at, low, high))
    return result


def strokes_of(placed: Placed, measure: Measure) -> tuple[dict[str, list[Stroke]], int]:
    """The strokes of the views where they are written, in units of the last decimal, and how many hidden ones lay under visible ones."""
    views, under = {}, 0
    sizes: dict[int, tuple[str, int]] = {}
    for view, group in placed.views.items():
        runs = [(hidden, upright, measure.units(at), measure.units(low), measure.units(high))
                for hidden, upright, at, low, high in moved(group, placed.mirrored)]
        views[view] = plain([run for run in runs if run[3] < run[4]])
        under += max(0, len(runs) - len(views[view]))
        for axis, told, extent in extents_of(view, group):
            first, size = sizes.setdefault(axis, (told, measure.units(extent)))
            if size != measure.units(extent):
                raise Refused(f"the views don't agree in whole units: {first} {size}, and {told} {measure.units(extent)}")
    width, depth, height = (sizes[axis][1] for axis in range(3))
    places = places_of(width, depth, height, MARGIN * 10**measure.decimals)
    if any(abs(at) + max(width, depth, height) > FARTHEST for view in views for at in places[view]):
        raise Refused(f"the part is more than {FARTHEST:,} units of its last decimal")
    return {view: [stroke(run, *places[view]) for run in runs] for view, runs in views.items()}, under


def stroke(run: Whole, right: int, up: int) -> Stroke:
    hidden, upright, at, low, high = run
    if upright:
        return hidden, (at + right, low + up), (at + right, high + up)
    return hidden, (low + right, at + up), (high + right, at + up)


def scale_in_use(path: str | None, sheet: Sheet, placed: Placed, arguments: argparse.Namespace, tell: Tell) -> Fraction:
    """The scale that is said, or that the sheet's dimensions and a text of it say."""
    said = scale.Scale(scale_of(arguments.scale or "1:1"), arguments.scale is not None)
    times = scale.checked(sheet, list(placed.views.values()), said, arguments, lambda source: where(source, path), tell)
    scale.check_size(sheet, list(placed.views.values()), times, arguments, lambda source: where(source, path), tell)
    for text in sorted(sheet.scales - {"1:1", scale.scale_told(times)}):
        tell(noted.found(f"a text says {text}; lengths are taken {'as drawn' if times == 1 else 'by ' + scale.scale_told(times)}"))
    if times != 1:
        tell(noted.changed(f"lengths multiplied by {times}, as the scale {scale.scale_told(times)} says"))
    return times


def coordinates_of(view: str, group: Group) -> list[At]:
    """The coordinates of a view's runs, with which of the sheet they are."""
    least = group.box[:2]
    found = []
    for run in group.runs:
        across, along = (0, 1) if run.upright else (1, 0)
        for axis, place in ((across, run.at), (along, run.low), (along, run.high)):
            found.append(At(place - least[axis], view, "xy"[axis], place, run.edge.source))
    return found


def measured(path: str | None, placed: Placed, times: Fraction, arguments: argparse.Namespace, tell: Tell, more: Iterable[At] = ()) -> Measure:
    """How the views' lengths become whole, and some more of the sheet."""
    ats = list(more)
    for view, group in placed.views.items():
        its = coordinates_of(view, group)
        for axis in "xy":
            apart({it.length: it for it in its if it.axis == axis}.values(), arguments.tolerance, lambda source: where(source, path))
        ats += its
    measure = measure_of([it.length for it in ats], times, arguments.sheet_decimals, arguments.tolerance)
    if measure is None:
        raise unfit(path, ats, times, arguments)
    if measure.moved > 1e-12:
        tell(noted.changed(f"coordinates moved by {measure.moved:.2g} at most, to {many(measure.decimals, 'decimal')}"))
    if measure.times != times:
        tell(noted.changed(f"lengths multiplied by {measure.times / times}, since they have no decimals, and are whole in parts of a unit"))
    return measure


def unfit(path: str | None, ats: Sequence[At], times: Fraction, arguments: argparse.Namespace) -> Refused:
    """The refusal of lengths that aren't whole in any unit, with an option by which they are, where there is one."""
    decimals, tolerance = arguments.sheet_decimals, arguments.tolerance
    lengths = [it.length for it in ats]
    odd = next((it for it in ats if measure_of([it.length], times, MOST_DECIMALS if decimals is None else decimals, tolerance) is None), ats[0])
    kinds = f"up to {MOST_DECIMALS} decimals, nor do all lengths fit parts of a unit" if decimals is None else many(decimals, "decimal")
    wider = next((f"{tolerance * it:g}" for it in (10, 100) for count in range(MOST_DECIMALS)
                  if fits(lengths, times, count, tolerance * it) is not None), "")
    way = "draw it with fewer decimals"
    if wider:
        way = f"say {option('tolerance', wider)} where this is noise"
    if decimals is not None and measure_of(lengths, times, None, tolerance):
        way = without('sheet-decimals')
    return Refused(f"in {odd.view} {odd.told(lambda source: where(source, path))} is {odd.length:.9g} from the view's least {odd.axis}, which doesn't "
                   f"fit {kinds}: {way}")


def draw(path: str | None, arguments: argparse.Namespace, tell: Tell) -> Drawn:
    """The drawing of a sheet. What is changed, found and left out is told as it comes."""
    drawn = draw_readings(path, arguments, tell)
    if drawn.refused:
        raise drawn.refused
    return drawn


def draw_readings(path: str | None, arguments: argparse.Namespace, tell: Tell) -> Drawn:
    """The drawing of a sheet, as `draw`, with its further readings where it has rounds. Where the user or a text of the sheet says the angle in
    which its views don't stand unless it is turned by 180 degrees, it is turned."""
    try:
        return draw_upright(path, arguments, tell)
    except OtherAngle as cause:
        other = argparse.Namespace(**{**vars(arguments), "angle": cause.said.angle, "is_turned": True})
        tell(noted.found(f"{cause.said.angle} angle, as the text {cause.said.words} says"))
        return draw_turned(path, other, tell)._replace(angle_by=cause.said.words)
    except Refused:
        if arguments.angle is None or is_turned(arguments):
            raise
        told: list[Note] = []
        try:
            drawn = draw_turned(path, argparse.Namespace(**{**vars(arguments), "is_turned": True}), told.append)
        except Refused:
            drawn = None
        if drawn is None:
            raise
    for note in told:
        tell(note)
    return drawn


def draw_turned(path: str | None, arguments: argparse.Namespace, tell: Tell) -> Drawn:
    """The drawing of a sheet that is turned by 180 degrees to be read in its angle."""
    drawn = draw_upright(path, arguments, tell)
    tell(noted.changed(f"the sheet is turned by 180 degrees to be read in {arguments.angle} angle, and the part comes out upside down"))
    return drawn


def draw_upright(path: str | None, arguments: argparse.Namespace, tell: Tell) -> Drawn:
    """The drawing of a sheet as it is read, with its further readings where it has rounds."""
    if not 0 < arguments.tolerance < 1e6:
        raise Refused(f"no tolerance: {arguments.tolerance}")
    sheet, marks = edges_of(path, arguments, tell)
    sheet, arguments = without_noise(path, sheet, marks, arguments, tell)
    try:
        refuse_missing(path, sheet.missing)
        moved_apart(sheet, arguments.tolerance, tell)
        if not sheet.arcs and not has_oblique(path, sheet, marks, arguments):
            return draw_straight(path, sheet, marks, arguments, tell)
        from ..rounds import pipeline  # which draws by what stands here
        drawn = pipeline.first(path, sheet, marks, arguments, tell)
        return drawn._replace(refused=drawn.refused and advised(path, sheet, arguments, drawn.refused))
    except Refused as refusal:
        raise advised(path, sheet, arguments, with_ways(path, sheet, arguments, refusal)) from None


def without_noise(
    path: str | None, sheet: Sheet, marks: Sequence[Mark], arguments: argparse.Namespace, tell: Tell
) -> tuple[Sheet, argparse.Namespace]:
    """The sheet without the noise of its coordinates, and the arguments with the tolerance that was found; both as they are where there is none,
    or it isn't told from details."""
    if sheet.page or sheet.seen or not sheet.edges or any(edge.source.file for edge in sheet.edges):
        return sheet, arguments
    edges = noise.with_squares(sheet)

    def place(tolerance: float) -> Placed | None:
        try:
            return found_views(path, sheet, edges, marks, with_tolerance(arguments, tolerance), noted.tell_none)
        except Refused:
            return None

    is_said = arguments.tolerance != TOLERANCE
    slant = noise.slant_of(sheet.edges, TOLERANCE)
    if not is_said and not slant and noise.is_plain(sheet.edges):
        return sheet, arguments
    tried = [arguments.tolerance] if is_said else [it for it in (TOLERANCE, *noise.TRIED) if it >= slant]
    found = next((it for one in tried if (it := noise.found_with(sheet, one, TOLERANCE, place))), None)
    if found is None or found.grid.off <= noise.EXACT and not slant or not (is_said or found.is_clear):
        return sheet, arguments
    way = "" if is_said else f", as with {option('tolerance', f'{found.tolerance:g}')}"
    tell(noted.found(f"coordinates are off by up to {max(found.grid.off, slant / 2):.2g} from multiples of {found.grid.unit:.6g}, which is noise: each "
                     f"was moved to its multiple{way}"))
    return noise.without(sheet, found), with_tolerance(arguments, found.tolerance)


def with_tolerance(arguments: argparse.Namespace, tolerance: float) -> argparse.Namespace:
    return argparse.Namespace(**{**vars(arguments), "tolerance": tolerance})


def with_ways(path: str | None, sheet: Sheet, arguments: argparse.Namespace, refusal: Refused) -> Refused:
    """A refusal with what was tried and draws the sheet, unless it is tried for another one: the layers that were left out by their names, as
    visible; and where lines are a little off from level or upright a greater tolerance."""
    if isinstance(refusal, Advisable) or getattr(arguments, "is_tried", False):
        return refusal
    layers = outlines.left_by_names(sheet, choices_of(arguments))
    slant = noise.slant_of(sheet.edges, arguments.tolerance)
    wider = next((it for it in noise.TRIED if slant and it >= slant and is_drawn(path, arguments, tolerance=it)), None)
    told = with_layers(refusal, [it for it in layers if is_drawn(path, arguments, visible=[*arguments.visible, f"layer={it}"])])
    way = option("tolerance", f"{wider:g}") if wider else ""
    return told.with_words(f"\n  lines are off from level or upright by up to {slant:.2g}: where that is noise, say {way}") if way else told


def is_drawn(path: str | None, arguments: argparse.Namespace, **more: Any) -> bool:
    """Whether a sheet is drawn with some options otherwise."""
    try:
        draw(path, argparse.Namespace(**{**vars(arguments), **more, "is_tried": True}), noted.tell_none)
    except Refused:
        return False
    return True


def advised(path: str | None, sheet: Sheet, arguments: argparse.Namespace, refusal: Refused) -> Refused:
    """A refusal with its advice, unless this sheet is tried for that of another one."""
    if not isinstance(refusal, Advisable) or getattr(arguments, "is_tried", False):
        return refusal
    cause: Advisable = refusal
    edges = [edge.source for edge in sheet.edges] + [arc.source for arc in sheet.arcs]
    return cause.advised(edges, lambda changes: gets_further(path, arguments, cause, changes))


def gets_further(path: str | None, arguments: argparse.Namespace, refusal: Advisable, changes: Mapping[str, object]) -> bool:
    """Whether a sheet that was refused is drawn, or refused for another entity, with what is advised."""
    more: dict[str, Any] = {name: [*getattr(arguments, name), *it] if isinstance(it, list) else it for name, it in changes.items()}
    try:
        draw(path, argparse.Namespace(**{**vars(arguments), **more, "is_tried": True}), noted.tell_none)
    except Advisable as other:
        return bool(other.sources) and not other.sources & refusal.sources
    except Refused:
        return False
    return True


def has_oblique(path: str | None, sheet: Sheet, marks: Sequence[Mark], arguments: argparse.Namespace) -> bool:
    """Whether views that stand on one sheet have oblique edges."""
    if all(min(abs(a - b) for a, b in zip(edge.start, edge.end)) <= arguments.tolerance or edge.source.file for edge in sheet.edges):
        return False
    try:
        placed = found_views(path, sheet, sheet.edges, marks, arguments, noted.tell_none)
    except Refused:
        return False
    return len(main_named(placed.views)) == len(VIEWS) and any(run.oblique for group in placed.views.values() for run in group.runs)


def draw_straight(path: str | None, sheet: Sheet, marks: Sequence[Mark], arguments: argparse.Namespace, tell: Tell) -> Drawn:
    """The drawing of a sheet without rounds."""
    placed = checked_views(path, sheet, sheet.edges, marks, arguments, tell)
    times = scale_in_use(path, sheet, placed, arguments, tell)
    measure = measured(path, placed, times, arguments, tell)
    if not placed.sections and not (sheet.page and sheet.page.cuts):
        return drawn_views(path, sheet, placed, times, measure, arguments, tell)
    layers = section_views.layers_of(sheet, marks, placed, times, measure, arguments, tell)
    return drawn_views(path, sheet, placed, times, layers.measure, arguments, tell, layers.comments, layers.strokes)


def checked_views(path: str | None, sheet: Sheet, edges: Sequence[Edge], marks: Sequence[Mark], arguments: argparse.Namespace, tell: Tell) -> Placed:
    """The views of a sheet; refused where something in them can't be read."""
    placed = found_views(path, sheet, edges, marks, arguments, tell)
    refuse_strokes(path, placed, sheet.unclear)
    refuse_half({view: group.box for view, group in placed.views.items()}, sheet.edges, sheet.chains, arguments.tolerance)
    left = refuse_unread(path, placed, sheet.unread, arguments.tolerance)
    left.update(refuse_covered(path, placed, sheet.covers, arguments.tolerance))
    for note in noted.counted("left out", left):
        tell(note)
    refuse_oblique(path, placed)
    refuse_hidden_outline(placed, choices_of(arguments), arguments.tolerance)
    if not sheet.page:
        check_styles(placed, sheet.writers, arguments, tell)
    return placed


def drawn_views(
    path: str | None, sheet: Sheet, placed: Placed, times: Fraction, measure: Measure, arguments: argparse.Namespace, tell: Tell, comments: str = "",
    layers: Mapping[str, list[Stroke]] = {},
) -> Drawn:
    """The drawing of the views at a scale and of layers of sections, with some comments before it."""
    views, under = strokes_of(placed, measure)
    if under:
        tell(noted.left_out(f"{many(under, 'hidden stretch', 'hidden stretches')} under visible ones, or joined", under))
    if placed.mirrored:
        tell(noted.changed("the side view is the left one, so all views are drawn in a mirror, x turned round"))
    # Lengths by the scale are told as real ones: only what was needed to make them whole is told apart.
    origin = Origin(sheet.unit, measure.times / times, placed.mirrored)
    lines = sum(map(len, (*views.values(), *layers.values())))
    hidden = sum(one[0] for strokes in views.values() for one in strokes)
    tell(noted.drawn(f"{many(lines, 'line')}, {hidden} of them hidden; recon reads it with {option('decimals', str(measure.decimals))}", lines))
    begins = {view: least_of(its) for view, its in views.items()}
    units = 10**measure.decimals
    paper = Paper(placed.views, begins, measure.times * units, origin.times * units, placed.mirrored, arguments.tolerance,
                  lambda source: where(source, path), is_turned(arguments))
    text = comments + written({**views, **layers}, measure.decimals, origin)
    return Drawn(text, measure.decimals, origin, paper, page=sheet.page, has_sections=bool(layers),
                 reasons=(*strokes.reasons_of(sheet, [group.box for group in placed.views.values()]), *of_sections(sheet, placed, bool(layers))),
                 angle=placed.angle, angle_by=placed.angle_by)


def of_sections(sheet: Sheet, placed: Placed, are_read: bool) -> Iterator[Reason]:
    """What is left open by a section that is left out, since the ends of its cutting-plane line have no letters."""
    if sheet.unlettered and placed.sections and not are_read:
        yield Reason(Doubt.CONTENT_NOT_READ, "Not checked: whether the solids have what the section shows. Its cutting-plane line has no letters, so the "
                     "section was left out.", (("sections", len(placed.sections)),))


def least_of(strokes: Sequence[Stroke]) -> tuple[int, int]:
    """The least coordinates of strokes."""
    ends = [end for _, *its in strokes for end in its]
    return min(x for x, _ in ends), min(y for _, y in ends)


def run(arguments: argparse.Namespace) -> int:
    drawn = draw(arguments.sheet, arguments, lambda note: say(f"draft sheet: {note}"))
    for note in drawn.notes:
        say(f"draft sheet: {note}")
    write_result(drawn.text, arguments.output)
    return 0
