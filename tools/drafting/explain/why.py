"""Says what would have to be drawn otherwise in a drawing that no solid has.

First all single changes: one stretch of one grid line of one view, between two grid coordinates, becomes solid, dashed or blank
throughout; one line of the file is left out, turned to the other style or moved to the next grid coordinate. Where rules about
columns of cells don't refuse a change at once, the proved program is run on the changed drawing, so that each number of solids
told is the program's own. Where no single change gives a solid, clingo looks for the least length of segments to be drawn
otherwise (apt-get install gringo), and the program is run on what it found. That nothing is found is an answer too.

Each view may be taken to begin outside what is drawn of it, where another view reaches farther along the same axis. Where solids have
the three main views, and none the further ones and the sections too, it says what of these the nearest solid shows otherwise, and whether
some have them without one of the sections, or with that seen from the other side or mirrored.
"""
import argparse
import itertools
import pathlib
from collections.abc import Callable, Iterator
from typing import NamedTuple

from ..core.messages import Progress, Refused, many, say, write_result
from ..dxf.drawing import VIEWS, Line, Origin, written
from ..projection.draw import AXES, BLANK, DASHED, FRAMES, SOLID, STYLES, Grid, Row, Sheet, Stroke, grid_of, runs_of
from ..projection.sections import further_lines, layer_of
from ..recon import faults, process, many as trials
from ..recon.answer import FAULT, WHOLE, answer_of
from ..recon.many import Outcome, Tried
from ..render import picture
from ..rounds.features import Chamfer, Given, given_in
from ..rounds.rounds import Quarter, Slant
from ..rounds.tangent_edges import shared_axis
from ..solve import pipeline
from ..solve.verdict import verdict_of
from . import edits, least_edit, further_views
from .edits import Change, Judged, Kind

NAME = "why"
HELP = "what would have to be drawn otherwise, where no solid has the views"

SQUARED = "Its {} are squared off: what is told is of that drawing, where each circle is its square, and an oblique edge a corner."
# How many changed drawings the program is run on, and for how many seconds clingo looks, unless the arguments say otherwise.
RUNS, SEARCH = 10_000, 60.0


def add_arguments(parser: argparse.ArgumentParser) -> None:
    parser.add_argument("drawing", metavar="FILE.dxf")
    parser.add_argument("--runs", type=int, default=RUNS, help=f"on how many changed drawings the program is run at most ({RUNS:,})")
    parser.add_argument("--search", type=float, default=SEARCH, metavar="SECONDS", help=f"how long clingo may look ({SEARCH:g} s)")
    parser.add_argument("--write", metavar="OUT.dxf", help="write the drawing with the first of the suggestions, or with --take")
    parser.add_argument("--picture", metavar="OUT.svg", help="draw it, with the place of the suggestion marked, and what it gives")
    parser.add_argument("--take", type=int, default=1, metavar="N", help="the suggestion that is written or drawn, from 1")
    parser.add_argument("--processes", type=int, help="how many processes work at it; else one for each processor")
    pipeline.add_arguments(parser)


class Placed(NamedTuple):
    """The drawing with its views in some places, what is wrong in it, and its rows as lines of a file; and its rounds, where some were
    squared off."""

    sheet: Sheet
    judged: Judged
    tried: Tried
    given: Given | None = None

    @property
    def grid(self) -> Grid:
        return self.judged.grid


class Suggestion(NamedTuple):
    """A changed drawing that some solid has: which rows become what, how it is told, and what the program says."""

    placed: Placed
    rows: tuple[tuple[Row, bytes], ...]
    words: list[str]
    length: int
    outcome: Outcome


class Limits(NamedTuple):
    """How far is looked: so many runs of the program, and so many seconds of clingo; and by how many processes."""

    runs: int = RUNS
    search: float = SEARCH
    processes: int | None = None


# ---- what is drawn, and where the views may stand

def placed_views(sheet: Sheet, given: Given | None = None) -> Iterator[Placed]:
    """The sheet as it is; then, for each axis along which one of two views reaches less far, with that view moved to the other's
    far end too."""
    moves = []
    for sides in edits.ACROSS:
        reach = [sheet.extent(view, not upright) for view, upright in sides if view in sheet.origins]
        if len(set(reach)) == 2:
            view, upright = sides[reach[0] > reach[1]]
            moves.append((view, upright, abs(reach[0] - reach[1])))
    for count in range(len(moves) + 1):
        for chosen in itertools.combinations(moves, count):
            moved = sheet
            for view, upright, far in chosen:
                moved = moved.moved(view, far if upright else 0, 0 if upright else far)
            grid = grid_of(moved)
            yield Placed(moved, edits.judged(grid), Tried(grid), given)


def known_head(asked: pipeline.Asked) -> str:
    """The first line of what the program says of the drawing; refused where that isn't that some or no solid has it."""
    head = asked.run.text.partition("\n")[0]
    if FAULT.fullmatch(head):
        raise Refused("; ".join(faults.told(head, asked.lines)))
    if head.startswith("cut nodes") and asked.run.text.count("\n") == 1:
        raise Refused(f"whether some solid has these views isn't known, since its search was cut: {head}")
    return head


# ---- telling a change

def lines_told(placed: Placed, row: Row, low: int, high: int, stroke: Stroke | None = None) -> str:
    """The lines of the file that draw a stretch of a row, or the one that is meant."""
    along = placed.grid.along(row)
    over = [it for it in placed.grid.strokes.get(row, ()) if it.low < along[high] and it.high > along[low]]
    numbers = sorted({it.told[0] for it in ([stroke] if stroke else over)})
    return placed.sheet.told(row.view, *ends_of(placed, row, low, high), numbers)


def where(placed: Placed, row: Row, low: int, high: int) -> str:
    """A stretch of a row in the coordinates of the sheet."""
    ends = ends_of(placed, row, low, high)
    return " to ".join(f"({right}, {up})" for right, up in (placed.sheet.place(row.view, *it) for it in ends))


def ends_of(placed: Placed, row: Row, low: int, high: int) -> tuple[tuple[int, int], tuple[int, int]]:
    """The ends of a stretch of a row, from where its view begins."""
    along, at = placed.grid.along(row), placed.grid.ats(row)[row.number]
    start, end = ((at, along[it]) if row.upright else (along[it], at) for it in (low, high))
    return start, end


def round_told(placed: Placed, row: Row, low: int, high: int) -> str:
    """The circle, on a side of whose square a stretch of a row lies, or whose side another view shows there."""
    if not placed.given:
        return ""
    unit = 10**placed.sheet.decimals
    along, at = placed.grid.along(row), placed.grid.ats(row)[row.number] / unit
    for one in placed.given.squared:
        if one.view == row.view and any(is_on_square(it, row.upright, at, along[low] / unit, along[high] / unit) for it in one.quarters):
            return f", by the corner of an {one}" if isinstance(one, Chamfer) else f", by the square of a {one}"
        axis = shared_axis(one.view, row.view) if one.view != row.view else None
        if axis is not None and row.upright == (axis == FRAMES[row.view].right):
            across = 0 if axis == FRAMES[one.view].right else 1
            if any(abs(it.corner[across] - at) < 1e-6 for it in one.quarters):
                return f", where {'an' if isinstance(one, Chamfer) else 'a'} {one} is seen from its side"
    return ""


def is_on_square(quarter: Quarter | Slant, is_upright: bool, at: float, low: float, high: float) -> bool:
    """Whether a stretch lies along a side at a quarter's sharp corner."""
    across, way = (0, 1) if is_upright else (1, 0)
    return abs(quarter.corner[across] - at) < 1e-6 and low < quarter.box[way + 2] and high > quarter.box[way]


def was_drawn(styles: bytes) -> str:
    """How some segments are drawn: `drawn dashed`, `not drawn`, `drawn dashed in part`."""
    found = sorted(set(styles) - {BLANK})
    words = " and ".join(STYLES[style] for style in found)
    return "not drawn" if not found else f"drawn {words}{' in part' if BLANK in styles else ''}"


def change_told(placed: Placed, change: Change) -> str:
    """A single change, up to what it would give."""
    row, low, high = change.row, change.low, change.high
    place = f"{row.view} {where(placed, row, low, high)}{round_told(placed, row, low, high)}{lines_told(placed, row, low, high, change.stroke)}"
    if change.to:
        return f"{place}: moving it to {where(placed, change.to, low, high)}"
    if change.kind is Kind.LEFT_OUT and change.stroke:
        return f"{place}: drawn {STYLES[DASHED if change.stroke.dashed else SOLID]}; leaving it out"
    return f"{place}: {was_drawn(placed.grid.panels[row][low:high])}; {STYLES[change.style]}"


def segments_of(placed: Placed, row: Row, styles: bytes) -> Iterator[tuple[int, int, int, int]]:
    """The stretches of a row that are drawn otherwise, each from one segment up to another, of one style before and of one afterwards."""
    at = 0
    for (was, will), group in itertools.groupby(zip(placed.grid.panels[row], styles)):
        end = at + sum(1 for _ in group)
        if was != will:
            yield at, end, was, will
        at = end


def segments_told(placed: Placed, row: Row, styles: bytes) -> Iterator[str]:
    """The same in words."""
    for at, end, was, will in segments_of(placed, row, styles):
        place = f"{row.view} {where(placed, row, at, end)}{round_told(placed, row, at, end)}{lines_told(placed, row, at, end)}"
        yield f"{place}: {was_drawn(bytes([was]))}; {STYLES[will]}"


# ---- single changes

Found = Callable[[Suggestion], None]


def said_found(suggestion: Suggestion) -> None:
    say(f"draft why: found: {suggestion.words[0]}")


def single_changes(
    path: pathlib.Path, all_placed: list[Placed], limits: Limits, tell: Found = said_found
) -> tuple[list[Suggestion], int, int]:
    """The single changes that give solids, each told as it is found; how many runs it took, and how many changes weren't tried."""
    items = [
        (number, change) for number, placed in enumerate(all_placed) for change in edits.single_changes(placed.judged)
    ]
    items.sort(key=lambda item: (item[1].rank, -item[1].length))

    def trial(at: object) -> object:
        assert isinstance(at, int)
        number, change = items[at]
        placed = all_placed[number]
        return None if edits.is_refused(placed.judged, change) else trials.outcome(path, placed.tried.words, placed.tried.changed(change.rows))

    found: list[Suggestion] = []
    runs = at = 0
    with trials.on_all_processors(trial, list(range(len(items))), limits.processes) as outcomes:
        for at, outcome in enumerate(outcomes, 1):
            runs += outcome is not None
            if isinstance(outcome, Outcome) and (outcome.count or outcome.more):
                number, change = items[at - 1]
                words = [f"{change_told(all_placed[number], change)} would give {outcome.words}"]
                found.append(Suggestion(all_placed[number], change.rows, words, change.length, outcome))
                tell(found[-1])
            Progress.show(f"{at:,} of {len(items):,} changes, {many(runs, 'run')}, {len(found)} found")
            if runs >= limits.runs:
                break
    Progress.clear()
    found.sort(key=lambda it: (it.outcome.count or 0, it.outcome.more, it.length))
    return found, runs, len(items) - at


# ---- the least change

def least_changes(path: pathlib.Path, all_placed: list[Placed], seconds: float) -> tuple[list[Suggestion], bool]:
    """The least changes that clingo finds, each tried by the program, and whether nothing less would do."""
    found: list[Suggestion] = []
    sure = True
    for number, placed in enumerate(all_placed):
        Progress.show(f"clingo looks for the least change, for {seconds:g} seconds at most", 0)
        rows, length, is_least = least_edit.change_of(placed.grid, seconds / len(all_placed))
        sure = sure and is_least
        for changed in rows:
            outcome = trials.outcome(path, placed.tried.words, placed.tried.changed(changed))
            words = [told for row, styles in changed for told in segments_told(placed, row, styles)]
            found.append(Suggestion(placed, changed, words, length, outcome))
    Progress.clear()
    shortest = min((it.length for it in found), default=0)
    return [it for it in found if it.length == shortest], sure


# ---- what is told and written

def told_least(found: list[Suggestion], sure: bool, seconds: float, placed: Placed) -> list[str]:
    """The least change in words."""
    if not found:
        why = "clingo says that there is no such drawing on this grid" if sure else f"clingo found none within {seconds:g} seconds"
        return [f"No change was found: {why}."]
    first = found[0]
    length = placed.sheet.length(first.length)
    rows = [f"The least change, {length} long in all:" if sure else f"A change {length} long in all; a lesser one may do:"]
    for number, one in enumerate(found):
        rows += ["or else:"] if number else []
        rows += [f"  {words}" for words in one.words]
        rows.append(f"  so drawn, the program lists {one.outcome.words}")
    return rows


def written_with(suggestion: Suggestion, origin: Origin) -> str:
    """The drawing with a suggestion, where it stood on the sheet."""
    placed = suggestion.placed
    panels = {**placed.grid.panels, **dict(suggestion.rows)}
    views: dict[str, list[tuple[bool, tuple[int, int], tuple[int, int]]]] = {}
    for row, styles in panels.items():
        x, y = placed.sheet.origins[row.view]
        along, at = placed.grid.along(row), placed.grid.ats(row)[row.number]
        for style, low, high in runs_of(styles):
            ends = [(x + at, y + along[end]) if row.upright else (x + along[end], y + at) for end in (low, high)]
            views.setdefault(row.view, []).append((style == DASHED, ends[0], ends[1]))
    return written(views, placed.sheet.decimals, origin)


def lines_of_run(placed: Placed, row: Row, run: tuple[int, int, int], told: int) -> Line:
    """A run of a row as a line that this number of the file tells."""
    style, low, high = run
    along, at = placed.grid.along(row), placed.grid.ats(row)[row.number]
    start, end = ((at, along[it]) if row.upright else (along[it], at) for it in (low, high))
    return Line(style == DASHED, start, end, (told, told))


def marked_views(suggestion: Suggestion) -> dict[str, list[Line]]:
    """The drawing's views with the place of a suggestion as lines that line 1 of the file tells. What is to be drawn where there is
    nothing yet is there already."""
    placed = suggestion.placed
    views: dict[str, list[Line]] = {view: [] for view in VIEWS}
    for row, before in placed.grid.panels.items():
        views[row.view] += [lines_of_run(placed, row, run, 0) for run in runs_of(before)]
    for row, after in suggestion.rows:
        before = placed.grid.panels[row]
        changed = bytes((was or will) if was != will else BLANK for was, will in zip(before, after))
        views[row.view] += [lines_of_run(placed, row, run, 1) for run in runs_of(changed)]
    return views


def picture_of(path: pathlib.Path, suggestion: Suggestion) -> str:
    """The drawing with the place of a suggestion marked, and the first solids that it gives."""
    words = [*suggestion.placed.tried.words, "--nodes", trials.NODES, "--solids", trials.SOLIDS]
    text = process.run(path, words, suggestion.placed.tried.changed(suggestion.rows)).text
    return "".join(f"{line}\n" for line in picture.picture(marked_views(suggestion), text, 1))


def looked_at(
    path: pathlib.Path, sheet: Sheet, head: str, limits: Limits, tell: Found = said_found, given: Given | None = None
) -> tuple[list[str], list[Suggestion]]:
    """What is told of a drawing that no solid has, and the suggestions in its order. The head is what the program says of it."""
    all_placed = list(placed_views(sheet, given))
    grid = all_placed[0].grid
    flat = [AXES[axis] for axis, cut in enumerate(grid.cuts) if len(cut) < 2]
    if flat:
        return [f"No solid has these views: they have no extent along {' and '.join(flat)}."], []
    if process.run(path, all_placed[0].tried.words, all_placed[0].tried.changed(())).text.partition("\n")[0] != head:
        raise Refused("the program reads this drawing otherwise than it is read here")
    found, runs, untried = single_changes(path, all_placed, limits, tell)
    rows = [f"No solid has these views. {many(runs, 'run')} of the program over changed drawings."]
    if untried:
        rows.append(f"Stopped at this limit: {many(untried, 'less likely change')} weren't tried.")
    if found:
        return rows + [words for one in found for words in one.words], found
    rows.append("No single change gives a solid." if not untried else "None of the single changes that were tried gives a solid.")
    if not least_edit.is_there():
        return [*rows, "The least change of several was not looked for: apt-get install gringo."], []
    fewest, sure = least_changes(path, all_placed, limits.search)
    return rows + told_least(fewest, sure, limits.search, all_placed[0]), fewest


def told_of(
    asked: pipeline.Asked, path: pathlib.Path, limits: Limits, tell: Found = said_found, with_sections: bool = False
) -> tuple[list[str], list[Suggestion]]:
    """What is told of a drawing or a sheet that no solid has, and the suggestions: where its main views alone have none, of these,
    and else of its further views, and of its sections where they are read."""
    sheet, given = asked.sheet(), given_in(asked.lines)
    further = further_lines(asked.lines, asked.decimals, with_sections)
    if not further:
        rows, found = looked_at(path, sheet, asked.run.text.partition("\n")[0], limits, tell, given)
        cause = asked.rounds.cause if asked.rounds else []
        return ([*rows[:1], SQUARED.format(given.kinds), *cause, *rows[1:]] if given else rows), found
    tried = Tried(grid_of(sheet))
    main = tried.changed(())
    alone = process.run(path, [*tried.words, "--nodes", process.MOST_NODES, "--solids", process.MOST_SOLIDS], main)
    head = alone.text.partition("\n")[0]
    if not head.startswith("whole 0 "):
        return further_views.told(path, tried.words, sheet, further, main, alone.text, asked.views), []
    rows, found = looked_at(path, sheet, head, limits, tell)
    names = f"{' and '.join(layer_of(it, asked.decimals) for it in further)} {'is' if len(further) == 1 else 'are'}"
    return [f"{rows[0]} Its {'two' if sheet.missing else 'three'} main views alone have none: {names} left out here.", *rows[1:]], found


def rounds_told(asked: pipeline.Asked) -> list[str]:
    """What is told of a sheet with rounds of whose squared drawing there are solids."""
    assert asked.rounds
    rows, count = [*(one.outcome.told() if (one := asked.rounds.shown) else []), *(it.sentence for it in verdict_of(asked).reasons)], len(asked.kept)
    return [f"Nothing is wrong: {many(count, 'solid')} {'has' if count == 1 else 'have'} {asked.views}." if count else "No solid is kept.", *rows]


def run(arguments: argparse.Namespace) -> int:
    asked = pipeline.ask(arguments.drawing, arguments, lambda note: say(f"draft why: {note}"))
    head = known_head(asked)
    if asked.rounds and not head.startswith("whole 0 "):
        write_result("".join(f"{row}\n" for row in rounds_told(asked)), None)
        return 0
    if not head.startswith("whole 0 "):
        count = answer_of(asked.run.text, 0).listed
        more = "" if WHOLE.fullmatch(head) else " at least"
        write_result(f"Nothing is wrong: {many(count, 'solid')}{more} {'has' if count == 1 else 'have'} {asked.views}.\n", None)
        return 0
    limits = Limits(arguments.runs, arguments.search, arguments.processes)
    path = process.find(arguments.program)
    rows, found = told_of(asked, path, limits, with_sections=arguments.sections)
    write_result("".join(f"{row}\n" for row in rows), None)
    if arguments.write or arguments.picture:
        if not 1 <= arguments.take <= len(found):
            raise Refused(f"nothing is written, since there are {many(len(found), 'suggestion')}")
        if arguments.write and found[arguments.take - 1].placed.given:
            raise Refused("a suggestion about a squared-off drawing isn't written: draw it on the sheet")
        if arguments.write:
            write_result(written_with(found[arguments.take - 1], asked.origin), arguments.write)
        if arguments.picture:
            write_result(picture_of(path, found[arguments.take - 1]), arguments.picture)
        say(f"draft why: suggestion {arguments.take} of {len(found)} is written")
    return 0
