"""Says what tells the solids of a drawing apart: for each further view (LEFT, REAR, BOTTOM), and for the lines and the area of each section
between two grid planes, into how many groups it splits the solids and how many the largest group keeps; the best ones first.

With --meant K it says which further views, as few as possible, leave solid K alone, and the lines to be added for them; where even all
three leave others, which sections do, with or without views. --write writes the drawing with these, each section on layers of its own
with a label, and says how it is asked. Where solids are left it says which blocks differ.

Of two views it says what the third one would show of each solid, and with --meant K completes the drawing by that of solid K.

Views and sections are drawn here, by the definitions, from the solids that the proved program lists; where blocks are it tells too. Of
the drawing with the added lines the program has to list just the solids that are said to be left.
"""
import argparse
import functools
import itertools
import json
import pathlib
import re
from collections.abc import Callable, Hashable, Iterable, Sequence
from typing import NamedTuple

from ..core.messages import Progress, Refused, many, say, write_result
from ..dxf.drawing import VIEWS, decimals_of, is_known, lines_within, views_of
from ..messages.controls import command, option
from ..projection.cells import grid_round
from ..projection.draw import AXES, DASHED, FRAMES, SOLID, STYLES, Sheet, Shown, sheet_of, shown_of, strokes_shown
from ..projection.sections import Layer, Section, layers_in, named, views_told
from ..recon import blocks, faults, process
from ..recon.answer import CUT, FAULT, WHOLE, Answer, Face, Solid, answer_of, have_views, text_of
from ..recon.blocks import Blocks
from ..rounds.features import given_in
from ..solve import pipeline
from .added_views import Added, Label, ends_of, lines_of_sections, lines_of_view, with_lines
from .distinguishing import Means, Solids, all_means, best_first

NAME = "settle"
HELP = "what further view or section tells the solids of a drawing apart"
SHOWN = 12
# How many sections together are looked at.
MOST_SECTIONS = 3
# Of how many solids it is told in one line what would settle a drawing.
MOST_SETTLED = 500


def add_arguments(parser: argparse.ArgumentParser) -> None:
    parser.add_argument("drawing", metavar="FILE.dxf")
    parser.add_argument("--answer", metavar="ANSWER", help="what recon solve wrote for it; - for standard input")
    blocks.add_argument(parser)
    parser.add_argument("--meant", type=int, metavar="K", help="the solid that is meant, by its number in the answer")
    parser.add_argument("--write", metavar="OUT.dxf", help="with --meant: write the drawing with the lines to be added")
    parser.add_argument("--by", action="append", type=layer_named, default=[], metavar="LAYER", help="with --meant: this view or section, not the fewest")
    parser.add_argument("--json", action="store_true", help="with --meant: what is to be added as JSON, for `draft serve`")
    parser.add_argument("--all", action="store_true", help=f"all sections, not the best {SHOWN} alone")
    pipeline.add_arguments(parser)


def layer_named(text: str) -> str:
    """The layer of a view or a section, as LEFT or AREA_FRONT_1.5."""
    if not is_known(text):
        raise argparse.ArgumentTypeError(f"{text!r} is the layer of no view or section")
    return text.upper()


def settled_by(answer: Answer, sheet: Sheet) -> str:
    """What would settle a drawing that several solids have, in words: the view or the section that tells them all apart, or most."""
    if len(answer.solids) > MOST_SETTLED:
        return "draft settle says what would settle it"
    cells = grid_round(answer.solids)
    solids = Solids(cells, [cells.cells(told) for told in answer.solids])
    views, sections = all_means(solids, sheet)
    Progress.clear()
    best = best_first([*views, *sections])[0]
    name = sheet.name(best.name)
    if best.sizes[0] == 1:
        return f"a view {name} would settle it" if best in views else f"a {name} would settle it"
    return f"no single view or section settles it; {name} leaves {best.sizes[0]} of them at most"


# ---- the solid that is meant

def views_for(views: list[Means], number: int) -> tuple[list[Means], set[int]]:
    """The fewest views that leave as few solids as all of them do, beside the one that is meant, and what they leave. A main view that
    isn't drawn is always one of them: it completes the drawing."""
    everything = set(range(len(views[0].keys)))
    least = everything.intersection(*(it.alike(number) for it in views))
    main, further = ([it for it in views if (it.name in VIEWS) == is_main] for is_main in (True, False))
    for count in range(len(further) + 1):
        for chosen in itertools.combinations(further, count):
            if everything.intersection(*(it.alike(number) for it in (*main, *chosen))) == least:
                return [*main, *chosen], least
    return views, least


def fewest_sections(sections: list[Means], number: int, left: set[int]) -> list[Means]:
    """The fewest sections that tell a solid from all others that are left, up to so many; else one after another, as long as fewer are left."""
    alike = [left & it.alike(number) for it in sections]
    best = sorted(range(len(sections)), key=lambda it: len(alike[it]))
    for count in range(1, MOST_SECTIONS + 1):
        for chosen in itertools.combinations(best[:SHOWN * 2], count):
            if left.intersection(*map(alike.__getitem__, chosen)) == {number}:
                return [sections[it] for it in chosen]
    found: list[Means] = []
    while best and len(left & alike[best[0]]) < len(left):
        left = left & alike[best[0]]
        found.append(sections[best[0]])
        best.sort(key=lambda it: len(left & alike[it]))
    return found


def sections_for(sections: list[Means], number: int, left: set[int]) -> list[Means]:
    """The fewest sections that tell a solid from all others that are left; none where none do."""
    chosen = fewest_sections(sections, number, left)
    return chosen if left_by(chosen, number, left) == {number} else []


def with_sections(chosen: list[Means], sections: list[Means], number: int, every: set[int]) -> list[Means]:
    """Views and sections that leave as few solids as can be, where views alone leave others: sections alone, beside a main view that isn't
    drawn; or with these views, where then fewer do, or fewer are left."""
    ways = []
    for views in ([it for it in chosen if it.name in VIEWS], chosen):
        means = [*views, *fewest_sections(sections, number, left_by(views, number, every))]
        ways.append((len(left_by(means, number, every)), len(means), means))
    return min(ways, key=lambda way: way[:2])[2]


def names_of(means: Sequence[Means], sheet: Sheet) -> str:
    """Views and sections in words: what is drawn of one section together."""
    kinds: dict[str, list[str]] = {}
    for it in means:
        kinds.setdefault(it.place if it.kind else sheet.name(it.place), []).append(it.kind)
    return " and ".join(f"a {place} ({' and '.join(its)})" if any(its) else place for place, its in kinds.items())


def blocks_told(its: Blocks, choices: list[str], sheet: Sheet) -> list[str]:
    """The blocks in which the solids of some choices differ: where they are, those together that the same solids have."""
    alike: dict[tuple[str, ...], list[int]] = {}
    for block, bits in enumerate(zip(*choices)):
        if len(set(bits)) == 2:
            alike.setdefault(bits, []).append(block)
    rows = []
    for bits, numbers in alike.items():
        cells = [cell for number in numbers for cell in its.grid.all_in(its.cells[number])]
        box = [f"{AXES[axis]} {' to '.join(sheet.between(axis, cut, cut[min(ats)], cut[max(ats) + 1]))}"
               for axis, (cut, ats) in enumerate(zip(its.grid.cuts, zip(*cells)))]
        name = f"block{'s' * (len(numbers) > 1)} {', '.join(map(str, numbers))}"
        rows.append(f"  {name}, within {', '.join(box)}: full in {bits.count('1')} of {len(choices)}")
    return rows


# ---- what is told

class Case(NamedTuple):
    """A drawing that was read with so many decimals, the answer to it, and its strokes; where the answer is of some of its solids alone,
    also all that the program lists."""

    data: bytes
    lines: list[str]
    decimals: int
    answer: Answer
    sheet: Sheet | None
    listed: Sequence[Solid] = ()

    def left_out(self) -> list[list[Face]]:
        """The faces of the listed solids that the answer leaves out."""
        kept = {it.choice for it in self.answer.solids}
        return [it.faces for it in self.listed if it.choice not in kept]


def of_first_reading(asked: pipeline.Asked) -> list[Solid]:
    """The solids of the squared-off drawing that the program read, of which what is rounded back is kept."""
    return [one.solid for one in asked.rounds.kept[0].outcome.kept] if asked.rounds and asked.rounds.kept else []


def of_asked(asked: pipeline.Asked) -> Case:
    """What is settled of an answer."""
    answer = answer_of(asked.run.text)
    case = Case(asked.data, asked.lines, asked.decimals, answer, None if FAULT.fullmatch(answer.head) else asked.sheet())
    if asked.rounds:
        kept = of_first_reading(asked)
        case = case._replace(answer=answer._replace(solids=kept, listed=len(kept)), listed=answer.solids)
    return case


def case_of(arguments: argparse.Namespace) -> Case:
    """What is settled: the answer that is given, or what the program says."""
    if arguments.answer:
        answer, data = answer_of(text_of(arguments.answer)), pathlib.Path(arguments.drawing).read_bytes()
        case = Case(data, lines_within(data), answer.decimals, answer, None)
        if given_in(case.lines):
            say("draft settle: warning: the drawing is squared off, and of the solids of the answer not all may be kept")
    else:
        asked = pipeline.ask(arguments.drawing, arguments, lambda note: say(f"draft settle: {note}"))
        case = of_asked(asked)
        if asked.rounds and asked.rounds.elsewhere:
            raise Refused(f"the {many(len(asked.kept), 'solid')} of this sheet are kept in several readings of it, which views don't tell apart: "
                          f"{command('solve')} tells them, and with {option('reading', 'N')} those of one")
        if asked.origin.mirrored and not asked.paper:
            say("draft settle: warning: the sheet shows the part in a mirror, and what is told here is of the mirror image, x turned round")
        if asked.rounds:
            say(f"draft settle: of {many(len(case.listed), 'solid')} of the squared-off drawing those are told that are kept, {case.answer.listed}; the "
                "views and sections are drawn squared off")
    head = case.answer.head
    if FAULT.fullmatch(head):
        raise Refused("; ".join(faults.told(head, case.lines)))
    if CUT.fullmatch(head):
        say(f"draft settle: {head}: what is told is of the {many(case.answer.listed, 'solid')} listed alone")
    return case


def third_told(solids: Solids, third: Means, sheet: Sheet, most: int) -> list[str]:
    """What the main view that isn't drawn would show of each solid: the lines that it has of all, and of each group of solids the others."""
    groups: dict[Hashable, list[int]] = {}
    for at, key in enumerate(third.keys, 1):
        groups.setdefault(key, []).append(at)
    shown = {key: shown_of(solids.cells_in(solids.full[its[0] - 1]), solids.cells.cuts, third.name) for key, its in groups.items()}
    every = frozenset.intersection(*shown.values())
    wide = solids.cells.cuts[FRAMES[third.name].right]
    rows = [f"What {sheet.name(third.name)}, the view that isn't drawn, would show, from its lower left corner on; of each"]
    rows += stretches_told(every, sheet, wide[-1] - wide[0])
    for key, its in list(groups.items())[:most]:
        rows += [f"of {'solid' if len(its) == 1 else 'solids'} {', '.join(map(str, its))} also"]
        rows += stretches_told(shown[key] - every, sheet, wide[-1] - wide[0])
    return rows + ([f"({len(groups) - most} other such views: {option('all')})"] if len(groups) > most else [])


def stretches_told(shown: Shown, sheet: Sheet, wide: int) -> list[str]:
    """Lines of a view that is so wide in words."""
    def across(x: int) -> str:
        return sheet.length(wide - x if sheet.back and sheet.back.mirrored else x)

    return ["  " + " to ".join(f"({across(x)}, {sheet.length(y)})" for x, y in ends) + f": {STYLES[DASHED if dashed else SOLID]}"
            for dashed, *ends in strokes_shown(shown, 0, 0)] or ["  nothing"]


def table(means: Sequence[Means], sheet: Sheet, meant: int | None) -> list[str]:
    """A row for each view or section: groups, how many solids the largest keeps, and where one is meant how many are left."""
    rows = [("", "groups", "the largest keeps", "" if meant is None else f"solid {meant} leaves")]
    rows += [(sheet.name(it.name), str(len(it.sizes)), str(it.sizes[0]), "" if meant is None else str(len(it.alike(meant - 1)))) for it in means]
    widths = [max(map(len, column)) for column in zip(*rows)]
    return ["  ".join(f"{it:>{width}}" if at else f"{it:{width}}" for at, (it, width) in enumerate(zip(row, widths))).rstrip() for row in rows]


def checked(
    text: str, path: pathlib.Path, words: list[object], wanted: list[list[Face]], seconds: float, left_out: Sequence[list[Face]] = ()
) -> str:
    """What the program says of the drawing with the added lines, of which it has to list solids of these faces, beside those that aren't
    kept; refused where it doesn't."""
    listed = process.run(path, ["solve", *words], text.encode(), seconds).text
    head = listed.partition("\n")[0]
    if not WHOLE.fullmatch(head) or [solid.faces for solid in answer_of(listed).solids if solid.faces not in left_out] != wanted:
        raise Refused(f"of the drawing with these lines the program lists other solids than the {len(wanted):,} that are left: {head}")
    just = "that" if len(wanted) == 1 else "those"
    return f"Checked: of the drawing with these lines the program lists {many(len(wanted), 'solid')}, just {just}."


def left_by(means: Iterable[Means], number: int, every: set[int]) -> set[int]:
    """Those of some solids that look like one in some views and sections."""
    return every.intersection(*(it.alike(number) for it in means))


def added_told(line: Added, sheet: Sheet, cuts: list[list[int]]) -> str:
    """A line to be added in words: where it stands in the drawing, or on the sheet that this was made of; there a section's from where that
    begins, at the lower left."""
    x, y = line.begin
    if not sheet.back:
        places = [(sheet.length(right), sheet.length(up)) for right, up in (line.start, line.end)]
    elif line.view in FRAMES:
        frame = FRAMES[line.view]
        size = cuts[frame.right][-1] - cuts[frame.right][0], cuts[frame.up][-1] - cuts[frame.up][0]
        places = [sheet.back.place_beside(line.view, size, right - x, up - y) for right, up in (line.start, line.end)]
    else:
        places = [(sheet.length(right - x), sheet.length(up - y)) for right, up in (line.start, line.end)]
    ends = " to ".join(f"({right}, {up})" for right, up in places)
    return f"  {sheet.name(line.view)} {ends}: {STYLES[DASHED if line.dashed else SOLID]}"


class Meant(NamedTuple):
    """What is told of the solid that is meant, the lines and labels to be added, and the faces of the solids that are left."""

    rows: list[str]
    added: list[Added]
    labels: list[Label]
    left: list[list[Face]]


def told_meant(
    case: Case, solids: Solids, number: int, views: list[Means], sections: list[Means], sheet: Sheet, its: Callable[[], Blocks],
    by: Sequence[str] = ()
) -> Meant:
    """What is told of the solid that is meant: by the views and sections that are named, or by the fewest views, or where these leave others by
    sections."""
    answer, every = case.answer, set(range(len(solids.full)))
    chosen, left = views_for(views, number)
    if by:
        chosen = named_by(by, [*views, *sections], sheet)
    elif left != {number}:
        chosen = with_sections(chosen, sections, number, every)
    left = left_by(chosen, number, every)
    cells, cuts = solids.cells_in(solids.full[number]), solids.cells.cuts
    added = [line for it in chosen if not it.kind for line in lines_of_view(it.name, shown_of(cells, cuts, it.name), sheet, cuts)]
    floor = min([ends_of(case.lines, case.decimals)[1], *(up for line in added for _, up in (line.start, line.end))])
    its_sections = (it.layer for it in chosen if isinstance(it.layer, Section))
    more, labels = lines_of_sections(its_sections, cells, cuts, case.lines, case.decimals, floor)
    added += more
    rows = [chosen_told(number, chosen, len(left), sheet), *(added_told(line, sheet, cuts) for line in added)]
    if left != {number}:
        rows.append(f"The solids that are left: {', '.join(str(it + 1) for it in sorted(left))}. They differ in")
        rows += blocks_told(its(), [answer.solids[it].choice for it in sorted(left)], sheet)
        settling = sections_for(sections, number, left)
        rows.append(f"It would be settled by {names_of(settling, sheet)}." if settling else "No sections settle it.")
    return Meant(rows, added, labels, [answer.solids[it].faces for it in sorted(left)])


def named_by(layers: Sequence[str], means: Sequence[Means], sheet: Sheet) -> list[Means]:
    """The views and sections on these layers; refused where one of them isn't looked at."""
    def named_here(layer: str) -> Layer:
        return named(layer, sheet.decimals) or sheet.name(layer)

    known = {it.layer for it in means}
    unknown = sorted({layer for layer in layers if named_here(layer) not in known})
    if unknown:
        raise Refused(f"{' and '.join(unknown)}: drawn already, or none of the sections that are told")
    return [it for it in means if it.layer in map(named_here, layers)]


def chosen_told(number: int, chosen: Sequence[Means], left: int, sheet: Sheet) -> str:
    """What is said of the views and sections that are chosen, which leave so many solids; and on a sheet where a section's lines are told from."""
    has_sections = any(it.kind for it in chosen)
    lines = f"The lines to be added{', those of a section from its lower left corner' if has_sections and sheet.back else ''}:"
    if left == 1:
        return f"Solid {number + 1} is told by {names_of(chosen, sheet)} alone. {lines}"
    if not chosen:
        return f"No further view tells solid {number + 1} from any other."
    kinds = f"{'' if sheet.missing else 'further '}views{' and sections' if has_sections else ''}"
    return f"No {kinds} tell solid {number + 1} alone: with {names_of(chosen, sheet)} {left:,} solids are left. {lines}"


def looked_at(case: Case) -> tuple[Sheet, Solids, list[Means], list[Means]]:
    """The drawing's strokes, its solids, and what views and sections show of these."""
    sheet = case.sheet or sheet_of(views_of(case.lines), case.decimals)
    cells = grid_round(case.answer.solids)
    solids = Solids(cells, [cells.cells(told) for told in case.answer.solids])
    views, sections = all_means(solids, sheet)
    Progress.clear()
    return sheet, solids, views, sections


def reads_sections(arguments: argparse.Namespace, meant: Meant) -> bool:
    """Whether the drawing with the added lines has sections that are read."""
    return bool(meant.labels) or bool(arguments.sections)


def text_for(arguments: argparse.Namespace, case: Case, meant: Meant) -> tuple[str, str]:
    """The drawing with the added lines, and what is said of its check by the program."""
    sections = reads_sections(arguments, meant)
    if meant.labels and not arguments.sections and layers_in(case.lines):
        raise Refused(f"the drawing has sections which weren't read, {' and '.join(layers_in(case.lines))}: settle it with {option('sections')}")
    text = with_lines(case.lines, meant.added, case.decimals, meant.labels)
    lines = lines_within(text.encode())
    decimals = max(case.decimals, decimals_of(lines, sections))
    if case.sheet is None:
        return text, "Not checked by the program, since the answer was given: the views are drawn here."
    if not WHOLE.fullmatch(case.answer.head):
        return text, "Not checked by the program, since the search was cut: the views are drawn here."
    words = [*pipeline.views_words(lines), *([process.SECTIONS] if sections else []), "--decimals", decimals, *pipeline.words_of(arguments)]
    left, left_out = ([scaled(faces, 10**(decimals - case.decimals)) for faces in its] for its in (meant.left, case.left_out()))
    return text, checked(text, process.find(arguments.program), words, left, arguments.seconds, left_out)


def scaled(faces: list[Face], times: int) -> list[Face]:
    """Faces in units so many times smaller."""
    return [Face(face.outward, [[tuple(it * times for it in corner) for corner in loop] for loop in face.loops]) for face in faces]


def as_json(rows: list[str], text: str, left: int, with_sections: bool) -> str:
    """What is told of the solid that is meant in sentences, the lines to be added, the drawing with them, how many solids that leaves, and whether
    that drawing's sections have to be read."""
    lines = [row.strip() for row in rows if row.startswith("  ") and is_known(row.split()[0])]
    words = [re.sub(r" The lines to be added[^:]*:$| They differ in$", "", row) for row in rows if not row.startswith("  ")]
    return json.dumps({"words": words, "lines": lines, "dxf": text, "left": left, "sections": with_sections})


def how_asked(text: str) -> str:
    """How a drawing with sections is asked."""
    words = [process.SECTIONS, *pipeline.decimals_words(("solve",), decimals_of(lines_within(text.encode()), True))]
    return f"; its sections are read by {command('solve', 'sections')}, or `recon solve {' '.join(map(str, words))}`"


def run(arguments: argparse.Namespace) -> int:
    if arguments.meant is None and (arguments.json or arguments.by):
        raise Refused(f"{option('json')} and {option('by')} go with {option('meant')}")
    case = case_of(arguments)
    answer = case.answer
    if len(answer.solids) < 2:
        write_result(f"Nothing is to be settled: {many(answer.listed, 'solid')} listed.\n", None)
        return 0
    if arguments.meant is not None and not 1 <= arguments.meant <= len(answer.solids):
        raise Refused(f"there is no solid {arguments.meant}: {many(len(answer.solids), 'solid')} listed")
    sheet, solids, views, sections = looked_at(case)
    shown = sections if arguments.all else sections[:SHOWN]
    have = have_views(len(answer.solids), ''.join(map(sheet.name, sheet.missing)), views_told(case.lines, bool(arguments.sections)))
    rows = [f"{have}.", *table(best_first([*views, *shown]), sheet, arguments.meant)]
    if len(shown) < len(sections):
        rows.append(f"({len(sections) - len(shown)} further sections: {option('all')})")
    meant = Meant([], [], [], [])
    if arguments.meant is None:
        rows += third_told(solids, views[0], sheet, len(answer.solids) if arguments.all else SHOWN) if sheet.missing else []
        rows.append("Views and sections are drawn here, from the solids that the program lists.")
    else:
        its = functools.partial(blocks.of, arguments, case.data, case.lines, case.decimals)
        meant = told_meant(case, solids, arguments.meant - 1, views, sections, sheet, its, arguments.by)
        text, said = text_for(arguments, case, meant) if meant.added else ("", "")
        more = [*meant.rows, said] if meant.added else meant.rows
        rows = [as_json(more, text, len(meant.left), reads_sections(arguments, meant))] if arguments.json else [*rows, *more]
    write_result("".join(f"{row}\n" for row in rows), None)
    if arguments.write:
        if not meant.added:
            raise Refused("nothing is written, since there is no line to be added")
        write_result(text, arguments.write)
        say(f"draft settle: {arguments.write} has {many(len(meant.added), 'line')} more{how_asked(text) if meant.labels else ''}")
    return 0
