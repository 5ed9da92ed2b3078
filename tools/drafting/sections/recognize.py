"""Which groups of lines on a sheet are sections, and so no views: where a hatch lies in one or its lines are drawn, where a label as
SECTION A-A stands by it, where its layer or block says so, or where a cutting-plane line names a section that is none of the others.

A section shows edges that a view doesn't, and lacks some that it has: taken for a view, no solid has it, or a wrong one.
"""
import itertools
import math
import re
from collections import Counter, defaultdict
from collections.abc import Callable, Iterator, Mapping, Sequence
from typing import NamedTuple

from ..core.advice import InTheWay
from ..core.messages import Refused, many
from ..dxf.reader import HATCHES, Box, Kept, Sheet, Source, box_of
from ..geometry.segments import Run
from ..messages.controls import option
from ..geometry.components import meet
from ..sheet.groups import MOST_GROUPS, Group, holds, merged, pieces_of
from .cutting_plane_marks import Mark, Word, distance, is_head, sides_of, words_of

# What says section, in the languages of linetypes and layers; not where a line or a plane is meant, or a cut-out.
WORDS = (
    r"(?:(?:cross|half|full|quer|längs|laengs|halb|voll|teil)[-_ ]?)?(?:sections?|sect|schnitt(?:ansicht|bild|darstellung)?|coupes?|"
    r"sezion[ei]|sez|secci[oó]n(?:es)?|cortes?|snitt|doorsneden?|przekr[oó]j|leikkaus|řez|"
    r"metszet|разрез|сечение|розріз|переріз|τομή|断面図?|剖面图?|剖視圖?|剖视图?|단면도?)"
)
# Words that say so in labels alone: on layers they may mean something else.
SHORT = r"(?:sec|ci[eę]cie|kesit|rez)"
# In the name of a layer a number or a letter may follow, as in SectionA; a line or a plane is meant otherwise.
NAMED = re.compile(rf"(?<![^\W\d_]){WORDS}(?:[A-Z]?(?![^\W\d_])|(?=view))(?![-_ ]?(?:line|linie|ligne|plane|ebene|verlauf|mark))", re.I)
# A label: SECTION A-A, A-A, SCHNITT B, with a scale behind it.
LETTER = r"[^\W\d_]\d?['′]?"
# Dashes and minus signs of all scripts; and Roman numerals, or behind a word for section plain ones, in place of letters.
DASH = "[-\u00ad\u2010-\u2015\u2212\u2e3a\u2e3b\u30fc\ufe58\ufe63\uff0d]"
MARKS = rf"(?:[IVX]{{1,4}}(?=\s*{DASH})|(?(word)\d{{1,2}}|(?!)))"
LABEL = re.compile(rf"(?:(?P<word>{WORDS}|{SHORT})(?:\b|(?<=[\u2e80-\uffdc]))[.:]?)?\s*"
                   rf"(?:(?P<letter>{MARKS}|{LETTER})\s*(?:{DASH}\s*(?P=letter))?|(?P<twice>[A-Z])(?P=twice))?"
                   r"(?:\s*[(\[]?\s*(?:scale|ma(?:ss|ß)stab|m|éch\.?|[eé]chelle|scala|escala)?\s*[:=]?\s*"
                   r"\d+(?:\.\d+)?\s*[:/]\s*\d+\s*[)\]]?)?", re.I)
# How far from its group a label may stand, in heights of its letters; how much nearer than another one it has to be; and how small a
# filled hatch is that is a dot, as a part of the group.
NEAR, NEARER, DOT = 12, 1.3, 0.05
# What comes before the option by which something is left out that makes a group a section.
NO_SECTION = "; what makes no section is left out by"
# How many slanted lines that end at no corner are a hatch.
FEWEST_LINES = 3
# How many lines of a crossed hatch are looked at.
MOST_CROSSED = 100
# With so many groups and no more each one is needed as a view.
FEWEST_VIEWS = 3


class Why(NamedTuple):
    """Why a group is a section, in words, and by which entities; none where lines of its own tell it. And its labels, each with its letter."""

    text: str
    sources: tuple[Source, ...] = ()
    labels: tuple[tuple[str, Word], ...] = ()

    def __str__(self) -> str:
        return self.text


def together(reasons: Sequence[Why]) -> Why:
    """Several reasons as one."""
    sources = itertools.chain(*(why.sources for why in reasons)) if all(why.sources for why in reasons) else ()
    labels = itertools.chain(*(why.labels for why in reasons))
    return Why(" and ".join(dict.fromkeys(why.text for why in reasons)), tuple(sources), tuple(labels))


class Cut(NamedTuple):
    """A group that is a section: its number as `--leave-out` has it, from 1 on, or none where names tell the views; and why it is one."""

    number: int | None
    group: Group
    why: Why

    def __str__(self) -> str:
        return f"group {self.number}, {self.group}" if self.number else str(self.group)


def are_told(cuts: Sequence[Cut], marks: Sequence[Mark]) -> bool:
    """Whether a cutting-plane line or a label tells a plane of some sections, so that they are read; else they are left out."""
    return bool(marks) or any(cut.why.labels for cut in cuts)


# What tells which of all groups are sections, by their numbers from 0 on, and why; it knows which ones the user leaves out, and None where
# names tell the views, so that groups have no numbers.
TellSections = Callable[[Sequence[Group], Sequence[Group] | None], dict[int, Why]]


class Sections(NamedTuple):
    """What of a sheet tells sections: hatches with the boxes of their sides, drawn hatch lines, labels and cutting-plane lines."""

    hatches: list[tuple[Box, bool, Kept]]
    lines: list[tuple[Box, Kept]]
    labels: list[tuple[str, Word]]
    marks: Sequence[Mark]
    tolerance: float

    def among(self, groups: Sequence[Group], left_out: Sequence[Group] | None) -> dict[int, Why]:
        """The numbers of the groups that are sections, with what tells so; refused where a section is told and its group isn't."""
        found: dict[int, list[Why]] = defaultdict(list)
        for number, why in (*self.by_hatch(groups), *by_layer(groups)):
            found[number].append(why)
        for number, why in self.by_label(groups, found):
            found[number].append(why)
        self.refuse_lost(groups, found, left_out)
        return {number: together(reasons) for number, reasons in found.items()}

    def by_hatch(self, groups: Sequence[Group]) -> Iterator[tuple[int, Why]]:
        """The groups that a hatch lies in."""
        hatched: dict[int, dict[Source, None]] = defaultdict(dict)
        for box, is_filled, kept in self.hatches:
            number = holding(groups, box, kept, self.tolerance)
            within = [it for it, group in enumerate(groups) if lies_across(group, box, is_filled, kept, self.tolerance)] if number is None else [number]
            for it in within:
                if not (is_filled and is_dot(box, groups[it])):
                    hatched[it][kept.source] = None
        for number, sources in hatched.items():
            more = f" and {many(len(sources) - 1, 'more hatch', 'more hatches')} lie" if len(sources) > 1 else " lies"
            yield number, Why(f"{next(iter(sources))}{more} in it", tuple(sources))
        drawn: dict[int, list[Source]] = defaultdict(list)
        for box, kept in self.lines:
            if (number := holding(groups, box, kept, self.tolerance)) is not None:
                drawn[number].append(kept.source)
        for number, group in enumerate(groups):
            lines = (*drawn[number], *(run.edge.source for run in hatch_lines(group.runs, self.tolerance)))
            if len(lines) >= FEWEST_LINES:
                yield number, Why(f"{len(lines)} hatch lines lie in it", lines)

    def by_label(self, groups: Sequence[Group], found: dict[int, list[Why]]) -> Iterator[tuple[int, Why]]:
        """The groups that a label stands by: one with a hatch, else the nearest."""
        for letter, word in self.labels:
            away = sorted((distance(group.box, word.place), number) for number, group in enumerate(groups)
                          if group.first.view == word.source.view)
            near = [it for it in away if it[0] <= NEAR * word.high]
            told = [it for it in near if it[1] in found and it[0] <= max(NEAR * word.high / 2, 2 * near[0][0])]
            if not near:
                continue
            if not told and len(near) > 1 and near[1][0] < NEARER * near[0][0]:
                raise Refused(f"{word.text!r}, {word.source}, says that a group of lines is a section, and which isn't told: "
                              f"{groups[near[0][1]]}, or {groups[near[1][1]]}; set it nearer to its group, "
                              "hatch both where they are pieces of one section, or leave out its layer")
            yield (told or near)[0][1], Why(f"{word.text!r} stands by it", (word.source,), ((letter, word),) if letter else ())

    def refuse_lost(self, groups: Sequence[Group], found: dict[int, list[Why]], left_out: Sequence[Group] | None) -> None:
        """Refuses a cutting-plane line whose section is none of the groups that are known as sections."""
        known = {letter for letter, _ in self.labels}
        lost = [mark for mark in self.marks if mark.letter not in known]
        if not lost or found or left_out:
            return
        letter = lost[0].letter
        number = min(range(len(groups)), key=lambda it: distance(groups[it].box, lost[0].word.place))
        has_numbers = left_out is not None
        way = f", or leave it out by {option('leave-out', 'group=NUMBER')}" if has_numbers and len(groups) > FEWEST_VIEWS else ""
        raise Refused(f"a cutting-plane line {letter}-{letter} is drawn at {f'group {number + 1}, ' if has_numbers else ''}{groups[number]}, and which "
                      f"group is its section isn't told, by a hatch or a label {letter}-{letter}: label it{way}")


def holding(groups: Sequence[Group], box: Box, kept: Kept, tolerance: float) -> int | None:
    """The least group whose box holds the box of an entity, but what noise adds."""
    reach = 3 * tolerance + 0.01 * math.dist(box[:2], box[2:])
    its = [(group.width * group.height, number) for number, group in enumerate(groups)
           if group.first.view == kept.source.view and holds(group.box, box, reach)]
    return min(its)[1] if its else None


def lies_across(group: Group, box: Box, is_filled: bool, kept: Kept, tolerance: float) -> bool:
    """Whether a hatch with this box lies across a group's: a filled one that holds all of it is a ground."""
    reach = 3 * tolerance + 0.01 * math.dist(box[:2], box[2:])
    is_across = group.first.view == kept.source.view and meet(group.box, box, -reach) and not holds(group.box, box, reach)
    return is_across and not (is_filled and holds(box, group.box, reach))


def is_dot(box: Box, group: Group) -> bool:
    return max(box[2] - box[0], box[3] - box[1]) <= DOT * max(group.width, group.height)


def by_layer(groups: Sequence[Group]) -> Iterator[tuple[int, Why]]:
    """The groups most of whose lines are on a layer or in a block that says section."""
    for number, group in enumerate(groups):
        names = Counter(name for run in group.runs for name in {run.edge.source.layer, run.edge.source.block} if NAMED.search(name))
        if names and 2 * names.most_common(1)[0][1] > len(group.runs):
            yield number, Why(f"its lines are on the layer or in the block {names.most_common(1)[0][0]}")


def hatch_lines(runs: Sequence[Run], tolerance: float) -> list[Run]:
    """Slanted lines of one way of which some don't begin and end where others do, as those of a hatch that was taken apart; where as many go the
    other way these too if they cross, and none if they don't, as in countersinks."""
    def at(place: tuple[float, float]) -> tuple[int, int]:
        return round(place[0] / (3 * tolerance)), round(place[1] / (3 * tolerance))

    ends = Counter(at(end) for run in runs for end in (run.edge.start, run.edge.end))
    ways: dict[int, list[Run]] = defaultdict(list)
    for run in runs:
        if run.oblique:
            (a, b), (c, d) = run.edge.start, run.edge.end
            ways[round(math.degrees(math.atan2(d - b, c - a)) % 180) % 180].append(run)
    def loose(its: Sequence[Run]) -> list[Run]:
        return [run for run in its if any(ends[at(end)] == 1 for end in (run.edge.start, run.edge.end))]

    way = max(ways, key=lambda it: len(ways[it]), default=0)
    one, other = ways[way], ways.get(-way % 180, [])
    if min(len(loose(one)), len(loose(other))) >= FEWEST_LINES and are_crossed(one, other):
        return [*one, *other]
    most = one if len(other) < len(one) else []
    return most if len(loose(most)) >= FEWEST_LINES else []


def are_crossed(one: Sequence[Run], other: Sequence[Run]) -> bool:
    """Whether lines of two ways cross one another, as those of a crossed hatch do and those of countersinks don't: some of the first ones."""
    def side(place: tuple[float, float], run: Run) -> float:
        (a, b), (c, d) = run.edge.start, run.edge.end
        return (c - a) * (place[1] - b) - (d - b) * (place[0] - a)

    def cross(a: Run, b: Run) -> bool:
        return all(side(x.edge.start, y) * side(x.edge.end, y) < 0 for x, y in ((a, b), (b, a)))

    crossed = (run for run in one[:MOST_CROSSED] if any(cross(run, it) for it in other))
    return sum(1 for _ in itertools.islice(crossed, FEWEST_LINES)) == FEWEST_LINES


def boxes_of(kept: Kept) -> Iterator[tuple[Box, bool, Kept]]:
    """The boxes of a hatch's sides; of a bent one the whole's."""
    is_filled = bool(kept.entity.dxf.get("solid_fill", 0))
    sides = sides_of(kept.entity)
    for its in sides:
        if its:
            xs, ys = zip(*its)
            yield (min(xs), min(ys), max(xs), max(ys)), is_filled, kept
    if not any(sides) and (box := box_of(kept.entity)):
        yield box, is_filled, kept


def label_in(word: Word) -> str | None:
    """The letter of a label of a section, or nothing where it has none; None where a text is no such label."""
    found = LABEL.fullmatch(word.text)
    if not found or not (found["word"] or found["letter"] and re.search(DASH, word.text)):
        return None
    return (found["letter"] or found["twice"] or "").rstrip("'′").upper()


def among_named(views: Mapping[str, Group], outside: Sequence[Run], tell_sections: TellSections, tolerance: float) -> list[Cut]:
    """The sections among the lines outside views that names tell; refused where one of these is a section."""
    pieces = pieces_of(outside, tolerance)
    beside = merged(pieces, tolerance) if len(pieces) <= MOST_GROUPS and not next(iter(views.values())).first.file else []
    every, sections = [*views.values(), *beside], []
    for number, why in sorted(tell_sections(every, None).items()):
        if number < len(views):
            view, group = list(views.items())[number]
            raise InTheWay(f"{view}, {group}, is a section, since {why}: a section is no view. Draw {view} uncut too", why.sources, NO_SECTION)
        sections.append(Cut(None, every[number], why))
    return sections


def labels_of(sheet: Sheet) -> list[tuple[str, Word]]:
    """The labels of sections on a sheet, each with its letter."""
    return [(letter, word) for word in words_of(sheet) if (letter := label_in(word)) is not None]


def sections_of(sheet: Sheet, marks: Sequence[Mark], tolerance: float) -> Sections:
    """What of a sheet tells sections."""
    hatches = [it for kept in sheet.kept if kept.source.kind in HATCHES and not is_head(kept.entity) for it in boxes_of(kept)]
    lines = [(box, kept) for kept in sheet.kept if kept.source.kind == "LINE" and (box := box_of(kept.entity))]
    return Sections(hatches, lines, labels_of(sheet), marks, tolerance)

