"""Hidden lines and centre lines that are drawn as strokes, as plotters and old exports write them: each line as many short ones.

A hidden line is drawn as equal strokes with equal gaps, the strokes at its ends longer or shorter; a centre line as long and short ones in turn.
What tells such strokes from short edges is their ends: where an edge ends another line does, or passes; the ends of strokes within a line are loose.
So a line that is found here is no guess. Where few strokes or unequal gaps leave it open, the sheet is refused, unless the user says what they are.
"""
import bisect
import itertools
import math
import re
import statistics
from collections import defaultdict
from collections.abc import Iterable, Iterator, Sequence
from typing import NamedTuple

from ..core import notes as noted
from ..core.messages import many
from ..core.notes import Note
from ..core.verdict import Doubt, Reason
from ..dxf.drawing import Place
from ..dxf.reader import Arc, Box, Edge, Sheet, Unread
from ..dxf.styles import PLAIN
from ..geometry.components import meet
from ..geometry.segments import Piece

# What the user may say of strokes.
WAYS = ("hidden", "visible")
# How much lengths that are meant to be equal differ, as a part of them; and how many tolerances more.
SLACK, NOISE = 0.1, 3
# How many strokes of one way a hidden line or a centre line has at least, and an oblique one.
FEWEST, FEWEST_OBLIQUE = 3, 4
# A short stroke of a centre line is so much shorter than a long one.
SHORT = 0.5
# How far apart the ways of oblique lines are that aren't in line, in radians, and how many lines are looked at beyond an end.
TURN, MOST_BEYOND = 0.002, 64
# How many lines of a look that has no strokes tell that one with strokes has no visible lines.
FEWEST_VISIBLE = 4

LEVEL, UPRIGHT = -1, -2
# Level, upright, or which way an oblique line goes; and how lines look that may be strokes of one line.
Way = int
Look = tuple[bool, str, int]


class Line(NamedTuple):
    """Strokes in line with equal gaps, from the lesser end on: their way, their look, the gap, the dash, and how many of their ends that face
    one another are loose."""

    way: Way
    look: Look
    strokes: tuple[Piece, ...]
    gap: float
    dash: float
    loose: int

    @property
    def is_loose(self) -> bool:
        """Whether at least half of the ends within the line are loose."""
        return self.loose >= len(self.strokes) - 1


class Found(NamedTuple):
    """The edges of a sheet with strokes joined; how many were joined to which hidden lines; the centre lines that were strokes; the lines whose
    ends or kind are a guess; single lines no longer than a stroke, which may be hidden ones, and how many are; and strokes that are left open."""

    edges: list[Edge]
    strokes: int
    hidden: list[Edge]
    centre: list[Edge]
    guessed: list[Edge]
    short: list[Edge]
    single: int
    unclear: list[Unread]


def slack(length: float, tolerance: float) -> float:
    """By how much a length may differ from one that is meant to be equal."""
    return max(NOISE * tolerance, SLACK * length)


# ---- lines in line

def way_of(edge: Edge, tolerance: float) -> Way | None:
    """Which way an edge goes; none where it has no length."""
    (a, b), (c, d) = edge.start, edge.end
    width, height = abs(a - c), abs(b - d)
    if width <= tolerance and height <= tolerance:
        return None
    if min(width, height) > tolerance:
        return round((math.atan2(d - b, c - a) % math.pi) / TURN)
    return UPRIGHT if width <= tolerance else LEVEL


def piece_of(edge: Edge, way: Way) -> Piece:
    """An edge as a stretch of a line that goes its way."""
    (a, b), (c, d) = edge.start, edge.end
    if way == LEVEL:
        return Piece((b + d) / 2, min(a, c), max(a, c), edge)
    if way == UPRIGHT:
        return Piece((a + c) / 2, min(b, d), max(b, d), edge)
    turn = math.atan2(d - b, c - a) % math.pi
    right, up = math.cos(turn), math.sin(turn)
    ends = sorted((a * right + b * up, c * right + d * up))
    return Piece(((a + c) * -up + (b + d) * right) / 2, ends[0], ends[1], edge)


def rows_of(pieces: Iterable[Piece], tolerance: float) -> Iterator[list[Piece]]:
    """Stretches in rows, those of each from the least on, each once."""
    row: list[Piece] = []
    for piece in sorted(pieces, key=lambda it: it.at):
        if row and piece.at - row[0].at > tolerance:
            yield sorted(row, key=lambda it: it.low)
            row = []
        row.append(piece)
    if row:
        yield sorted(row, key=lambda it: it.low)


def ends_of(piece: Piece) -> tuple[Place, Place]:
    """The lesser and the greater end of a stretch."""
    (a, b), (c, d) = piece.edge.start, piece.edge.end
    turn = math.atan2(d - b, c - a) % math.pi
    key = (math.cos(turn), math.sin(turn)) if abs(turn - math.pi) > TURN else (1.0, 0.0)
    first, last = sorted((piece.edge.start, piece.edge.end), key=lambda it: it[0] * key[0] + it[1] * key[1])
    return first, last


class Others:
    """What an end of a line may touch: level and upright lines, and the ends of what is oblique or bent. A look takes as long as a search."""

    def __init__(self, pieces: dict[Way, list[Piece]], arcs: Sequence[Arc], unread: Sequence[Unread], tolerance: float) -> None:
        self.reach = NOISE * tolerance
        self.rows = {way: list(self.stretches(pieces.get(way, ()), tolerance)) for way in (LEVEL, UPRIGHT)}
        self.ats = {way: [at for at, _ in rows] for way, rows in self.rows.items()}
        self.ends: dict[tuple[int, int], set[Way | None]] = defaultdict(set)
        for way, its in pieces.items():
            for end in (end for piece in its for end in (piece.edge.start, piece.edge.end) if way >= 0):
                self.ends[self.cell(end)].add(way)
        for arc in arcs:
            turns = (arc.start, arc.start + arc.sweep, 0, 90, 180, 270)
            for end in map(arc.at, turns):
                self.ends[self.cell(end)].add(None)
        for end in (end for it in unread if it.places for end in (it.places[0], it.places[-1])):
            self.ends[self.cell(end)].add(None)

    def cell(self, place: Place) -> tuple[int, int]:
        return round(place[0] / self.reach), round(place[1] / self.reach)

    @staticmethod
    def stretches(pieces: Iterable[Piece], tolerance: float) -> Iterator[tuple[float, list[tuple[float, float]]]]:
        """Each row with its stretches that don't touch."""
        for row in rows_of(pieces, tolerance):
            found: list[tuple[float, float]] = []
            for _, low, high, _ in row:
                if found and low <= found[-1][1] + tolerance:
                    found[-1] = found[-1][0], max(found[-1][1], high)
                else:
                    found.append((low, high))
            yield row[0].at, found

    def covers(self, way: Way, number: int, along: float) -> bool:
        """Whether a row has a stretch at a place along it."""
        its = self.rows[way][number][1]
        at = bisect.bisect(its, (along + self.reach, math.inf)) - 1
        return at >= 0 and its[at][1] >= along - self.reach

    def are_touched(self, place: Place, way: Way) -> bool:
        """Whether a line that goes another way ends at a place, or passes it."""
        for other, across, along in ((LEVEL, place[1], place[0]), (UPRIGHT, place[0], place[1])):
            if other != way:
                first = bisect.bisect_left(self.ats[other], across - self.reach)
                last = bisect.bisect_right(self.ats[other], across + self.reach)
                if any(self.covers(other, number, along) for number in range(first, last)):
                    return True
        x, y = self.cell(place)
        near = (self.ends.get((x + i, y + j), ()) for i in (-1, 0, 1) for j in (-1, 0, 1))
        return any(it != way for its in near for it in its)

    def beyond(self, place: Place, way: Way, sign: int, reach: float) -> list[float]:
        """Where lines across a level or upright one lie beyond its end, no farther than so much: coordinates along it, the nearest first."""
        other = UPRIGHT if way == LEVEL else LEVEL
        along, across = (place[0], place[1]) if way == LEVEL else (place[1], place[0])
        low, high = sorted((along + sign * self.reach, along + sign * (reach + self.reach)))
        first, last = bisect.bisect_left(self.ats[other], low), bisect.bisect_right(self.ats[other], high)
        numbers = range(first, last)[:MOST_BEYOND] if sign > 0 else range(first, last)[::-1][:MOST_BEYOND]
        return [self.ats[other][it] for it in numbers if self.covers(other, it, across)]


# ---- strokes of a line

def equal_gaps(row: Sequence[Piece], tolerance: float) -> Iterator[list[Piece]]:
    """Stretches of a row that follow one another with equal gaps, as many as there are each time; one may end one and begin the next."""
    first = 0
    while first + 1 < len(row):
        gap, last = row[first + 1].low - row[first].high, first + 1
        while gap > tolerance and last + 1 < len(row) and abs(row[last + 1].low - row[last].high - gap) <= slack(gap, tolerance):
            last += 1
        if gap > tolerance:
            yield list(row[first:last + 1])
        first = last


def without_copies(row: Sequence[Piece], tolerance: float) -> list[Piece]:
    """A row without stretches that are drawn twice."""
    kept: list[Piece] = []
    for it in row:
        if not (kept and abs(it.low - kept[-1].low) <= tolerance and abs(it.high - kept[-1].high) <= tolerance):
            kept.append(it)
    return kept


class Finder:
    """Looks for strokes among the edges of a sheet."""

    def __init__(self, edges: Sequence[Edge], arcs: Sequence[Arc], unread: Sequence[Unread], tolerance: float) -> None:
        self.edges, self.tolerance = edges, tolerance
        self.rows: list[tuple[Way, Look, list[Piece]]] = []
        pieces: dict[Way, list[Piece]] = defaultdict(list)
        drawn: dict[tuple[Way, Look], list[Piece]] = defaultdict(list)
        for edge in edges:
            if (way := way_of(edge, tolerance)) is not None:
                piece, its = piece_of(edge, way), edge.source.look
                pieces[way].append(piece)
                if its and its.linetype.upper() in PLAIN:
                    drawn[way, (edge.hidden, its.layer, its.colour)].append(piece)
        self.pieces, self.others = pieces, Others(pieces, arcs, unread, tolerance)
        for (way, look), row in drawn.items():
            self.rows += [(way, look, without_copies(it, tolerance)) for it in rows_of(row, tolerance)]

    def loose(self, way: Way, strokes: Sequence[Piece]) -> list[tuple[bool, bool]]:
        """Of each two strokes that follow one another, whether the ends that face each other are loose."""
        pairs = ((ends_of(one)[1], ends_of(other)[0]) for one, other in itertools.pairwise(strokes))
        return [(not self.others.are_touched(one, way), not self.others.are_touched(other, way)) for one, other in pairs]

    def lines(self) -> list[Line]:
        """All stretches with equal gaps of which some ends are loose, the longest rows first."""
        found = []
        for way, look, row in self.rows:
            for its in equal_gaps(row, self.tolerance):
                if sum(map(sum, loose := self.loose(way, its))):
                    gap = its[1].low - its[0].high
                    dash = statistics.median(it.high - it.low for it in (its[1:-1] or its))
                    found.append(self.trimmed(Line(way, look, tuple(its), gap, dash, sum(map(sum, loose)))))
        return sorted(found, key=lambda it: -len(it.strokes))

    def runs(self, used: set[int]) -> Iterator[Line]:
        """What is left of level and upright rows: strokes that follow one another, the ends that face each other loose, the gaps no longer than
        a stroke beside them."""
        for way, look, row in self.rows:
            run: list[Piece] = []
            for it in (it for it in row if way < 0 and id(it.edge) not in used):
                gap, longest = (it.low - run[-1].high, max(it.high - it.low, run[-1].high - run[-1].low)) if run else (0.0, 0.0)
                if run and not (self.tolerance < gap <= longest and all(self.loose(way, (run[-1], it))[0])):
                    yield from self.run_of(way, look, run)
                    run = []
                run.append(it)
            yield from self.run_of(way, look, run)

    def run_of(self, way: Way, look: Look, run: Sequence[Piece]) -> Iterator[Line]:
        if len(run) > 1:
            gap = max(other.low - one.high for one, other in itertools.pairwise(run))
            yield Line(way, look, tuple(run), gap, max(it.high - it.low for it in run), 2 * len(run) - 2)

    def trimmed(self, line: Line) -> Line:
        """A line of equal strokes without what is too long at an end to be one of them, as an edge in line with it is."""
        its, most = list(line.strokes), line.dash + line.gap / 2 + slack(line.dash, self.tolerance)
        if len(its) <= FEWEST or not self.are_equal(line) or self.is_centre(line):
            return line
        its = its[its[0].high - its[0].low > most:]
        its = its[:-1] if its[-1].high - its[-1].low > most else its
        return line._replace(strokes=tuple(its), loose=sum(map(sum, self.loose(line.way, its))))

    def are_equal(self, line: Line) -> bool:
        """Whether the strokes within a line are equal, and the gaps no longer."""
        inner = [it.high - it.low for it in line.strokes[1:-1]]
        return bool(inner) and line.gap <= line.dash and all(abs(it - line.dash) <= slack(line.dash, self.tolerance) for it in inner)

    def is_hidden(self, line: Line) -> bool:
        """Whether strokes have the form of a hidden line."""
        most = line.dash + line.gap / 2 + slack(line.dash, self.tolerance)
        ends = (line.strokes[0], line.strokes[-1])
        return len(line.strokes) >= FEWEST and self.are_equal(line) and all(it.high - it.low <= most for it in ends)

    def is_centre(self, line: Line) -> bool:
        """Whether strokes have the form of a centre line: one or two short ones between long ones, which are equal but for those at the ends."""
        lengths = [it.high - it.low for it in line.strokes]
        longest = max(lengths[1:-1] if len(lengths) > 2 * FEWEST else lengths)
        form = "".join("L" if it > SHORT * longest else "s" for it in lengths)
        longs, shorts = ([it for it, sign in zip(lengths[1:-1], form[1:-1]) if sign == which] for which in "Ls")
        if not shorts or any(abs(it - longs[0]) > slack(longs[0], self.tolerance) for it in longs):
            return False
        # A stroke at an end may be a long one that is cut off.
        least = max(shorts) / SHORT if len(lengths) == FEWEST else 0.0 if longs else (1 + SLACK) * max(shorts)
        ends = [("sL" if it >= least else "s") if sign == "s" else "L" for it, sign in ((lengths[0], form[0]), (lengths[-1], form[-1]))]
        forms = (first + form[1:-1] + last for first, last in itertools.product(*ends))
        return "L" in form and any("LL" not in it and "sss" not in it and re.search("Ls{1,2}L", it) for it in forms)

    def fits(self, line: Line, known: Iterable[tuple[float, float]], times: float) -> bool:
        """Whether strokes are as those of a hidden line that is known, with its dash and its gap, or up to so many times as long."""
        longest = max(it.high - it.low for it in line.strokes)
        return any(longest <= times * (dash + gap / 2) + slack(dash, self.tolerance)
                   and (line.gap <= times * gap if times > 1 else abs(line.gap - gap) <= slack(gap, self.tolerance)) for dash, gap in known)


# ---- what becomes of them

def found_in(sheet: Sheet, tolerance: float, said: str | None = None) -> Found:
    """The edges of a sheet with its strokes joined, as the user says what they are where it isn't clear."""
    finder = Finder(sheet.edges, sheet.arcs, sheet.unread, tolerance)
    lines, used = finder.lines(), set[int]()
    hidden, centre, unclear, guessed = list[Line](), list[Line](), list[Line](), list[Line]()
    rest = []
    for line in lines:
        fewest = FEWEST_OBLIQUE if line.way >= 0 else FEWEST
        is_clear = line.is_loose and len(line.strokes) >= fewest
        if any(id(it.edge) in used for it in line.strokes):
            line = line._replace(strokes=tuple(it for it in line.strokes if id(it.edge) not in used))
            rest += [line] if len(line.strokes) > 1 else []
        elif finder.is_hidden(line) and (is_clear or line.look[0] or said == "hidden"):
            hidden.append(line)
            used |= {id(it.edge) for it in line.strokes}
        elif finder.is_centre(line) and is_clear:
            centre.append(line)
            used |= {id(it.edge) for it in line.strokes}
        else:
            rest.append(line)
    known = {(it.dash, it.gap) for it in hidden}
    for line in rest:
        if line.way < 0 and not any(id(it.edge) in used for it in line.strokes):
            if finder.fits(line, known, 1) and line.is_loose:
                hidden.append(line)
            elif finder.is_hidden(line):
                unclear.append(line)
            else:
                continue
            used |= {id(it.edge) for it in line.strokes}
    for line in finder.runs(used):
        is_near = finder.fits(line, known, 2)
        if is_near or line.look[0] or said == "hidden":
            hidden.append(line)
            guessed += [line] if is_near and not line.look[0] else []
        else:
            unclear.append(line)
    return joined(finder, sheet, hidden, centre, guessed, unclear, said)


def joined(
    finder: Finder, sheet: Sheet, hidden: Sequence[Line], centre: Sequence[Line], guessed: Sequence[Line], unclear: Sequence[Line], said: str | None
) -> Found:
    """The edges with the lines of strokes as one each."""
    gone = {id(it.edge) for line in (*hidden, *centre) for it in line.strokes}
    gone |= copies_of(finder, gone)
    lone = {id(it.edge) for line in unclear for it in line.strokes}
    reached, doubtful = reached_ends(finder, hidden, gone)
    short, single = singles(finder, hidden, gone | lone)
    rest = [edge._replace(hidden=edge.hidden or id(edge) in single) for edge in finder.edges if id(edge) not in gone]
    whole = [edge for edge, _ in reached]
    its = [edge for edge, line in reached if any(line is it for it in guessed)] + doubtful
    count = sum(len(it.strokes) for it in hidden)
    return Found([*rest, *whole], count, whole, list(map(whole_of, centre)), [] if said else its, [] if said else short, len(single),
                 list(map(told_open, unclear)))


def copies_of(finder: Finder, gone: set[int]) -> set[int]:
    """The strokes that are drawn a second time over some that are joined."""
    def at(edge: Edge) -> tuple[int, ...]:
        return tuple(round(it / (NOISE * finder.tolerance)) for end in sorted((edge.start, edge.end)) for it in end)

    places = {at(edge) for edge in finder.edges if id(edge) in gone}
    return {id(edge) for edge in finder.edges if at(edge) in places}


def whole_of(line: Line) -> Edge:
    """The line that strokes make."""
    start, end = ends_of(line.strokes[0])[0], ends_of(line.strokes[-1])[1]
    return line.strokes[0].edge._replace(start=start, end=end)


def reached_ends(finder: Finder, hidden: Sequence[Line], gone: set[int]) -> tuple[list[tuple[Edge, Line]], list[Edge]]:
    """Hidden lines that end in a gap with their ends at the line that they come to; and those that may come to another one too."""
    pieces: dict[Way, list[Piece]] = defaultdict(list)
    for way in (LEVEL, UPRIGHT):
        pieces[way] = [it for it in finder.pieces.get(way, ()) if id(it.edge) not in gone]
    for line in hidden:
        its = piece_of(whole_of(line), line.way)
        pieces[line.way].append(its._replace(low=its.low - line.gap, high=its.high + line.gap))
    others = Others(pieces, (), (), finder.tolerance)
    found, doubtful = [], []
    for line in hidden:
        edge, is_sure = whole_of(line)._replace(hidden=True), True
        for sign in (-1, 1) if line.way < 0 else ():
            place = edge.start if sign < 0 else edge.end
            last = line.strokes[0 if sign < 0 else -1]
            ahead = others.beyond(place, line.way, sign, line.gap)
            is_touched = finder.others.are_touched(place, line.way)
            is_whole = last.high - last.low >= line.dash - slack(line.dash, finder.tolerance)
            if ahead and not is_touched:
                moved = (ahead[0], place[1]) if line.way == LEVEL else (place[0], ahead[0])
                edge = edge._replace(start=moved) if sign < 0 else edge._replace(end=moved)
            is_sure = is_sure and not (is_whole and len(ahead) > (0 if is_touched else 1))
        found.append((edge, line))
        doubtful += [] if is_sure else [edge]
    return found, doubtful


def singles(finder: Finder, hidden: Sequence[Line], taken: set[int]) -> tuple[list[Edge], set[int]]:
    """Single lines that look as strokes do and are no longer: those that may be hidden ones; and by their ids those that are, since all of their
    look is strokes and the visible lines look otherwise."""
    most: dict[Look, float] = {}
    for line in hidden:
        if not line.look[0]:
            most[line.look] = max(most.get(line.look, 0.0), line.dash + line.gap / 2 + slack(line.dash, finder.tolerance))
    left: dict[Look, list[Piece]] = defaultdict(list)
    for _, look, row in finder.rows:
        left[look] += [it for it in row if id(it.edge) not in taken]
    short, single = list[Edge](), set[int]()
    for look, longest in most.items():
        its = [it for it in left[look] if it.high - it.low <= longest]
        visible = sum(len(row) for other, row in left.items() if other not in most and not other[0])
        if len(its) == len(left[look]) and visible >= FEWEST_VISIBLE:
            single |= {id(it.edge) for it in its}
        else:
            short += [it.edge for it in its]
    return short, single


def box_of(edges: Iterable[Edge]) -> Box:
    """The box round edges."""
    xs, ys = zip(*(end for edge in edges for end in (edge.start, edge.end)))
    return min(xs), min(ys), max(xs), max(ys)


def told_open(line: Line) -> Unread:
    """Strokes of which it isn't clear what they are, in words."""
    edges = [it.edge for it in line.strokes]
    return Unread(f"is the first of {len(edges)} strokes in line", box_of(edges), edges[0].source)


# ---- for the pipeline

def without_strokes(sheet: Sheet, tolerance: float, said: str | None) -> Iterator[Note]:
    """Joins the strokes of a sheet's hidden lines and centre lines, unless the user says that strokes are visible lines; what was done."""
    if said == "visible":
        return
    found = found_in(sheet, tolerance, said)
    sheet.edges, sheet.unclear, sheet.guessed, sheet.short = found.edges, found.unclear, found.guessed, found.short
    sheet.chains = [*sheet.chains, *found.centre]
    if found.hidden:
        yield noted.changed(f"{many(found.strokes, 'stroke')} joined to {many(len(found.hidden), 'hidden line')}", found.strokes)
    if found.single:
        yield noted.changed(f"{many(found.single, 'line')} no longer than a stroke taken as hidden, since all lines that look so are strokes",
                            found.single)
    if found.centre:
        yield noted.left_out(f"{many(len(found.centre), 'centre line')} drawn as strokes", len(found.centre))


def reasons_of(sheet: Sheet, boxes: Iterable[Box]) -> tuple[Reason, ...]:
    """What strokes leave open within views: hidden lines that end at one line or at another, and single lines that may be hidden ones."""
    views, found = list(boxes), []
    for its, what in ((sheet.guessed, "is drawn as strokes that may be no hidden line, or one that goes on to the next line"),
                      (sheet.short, "is no longer than the strokes of hidden lines, so it may be a visible line or a hidden one")):
        within = [edge for edge in its if any(meet(box_of([edge]), box, 0.0) for box in views)]
        if within:
            x, y = box_of(within[:1])[:2]
            more = f", as {len(within) - 1:,} more are," if len(within) > 1 else ""
            found.append(Reason(Doubt.STROKES_JOINED, f"Not checked: the line at {x:.6g}, {y:.6g}{more} {what}.", (("lines", len(within)),)))
    return tuple(found)
