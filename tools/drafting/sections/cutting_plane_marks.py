"""Cutting-plane lines: letters that stand by arrow heads at their ends, and the strokes that belong to them and are no edges.

A letter with a head beside it is one end of such a line; a letter that has two ends names a section. The line between them is a centre
line, which is passed over; its thick ends and the shafts of its arrows are drawn as visible lines, and would join the view that it cuts.
"""
import itertools
import math
import re
from collections import defaultdict
from collections.abc import Container, Iterator, Sequence
from typing import Any, NamedTuple

from ..dxf import curves, places
from ..dxf.drawing import Place
from ..dxf.reader import HATCHES, TEXTS, Arrow, Box, Edge, Sheet, Source, box_of

LETTER = re.compile(r"[^\W\d_]\d?['′]?")
# How far from its head a letter may stand, how long a stroke of it is at most, in heights of the letter; and how far from a head its
# strokes may begin, as a part of its size.
NEAR, LONG, TOUCHING = 3, 8, 0.2
# How many times as long as wide a filled shaft is at least, and how many tolerances two places are apart at most that are meant to be one.
THICK, NOISE = 4, 3
# How straight across its line an arrow points; and of how many centre lines and heads ends without letters are looked for.
STRAIGHT, MOST_CHAINS, MOST_HEADS = 0.99, 200, 200
# How far from a quarter of a circle an arc of a hatch may end, in degrees.
WHOLE = 0.1


class Word(NamedTuple):
    """A text: what it says, where its middle is, and how high its letters are."""

    text: str
    place: Place
    high: float
    source: Source


class Head(NamedTuple):
    """An arrow head: the box round it, or its tip alone; and from where to where it points, where that is told."""

    box: Box
    source: Source
    points: tuple[Place, Place] | None = None

    @property
    def size(self) -> float:
        return math.dist(self.box[:2], self.box[2:])


class Mark(NamedTuple):
    """One end of a cutting-plane line: its letter, its arrow head, and the strokes that are drawn there."""

    letter: str
    word: Word
    head: Head
    strokes: tuple[Edge, ...] = ()


def distance(box: Box, place: Place) -> float:
    """How far a place is outside a box."""
    x, y = place
    return math.hypot(max(box[0] - x, 0.0, x - box[2]), max(box[1] - y, 0.0, y - box[3]))


# ---- what stands on the sheet

def word_of(entity: Any, source: Source) -> Word | None:
    """A text with the middle of its first line."""
    is_long = entity.dxftype() == "MTEXT"
    text = " ".join(str(entity.plain_text()).split())
    high = float(entity.dxf.get("char_height" if is_long else "height", 2.5))
    side = (entity.dxf.get("attachment_point", 1) - 1) % 3 if is_long else {1: 1, 4: 1, 2: 2}.get(entity.dxf.get("halign", 0), 0)
    place = entity.dxf.get("insert") if is_long or not side else entity.dxf.get("align_point") or entity.dxf.get("insert")
    if not text or place is None:
        return None
    (x, y), ahead = places.of(entity, place), 0.35 * high * len(text) * (1 - side)
    right, up = way_of(entity)
    return Word(text, (x + ahead * right, y + ahead * up), high, source)


def way_of(text: Any) -> Place:
    """Which way a text is read on the sheet."""
    if text.dxftype() == "MTEXT" and text.dxf.hasattr("text_direction"):
        way = text.dxf.text_direction.normalize()
        return way.x, way.y
    return places.direction(text, text.dxf.get("rotation", 0.0))


def words_of(sheet: Sheet) -> list[Word]:
    found = (word_of(kept.entity, kept.source) for kept in sheet.kept if kept.source.kind in TEXTS)
    return [word for word in found if word]


def sides_of(hatch: Any) -> list[list[Place]]:
    """The corners of each side of a hatch where they lie on the sheet, as `corners_of`."""
    placed = places.placing(hatch)
    return [list(map(placed, corners_of(path))) for path in hatch.paths]


def corners_of(path: Any) -> list[Place]:
    """The corners of a side of a hatch in its own coordinates, whole quarters of circles as their sharp corners; none where it is bent otherwise."""
    found: list[Place] = []
    for stretch in stretches_of(path):
        if stretch is None:
            return []
        found += stretch
    return found


def stretches_of(path: Any) -> Iterator[list[Place] | None]:
    """The corners of each stretch of a side of a hatch but its last one; None of one that is bent otherwise."""
    from ezdxf.math import bulge_to_arc
    if hasattr(path, "vertices"):
        its = [(it[0], it[1], it[2] if len(it) > 2 else 0) for it in path.vertices]
        for (x, y, bulge), (right, up, _) in zip(its, [*its[1:], *its[:1]]):
            if not bulge:
                yield [(x, y)]
                continue
            centre, start, end, radius = bulge_to_arc((x, y), (right, up), bulge)
            corners = squared_arc((centre.x, centre.y), radius, math.degrees(start), math.degrees(end))
            yield corners and [(x, y), *(corners if bulge > 0 else corners[::-1])]
    for edge in () if hasattr(path, "vertices") else path.edges:
        kind = type(edge).__name__
        if kind == "LineEdge":
            yield [(edge.start[0], edge.start[1])]
        elif kind == "ArcEdge" and (corners := squared_arc((edge.center[0], edge.center[1]), edge.radius, edge.start_angle, edge.end_angle)):
            start = curves.at((edge.center[0], edge.center[1]), edge.radius, edge.start_angle if edge.ccw else edge.end_angle)
            yield [start, *(corners if edge.ccw else corners[::-1])]
        else:
            yield None


def squared_arc(centre: Place, radius: float, start: float, end: float) -> list[Place] | None:
    """The sharp corners of a part of a circle, counterclockwise from an angle to another one; None where these aren't whole quarters."""
    first, last = (round(it / 90) for it in (start, end))
    if max(abs(start - 90 * first), abs(end - 90 * last)) > WHOLE:
        return None
    last += 4 * (last <= first)
    return [(centre[0] + radius * (1 if at % 4 in (0, 3) else -1), centre[1] + radius * (1 if at % 4 in (0, 1) else -1)) for at in range(first, last)]


def is_head(hatch: Any) -> bool:
    """Whether a hatch is a filled triangle, as arrow heads are."""
    return bool(hatch.dxf.get("solid_fill", 0)) and len(hatch.paths) == 1 and len(set(sides_of(hatch)[0])) == 3


def points_of(corners: Sequence[Place]) -> tuple[Place, Place] | None:
    """From where to where a triangle points: from the middle of its shortest side to the corner across."""
    its = list(dict.fromkeys((round(x, 9), round(y, 9)) for x, y in corners))
    if len(its) != 3:
        return None
    a, b = min(itertools.combinations(its, 2), key=lambda ends: math.dist(*ends))
    return ((a[0] + b[0]) / 2, (a[1] + b[1]) / 2), next(it for it in its if it not in (a, b))


def heads_of(sheet: Sheet, edges: Sequence[Edge], others: Sequence[Arrow], tolerance: float) -> Iterator[Head]:
    """The arrow heads of a sheet, but those of exploded dimensions: filled triangles, inserted blocks, leaders and open ones."""
    arrows = [arrow for arrow in sheet.arrows if not any(arrow is other for other in others)]
    shafts = [shaft for arrow in arrows if (shaft := shaft_of(arrow))]
    for arrow in arrows:
        xs, ys = zip(*arrow.tips)
        grown = arrow.size if len(arrow.tips) == 1 else 0.0
        head = Head((min(xs) - grown, min(ys) - grown, max(xs) + grown, max(ys) + grown), arrow.source, arrow.points or points_of(arrow.tips))
        yield with_shaft(head, shafts, tolerance)
    for kept in sheet.kept:
        if kept.source.kind == "LEADER" and len(kept.entity.vertices) > 1:
            (a, b, *_), (c, d, *_) = kept.entity.vertices[0], kept.entity.vertices[-1]
            tail = kept.entity.vertices[1]
            yield Head((min(a, c), min(b, d), max(a, c), max(b, d)), kept.source, ((tail[0], tail[1]), (a, b)))
        elif kept.source.kind in HATCHES and is_head(kept.entity) and (box := box_of(kept.entity)):
            yield Head(box, kept.source, points_of(sides_of(kept.entity)[0]))
    yield from open_heads([*edges, *sheet.chains], tolerance)


def shaft_of(arrow: Arrow) -> tuple[Place, Place] | None:
    """The ends of a filled shape that is a stretch of a thick line, as shafts are drawn: of four corners, and much longer than wide."""
    its = list(dict.fromkeys((round(x, 9), round(y, 9)) for x, y in arrow.tips))
    if len(its) != 4:
        return None
    a, b = min(itertools.combinations(its, 2), key=lambda ends: math.dist(*ends))
    c, d = (it for it in its if it not in (a, b))
    start, end = ((a[0] + b[0]) / 2, (a[1] + b[1]) / 2), ((c[0] + d[0]) / 2, (c[1] + d[1]) / 2)
    return (start, end) if max(math.dist(a, b), math.dist(c, d)) * THICK <= math.dist(start, end) else None


def with_shaft(head: Head, shafts: Sequence[tuple[Place, Place]], tolerance: float) -> Head:
    """An arrow head that points, with the filled shaft behind it, if there is one."""
    if not head.points:
        return head
    tail, tip = head.points
    reach = TOUCHING * head.size + NOISE * tolerance
    for near, far in (way for shaft in shafts for way in (shaft, shaft[::-1])):
        if math.dist(near, tail) <= reach and math.dist(far, tip) > math.dist(near, tip):
            (a, b, c, d), (x, y) = head.box, far
            return head._replace(box=(min(a, x), min(b, y), max(c, x), max(d, y)), points=(far, tip))
    return head


def open_heads(edges: Sequence[Edge], tolerance: float) -> Iterator[Head]:
    """Two slanted lines of one length that begin at one place."""
    ends: dict[tuple[int, int], list[tuple[Edge, Place, Place]]] = defaultdict(list)
    for edge in edges:
        if min(abs(a - b) for a, b in zip(edge.start, edge.end)) > tolerance:
            for tip, tail in ((edge.start, edge.end), (edge.end, edge.start)):
                ends[round(tip[0] / (3 * tolerance)), round(tip[1] / (3 * tolerance))].append((edge, tip, tail))
    for its in ends.values():
        if len(its) == 2 and abs(math.dist(*its[0][1:]) - math.dist(*its[1][1:])) <= 3 * tolerance:
            xs, ys = zip(its[0][1], its[0][2], its[1][2])
            tail = (its[0][2][0] + its[1][2][0]) / 2, (its[0][2][1] + its[1][2][1]) / 2
            yield Head((min(xs), min(ys), max(xs), max(ys)), its[0][0].source, (tail, its[0][1]))


# ---- the marks and their strokes

def marks_of(sheet: Sheet, edges: Sequence[Edge], others: Sequence[Arrow], labels: Container[str], tolerance: float) -> list[Mark]:
    """The ends of cutting-plane lines: letters that stand at two arrow heads, and those at any number that are a section's label."""
    letters = [word for word in words_of(sheet) if LETTER.fullmatch(word.text)]
    heads = list(heads_of(sheet, edges, others, tolerance)) if letters else []
    marks: dict[str, list[Mark]] = defaultdict(list)
    for word in letters:
        near = [it for it in heads if distance(it.box, word.place) <= NEAR * word.high + it.size]
        # A filled shape that doesn't point may be a shaft, or a thick end of the line.
        head = min(near, key=lambda it: (it.points is None, distance(it.box, word.place)), default=None)
        if head is not None:
            letter = word.text.rstrip("'′").upper()
            marks[letter].append(Mark(letter, word, head))
    found = [mark for letter, its in marks.items() if letter in labels or len(its) == 2 and its[0].head != its[1].head for mark in its]
    return [mark._replace(strokes=tuple(strokes_of(mark, edges, sheet.chains, tolerance))) for mark in found]


def unlettered(sheet: Sheet, edges: Sequence[Edge], others: Sequence[Arrow], tolerance: float) -> list[Mark]:
    """The ends of cutting-plane lines without letters: arrow heads that point the same way, each beside one end of a centre line and across it."""
    heads = [head for head in heads_of(sheet, edges, others, tolerance) if head.points] if sheet.chains else []
    found: list[Mark] = []
    for chain in sheet.chains[:MOST_CHAINS] if len(heads) <= MOST_HEADS else ():
        (a, b), (c, d), length = chain.start, chain.end, math.dist(chain.start, chain.end) or 1.0
        along = (c - a) / length, (d - b) / length
        ends = [[it for it in heads if across(it, along) and distance(it.box, end) <= NEAR * it.size] for end in (chain.start, chain.end)]
        if [len(its) for its in ends] == [1, 1] and ends[0][0] != ends[1][0] and across(ends[0][0], along) == across(ends[1][0], along):
            found += [Mark("", Word("", place, head.size, head.source), head) for place, (head,) in zip((chain.start, chain.end), ends)]
    return [mark._replace(strokes=tuple(strokes_of(mark, edges, sheet.chains, tolerance))) for mark in found]


def across(head: Head, way: Place) -> int:
    """To which side of a way a head points, straight across it: 1 or -1; 0 where it doesn't."""
    if not head.points:
        return 0
    (a, b), (c, d) = head.points
    turn = (way[0] * (d - b) - way[1] * (c - a)) / (math.dist(*head.points) or 1)
    return round(turn) if abs(turn) > STRAIGHT else 0


def is_loose(edge: Edge, end: Place, edges: Sequence[Edge], tolerance: float) -> bool:
    """Whether no other edge touches the end of one."""
    return not any(it is not edge and distance(span_of(it), end) <= tolerance for it in edges)


def span_of(edge: Edge) -> Box:
    (a, b), (c, d) = edge.start, edge.end
    return min(a, c), min(b, d), max(a, c), max(b, d)


def strokes_of(mark: Mark, edges: Sequence[Edge], chains: Sequence[Edge], tolerance: float) -> list[Edge]:
    """The lines of a mark: those that begin at its head, and what touches their ends, short and with a loose end. A shaft may be one of the lines
    that are no edges anyhow."""
    reach = TOUCHING * mark.head.size + 3 * tolerance
    around = LONG * mark.word.high
    near = [it for it in edges if not it.hidden and math.dist(it.start, it.end) <= around
            and min(distance(mark.head.box, it.start), distance(mark.head.box, it.end)) <= around]
    others = [it for it in edges if distance(mark.head.box, nearest_of(it, mark.head.box)) <= 3 * around]
    found = [it for it in near if min(distance(mark.head.box, end) for end in (it.start, it.end)) <= reach]
    shafts = [it for it in chains if math.dist(it.start, it.end) <= around
              and min(distance(mark.head.box, end) for end in (it.start, it.end)) <= reach]
    touched = [end for it in (*found, *shafts) for end in (it.start, it.end)] + [(mark.head.box[0], mark.head.box[1]), (mark.head.box[2], mark.head.box[3])]
    found += [it for it in near if not any(it is one for one in found)
              and any(distance(span_of(it), end) <= 3 * tolerance for end in touched)]
    rest = [it for it in others if not any(it is one for one in found)]
    return [it for it in found if any(is_loose(it, end, rest, 3 * tolerance) for end in (it.start, it.end))]


def nearest_of(edge: Edge, box: Box) -> Place:
    """The place of the box round an edge that is nearest to the middle of another box."""
    low_x, low_y, high_x, high_y = span_of(edge)
    return min(max((box[0] + box[2]) / 2, low_x), high_x), min(max((box[1] + box[3]) / 2, low_y), high_y)


def without_marks(edges: list[Edge], marks: Sequence[Mark]) -> list[Edge]:
    """The edges without the strokes of marks."""
    gone = {id(edge) for mark in marks for edge in mark.strokes}
    return [edge for edge in edges if id(edge) not in gone]
