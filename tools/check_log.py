#!/usr/bin/env python3
"""Checks a completeness log without recon, of which it uses nothing: a drawing and behind it its log stand on standard
input, and what `recon check` says of them is written, with its statuses: `cat drawing.dxf log | tools/check_log.py`.
It reads FRONT, TOP and SIDE alone, which it says on standard error: not what further views and sections rule out. With
`--two-views` one of the three may show nothing, as recon has it. Behind `yes S` stand the choices of all solids that
have these views, whoever wrote the log. To believe that, one has to believe what nothing here shows: that such a solid
lies in the grid between the drawing's coordinates, and fills each block of it whole or not at all and nothing of the
outside (Wesley and Markowsky 1981); and what `can_draw` says of two columns, which tools/check tries on all of up to
four cells. All else is done by the definitions, in the words of docs/DEFINITIONS.md and docs/OUTPUT.md."""
import itertools
import re
import sys
from collections.abc import Callable, Iterable, Iterator, Sequence
from typing import NamedTuple, TypeAlias

MOST_BYTES, MOST_LINES, MOST_PLACES = 134_217_728, 100_000, 64
MOST_BLOCKS, MOST_LISTED, FARTHEST = 4_096, 65_536, 1_000_000_000
YES, FAULT, USAGE, NO_INPUT, NO_OUTPUT, NO_MEMORY, NO_LOG = 0, 1, 2, 5, 6, 7, 9
# Of each view the axes to the right, upwards and away from the viewer, and whether depth grows with the coordinate.
VIEWS, FRAMES = (b"front", b"top", b"side"), ((0, 2, 1, True), (0, 1, 2, False), (1, 2, 0, False))
BLANK, DASHED, SOLID, CENTRE = range(4)
LINETYPE = re.compile(rb"((?:HIDDEN|DASHED)(?:2|X2)?)|(CONTINUOUS|BYBLOCK)|(CENTER(?:2|X2)?)")  # by their numbers above
GEOMETRY = b"ARC CIRCLE ELLIPSE SPLINE POLYLINE INSERT SOLID 3DFACE".split()
CODE = re.compile(rb"-?[0-9]{1,4}")
NUMERAL = re.compile(rb"([+-]?)(?=\.?[0-9])([0-9]*)(?:\.([0-9]*))?(?:[Ee]([+-]?)([0-9]+))?")
NUMBER = rb"(0|[1-9][0-9]{0,9})"
PLACE = rb"((?:front|top|side) [lu] (?:0|[1-9][0-9]{0,9}) (?:0|[1-9][0-9]{0,9}))"
ENTRY = re.compile(rb"solid|fail %b|split %b|force %b ([01]) %b" % (PLACE, NUMBER, NUMBER, PLACE))
END, BINARY, MARK = re.compile(rb"end " + NUMBER), b"AutoCAD Binary DXF", b"\xef\xbb\xbf"

class Pair(NamedTuple):
    """A pair of a file: the number of its code's line, its code and value, and the place in the text behind it."""
    line: int
    code: int
    value: bytes
    rest: int

Side: TypeAlias = tuple[int, int, int, int]  # x, y, x, y
Kept: TypeAlias = tuple[int, int, Side]  # a line of a file: its view and style
Line: TypeAlias = tuple[int, int, int, int]  # a line of the grid: view, 0 level or 1 upright, at, cell
Stretch: TypeAlias = tuple[int, int, int]  # from, to, style

class Wrong(Exception):
    """A fault of the drawing, or what is wrong with the log: its text."""
    def __init__(self, kind: str, line: int | None = None, code: int | None = None) -> None:
        super().__init__(kind + ("" if line is None else f" line {line}") + ("" if code is None else f" code {code}"))

def need(holds: object, kind: str, line: int | None = None, code: int | None = None) -> None:
    if not holds:
        raise Wrong(kind, line, code)

# ---- reading
def lines_from(text: bytes, place: int) -> Iterator[tuple[bytes, int]]:
    """The lines of a text from a place on, each with the place behind it."""
    while place < len(text):
        end = text.find(b"\n", place)
        end = len(text) if end < 0 else end
        yield text[place:end], end + 1
        place = end + 1

def pairs_from(text: bytes, place: int, line: int) -> Iterator[Pair]:
    """The pairs from a place on, where so many lines stand before it, without comments. It ends at a fault."""
    lines = lines_from(text, place)
    for first, _ in lines:
        code = first.removesuffix(b"\r").strip(b" \t")
        need(CODE.fullmatch(code), "F2 BadCode", line + 1)
        value, rest = next(lines, (None, 0))
        if value is None:
            raise Wrong("F3 NoValue", line + 1)
        if int(code) != 999:
            yield Pair(line + 1, int(code), value.removesuffix(b"\r").strip(b" \t"), rest)
        line += 2
    raise Wrong("F4 NoEof", line + 1)

def own_pairs(text: bytes, entry: Pair) -> Iterator[Pair]:
    """The pairs of an entry, without those that belong to an application."""
    inside = False
    for pair in itertools.takewhile(lambda pair: pair.code != 0, pairs_from(text, entry.rest, entry.line + 1)):
        foreign = inside or pair.code == 102 and pair.value.startswith(b"{")
        inside = foreign and (not inside or pair.code != 102 or pair.value != b"}")
        if not foreign:
            yield pair

def whole(pair: Pair) -> int:
    """A whole number, exactly; its digits and its exponent may be as long as they like."""
    found = NUMERAL.fullmatch(pair.value)
    if not found:
        raise Wrong("F6 BadNumber", pair.line + 1, pair.code)
    after, exponent = found[3] or b"", (found[5] or b"").lstrip(b"0") or b"0"
    digits = (found[2] + after).lstrip(b"0")
    short = digits.rstrip(b"0") or b"0"
    power = int(exponent) if len(exponent) < 18 else 10 ** 18
    power = (-power if found[4] == b"-" else power) - len(after) + len(digits) - len(short) if digits else 0
    need(power >= 0, "F7 NotWhole", pair.line + 1, pair.code)
    few = len(short) + power <= 10 and int(short) * 10 ** power <= FARTHEST
    need(few, "F8 TooFar", pair.line + 1, pair.code)
    return int(found[1] + short + b"0" * power)

def sides_of_line(text: bytes, entry: Pair) -> Iterator[Side]:
    ends: dict[int, int] = {}
    for pair in own_pairs(text, entry):
        if pair.code in (10, 20, 11, 21):
            need(pair.code not in ends, "F10 Repeated", pair.line, pair.code)
            ends[pair.code] = whole(pair)
    for code in (10, 20, 11, 21):
        need(code in ends, "F9 Missing", entry.line, code)
    yield ends[10], ends[20], ends[11], ends[21]

def sides_of_polyline(text: bytes, entry: Pair) -> Iterator[Side]:
    first = last = right = flags = None
    for pair in own_pairs(text, entry):
        if pair.code == 10:
            need(right is None, "F9 Missing", entry.line, 20)
            right = whole(pair)
        elif pair.code == 20:
            need(last or right is not None, "F9 Missing", entry.line, 10)
            need(right is not None, "F10 Repeated", pair.line, pair.code)
            before, last, right = last, (right or 0, whole(pair)), None
            first = first or last
            if before:
                yield *before, *last
        elif pair.code == 42:
            need(NUMERAL.fullmatch(pair.value), "F6 BadNumber", pair.line + 1, pair.code)
            need(not re.match(rb"[^1-9Ee]*[1-9]", pair.value), "F19 Curved", entry.line)
        elif pair.code == 70 and flags is None:
            flags = whole(pair)
    need(right is None, "F9 Missing", entry.line, 20)
    if first and last and first is not last and flags and flags % 2:
        yield *last, *first

SIDES: dict[bytes, Callable[[bytes, Pair], Iterator[Side]]] = {b"LINE": sides_of_line, b"LWPOLYLINE": sides_of_polyline}

class Reading:
    """A drawing's text: the linetypes of its layers, and the lines that it keeps, each with its view and style."""
    def __init__(self, text: bytes) -> None:
        self.text = text
        self.layers: dict[bytes, bytes] = {}
        self.kept: list[Kept] = []

    def judge(self, section: bytes, entry: Pair) -> None:
        """Takes what an entry that has ended tells: the linetype of a layer, or lines."""
        first: dict[int, bytes] = {}
        for pair in own_pairs(self.text, entry):
            first.setdefault(pair.code, pair.value)
        kind, layer, linetype = entry.value.upper(), first.get(8, b"").lower(), first.get(6, b"BYLAYER").upper()
        if section == b"TABLES":
            if kind == b"LAYER" and 2 in first:
                self.layers.setdefault(first[2].lower(), b"CONTINUOUS" if linetype == b"BYLAYER" else linetype)
        elif layer in VIEWS and first.get(67) != b"1":
            need(kind not in GEOMETRY, "F13 Geometry", entry.line)
            if kind in SIDES:
                own = self.layers.get(layer, b"CONTINUOUS") if linetype == b"BYLAYER" else linetype
                found = LINETYPE.fullmatch(own)
                style = found.lastindex if found else None
                need(style, "F12 Linetype", entry.line)
                self.keep(VIEWS.index(layer), style or BLANK, SIDES[kind](self.text, entry), entry.line)

    def keep(self, view: int, style: int, sides: Iterable[Side], line: int) -> None:
        """Keeps the sides of the entry that begins in this line."""
        oblique = False
        for side in sides if style != CENTRE else ():
            oblique |= side[0] != side[2] and side[1] != side[3]
            self.kept += [(view, style, side)] if len(self.kept) <= MOST_LINES else []
        need(not oblique, "F11 Oblique", line)
        need(len(self.kept) <= MOST_LINES, "F15 TooManyLines", line)

    def read(self, start: int) -> int:
        """Reads from this place to the drawing's end; the place behind it."""
        section, entry, is_named = None, None, True
        for pair in pairs_from(self.text, start, 0):
            word = pair.value.upper() if pair.code == 0 else b""
            if entry and section is not None and pair.code == 0:
                self.judge(section, entry)
                entry = None
            if section is None:
                if word == b"EOF":
                    return pair.rest
                need(word == b"SECTION", "F5 BadSection", pair.line)
                section, is_named = b"", False
            elif not is_named:
                need(pair.code == 2, "F5 BadSection", pair.line)
                section, is_named = pair.value.upper(), True
            elif pair.code == 0:
                need(word not in (b"SECTION", b"EOF"), "F5 BadSection", pair.line)
                entry = pair if section in (b"TABLES", b"ENTITIES") and word != b"ENDSEC" else None
                section = None if word == b"ENDSEC" else section
        raise AssertionError("pairs end at a fault")

def read(text: bytes) -> tuple[list[Kept], int]:
    """The lines that a drawing's file keeps, and the place behind its end."""
    start = len(MARK) if text.startswith(MARK) else 0
    need(not text.startswith(BINARY, start), "F1 Binary", 1)
    reading = Reading(text)
    return reading.kept, reading.read(start)

# ---- the grid and its blocks
def runs(stretches: list[Stretch]) -> list[Stretch]:
    """The longest stretches of one style that some stretches of one straight line make; solid hides dashed."""
    ends = sorted((at, style, step) for low, high, style in stretches for at, step in ((low, 1), (high, -1)))
    found, over, start, now = [], [0, 0, 0], 0, BLANK
    for at, here in itertools.groupby(ends, lambda end: end[0]):
        for _, style, step in here:
            over[style] += step
        style = SOLID if over[SOLID] else DASHED if over[DASHED] else BLANK
        if style != now:
            found += [(start, at, now)] if now else []
            start, now = at, style
    return found

def shown_in(kept: list[Kept], may_lack: int) -> list[int]:
    """The views that lines cover something of; so many of them may show nothing."""
    shown = [view for view in range(3) if any(at == view and side[:2] != side[2:] for at, _, side in kept)]
    empty = [name for view, name in enumerate(VIEWS) if view not in shown]
    need(len(empty) <= may_lack, "F14 EmptyView view " + b"".join(empty[:1]).upper().decode())
    return shown

def rows_in(kept: list[Kept], shown: list[int]) -> dict[tuple[int, int, int], list[Stretch]]:
    """The stretches of the straight lines of the views: each has its view, 0 level or 1 upright, and its place, counted
    from the view's least one."""
    rows: dict[tuple[int, int, int], list[Stretch]] = {}
    for view in shown:
        sides = [(style, side) for at, style, side in kept if at == view and side[:2] != side[2:]]
        x, y = (min(min(side[way], side[way + 2]) for _, side in sides) for way in (0, 1))
        for style, (x0, y0, x1, y1) in sides:
            row, ends = ((view, 0, y0 - y), (x0 - x, x1 - x)) if y0 == y1 else ((view, 1, x0 - x), (y0 - y, y1 - y))
            rows.setdefault(row, []).append((min(ends), max(ends), style))
    return {row: runs(stretches) for row, stretches in rows.items()}

def grid_of(kept: list[Kept], may_lack: int = 0) -> tuple[list[int], dict[Line, int]]:
    """How many cells each axis has, and the style of each line of the grid. A view that shows nothing has no line."""
    shown = shown_in(kept, may_lack)
    rows = rows_in(kept, shown)
    marks: list[set[int]] = [set(), set(), set()]
    for (view, way, at), stretches in rows.items():
        marks[FRAMES[view][1 - way]].add(at)
        marks[FRAMES[view][way]] |= {end for stretch in stretches for end in stretch[:2]}
    for name, places in zip("xyz", marks):
        need(len(places) <= MOST_PLACES, f"F17 TooFine axis {name} count {len(places)}")
    styles: dict[Line, int] = {}
    for view, way in itertools.product(shown, range(2)):
        across, along = (sorted(marks[FRAMES[view][it]]) for it in (1 - way, way))
        for (number, at), cell in itertools.product(enumerate(across), range(len(along) - 1)):
            row = rows.get((view, way, at), [])
            styles[view, way, number, cell] = next((it for low, high, it in row if low <= along[cell] < high), BLANK)
    return [len(places) - 1 for places in marks], styles

def parts_of(inside: bytearray, steps: list[tuple[int, Sequence[int]]]) -> list[int]:
    """For each place 0 where it is joined to the outside, else the number of its part, from 1 on by their first places.
    A step passes no wall: that where it leads, or, backwards, that where it starts. One place more than a row has cells
    lies round it, at both ends."""
    steps = [*steps, *((-step, [*wall[step:], *wall[:step]]) for step, wall in steps)]
    parts, found, number, least = [0] * len(inside), [at for at, it in enumerate(inside) if not it], 0, 0
    while found:
        for at in found:
            parts[at] = number
            for step, wall in steps:
                there = (at + step) % len(parts)
                if inside[there] and not wall[there]:
                    inside[there] = 0
                    found.append(there)
        number, least = number + 1, inside.find(1, least)
        found = [least] if least >= 0 else []
        inside[least] = 0
    return parts

def blocks_of(sizes: list[int], strides: list[int], styles: dict[Line, int]) -> list[int]:
    """For each cell 0 outside, else the number of its block, from 1: by pseudo edges, virtual faces, and what is joined
    past these. A view without lines shows nothing, and forbids no edge."""
    frames = [(view, FRAMES[view]) for view in sorted({line[0] for line in styles})]
    points = [at[::-1] for at in itertools.product(*(range(size + 1) for size in reversed(sizes)))]
    drawn: list[set[tuple[int, int]]] = [set(), set(), set()]
    edges, walls = [bytearray(len(points)) for _ in sizes], []
    for view, way, at_line, cell in (line for line, style in styles.items() if style):
        ends = ((at_line, cell), (at_line, cell + 1)) if way else ((cell, at_line), (cell + 1, at_line))
        drawn[view].update(ends)
    vertex = [all((at[right], at[up]) in drawn[view] for view, (right, up, _, _) in frames) for at in points]
    for place, axis in itertools.product(itertools.compress(range(len(points)), vertex), range(3)):
        at = points[place]
        edges[axis][place] = at[axis] < sizes[axis] and vertex[place + strides[axis]] and all(
            styles[(view, 0, at[up], at[right]) if axis == right else (view, 1, at[right], at[up])]
            for view, (right, up, _, _) in frames if axis in (right, up))
    for one, other in (1, 2), (0, 2), (0, 1):  # across the third axis
        faces = bytearray(at[one] < sizes[one] and at[other] < sizes[other] for at in points)
        walls.append(parts_of(faces, [(strides[one], edges[other]), (strides[other], edges[one])]))
    cells = bytearray(all(at[axis] < sizes[axis] for axis in range(3)) for at in points)
    return parts_of(cells, list(zip(strides, walls)))

# ---- what is decided, and what lines demand
def can_draw(style: int, full: int, may: int, full2: int, may2: int) -> bool:
    """Some column between full and may and some one between the other two draw the style; the lowest bit is nearest to
    the viewer. Equal ones draw nothing; others a solid line where their first full cells differ in depth, and a dashed
    one where they don't."""
    differ, sure, both = may & ~full2 | may2 & ~full, full | full2, may & may2
    if style == BLANK:
        return not sure & ~both
    if style == SOLID:
        return differ != 0 and (not sure or differ & -differ <= sure & -sure)
    return both != 0 and not sure & (both & -both) - 1 and differ // (both & -both) > 1

class State:
    """What is decided of the blocks. A line demands a style of the columns of blocks at its two sides, and lines that
    demand the same are one demand. Of each column it is known which cells are full, and which may be; demands that
    can't be met are lost."""
    def __init__(self, sizes: list[int], styles: dict[Line, int]) -> None:
        strides = [1, sizes[0] + 1, (sizes[0] + 1) * (sizes[1] + 1)]
        block = blocks_of(sizes, strides, styles)
        count = max(block)
        need(count <= MOST_BLOCKS, f"F18 TooManyBlocks count {count}")
        columns: dict[tuple[int, ...], int] = {(): 0}
        places: dict[tuple[int, int, int], int] = {}
        for view, (right, up, sight, forward) in enumerate(FRAMES):
            for one, other in itertools.product(range(sizes[right]), range(sizes[up])):
                start = one * strides[right] + other * strides[up]
                column = block[start:start + sizes[sight] * strides[sight]:strides[sight]]
                places[view, one, other] = columns.setdefault(tuple(column[::1 if forward else -1]), len(columns))
        demands: dict[tuple[int, int, int], int] = {}
        self.lines: dict[bytes, int] = {}
        for (view, way, at, cell), style in styles.items():
            one, other = (places.get((view, it, cell) if way else (view, cell, it), 0) for it in (at, at - 1))
            name = b"%b %c %d %d" % (VIEWS[view], b"lu"[way], at, cell)
            self.lines[name] = demands.setdefault((style, one, other), len(demands))
        self.demands, self.lost = list(demands), set[int]()
        self.value: list[bool | None] = [None] * count
        self.cells: list[dict[int, int]] = [{} for _ in range(count)]
        self.beside: list[list[int]] = [[] for _ in columns]
        self.full = [0] * len(columns)
        self.may = [sum(1 << depth for depth, it in enumerate(column) if it) for column in columns]
        for number, column_blocks in enumerate(columns):
            for it in set(column_blocks) - {0}:
                self.cells[it - 1][number] = sum(1 << depth for depth, here in enumerate(column_blocks) if here == it)
        for number, (_, one, other) in enumerate(self.demands):
            self.beside[one].append(number)
            self.beside[other].append(number)
        self.look(range(len(demands)))

    def look(self, demands: Iterable[int]) -> None:
        for demand in demands:
            style, one, other = self.demands[demand]
            masks = self.full[one], self.may[one], self.full[other], self.may[other]
            (self.lost.discard if can_draw(style, *masks) else self.lost.add)(demand)

    def turn(self, block: int, full: bool, value: bool | None) -> None:
        """Decides a block as full or empty, or takes back that it is so decided."""
        self.value[block] = value
        for column, cells in self.cells[block].items():
            (self.full if full else self.may)[column] ^= cells
        self.look({demand for column in self.cells[block] for demand in self.beside[column]})

    def excludes(self, place: bytes, block: int, full: bool) -> bool:
        """In some cell of the undecided block beside the line, this value leaves no columns that draw its style."""
        style, one, other = self.demands[self.lines[place]]
        for here, there in ((one, other), (other, one)):
            cells = self.cells[block].get(here, 0)
            for cell in (1 << depth for depth in range(cells.bit_length()) if cells & 1 << depth):
                sure, may = self.full[here] | cell * full, self.may[here] & ~(cell * (not full))
                if not can_draw(style, sure, may, self.full[there], self.may[there]):
                    return True
        return False

# ---- the log
class Listing:
    """A log that is gone through: the blocks that are decided, each with its value, how many were at each open split,
    and the choices that are listed."""
    def __init__(self, state: State) -> None:
        self.state, self.is_open = state, True
        self.decided: list[tuple[int, bool]] = []
        self.splits: list[int] = []
        self.found: list[bytes] = []

    def decide(self, block: int, full: bool) -> None:
        self.decided.append((block, full))
        self.state.turn(block, full, full)

    def go_back(self) -> None:
        """On to the other side of the newest split, if one is open."""
        self.is_open = len(self.splits) > 0
        if self.is_open:
            kept, block = self.splits.pop(), 0
            while len(self.decided) > kept:
                block, was = self.decided.pop()
                self.state.turn(block, was, None)
            self.decide(block, False)

    def take(self, line: bytes, number: int) -> None:
        """Takes the line of this number, an entry of the tree."""
        entry, state = ENTRY.fullmatch(line), self.state
        if not entry:
            raise Wrong("G1 BadLine", number)
        fails, split, forced, value, by = entry.groups()
        if split or forced:
            block, full = int(split or forced), value != b"0"
            need(block < len(state.value) and state.value[block] is None, "G2 BadBlock", number)
            need(split or by in state.lines and state.excludes(by, block, not full), "G3 Unproved", number)
            self.splits += [len(self.decided)] if split else []
            self.decide(block, full)
        else:
            need(not fails or state.lines.get(fails) in state.lost, "G3 Unproved", number)
            need(fails or None not in state.value and not state.lost, "G4 Unsolid", number)
            need(fails or len(self.found) < MOST_LISTED, "G5 TooMany", number)
            self.found += [] if fails else [bytes(48 + (full is True) for full in state.value)]
            self.go_back()

def listed(state: State, log: Iterable[bytes]) -> list[bytes]:
    """The choices that the lines of a log list, in the stated order."""
    listing, number, is_ended = Listing(state), 0, False
    for number, line in enumerate(log, 1):
        need(not is_ended, "G8 Long", number)
        if number == 1:
            need(line == b"log 1 blocks %d" % len(state.value), "G1 BadLine", number)
        elif listing.is_open:
            listing.take(line, number)
        else:
            end = END.fullmatch(line)
            if not end:
                raise Wrong("G1 BadLine", number)
            need(int(end[1]) == len(listing.found), "G6 BadCount", number)
            is_ended = True
    need(is_ended, "G7 Short", number + 1)
    return sorted(listing.found, reverse=True)

def answer(text: bytes, may_lack: int = 0) -> tuple[int, Iterable[bytes]]:
    """The status for a drawing, of which so many views may show nothing, and its log, and what is written."""
    status, word = FAULT, "fault"
    try:
        need(len(text) <= MOST_BYTES, "F16 TooLong")
        kept, place = read(text)
        state, status, word = State(*grid_of(kept, may_lack)), NO_LOG, "log"
        choices = listed(state, (line for line, _ in lines_from(text, place)))
    except Wrong as why:
        return status, [f"{word} {why}\n".encode()]
    return YES, itertools.chain([b"yes %d\n" % len(choices)], (b"choice %b\n" % choice for choice in choices))

def main(words: list[str]) -> int:
    if words not in ([], ["--two-views"]):
        print("usage: check_log.py [--two-views] < DRAWING_AND_LOG", file=sys.stderr)
        return USAGE
    failed = NO_INPUT
    try:
        print("check_log.py reads the views FRONT, TOP and SIDE alone", file=sys.stderr, flush=True)
        with open(0, "rb", closefd=False) as source:
            text = source.read(MOST_BYTES + 1)
        failed, (status, told) = NO_OUTPUT, answer(text, len(words))
        with open(1, "wb", closefd=False) as sink:
            sink.writelines(told)
    except (MemoryError, OSError) as why:
        return NO_MEMORY if isinstance(why, MemoryError) else failed
    return status

if __name__ == "__main__":
    sys.exit(main(sys.argv[1:]))
