"""Drawings of three layers, and of further views beside these: reading their lines, and writing one.

A drawing is read as docs/DXF.md says, as far as its lines go, and looked through for no fault. Sheets are read by ezdxf
(`reader.py`). It isn't used here for two reasons. What is shown has to be what recon reads, also of a file with faults, which ezdxf mends
or refuses. And faults, logs and suggestions are told by the lines of the file, of which ezdxf keeps no numbers.
"""
import functools
import math
import pathlib
import re
from collections import Counter, defaultdict
from collections.abc import Iterable, Iterator, Mapping, Sequence
from decimal import Decimal
from fractions import Fraction
from typing import NamedTuple

from .encoding import decode

VIEWS = ("FRONT", "TOP", "SIDE")
# The views from the other sides, each of which a drawing may have too.
FURTHER = ("LEFT", "REAR", "BOTTOM")
DRAWN = ("LINE", "LWPOLYLINE")
VISIBLE = ("CONTINUOUS", "BYBLOCK")
DASHED = ("HIDDEN", "HIDDEN2", "HIDDENX2", "DASHED", "DASHED2", "DASHEDX2")
CENTER = ("CENTER", "CENTER2", "CENTERX2")

CODE = re.compile(r"-?[0-9]{1,4}")
DECIMAL = re.compile(r"[-+]?(\d+\.?\d*|\.\d+)([eE][-+]?\d{1,3})?")
# The layer of a section's lines, or of its area: the view, and where its plane lies.
SECTION = re.compile(rf"(SECTION|AREA)_({'|'.join((*VIEWS, *FURTHER))})_({DECIMAL.pattern})", re.I | re.A)
# The entries of a file of more lines aren't held, nor the lines of one of more bytes.
MOST_HELD, MOST_BYTES_HELD = 400_000, 4_000_000

Place = tuple[float, float]
# A line to be written: whether it is dashed, and its ends in units of the last decimal.
Stroke = tuple[bool, tuple[int, int], tuple[int, int]]

# The units of DXF's $INSUNITS that drawings of parts have, as they are written behind a length.
UNITS = {1: "in", 2: "ft", 4: "mm", 5: "cm", 6: "m", 8: "µin", 9: "mil", 10: "yd", 13: "µm", 14: "dm"}
# One of each in millimetres.
MILLIMETRES = {"mm": Fraction(1), "cm": Fraction(10), "dm": Fraction(100), "m": Fraction(1000), "µm": Fraction("0.001"),
               "in": Fraction("25.4"), "ft": Fraction("304.8"), "yd": Fraction("914.4"), "mil": Fraction("0.0254"), "µin": Fraction("0.0000254")}


class Line(NamedTuple):
    """A line of a view: whether it is dashed, its ends, the first and the last line of the file that tell of it, and whether its
    linetype has a meaning."""

    dashed: bool
    start: Place
    end: Place
    told: tuple[int, int]
    known: bool = True


# The lines of each view.
Views = Mapping[str, Sequence[Line]]


class Entry(NamedTuple):
    """An entry of a section: its pairs, the first value of each of its codes, and the lines of the file where it begins and ends."""

    section: str
    name: str
    pairs: list[tuple[int, str]]
    values: dict[int, str]
    first: int
    last: int


class Origin(NamedTuple):
    """What a drawing says of the sheet that it was made from: the unit of its coordinates, how many units of the drawing make one
    of the sheet, and whether it shows the sheet's part in a mirror, x turned round."""

    unit: str = ""
    times: Fraction = Fraction(1)
    mirrored: bool = False


def lines_of(path: str) -> list[str]:
    """The lines of a drawing file."""
    return lines_within(pathlib.Path(path).read_bytes())


def lines_within(data: bytes) -> list[str]:
    """The lines of a drawing, without what a carriage return or blanks at their ends add."""
    if len(data) > MOST_BYTES_HELD:
        return lines_in(data)
    if Held.data != data:
        Held.data, Held.text = data, lines_in(data)
    return Held.text


def lines_in(data: bytes) -> list[str]:
    text = decode(data).removesuffix("\n").replace("\r\n", "\n").removesuffix("\r")
    return [line.strip(" \t") for line in text.split("\n")]


@functools.lru_cache(maxsize=2048)
def code_of(line: str) -> int | None:
    """The group code that a line says."""
    return int(line) if CODE.fullmatch(line) else None


def pairs_of(lines: list[str]) -> Iterator[tuple[int, int, str]]:
    """The pairs of a drawing up to its end, or to what is no pair: the line of the code, the code and the value."""
    for number, line in enumerate(lines[0:len(lines) - 1:2]):
        code, value = code_of(line), lines[2 * number + 1]
        if code is None or code == 0 and value.upper() == "EOF":
            return
        yield 2 * number + 1, code, value


class Content:
    """What the lines of a drawing say, read when it is asked for."""

    def __init__(self, lines: list[str]) -> None:
        self.lines = lines

    @functools.cached_property
    def codes(self) -> list[int]:
        """The codes of its pairs up to what is no pair."""
        codes = list(map(code_of, self.lines[0:len(self.lines) - 1:2]))
        return [code for code in codes[:codes.index(None) if None in codes else None] if code is not None]

    @functools.cached_property
    def entries(self) -> list[Entry]:
        return list(entries_within(self.lines, self.codes))

    @functools.cached_property
    def layers(self) -> Views:
        """The lines that can be read of each layer that recon knows and that has some, by its name in capitals."""
        return lines_by_layer(entries_of(self.lines))

    @functools.cached_property
    def views(self) -> Views:
        return {view: self.layers.get(view, []) for view in (*VIEWS, *FURTHER) if view in self.layers or view in VIEWS}

    @functools.cached_property
    def comments(self) -> list[tuple[int, str]]:
        """The comments that stand before its entities, each with the line of its code."""
        if 999 not in self.codes:
            return []
        values = self.lines[1::2]
        ends = (at for at, code in enumerate(self.codes) if (code, values[at]) == (2, "ENTITIES") or code == 0 and values[at].upper() == "EOF")
        return [(2 * at + 1, values[at]) for at in range(next(ends, len(self.codes))) if self.codes[at] == 999]


class Held:
    """The file that was read last, and what the lines say that were asked about last: a drawing's are, several times in a row."""

    data = b""
    text: list[str] = [""]
    content = Content([])


def content_of(lines: list[str]) -> Content:
    if Held.content.lines is lines:
        return Held.content
    content = Content(lines)
    if len(lines) <= MOST_HELD:
        Held.content = content
    return content


def entries_of(lines: list[str]) -> Iterable[Entry]:
    """The entries of a drawing; what belongs to an application is passed over, and so are comments."""
    content = content_of(lines)
    return content.entries if len(lines) <= MOST_HELD else entries_within(lines, content.codes)


def entries_within(lines: list[str], codes: list[int]) -> Iterator[Entry]:
    values = lines[1::2]
    begins = [at for at, code in enumerate(codes) if code == 0]
    section = ""
    for at, behind in zip(begins, [*begins[1:], len(codes)]):
        name, within = values[at].upper(), section
        if name == "EOF":
            return
        pairs = list(zip(codes[at + 1:behind], values[at + 1:behind]))
        firsts = dict(reversed(pairs))
        if name == "SECTION":
            section = next((value.upper() for code, value in reversed(pairs) if code == 2), section)
        if 102 in firsts or 999 in firsts:
            pairs = own_of(pairs)
            firsts = dict(reversed(pairs))
        yield Entry(within, name, pairs, firsts, 2 * at + 1, 2 * behind)


def own_of(pairs: list[tuple[int, str]]) -> list[tuple[int, str]]:
    """The pairs of an entry without comments and without what belongs to an application."""
    own, foreign = [], False
    for code, value in pairs:
        foreign = foreign or code == 102 and value.startswith("{")
        if not foreign and code != 999:
            own.append((code, value))
        foreign = foreign and not (code == 102 and value == "}")
    return own


def points_of(entry: Entry) -> list[Place]:
    """The points through which a line or a polyline goes; none of one that is broken."""
    try:
        if entry.name == "LINE":
            return [(float(entry.values[x]), float(entry.values[y])) for x, y in ((10, 20), (11, 21))]
        xs, ys = [[float(value) for code, value in entry.pairs if code == wanted] for wanted in (10, 20)]
        points = list(zip(xs, ys, strict=True))
        closed = float(entry.values.get(70, "0")) % 2 == 1 and len(points) > 1
    except (KeyError, ValueError):
        return []
    return points + points[:1] if closed else points


def sides_of(entry: Entry) -> list[tuple[Place, Place]]:
    """The two ends of each line that it gives and that has some length."""
    points = points_of(entry)
    return [ends for ends in zip(points, points[1:]) if ends[0] != ends[1] and all(map(math.isfinite, ends[0] + ends[1]))]


def views_of(lines: list[str]) -> Views:
    """The lines that can be read of each of the three views, and of each further one that has some."""
    return content_of(lines).views


def sections_drawn(lines: list[str]) -> Views:
    """The lines that can be read of each layer of a section that has some, by its name in capitals."""
    return {layer: its for layer, its in content_of(lines).layers.items() if is_of_section(layer)}


def lines_by_layer(entries: Iterable[Entry]) -> dict[str, list[Line]]:
    linetypes: dict[str, str] = {}
    found: dict[str, list[Line]] = defaultdict(list)
    for entry in entries:
        layer = entry.values.get(8, "").upper()
        if entry.section == "TABLES" and entry.name == "LAYER":
            linetypes.setdefault(entry.values.get(2, "").upper(), entry.values.get(6, "").upper())
        elif entry.section == "ENTITIES" and entry.name in DRAWN and is_known(layer) and entry.values.get(67) != "1":
            linetype = entry.values.get(6, "BYLAYER").upper()
            linetype = linetypes.get(layer, "") if linetype == "BYLAYER" else linetype
            if linetype not in CENTER and (sides := sides_of(entry)):
                told = entry.first, entry.last
                known = linetype in ("", *VISIBLE, *DASHED)
                found[layer] += [Line(linetype in DASHED, *ends, told, known) for ends in sides]
    return found


@functools.lru_cache(maxsize=2048)
def is_of_section(layer: str) -> bool:
    """Whether a layer names a section."""
    return SECTION.fullmatch(layer) is not None


def missing_in(views: Mapping[str, Sequence[object]]) -> str:
    """The main view that a drawing lacks where it has the other two; else nothing."""
    missing = [view for view in VIEWS if not views.get(view)]
    return missing[0] if len(missing) == 1 else ""


def further_in(lines: list[str]) -> list[str]:
    """The further views that a drawing has."""
    return [view for view in views_of(lines) if view in FURTHER]


def places_of(width: int, depth: int, height: int, gap: int) -> dict[str, tuple[int, int]]:
    """Where each view begins on a third-angle sheet, on which FRONT begins at 0, 0."""
    return {
        "FRONT": (0, 0), "TOP": (0, height + gap), "SIDE": (width + gap, 0), "LEFT": (-depth - gap, 0),
        "REAR": (width + depth + 2 * gap, 0), "BOTTOM": (0, -depth - gap),
    }


def strokes_in(lines: list[str], decimals: int) -> dict[str, list[Stroke]]:
    """The strokes of a drawing that recon takes with so many decimals, in units of its last one."""
    return strokes_in_units(views_of(lines), decimals)


def strokes_in_units(layers: Mapping[str, Iterable[Line]], decimals: int) -> dict[str, list[Stroke]]:
    """Lines as strokes, in units of the last of so many decimals."""
    def units(place: Place) -> tuple[int, int]:
        return round(place[0] * 10**decimals), round(place[1] * 10**decimals)

    return {layer: [(line.dashed, units(line.start), units(line.end)) for line in its] for layer, its in layers.items()}


def up_to_end(data: bytes) -> bytes:
    """A drawing that recon takes, up to the line of its end pair: what stands behind that is no part of it."""
    last = max((line for line, _, _ in pairs_of(lines_within(data))), default=-1)
    return b"\n".join(data.split(b"\n")[:last + 3]) + b"\n"


def decimals_of(lines: list[str], with_sections: bool = False) -> int:
    """With how many decimals, at most 6, recon reads the lines of the views, and where they are read those of sections and their planes."""
    most, planes = 0, set[str]()
    for entry in entries_of(lines):
        layer = entry.values.get(8, "").upper()
        is_read = layer in (*VIEWS, *FURTHER) or with_sections and is_of_section(layer)
        if entry.section == "ENTITIES" and entry.name in DRAWN and is_read:
            planes |= {layer.rpartition("_")[2]}
            most = max(most, *(places_in(value) for code, value in entry.pairs if code in (10, 20, 11, 21)), 0)
    return min(max(most, *map(places_in, planes), 0), 6)


@functools.lru_cache(maxsize=2048)
def places_in(value: str) -> int:
    """How many decimals a numeral has; none of what is no numeral."""
    if value.isdigit() or not DECIMAL.fullmatch(value):
        return 0
    exponent = Decimal(value).normalize().as_tuple().exponent
    return -exponent if isinstance(exponent, int) else 0


def is_known(layer: str) -> bool:
    """Whether recon knows a layer, as that of a view or of a section, which it reads where it is asked to."""
    return layer.upper() in (*VIEWS, *FURTHER) or is_of_section(layer)


# The comment with which FreeCAD begins the files that it exports.
FREECAD = "FreeCAD"
BY_FREECAD = re.compile(rb"\s*999[ \t\r]*\n\s*FreeCAD\b")


def may_hide_otherwise(lines: list[str]) -> bool:
    """Whether no line of the views is hidden, and something else may tell hidden lines: the colours of lines on one layer, or a second export
    by FreeCAD, which writes all lines as visible ones."""
    if any(line.dashed for its in views_of(lines).values() for line in its):
        return False
    colours = {(entry.values.get(8, "").upper(), entry.values.get(62, "256").strip()) for entry in entries_of(lines)
               if entry.section == "ENTITIES" and entry.name in DRAWN and is_known(entry.values.get(8, ""))}
    return len(colours) > len({layer for layer, _ in colours}) or any(text.strip().startswith(FREECAD) for _, text in content_of(lines).comments[:1])


# What is passed over on other layers and could be meant as a part of a view.
MEANT = (*DRAWN, "POLYLINE", "ARC", "CIRCLE", "ELLIPSE", "SPLINE", "INSERT", "SOLID", "3DFACE")


def passed_over(lines: list[str]) -> Counter[tuple[str, str]]:
    """How many lines, curves and inserts, by layer and kind, lie within the boxes of the views and aren't read, since they are on other
    layers. Those of sections are no part of a view, wherever they lie."""
    boxes = []
    for its in views_of(lines).values():
        points = [point for line in its for point in (line.start, line.end)]
        if points:
            xs, ys = zip(*points)
            boxes.append((min(xs), min(ys), max(xs), max(ys)))
    counts: Counter[tuple[str, str]] = Counter()
    for entry in entries_of(lines):
        layer = entry.values.get(8, "0")
        unread = entry.name in MEANT and not is_known(layer) and entry.values.get(67) != "1"
        if entry.section == "ENTITIES" and unread and any(touches(entry, box) for box in boxes):
            counts[layer, entry.name] += 1
    return counts


def touches(entry: Entry, box: tuple[float, float, float, float]) -> bool:
    """Whether the box round an entity's points has something of another box; a circle's or an arc's is that of the whole circle."""
    numbers: dict[int, list[float]] = {10: [], 20: [], 40: []}
    for code, value in entry.pairs:
        code = {11: 10, 21: 20, 12: 10, 22: 20, 13: 10, 23: 20}.get(code, code) if entry.name not in ("ELLIPSE", "INSERT") else code
        if code in numbers:
            try:
                numbers[code].append(float(value))
            except ValueError:
                return False
    radius = numbers[40][0] if entry.name in ("CIRCLE", "ARC") and numbers[40] else 0.0
    xs, ys = numbers[10], numbers[20]
    if not xs or not ys:
        return False
    level = min(xs) - radius <= box[2] and max(xs) + radius >= box[0]
    return level and min(ys) - radius <= box[3] and max(ys) + radius >= box[1]


def origin_of(lines: list[str]) -> Origin:
    """What the drawing's header says of its unit, and what comments say that `draft sheet` wrote."""
    origin = Origin()
    variable = ""
    for _, code, value in pairs_of(lines):
        if (code, value) == (2, "ENTITIES"):
            break
        if code == 9:
            variable = value
        elif code == 70 and variable == "$INSUNITS" and value.isdigit():
            origin = origin._replace(unit=UNITS.get(int(value), ""))
            variable = ""
        elif code == 999 and (told := re.fullmatch(r"draft times (\d{1,15}(?:/[1-9]\d{0,8})?)", value)) and Fraction(told[1]):
            origin = origin._replace(times=Fraction(told[1]))
        elif code == 999 and value == "draft mirrored":
            origin = origin._replace(mirrored=True)
    return origin


# ---- writing

def number(units: int, decimals: int) -> str:
    """A coordinate as it is written with so many decimals."""
    if not decimals:
        return str(units)
    whole, part = divmod(abs(units), 10**decimals)
    return f"{'-' if units < 0 else ''}{whole}.{part:0{decimals}d}"


def pairs(*members: tuple[int, object]) -> str:
    """The text of pairs: a code and a value each, on lines of their own."""
    return "".join(f"{code}\n{value}\n" for code, value in members)


def section(name: str, *members: tuple[int, object]) -> str:
    return pairs((0, "SECTION"), (2, name), *members, (0, "ENDSEC"))


def tables(views: Iterable[str]) -> str:
    """What HIDDEN looks like, and the layers, which other programs ask for."""
    plain = [(0, "LTYPE"), (2, "CONTINUOUS"), (70, 0), (3, "Solid line"), (72, 65), (73, 0), (40, 0)]
    hidden = [(0, "LTYPE"), (2, "HIDDEN"), (70, 0), (3, "Hidden"), (72, 65), (73, 2), (40, 0.375), (49, 0.25), (49, -0.125)]
    names = [*VIEWS, *(view for view in views if view not in VIEWS)]
    layers = [pair for view in names for pair in ((0, "LAYER"), (2, view), (70, 0), (62, 7), (6, "CONTINUOUS"))]
    return section(
        "TABLES", (0, "TABLE"), (2, "LTYPE"), (70, 2), *plain, *hidden, (0, "ENDTAB"),
        (0, "TABLE"), (2, "LAYER"), (70, len(names)), *layers, (0, "ENDTAB"),
    )


def written(views: Mapping[str, Iterable[Stroke]], decimals: int, origin: Origin = Origin()) -> str:
    """A drawing of these views with a table of linetypes, which recon reads with so many decimals."""
    unit = next((code for code, name in UNITS.items() if name == origin.unit), 0)
    comments = [(999, f"draft times {origin.times}")] if origin.times != 1 else []
    comments += [(999, "draft mirrored")] if origin.mirrored else []
    members: list[tuple[int, object]] = []
    for view, strokes in views.items():
        for dashed, *ends in strokes:
            members += [(0, "LINE"), (8, view), (6, "HIDDEN" if dashed else "CONTINUOUS")]
            for end, codes in zip(ends, ((10, 20, 30), (11, 21, 31))):
                members += zip(codes, (number(end[0], decimals), number(end[1], decimals), 0))
    header = section("HEADER", (9, "$ACADVER"), (1, "AC1009"), (9, "$INSUNITS"), (70, unit))
    return pairs(*comments) + header + tables(views) + section("ENTITIES", *members) + pairs((0, "EOF"))
