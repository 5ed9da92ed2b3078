"""Reading a sheet by ezdxf: the straight strokes that may be edges, what can't be read, and what is left out, each counted."""
import io
import math
import pathlib
import re
import sys
from collections import Counter
from collections.abc import Iterable, Sequence
from typing import TYPE_CHECKING, Any, NamedTuple

from ..core.messages import Refused, many
from ..core.notes import Thing, Things
from . import curves, encoding, file_types, missing, places, tags
from .crosscheck import BINARY, Unreadable, check_lines, line_of_file, version_needed
from .drawing import BY_FREECAD, FREECAD, UNITS, Place
from .layer_words import Role, role_of
from .styles import Choice, Look, Style, style_of

if TYPE_CHECKING:
    from ..core.page import Page

# The most bytes of a file, entities that are looked at in it with its blocks taken apart, and blocks within blocks.
MOST_BYTES, MOST_ENTITIES, DEEPEST = 64 << 20, 1_000_000, 16

POLYLINES = ("LWPOLYLINE", "POLYLINE")
CURVES = (
    "ARC", "CIRCLE", "ELLIPSE", "SPLINE", "HELIX", "SOLID", "TRACE", "3DFACE", "MLINE", "REGION", "BODY", "3DSOLID", "SURFACE", "MESH",
    "POLYFACE", "PLANESURFACE", "EXTRUDEDSURFACE", "LOFTEDSURFACE", "REVOLVEDSURFACE", "SWEPTSURFACE",
)
TEXTS = ("TEXT", "MTEXT", "ATTRIB", "ATTDEF")
# What is hatched or filled; and what gives no edge, and tells of the views: their sizes, and which of them are sections.
HATCHES = ("HATCH", "MPOLYGON")
KEPT = (*TEXTS, "DIMENSION", *HATCHES, "LEADER")
SCALE = re.compile(r"(?<![\d:.])(\d{1,4}(?:\.\d{1,3})?) ?: ?(\d{1,4}(?:\.\d{1,3})?)(?![\d:])")

Box = tuple[float, float, float, float]


class Source(NamedTuple):
    """Which entity something is of: its kind, its layer, its handle, and the block that it is in; and where each view has a file of its
    own, that file and its view; and how it looks. What FreeCAD draws of a page is of a view and of no file, and its layer is that view's label."""

    kind: str
    layer: str
    handle: str
    block: str = ""
    file: str = ""
    view: str = ""
    look: Look | None = None

    @property
    def is_drawn(self) -> bool:
        return bool(self.view) and not self.file

    def __str__(self) -> str:
        if self.is_drawn:
            return f"{self.kind} of the page's view {self.layer}"
        handle = f" {self.handle}" if self.handle else ""
        return f"{self.kind}{handle} on layer {self.layer}" + (f" in block {self.block}" if self.block else "")


class Edge(NamedTuple):
    """A straight stroke that may be an edge."""

    hidden: bool
    start: Place
    end: Place
    colour: int
    source: Source


class Arc(NamedTuple):
    """A part of a circle that may be an edge: counterclockwise from an angle on, in degrees."""

    hidden: bool
    centre: Place
    radius: float
    start: float
    sweep: float
    source: Source

    def at(self, angle: float) -> Place:
        return curves.at(self.centre, self.radius, angle)


class Unread(NamedTuple):
    """What can't be an edge as it is, and where; nowhere in particular, where that isn't known; the linetype that tells no style; and of a curve
    the places along it, and whether it is hidden."""

    why: str
    box: Box | None
    source: Source
    linetype: str = ""
    places: tuple[Place, ...] = ()
    hidden: bool = False


class Kept(NamedTuple):
    """An entity that gives no edge and tells something of the views."""

    entity: Any
    source: Source


class Arrow(NamedTuple):
    """The head of an arrow: where its tip may be, and how long it is; and from where to where it points, where more than its corners tells."""

    tips: list[Place]
    size: float
    source: Source
    points: tuple[Place, Place] | None = None


class Around(NamedTuple):
    """What the inserts round an entity hand down to it."""

    look: Look
    block: str = ""
    handle: str = ""
    off: bool = False
    depth: int = 0
    # Whether a block round it is named for cutting-plane lines, so that nothing in it is an edge.
    cutting: bool = False


class Sheet:
    """What was read of a file."""

    def __init__(self, unit: str) -> None:
        self.unit = unit
        self.edges: list[Edge] = []
        self.arcs: list[Arc] = []
        self.unread: list[Unread] = []
        # Blocks that aren't in the file; and what covers a part of the sheet, of which no line can be read.
        self.missing: list[Unread] = []
        self.covers: list[Unread] = []
        self.texts: list[Place] = []
        # The texts of blocks that are left out, as a title block is.
        self.stamps: list[str] = []
        self.scales: set[str] = set()
        # Programs that say in a comment that they wrote a file.
        self.writers: set[str] = set()
        self.arrows: list[Arrow] = []
        # Centre lines, and lines on layers that are named for cutting-plane lines.
        self.chains: list[Edge] = []
        self.kept: list[Kept] = []
        # The arrow heads of cutting-plane lines without letters.
        self.unlettered: list[Source] = []
        # Of lines drawn as strokes: strokes that may be anything, hidden lines whose ends are a guess, and lines no longer than a stroke.
        self.unclear: list[Unread] = []
        self.guessed: list[Edge] = []
        self.short: list[Edge] = []
        self.changed: Things = Counter()
        self.left: Things = Counter()
        # The same sheet without hidden lines, where that is given, and the edges as they were read before it told which are hidden.
        self.seen: Sheet | None = None
        self.whole: list[Edge] = []
        # The page of FreeCAD that it was drawn of: with all hidden lines, and without smooth ones.
        self.page: "Page | None" = None


def on_layer(kind: str, layer: str, rest: str = "") -> Thing:
    """An entity of a layer, of which the rest is told."""
    return Thing(f"{kind} on layer {layer}{rest}", layer, kind)


def plain_text(entity: Any) -> str:
    """What a text says, without codes of its form."""
    words = entity.plain_text() if hasattr(entity, "plain_text") else entity.dxf.get("text", "")
    return words if isinstance(words, str) else ""


def thing_of(source: Source, rest: str) -> Thing:
    return on_layer(source.kind, source.layer, f", {rest}")


def inserted(what: str) -> Thing:
    return Thing(f"INSERT of {what}", entity="INSERT")


# ---- the file

def library() -> Any:
    """ezdxf. Where matplotlib is there, ezdxf asks it for the widths of letters alone, and it takes as long to begin
    and as much memory as ezdxf itself: so it isn't seen meanwhile."""
    hides = "matplotlib" not in sys.modules
    if hides:
        sys.modules["matplotlib"] = None  # type: ignore[assignment]
    try:
        import ezdxf
        return ezdxf
    except ImportError:
        raise Refused("ezdxf isn't there: apt-get install python3-ezdxf") from None
    finally:
        if hides:
            del sys.modules["matplotlib"]


def opened(path: str) -> tuple[Any, str]:
    """The document of a file, and what had to be mended in it."""
    ezdxf = library()
    data = dxf_of(path)
    is_binary = data.startswith(BINARY)
    version = None if is_binary else version_needed(data)
    text = "" if is_binary else encoding.decode(version or data)
    if version is None:
        try:
            return (ezdxf.readfile(path, errors="replace") if is_binary else loaded(ezdxf, text)), ""
        except OSError:
            raise
        except Exception:  # ezdxf's own errors, and whatever a broken file makes it stumble on
            pass
    from ezdxf import recover  # which few files need
    try:
        document, auditor = recover.read(io.BytesIO(data if is_binary else encoding.escaped(text)), errors="replace")
    except Exception as failure:
        told = " ".join(str(failure).split())[:200] or type(failure).__name__
        raise Unreadable(f"ezdxf can't read {pathlib.Path(path).name}: {told}") from None
    mended = len(auditor.errors) + len(auditor.fixes)
    return document, f"the file is broken: ezdxf mended {many(mended, 'fault')}" if mended and version is None else ""


def loaded(ezdxf: Any, text: str) -> Any:
    """The document of a file of this text."""
    try:
        return tags.document_of(text)
    except Exception:  # whatever isn't as it is mostly, for which ezdxf is asked
        return ezdxf.read(io.StringIO(text, newline=None))


def begin_of(path: str) -> bytes:
    """The first bytes of a file, which tell what it is; refused where it is too long."""
    size = pathlib.Path(path).stat().st_size
    if size > MOST_BYTES:
        raise Refused(f"{pathlib.Path(path).name} has {size:,} bytes, more than {MOST_BYTES:,}")
    with open(path, "rb") as file:
        return file.read(file_types.LOOKED_AT)


def dxf_of(path: str) -> bytes:
    """The bytes of a DXF file; refused where it is empty, too long, or something else."""
    begin_of(path)
    data = pathlib.Path(path).read_bytes()
    if not data.strip():
        raise Refused(f"{pathlib.Path(path).name} is empty")
    if not data.startswith(BINARY) and not re.search(rb"^[ \t]*0[ \t\r]*\n[ \t]*SECTION", data, re.M | re.I):
        raise Refused(f"{pathlib.Path(path).name} is {file_types.told(data) or 'no DXF file: no section begins in it'}")
    return data


def where(source: Source, path: str | None) -> str:
    """An entity, and where it stands in its file."""
    return f"{source}{line_of_file(source.file or str(path), source.handle)}"


# ---- its entities

class Reader:
    """Walks over a document's entities, with its blocks taken apart."""

    def __init__(self, document: Any, choices: Sequence[Choice], unit: str, path: str = "") -> None:
        from ezdxf.render.arrows import ARROWS
        self.document, self.choices, self.arrows, self.path = document, choices, ARROWS, path
        self.sheet = Sheet(unit)
        self.patterns: dict[str, list[float] | None] = {}
        self.count = 0

    def read(self) -> Sheet:
        space = self.document.modelspace()
        self.walk(space, Around(Look("0", "CONTINUOUS", 7)))
        for layout in self.document.layouts:
            if layout.name != "Model" and (count := sum(it.dxftype() != "VIEWPORT" for it in layout)):
                self.sheet.left[Thing(f"entities of the paper space {layout.name}")] += count
        return self.sheet

    def pattern(self, linetype: str) -> list[float] | None:
        """The dashes, gaps and dots of a linetype in the file's table."""
        if linetype not in self.patterns:
            lines = self.document.linetypes
            known = linetype in lines
            tags = lines.get(linetype).pattern_tags.tags if known else []
            self.patterns[linetype] = [tag.value for tag in tags if tag.code == 49] if known else None
        return self.patterns[linetype]

    def look(self, entity: Any, around: Around) -> Look:
        """How an entity looks; on layer 0 in a block it looks as its insert does."""
        dxf = entity.dxf
        layer = around.look.layer if dxf.layer == "0" and around.block else dxf.layer
        table = self.document.layers
        of_layer = table.get(layer) if layer in table else None
        linetype, colour = dxf.get("linetype", "BYLAYER").upper(), dxf.get("color", 256)
        own = linetype not in ("BYLAYER", "BYBLOCK")
        if linetype == "BYBLOCK":
            linetype = around.look.linetype
        elif linetype == "BYLAYER":
            linetype = of_layer.dxf.linetype if of_layer is not None else "CONTINUOUS"
        if colour == 0:
            colour = around.look.colour
        elif colour == 256:
            colour = abs(of_layer.dxf.color) if of_layer is not None else 7
        return Look(layer, linetype, colour, own)

    def hidden_away(self, entity: Any, layer: str, around: Around) -> str:
        """Why an entity isn't seen, if it isn't."""
        if entity.dxf.get("invisible", 0):
            return "invisible"
        of_layer = self.document.layers.get(layer) if layer in self.document.layers else None
        if of_layer is not None and of_layer.is_frozen():
            return f"on layer {layer}, which is frozen"
        if around.off and entity.dxf.layer == "0" or of_layer is not None and of_layer.is_off() and entity.dxftype() != "INSERT":
            return f"on layer {layer}, which is off"
        return ""

    def walk(self, entities: Iterable[Any], around: Around) -> None:
        for entity in entities:
            self.count += 1
            if self.count > MOST_ENTITIES:
                raise Refused(f"more than {MOST_ENTITIES:,} entities, with the blocks taken apart")
            look = self.look(entity, around)
            kind = entity.dxftype()
            why = self.hidden_away(entity, look.layer, around)
            if why:
                self.sheet.left[Thing(f"{kind} {why}", entity=kind)] += 1
            elif kind == "INSERT":
                self.insert(entity, look, around)
            else:
                self.entity(entity, kind, look, around)

    def source(self, entity: Any, kind: str, look: Look, around: Around) -> Source:
        origin = entity.dxf.handle or getattr(entity.origin_of_copy, "dxf", entity.dxf).handle
        return Source(kind, look.layer, str(origin or around.handle or ""), around.block, look=look)

    # -- blocks

    def insert(self, insert: Any, look: Look, around: Around) -> None:
        name = insert.dxf.name
        if self.arrows.is_acad_arrow(self.arrows.arrow_name(name)) or self.arrows.is_ezdxf_arrow(self.arrows.arrow_name(name)):
            source, size = self.source(insert, "INSERT", look, around), insert.dxf.get("xscale", 1.0)
            tip, way = places.of(insert, insert.dxf.insert), places.direction(insert, insert.dxf.get("rotation", 0.0))
            tail = tip[0] - size * way[0], tip[1] - size * way[1]
            self.sheet.arrows.append(Arrow([tip], abs(size), source, (tail, tip)))
            self.sheet.left[inserted(f"an arrow head {name}")] += 1
            return
        style, why = style_of(Look(name, "CONTINUOUS", 0), (), None)
        cutting = around.cutting or role_of(name) is Role.CUTTING
        if style is Style.APART and not cutting:
            self.sheet.left[inserted(f"block {name}, which is named for frames, texts or dimensions")] += 1
            its = (*insert.attribs, *(it for it in self.document.blocks[name] if it.dxftype() in ("TEXT", "MTEXT")))
            self.sheet.stamps += [words for it in its if (words := plain_text(it))]
            return
        if self.is_missing(insert, look, around):
            return
        if around.depth >= DEEPEST:
            raise Refused(f"blocks stand in blocks more than {DEEPEST} deep, at {name}")
        layers = self.document.layers
        off = around.off and insert.dxf.layer == "0" or look.layer in layers and layers.get(look.layer).is_off()
        within = Around(look, name, str(insert.dxf.handle or around.handle or ""), off, around.depth + 1, cutting)
        copies: Iterable[Any] = insert.multi_insert() if insert.mcount > 1 else [insert]
        if insert.mcount > MOST_ENTITIES:
            raise Refused(f"block {name} is inserted {insert.mcount:,} times by one INSERT")
        self.sheet.changed[inserted(f"block {name} taken apart")] += 1
        for attribute in insert.attribs:
            self.entity(attribute, attribute.dxftype(), look, around)
        for copy in copies:
            self.walk(copy.virtual_entities(skipped_entity_callback=self.skipped), within)

    def is_missing(self, insert: Any, look: Look, around: Around) -> bool:
        """Whether the block of an insert isn't in the file, which is kept as what can't be read, unless it is left out as asked."""
        name, place = insert.dxf.name, places.of(insert, insert.dxf.insert)
        block = self.document.blocks.get(name) if name in self.document.blocks else None
        path = missing.reference_of(block) if block is not None else None
        if block is not None and path is None:
            return False
        if any(choice.style is Style.APART and choice.meets(look) for choice in self.choices):
            self.sheet.left[inserted(f"block {name}, which isn't in this file, as asked")] += 1
            return True
        why = missing.why_undefined(name, place) if path is None else missing.why_external(name, path, place, self.path)
        self.sheet.missing.append(Unread(why, None, self.source(insert, "INSERT", look, around)))
        return True

    def skipped(self, entity: Any, why: str) -> None:
        self.sheet.left[Thing(f"{entity.dxftype()} of a block that ezdxf can't place", entity=entity.dxftype())] += 1

    # -- all else

    def entity(self, entity: Any, kind: str, look: Look, around: Around) -> None:
        sheet = self.sheet
        style, why = style_of(look, self.choices, self.pattern(look.linetype))
        source = self.source(entity, kind, look, around)
        is_cutting = around.cutting or role_of(look.layer) is Role.CUTTING
        if around.cutting and style in (Style.VISIBLE, Style.HIDDEN):
            style, why = Style.APART, f"block {around.block} is named for cutting-plane lines"
        is_drawn_hatch = kind == "LINE" and style is Style.APART and role_of(look.layer) is Role.HATCH
        if (kind in KEPT or is_drawn_hatch) and not any(choice.style is Style.APART and choice.meets(look) for choice in self.choices):
            sheet.kept.append(Kept(entity, source))
        if kind in TEXTS:
            self.text(entity)
            sheet.left[on_layer(kind, look.layer)] += 1
        elif kind in missing.COVERS and not any(choice.style is Style.APART and choice.meets(look) for choice in self.choices):
            sheet.covers.append(Unread(missing.COVERS[kind], box_of(entity) or missing.box_at(entity), source))
        elif kind not in ("LINE", *POLYLINES, *CURVES):
            sheet.left[on_layer(kind, look.layer)] += 1
        elif style in (Style.CENTRE, Style.APART):
            if style is Style.CENTRE or is_cutting:
                self.chain(entity, kind, look, source)
            if is_cutting and style is Style.APART:
                self.heads(entity, kind, source)
            what = "centre line, " if style is Style.CENTRE else ""
            sheet.left[on_layer(kind, look.layer, f", {what}{why}" if why else ", a centre line")] += 1
        elif style is Style.UNKNOWN:
            sheet.unread.append(Unread(f"has the {why}, which tells no style", box_of(entity), source, look.linetype))
        elif kind in CURVES:
            if kind in ("SOLID", "TRACE"):
                self.arrow(entity, source)
            self.curve(entity, kind, style is Style.HIDDEN, look, source)
        else:
            if why:
                sheet.changed[on_layer(kind, look.layer, f" taken as {style.value}, {why}")] += 1
            self.lines(entity, kind, style is Style.HIDDEN, look, source)

    def chain(self, entity: Any, kind: str, look: Look, source: Source) -> None:
        """Keeps a straight centre line, which may be that of a cutting plane."""
        parts = [entity] if kind == "LINE" else entity.virtual_entities() if kind in POLYLINES else []
        for part in parts:
            if part.dxftype() == "LINE":
                start, end = part.dxf.start, part.dxf.end
                self.sheet.chains.append(Edge(False, (start.x, start.y), (end.x, end.y), look.colour, source))

    def heads(self, entity: Any, kind: str, source: Source) -> dict[int, Arrow]:
        """Keeps the heads of arrows that an entity draws; those of a polyline by the numbers of their stretches."""
        if kind in ("SOLID", "TRACE"):
            self.arrow(entity, source)
        found = {}
        for number, (tail, tip) in (curves.tapers_of(entity) if kind in POLYLINES else {}).items():
            found[number] = Arrow([tail, tip], math.dist(tail, tip), source, (tail, tip))
        self.sheet.arrows += found.values()
        return found

    def text(self, entity: Any) -> None:
        place = entity.dxf.get("insert")
        if place is not None:
            self.sheet.texts.append(places.of(entity, place))
        self.sheet.scales |= {f"{told[1]}:{told[2]}" for told in SCALE.finditer(plain_text(entity))}

    def arrow(self, entity: Any, source: Source) -> None:
        box = box_of(entity)
        if box is not None:
            corners = [(corner.x, corner.y) for corner in entity.wcs_vertices()]
            self.sheet.arrows.append(Arrow(corners, math.dist(box[:2], box[2:]), source))

    def curve(self, entity: Any, kind: str, hidden: bool, look: Look, source: Source) -> None:
        """Takes a curve as a part of a circle, or as a line where it is straight."""
        taken = curves.taken(entity)
        if isinstance(taken, curves.Bow):
            if kind not in ("ARC", "CIRCLE"):
                self.sheet.changed[on_layer(kind, look.layer, " taken as a part of a circle")] += 1
            self.sheet.arcs.append(Arc(hidden, *taken, source))
        elif taken:
            self.sheet.changed[Thing(f"straight {kind} on layer {look.layer} taken as a line", look.layer, kind)] += 1
            self.sheet.edges.append(Edge(hidden, *taken, look.colour, source))
        else:
            places = curves.places_upon(entity)
            self.sheet.unread.append(Unread(curves.neither(curves.places_of(entity)), box_of(entity), source, places=tuple(places), hidden=hidden))

    def lines(self, entity: Any, kind: str, hidden: bool, look: Look, source: Source) -> None:
        parts = [entity]
        if kind in POLYLINES:
            self.sheet.changed[on_layer(kind, look.layer, " taken apart")] += 1
            heads = self.heads(entity, kind, source)
            for (a, b), (c, d) in (it.points for it in heads.values() if it.points):
                self.sheet.unread.append(Unread("is an arrow head", (min(a, c), min(b, d), max(a, c), max(b, d)), source))
            parts, bows = curves.without_chords([it for number, it in enumerate(entity.virtual_entities()) if number not in heads])
            self.sheet.arcs += [Arc(hidden, *bow, source) for bow, _ in bows]
            if bows:
                count = sum(chords for _, chords in bows)
                told = f", of which {count} short chords are taken as {many(len(bows), 'round')}"
                self.sheet.changed[on_layer(kind, look.layer, told)] += 1
        for part in parts:
            if part.dxftype() == "ARC" and (bow := curves.bow_of_arc(part)):
                self.sheet.arcs.append(Arc(hidden, *bow, source))
                continue
            if part.dxftype() != "LINE":
                self.sheet.unread.append(Unread("has a bent side" if kind in POLYLINES else "is no line", box_of(part), source))
                continue
            start, end = part.dxf.start, part.dxf.end
            ends = (start.x, start.y, end.x, end.y)
            if not all(map(math.isfinite, ends)):
                raise Refused(f"{source} has a coordinate that is no number")
            if abs(start.z - end.z) > 1e-9:
                self.sheet.changed[on_layer(kind, look.layer, " seen from above, since its ends differ in height")] += 1
            self.sheet.edges.append(Edge(hidden, ends[:2], ends[2:], look.colour, source))


def box_of(entity: Any) -> Box | None:
    """The box round an entity, where ezdxf can tell it."""
    from ezdxf import bbox
    try:
        box = bbox.extents([entity])
    except Exception:  # whatever a broken entity makes ezdxf stumble on
        return None
    return (box.extmin.x, box.extmin.y, box.extmax.x, box.extmax.y) if box.has_data else None


def read_sheet(path: str, choices: Sequence[Choice]) -> Sheet:
    """Reads a file. What is changed and what is left out is counted in the sheet."""
    from . import hpgl  # which stands on this module
    if hpgl.is_plot(begin_of(path)):
        return hpgl.sheet_of(path, choices)
    document, mended = opened(path)
    check_lines(path, document)
    data = pathlib.Path(path).read_bytes()
    # Where a file tells no unit ezdxf answers metres.
    told = b"$INSUNITS" in data
    unit = UNITS.get(document.header.get("$INSUNITS", 0), "") if told else ""
    try:
        sheet = Reader(document, choices, unit, path).read()
    except RecursionError:
        raise Refused(f"{pathlib.Path(path).name}: blocks stand in one another without an end") from None
    if BY_FREECAD.match(data):
        sheet.writers.add(FREECAD)
    if mended:
        sheet.changed[Thing(mended)] += 1
    if not data.startswith(BINARY) and (letters := encoding.decoded(data)).lost:
        sheet.changed[Thing(f"letters that code page {letters.page} doesn't have, read as \ufffd: names of layers may be wrong")] += letters.lost
    return sheet
