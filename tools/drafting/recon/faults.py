"""Faults of a drawing in words: what is wrong, the entity that it is about, and what to change."""
import re
from collections import Counter

from ..dxf.drawing import DRAWN, FURTHER, MEANT, VIEWS, Entry, entries_of, is_known
from ..dxf.reader import Source
from ..messages.controls import command, option
from ..sheet.placement import view_named
from .answer import FAULT

# What reads a file as a sheet.
SHEET = command("sheet")
# Of each fault what is wrong, and what to do.
WORDS = {
    "Binary": ("the file is binary DXF", f"save it as ASCII DXF, or let {SHEET} read it"),
    "BadCode": ("here stands no group code, where one has to stand", "the file is broken: export it again"),
    "NoValue": ("a group code has no value", "the file is cut: export it again"),
    "NoEof": ("the file ends without an end", "the file is cut: export it again"),
    "BadSection": ("a pair stands where none may", "the file is broken: export it again"),
    "BadNumber": ("a coordinate is no number", "the file is broken: export it again"),
    "NotWhole": ("a coordinate has more decimals than are read", f"read it with more {option('decimals')}, or let {SHEET} find them"),
    "TooFar": ("a coordinate is beyond 1,000,000,000", f"move the drawing nearer to the origin, or read it with fewer {option('decimals')}"),
    "Missing": ("a coordinate is missing", "the file is broken: export it again"),
    "Repeated": ("a coordinate stands there twice", "the file is broken: export it again"),
    "Oblique": ("a line is neither level nor upright", "draw it level or upright; oblique edges aren't read"),
    "Linetype": ("a linetype tells no style", f"make it CONTINUOUS, HIDDEN or CENTER, or let {SHEET} read it, with {option('hidden', 'linetype=NAME')}"),
    "Geometry": ("here is geometry that gives no lines", f"draw it by lines, or let {SHEET} take blocks and polylines apart"),
    "EmptyView": ("a view has no line", f"draw it on the layer of its name, or let {SHEET} find the views"),
    "TooManyLines": ("there are more than 100,000 lines", f"let {SHEET} join them"),
    "TooLong": ("the file has more than 16,777,216 bytes", f"let {SHEET} write it anew"),
    "TooFine": ("an axis has more than 64 different coordinates", "leave out details, or draw parts of it by themselves"),
    "TooManyBlocks": ("the drawing has more than 4,096 blocks", "leave out details, or draw parts of it by themselves"),
    "Curved": ("a side of a polyline is bent", "draw it by straight lines; curves aren't read"),
    "SectionName": ("a layer begins as a section's does and names none", "name a view and a plane, as SECTION_FRONT_12 or AREA_FRONT_12"),
    "NoCut": ("a section's plane doesn't lie within the part", "say where it cuts the part, from its least coordinate on"),
}


def name_of(head: str) -> str:
    """The name of the fault that an answer's first line tells, or nothing."""
    fault = FAULT.fullmatch(head)
    return fault[1].split()[1] if fault else ""


def line_named(head: str) -> int | None:
    """The line of the file that a fault names."""
    fault = FAULT.fullmatch(head)
    return int(fault[2]) if fault and fault[2] else None


def entity_at(lines: list[str], number: int | None) -> Entry | None:
    """The entity that has this line of the file."""
    if number is None:
        return None
    return next((entry for entry in entries_of(lines) if entry.first <= number <= entry.last and entry.section == "ENTITIES"), None)


def linetype_of(lines: list[str], entity: Entry) -> str:
    """The name of an entity's linetype, its own or its layer's."""
    name = entity.values.get(6, "BYLAYER")
    if name.upper() != "BYLAYER":
        return name
    layers = (entry for entry in entries_of(lines) if entry.section == "TABLES" and entry.name == "LAYER")
    layer = next((it for it in layers if it.values.get(2, "").upper() == entity.values.get(8, "").upper()), None)
    return f"{layer.values.get(6, 'CONTINUOUS')}, by its layer" if layer else "CONTINUOUS"


def layers_with_lines(lines: list[str]) -> Counter[str]:
    """How many lines and polylines each layer of the file has."""
    return Counter(entry.values.get(8, "0") for entry in entries_of(lines) if entry.section == "ENTITIES" and entry.name in DRAWN)


def about(head: str, lines: list[str]) -> list[str]:
    """What of the file a fault is about, in sentences."""
    name, number = name_of(head), line_named(head)
    said = []
    entity = entity_at(lines, number)
    if entity is not None:
        where = f"a {entity.name} on layer {entity.values.get(8, '0')}, lines {entity.first} to {entity.last} of the file"
        kind = f", of linetype {linetype_of(lines, entity)}" if name == "Linetype" else ""
        said.append(where + kind)
    elif number:
        said.append(f"line {number} of the file")
    if name == "EmptyView":
        view = head.split()[-1]
        layers = ", ".join(f"{layer} ({count})" for layer, count in layers_with_lines(lines).most_common(12))
        said.append(f"no line that is an edge is on layer {view}; " + (f"lines are on {layers}" if layers else "the file has no lines"))
    if found := re.search(r"axis (\w) count (\d+)", head):
        said.append(f"the axis {found[1]} has {found[2]}")
    if name in ("Oblique", "Missing", "NotWhole", "TooFar") and entity is not None:
        points = "; ".join(f"{code}: {value}" for code, value in entity.pairs if code in (10, 20, 11, 21))
        said.append(f"its coordinates by group code: {points[:200]}")
    return said


def told(head: str, lines: list[str]) -> list[str]:
    """A fault in sentences: what is wrong, what it is about, what to change, and the program's own words."""
    wrong, change = WORDS.get(name_of(head), ("the drawing has a fault", ""))
    return [f"the drawing has a fault: {wrong} ({head})", *about(head, lines), *([change] if change else [])]


def is_of_the_main_layers(lines: list[str]) -> bool:
    """Whether the file has lines on each of the three layers; or on some of them and nothing drawn on others, as where it is cut or has two
    views."""
    layers = {layer.upper() for layer in layers_with_lines(lines)}
    return set(VIEWS) <= layers or bool(layers) and all(map(is_known, layers)) and not any(
        entry.section == "ENTITIES" and entry.name in MEANT and not is_known(entry.values.get(8, "0")) for entry in entries_of(lines)
    )


def names_other_layers(lines: list[str]) -> bool:
    """Whether lines are on a layer that names a further view otherwise than recon does, as BACK or LEFT_VIEW."""
    layers = {layer for layer in layers_with_lines(lines) if not is_known(layer)}
    return any(view_named(Source("LINE", layer, "")) in FURTHER for layer in layers)
