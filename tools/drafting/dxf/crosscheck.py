"""A DXF file as it is written, beside what ezdxf makes of it: the version that its entities need, its lines and polylines, and where an entity
begins."""
import pathlib
import re
from collections import Counter
from typing import Any

from ..core.messages import Refused
from .drawing import entries_of, lines_of

BINARY = b"AutoCAD Binary DXF"


class Unreadable(Refused):
    """A file that ezdxf can't read, or reads otherwise than it is."""


def version_needed(data: bytes) -> bytes | None:
    """The text with the version R2000 told, where it has that one's entities and tells none or an older one: ezdxf reads entities as
    the version says, and would lose the layer and the flags of their polylines."""
    if b"AcDb" not in data and b"LWPOLYLINE" not in data:
        return None
    version = re.search(rb"\$ACADVER[ \t\r]*\n[ \t]*1[ \t\r]*\n[ \t]*(AC\d+)", data)
    if version:
        return data[:version.start(1)] + b"AC1015" + data[version.end(1):] if version[1] < b"AC1012" else None
    header = re.search(rb"^[ \t]*2[ \t\r]*\n[ \t]*HEADER[ \t\r]*\n", data, re.M)
    told = b"  9\n$ACADVER\n  1\nAC1015\n"
    if header:
        return data[:header.end()] + told + data[header.end():]
    return b"  0\nSECTION\n  2\nHEADER\n" + told + b"  0\nENDSEC\n" + data.removeprefix(b"\xef\xbb\xbf")


def check_lines(path: str, document: Any) -> None:
    """Refuses a document of an ASCII file whose lines and polylines ezdxf reads otherwise than the file has them."""
    if pathlib.Path(path).read_bytes().startswith(BINARY):
        return
    told: Counter[tuple[str, str, str, int, bool]] = Counter()
    for entry in entries_of(lines_of(path)):
        if entry.section == "ENTITIES" and entry.name in ("LINE", "LWPOLYLINE") and entry.values.get(67, "0").strip() != "1":
            closed = entry.name == "LWPOLYLINE" and entry.values.get(70, "0").strip() in ("1", "129")
            vertices = sum(code == 10 for code, _ in entry.pairs)
            told[entry.name, entry.values.get(8, "0").upper(), entry.values.get(6, "BYLAYER").upper(), vertices, closed] += 1
    read: Counter[tuple[str, str, str, int, bool]] = Counter()
    for entity in document.modelspace():
        kind = entity.dxftype()
        if kind in ("LINE", "LWPOLYLINE"):
            is_line = kind == "LINE"
            read[kind, entity.dxf.layer.upper(), entity.dxf.get("linetype", "BYLAYER").upper(), 1 if is_line else len(entity),
                 not is_line and bool(entity.closed)] += 1
    if told != read:
        if not re.search(rb"^[ \t]*0[ \t\r]*\n[ \t]*EOF", pathlib.Path(path).read_bytes(), re.M | re.I):
            raise Refused(f"{pathlib.Path(path).name} is cut, it ends without an end: export it again")
        kind, layer, linetype, vertices, closed = next(iter((told - read) or (read - told)))
        raise Unreadable(f"ezdxf reads the file otherwise than it is: {kind} on layer {layer} of linetype {linetype}, with {vertices} vertices"
                         f"{', closed' if closed else ''}, {sum(told.values())} lines and polylines in the file and {sum(read.values())} read")


def line_of_file(path: str, handle: str) -> str:
    """Where an entity of this handle begins in an ASCII file, in words; nothing where that isn't found."""
    try:
        found = next((entry.first for entry in entries_of(lines_of(path)) if entry.values.get(5) == handle), None) if handle else None
    except OSError:
        return ""
    return f", line {found:,} of {pathlib.Path(path).name}" if found else ""
