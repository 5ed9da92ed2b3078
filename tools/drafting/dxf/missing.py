"""What a file names and doesn't hold: blocks of other files, blocks that nothing defines, objects of other programs, pictures and masks.

A part of the drawing may be there, and no line of it can be read. So none of this is counted as something that was read.
"""
import math
import ntpath
import pathlib
from collections.abc import Iterable
from typing import Any

from .drawing import Entry, Place

# Bits of group code 70 of a BLOCK (DXF Reference): an external reference, and one that was found when the file was written.
EXTERNAL, FOUND_ONCE = 4, 32
# Entities whose lines aren't in the file, or that cover lines of it, with what they are.
COVERS = {
    "ACAD_PROXY_ENTITY": "is an object of another program, whose lines the file doesn't have: draw it as lines (in AutoCAD EXPLODE, or "
                         "EXPORTTOAUTOCAD)",
    "WIPEOUT": "is a mask that covers what lies under it: delete it where it hides no line of the part",
    "IMAGE": "is a picture, of which no line can be read: draw its lines, or delete it",
    "PDFUNDERLAY": "is a page of a PDF file, of which no line can be read: draw its lines (in AutoCAD PDFIMPORT), or detach it",
    "DWFUNDERLAY": "is a page of a DWF file, of which no line can be read: draw its lines, or detach it",
    "DGNUNDERLAY": "is a drawing of a DGN file, of which no line can be read: draw its lines, or detach it",
    "OLE2FRAME": "is an object of another program, of which no line can be read: draw its lines, or delete it",
    "OLEFRAME": "is an object of another program, of which no line can be read: draw its lines, or delete it",
}


def reference_of(block: Any) -> str | None:
    """The path of the file that a block stands for, which may be empty; None where its entities are in this file."""
    dxf = block.block.dxf
    flags, path = int(dxf.get("flags", 0)), str(dxf.get("xref_path", "") or "")
    if flags & EXTERNAL or not len(block) and (flags & FOUND_ONCE or path):
        return path
    return None


def why_external(block: str, path: str, at: Place, sheet: str) -> str:
    """Why a reference to another file can't be read, and what to do; `sheet` is the path of the file that has it."""
    named = f"the file {path}" if path else "another file, whose path isn't told"
    name = ntpath.basename(path)
    beside = pathlib.Path(sheet).parent / name
    is_beside = bool(name) and beside.is_file()
    found = f"{name} is beside the sheet: bind it" if is_beside else f"put {name or 'that file'} beside the sheet and bind it"
    return (f"at {at[0]:.9g}, {at[1]:.9g} is block {block}, a reference to {named}, and none of its lines are in this one; {found} "
            "(in AutoCAD XREF, Bind), and save the sheet again")


def why_undefined(block: str, at: Place) -> str:
    """Why a block that nothing defines can't be read, and what to do."""
    return (f"at {at[0]:.9g}, {at[1]:.9g} is of block {block}, which this file doesn't define, so that its lines are missing; save the sheet again "
            "with its blocks, or delete the INSERT where it holds no line of the part")


def is_lacking(entries: Iterable[Entry]) -> bool:
    """Whether a file of plain entries has something in its model space that it doesn't hold."""
    held: set[str] = set()
    inserted: set[str] = set()
    for entry in entries:
        if entry.section == "BLOCKS" and entry.name == "BLOCK":
            flags = entry.values.get(70, "0").strip()
            is_elsewhere = flags.isdigit() and int(flags) & (EXTERNAL | FOUND_ONCE) or entry.values.get(1, "").strip()
            held |= set() if is_elsewhere else {entry.values.get(2, "").upper()}
        elif entry.section == "ENTITIES" and entry.values.get(67) != "1":
            if entry.name in COVERS:
                return True
            inserted |= {entry.values.get(2, "").upper()} if entry.name == "INSERT" else set()
    return bool(inserted - held)


def box_at(entity: Any) -> tuple[float, float, float, float] | None:
    """The box round what ezdxf draws nothing of, where its own data tell it: an object's frame, and the clip of a page."""
    dxf = entity.dxf
    try:
        if entity.dxftype() == "OLE2FRAME":
            box = entity.bbox()
            its = [(it.x, it.y) for it in (box.extmin, box.extmax)] if box.has_data else []
        else:
            turn = math.radians(dxf.get("rotation", 0.0))
            clip = [(it[0] * dxf.scale_x, it[1] * dxf.scale_y) for it in (entity.boundary_path if entity.dxftype().endswith("UNDERLAY") else ())]
            its = [(dxf.insert.x + x * math.cos(turn) - y * math.sin(turn), dxf.insert.y + x * math.sin(turn) + y * math.cos(turn)) for x, y in clip]
    except Exception:  # whatever a broken entity makes ezdxf stumble on
        return None
    if not its:
        return None
    xs, ys = zip(*its)
    return min(xs), min(ys), max(xs), max(ys)
