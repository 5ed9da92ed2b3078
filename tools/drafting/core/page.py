"""Documents of FreeCAD (.FCStd) with pages of TechDraw, as far as they are known without FreeCAD: which files they are, and what is taken of a
page. `techdraw.py` reads one, `anew.py` draws what it shows."""
import argparse
import pathlib
import zipfile
from typing import Any, NamedTuple

from ..dxf.reader import MOST_BYTES
from ..messages.controls import option
from .messages import Refused, Usage

# The most bytes of all that a document has packed.
MOST_UNPACKED = 1 << 30
BEGINS, INSIDE = b"PK\x03\x04", "Document.xml"
# A page that was taken of a document before, in a folder of its own: `anew.py` says what it has.
TAKEN = "taken_page.json"
# What is said of sheets, and what a page tells by itself.
SAID = ("hidden", "visible", "leave_out", "visible_only", "all_visible", "angle", "scale", "unit", "as_drawn", "pairs")


class View(NamedTuple):
    """A view of a page: the name that it has in the drawing, its own label, and whether it shows hidden lines and smooth ones."""

    name: str
    label: str
    has_hidden: bool
    has_smooth: bool


class Cut(NamedTuple):
    """A section of a page: the letter at its line, its own label, the view that looks as it does, where its plane lies along the drawing's axis in
    which that looks, as the document has it, and whether it shows the area that it cuts."""

    letter: str
    label: str
    looks: str
    at: float
    has_area: bool


class Page(NamedTuple):
    """What is taken of a page: its label, its views, the document's directions along which the drawing's x, y and z go, the solids as the
    views show them, and what places these in the document, where something holds them. Where it was drawn the solids are one part, and the
    drawing's least corner is known, along x, y and z. And its sections."""

    label: str
    views: tuple[View, ...]
    frame: tuple[Any, Any, Any]
    part: Any
    outer: Any
    least: tuple[float, float, float] = (0.0, 0.0, 0.0)
    cuts: tuple[Cut, ...] = ()

    @property
    def lacking(self) -> list[View]:
        """The views that don't show hidden lines."""
        return [view for view in self.views if not view.has_hidden]


def is_document(path: str | None) -> bool:
    """Whether a file is a document of FreeCAD, by its name or by what it begins with, or a page that was taken of one."""
    if path is None:
        return False
    file = pathlib.Path(path)
    if file.suffix.lower() == ".fcstd" or file.name == TAKEN:
        return True
    with open(path, "rb") as opened:
        start = opened.read(64)
    return start.startswith(BEGINS) and INSIDE.encode() in start


def check_file(path: str) -> None:
    """Refuses what is no document, is cut, or is too long once it is unpacked."""
    name = pathlib.Path(path).name
    if pathlib.Path(path).stat().st_size > MOST_BYTES:
        raise Refused(f"{name} has more than {MOST_BYTES:,} bytes")
    try:
        with zipfile.ZipFile(path) as packed:
            sizes = {it.filename: it.file_size for it in packed.infolist()}
    except zipfile.BadZipFile:
        raise Refused(f"{name} is no document of FreeCAD, or is cut: save it again") from None
    if INSIDE not in sizes:
        raise Refused(f"{name} is no document of FreeCAD: {INSIDE} isn't in it")
    if sum(sizes.values()) > MOST_UNPACKED:
        raise Refused(f"{name} has {sum(sizes.values()):,} bytes once it is unpacked, more than {MOST_UNPACKED:,}")


def check_options(arguments: argparse.Namespace, is_page: bool) -> None:
    """Refuses options of sheets with a page, and of pages with a sheet."""
    if is_page and (said := next((name for name in SAID if getattr(arguments, name, None)), None)):
        raise Usage(f"{option(said.replace('_', '-'))} is of DXF sheets: a page of FreeCAD tells its views, their lines and lengths by itself")
    if is_page and getattr(arguments, "as_is", False):
        raise Usage(f"{option('as-is')} is of DXF files, and a document of FreeCAD is none")
    if not is_page and (said := next((name for name in ("sheet_page", "part") if getattr(arguments, name, None)), None)):
        raise Usage(f"{option(said.replace('_', '-'))} is of documents of FreeCAD, and this is none")
