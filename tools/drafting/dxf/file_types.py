"""Files that are no DXF, named as what they are, with the way from them to a drawing."""
import re
from collections.abc import Callable
from typing import NamedTuple

# How much of a file is looked at.
LOOKED_AT = 4096
PICTURE = "it has no lines that could be read: draw it anew over the picture, in a CAD program, and save DXF"
CAD = "export DXF by the program that drew it"
NEXT = "; then `draft solve SHEET.dxf`"


class Kind(NamedTuple):
    """A kind of file: what it is called, what leads from it to a drawing, and what it begins with or has near its beginning."""

    name: str
    way: str
    is_it: Callable[[bytes], bool]


def begins(*signs: bytes) -> Callable[[bytes], bool]:
    return lambda data: data.startswith(signs)


def has(pattern: bytes) -> Callable[[bytes], bool]:
    return lambda data: re.search(pattern, data, re.I | re.S) is not None


KINDS = (
    Kind("a PDF", f"{CAD}; one that was printed from lines can be opened in Inkscape and saved as DXF, drawn to paper's size{NEXT}",
         begins(b"%PDF-")),
    Kind("PostScript", f"{CAD}; Inkscape opens it and saves DXF, drawn to paper's size", begins(b"%!PS")),
    Kind("a DWG drawing", "save it as DXF, by the program that wrote it, by the ODA File Converter, or by LibreDWG's `dwg2dxf -o "
         "SHEET.dxf SHEET.dwg`" + NEXT, has(rb"\AAC(?:10\d\d|1\.\d|2\.\d\d)\0")),
    Kind("a DWF publication", "it is published for viewing: ask for the DWG it was made of, or print it by Autodesk Design Review as a plot (HP-GL), "
         "which `draft solve SHEET.plt` reads", begins(b"(DWF V")),
    Kind("a file of SolidWorks, Inventor or another program that keeps solids in OLE documents (SLDPRT, SLDDRW, IPT)", "open it in that program and "
         "save its drawing as DXF" + NEXT + "; or save its part as STEP, of which `draft views PART.step` draws the three views",
         begins(b"\xd0\xcf\x11\xe0\xa1\xb1\x1a\xe1")),
    Kind("an SVG picture", f"{CAD}; Inkscape opens it and saves DXF",
         has(rb"\A\s*(?:<\?xml[^>]*>\s*)?(?:<!--.*?-->\s*|<!DOCTYPE svg[^>]*>\s*)*<svg\b")),
    Kind("a STEP file, a solid and no drawing", "`draft views` draws its three views", has(rb"\A\s*ISO-10303-21;")),
    Kind("a BREP file, a solid and no drawing", "`draft views` draws its three views, where its name ends in .brep",
         has(rb"\A\s*(?:DBRep_DrawableShape|CASCADE Topology)")),
    Kind("an IGES file", f"{CAD}; FreeCAD opens it and saves STEP, of which `draft views` draws the three views", has(rb"\A.{72}S {0,6}0*1[\r\n]")),
    Kind("an STL file, the triangles of a solid", "make a solid of it in a CAD program and save STEP, of which `draft views` draws the three views",
         has(rb"\Asolid\b[^\n]*\n\s*facet normal")),
    Kind("a PNG picture", PICTURE, begins(b"\x89PNG\r\n\x1a\n")), Kind("a JPEG picture", PICTURE, begins(b"\xff\xd8\xff")),
    Kind("a TIFF picture", PICTURE, begins(b"II*\0", b"MM\0*")), Kind("a GIF picture", PICTURE, begins(b"GIF87a", b"GIF89a")),
    Kind("a WebP picture", PICTURE, has(rb"\ARIFF.{4}WEBP")), Kind("a BMP picture", PICTURE, has(rb"\ABM.{4}\0\0\0\0")),
    Kind("a document of FreeCAD", "export DXF of its TechDraw page", has(rb"\APK\x03\x04.{0,60}Document\.xml")),
    Kind("a ZIP archive", "take the drawing out of it", begins(b"PK\x03\x04")),
)


def told(data: bytes) -> str:
    """What data is that is no DXF, and the way from it to a drawing, in words; nothing where that isn't known."""
    start = data[:LOOKED_AT]
    kind = next((kind for kind in KINDS if kind.is_it(start)), None)
    return f"{kind.name}, no DXF file: {kind.way}" if kind else ""
