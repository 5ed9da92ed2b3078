"""What a file names and doesn't hold is refused, or left out with a note where it lies outside the views; never counted as read."""
import pathlib
import tempfile
import unittest
from typing import Any

from drafting.core.messages import Refused
from drafting.dxf import missing
from drafting.dxf.drawing import lines_of
from drafting.sheet import pipeline as sheet
from drafting.solve.pipeline import is_plain

from .support import EXAMPLES, in_words, needs_module
from .test_sheet import arguments

try:
    from . import sheets
except ImportError:
    sheets = None  # type: ignore[assignment]

# The flags of a block that stands for another file, as AutoCAD writes them where it was found and where it wasn't; and by its path alone.
FLAGS = (4, 4 | 32, 32, 0)
PROXY = "0\nACAD_PROXY_ENTITY\n5\nABC{}\n100\nAcDbEntity\n8\n0\n100\nAcDbProxyEntity\n90\n498\n91\n500\n"
OLE = ("0\nOLE2FRAME\n5\nABD{}\n100\nAcDbEntity\n8\nPICTURES\n100\nAcDbOle2Frame\n70\n2\n3\nPaintbrush\n10\n{}\n20\n{}\n30\n0\n"
       "11\n{}\n21\n{}\n31\n0\n71\n2\n72\n0\n90\n0\n1\nOLE\n")


@needs_module("ezdxf", "python3-ezdxf")
class OnSheets(unittest.TestCase):
    """A clevis on a sheet, with something in its views or beside them."""

    def setUp(self) -> None:
        self.folder = pathlib.Path(self.enterContext(tempfile.TemporaryDirectory()))
        self.file = self.folder / "sheet.dxf"
        views = sheets.views_in(EXAMPLES / "clevis.dxf")
        self.places = sheets.places_of(views)
        self.doc = sheets.new()
        self.space = self.doc.modelspace()
        sheets.draw(self.space, views, self.places)
        x, y = self.places["FRONT"]
        width, height = sheets.size_of(views["FRONT"])
        self.middle = x + width / 2, y + height / 2
        self.box = x, y, x + width, y + height

    def draw(self, *words: str, more: str = "") -> list[str]:
        """What is told of the sheet, with more text behind its entities."""
        self.doc.saveas(self.file)
        if more:
            text = self.file.read_text()
            at = text.index("ENDSEC", text.index("ENTITIES"))
            at = text.rindex("0\n", 0, at)
            self.file.write_text(text[:at].rstrip(" ") + more + text[at:])
        said: list[str] = []
        sheet.draw(str(self.file), arguments("sheet", self.file, *words), in_words(said))
        return said

    def refused(self, *words: str, more: str = "") -> str:
        with self.assertRaises(Refused) as caught:
            self.draw(*words, more=more)
        return str(caught.exception)

    def reference(self, flags: int = 4, path: str = "..\\parts\\lug.dwg", layer: str = "REFERENCES") -> Any:
        block = self.doc.blocks.new("LUG")
        block.block.dxf.flags, block.block.dxf.xref_path = flags, path
        return self.space.add_blockref("LUG", (12, 34), dxfattribs={"layer": layer})


class References(OnSheets):
    def test_a_reference_is_refused_with_its_path_and_place(self) -> None:
        insert = self.reference()
        for flags in FLAGS:
            self.doc.blocks.get("LUG").block.dxf.flags = flags
            with self.subTest(flags):
                self.assertRegex(self.refused(), rf"^a INSERT {insert.dxf.handle} on layer REFERENCES, line [\d,]+ of sheet\.dxf at 12, 34 is block "
                                 r"LUG, a reference to the file \.\.\\parts\\lug\.dwg, and none of its lines are in this one; put lug\.dwg beside the sheet and "
                                 r"bind it \(in AutoCAD XREF, Bind\), and save the sheet again; where it is no part of the drawing, leave it out by "
                                 "--leave-out layer=REFERENCES$")

    def test_its_advice_is_followed(self) -> None:
        """The block is bound, or its layer left out."""
        self.reference()
        (self.folder / "lug.dwg").write_bytes(b"AC1032")
        self.assertIn("lug.dwg is beside the sheet: bind it (in AutoCAD XREF, Bind)", self.refused())
        said = self.draw("--leave-out", "layer=REFERENCES")
        self.assertIn("left out: 1 INSERT of block LUG, which isn't in this file, as asked", said)
        block = self.doc.blocks.get("LUG")
        block.block.dxf.flags, block.block.dxf.xref_path = 0, ""
        x, y = self.box[:2]
        block.add_line((x - 12, y - 34), (self.box[2] - 12, y - 34))
        self.assertIn("changed: 1 INSERT of block LUG taken apart", self.draw())

    def test_a_reference_within_a_block_is_refused(self) -> None:
        self.reference(layer="0")
        self.space.delete_entity(self.space.query("INSERT")[0])
        outer = self.doc.blocks.new("OUTER")
        outer.add_blockref("LUG", (1, 2))
        self.space.add_blockref("OUTER", (10, 20))
        self.assertIn("at 11, 22 is block LUG, a reference to the file", self.refused())

    def test_a_reference_of_a_frame_is_left_out(self) -> None:
        block = self.doc.blocks.new("A3_FRAME")
        block.block.dxf.flags, block.block.dxf.xref_path = 4, "frame.dwg"
        self.space.add_blockref("A3_FRAME", (0, 0))
        self.assertIn("left out: 1 INSERT of block A3_FRAME, which is named for frames, texts or dimensions", self.draw())

    def test_a_block_that_nothing_defines_is_refused(self) -> None:
        self.space.add_blockref("GONE", (5, 6), dxfattribs={"layer": "LOST"})
        told = self.refused()
        self.assertRegex(told, r"^a INSERT \w+ on layer LOST, line [\d,]+ of sheet\.dxf at 5, 6 is of block GONE, which this file doesn't define")
        self.assertTrue(told.endswith("leave it out by --leave-out layer=LOST"), told)

    def test_views_in_a_reference_are_no_other_fault(self) -> None:
        """Without the view that the reference holds the rest are fewer than three."""
        x, y = self.places["SIDE"]
        for line in self.space.query("LINE"):
            if line.dxf.start.x >= x - 1e-6:
                self.space.delete_entity(line)
        self.reference()
        self.assertIn("reference to the file", self.refused())


class Covers(OnSheets):
    def test_a_mask_in_a_view_is_refused(self) -> None:
        x, y = self.middle
        self.space.add_wipeout([(x, y), (x + 1, y + 1)]).dxf.layer = "MASKS"
        told = self.refused()
        self.assertRegex(told, r"^in FRONT a WIPEOUT \w+ on layer MASKS, line [\d,]+ of sheet\.dxf is a mask that covers what lies under it")
        self.assertTrue(told.endswith("leave it out by --leave-out layer=MASKS"), told)
        self.assertIn("left out: 1 WIPEOUT on layer MASKS", self.draw("--leave-out", "layer=MASKS"))

    def test_a_picture_that_touches_a_view_is_refused(self) -> None:
        made = self.doc.add_image_def("logo.png", (100, 100))
        image = self.space.add_image(made, (self.box[2], self.middle[1]), (2, 2))
        self.assertRegex(self.refused(), r"^in FRONT a IMAGE .* is a picture, of which no line can be read")
        image.dxf.insert = (0, -300, 0)
        self.assertIn("left out: 1 IMAGE on layer 0, outside the views", self.draw())

    def test_a_page_of_pdf_is_refused_where_its_clip_touches(self) -> None:
        made = self.doc.add_underlay_def("part.pdf", "pdf", "1")
        page = self.space.add_underlay(made, (self.middle[0] - 10, self.middle[1]), (2, 2, 1))
        self.assertRegex(self.refused(), r"^a PDFUNDERLAY .* is a page of a PDF file.*where it lies can't be told, and it may be in a view")
        page.set_boundary_path([(0, 0), (5, 0), (5, 5), (0, 5)])
        self.assertRegex(self.refused(), "^in FRONT a PDFUNDERLAY ")
        page.dxf.insert = (0, -300, 0)
        self.assertIn("left out: 1 PDFUNDERLAY on layer 0, outside the views", self.draw())

    def test_an_object_of_another_program_is_refused(self) -> None:
        self.assertRegex(self.refused(more=PROXY.format(1)), r"^a ACAD_PROXY_ENTITY .* is an object of another program, whose lines the file doesn't "
                         r"have.*where it lies can't be told, and it may be in a view")
        x, y = self.middle
        self.assertRegex(self.refused(more=OLE.format(1, x - 1, y + 1, x + 1, y - 1)), "^in FRONT a OLE2FRAME ")
        self.assertIn("left out: 1 OLE2FRAME on layer PICTURES, outside the views", self.draw(more=OLE.format(1, 0, -300, 10, -310)))


@needs_module("ezdxf", "python3-ezdxf")
class PlainDrawings(unittest.TestCase):
    """A drawing on recon's own layers that lacks something is read as a sheet."""

    def setUp(self) -> None:
        folder = self.enterContext(tempfile.TemporaryDirectory())
        self.file = pathlib.Path(folder) / "plain.dxf"
        views = sheets.views_in(EXAMPLES / "clevis.dxf")
        self.doc = sheets.new()
        sheets.draw(self.doc.modelspace(), views, sheets.places_of(views), lambda view, dashed: {
            "layer": view, "linetype": "HIDDEN" if dashed else "CONTINUOUS"})

    def is_plain(self) -> bool:
        self.doc.saveas(self.file)
        return is_plain(lines_of(str(self.file)))

    def test_a_reference_or_a_block_that_nothing_defines(self) -> None:
        self.assertTrue(self.is_plain())
        block = self.doc.blocks.new("LUG")
        insert = self.doc.modelspace().add_blockref("LUG", (-500, -500))
        self.assertTrue(self.is_plain())
        block.block.dxf.xref_path, block.block.dxf.flags = "lug.dwg", 4
        self.assertFalse(self.is_plain())
        insert.dxf.name = "GONE"
        self.assertFalse(self.is_plain())

    def test_a_mask(self) -> None:
        self.doc.modelspace().add_wipeout([(0, 0), (1, 1)])
        self.assertFalse(self.is_plain())


class Advice(unittest.TestCase):
    def test_a_reference_without_a_path(self) -> None:
        self.assertIn("a reference to another file, whose path isn't told, and none of its lines are in this one; put that file beside",
                      missing.why_external("LUG", "", (0, 0), "sheet.dxf"))


if __name__ == "__main__":
    unittest.main()
