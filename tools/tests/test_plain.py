"""Which files are recon's own drawings of three layers: a page of TechDraw whose views are named like these layers gets the refusal that it gets
under other names, since it tells no hidden lines."""
import pathlib
import tempfile
import unittest

from drafting.core import notes
from drafting.core.messages import Refused
from drafting.dxf.drawing import lines_of, lines_within, written
from drafting.sheet import pipeline as sheet
from drafting.solve import pipeline

from .support import EXAMPLES, needs_module, needs_program
from .test_sheet import arguments

# Exported by FreeCAD 0.20 with hidden lines, all of which are written as visible ones: views named Front, Top and Side of a block of
# 30 by 20 by 20 mm that is pocketed from behind and below.
EXPORT = pathlib.Path(__file__).parent / "data" / "techdraw_front_top_side.dxf"
NAMES = {"Front": "View", "Top": "View001", "Side": "View002"}


class Plain(unittest.TestCase):
    def test_the_examples_are(self) -> None:
        for file in sorted(EXAMPLES.glob("*.dxf")):
            self.assertTrue(pipeline.is_plain(lines_of(str(file))), file.name)

    def test_an_export_of_freecad_is_not(self) -> None:
        self.assertFalse(pipeline.is_plain(lines_of(str(EXPORT))))

    def test_lines_of_several_colours_on_a_layer(self) -> None:
        cube = [(False, (0, 0), (1, 0)), (False, (1, 0), (1, 1)), (False, (1, 1), (0, 1)), (False, (0, 1), (0, 0))]
        text = written({view: cube for view in ("FRONT", "TOP", "SIDE")}, 0)
        self.assertTrue(pipeline.is_plain(lines_within(text.encode())))
        self.assertFalse(pipeline.is_plain(lines_within(text.replace("8\nTOP\n6\n", "8\nTOP\n62\n1\n6\n", 1).encode())))
        dashed = text.replace("6\nCONTINUOUS\n10\n1", "6\nHIDDEN\n10\n1", 1)
        self.assertNotEqual(dashed, text)
        self.assertTrue(pipeline.is_plain(lines_within(dashed.replace("8\nTOP\n6\n", "8\nTOP\n62\n1\n6\n", 1).encode())))


@needs_module("ezdxf", "python3-ezdxf")
@needs_program()
class Exports(unittest.TestCase):
    def refused(self, file: pathlib.Path) -> str:
        with self.assertRaises(Refused) as caught:
            pipeline.ask(str(file), arguments("solve", file), notes.tell_none)
        return str(caught.exception)

    def test_the_views_names_change_nothing(self) -> None:
        with tempfile.TemporaryDirectory() as folder:
            other = pathlib.Path(folder) / "other.dxf"
            text = EXPORT.read_text()
            for name, new in NAMES.items():
                text = text.replace(f"\n{name}\n", f"\n{new}\n")
            other.write_text(text)
            told = self.refused(other)
        self.assertRegex(told, "^a page that FreeCAD exported, which tells no linetypes: .*--visible-only")
        self.assertEqual(self.refused(EXPORT).splitlines()[0], told.splitlines()[0])

    def test_its_advice_is_followed(self) -> None:
        with tempfile.TemporaryDirectory() as folder:
            file = pathlib.Path(folder) / "visible.dxf"
            file.write_bytes(EXPORT.with_name("techdraw_front_top_side.visible.dxf").read_bytes())
            asked = pipeline.ask(str(EXPORT), arguments("solve", EXPORT, "--visible-only", file), notes.tell_none)
        self.assertEqual([solid.volume for solid in asked.answer().solids], [11_000])
        drawn = sheet.draw(str(EXPORT), arguments("sheet", EXPORT, "--all-visible"), notes.tell_none)
        self.assertIn("FRONT", drawn.text)


if __name__ == "__main__":
    unittest.main()
