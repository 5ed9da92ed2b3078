"""Drawings drawn anew, triangles and STEP files: in the drawing's unit, turned back, and with a word where parts touch along an edge."""
import pathlib
import re
import tempfile
import unittest

from .support import EXAMPLES, draft, needs_command, needs_module, needs_program
from .test_sheet import FRONT, LEFT, LEFT_HIDDEN, TOP, solved

try:
    from . import sheets
except ImportError:
    sheets = None  # type: ignore[assignment]


def left_view_sheet(folder: str, scale: float = 1.0) -> pathlib.Path:
    """The step with a notch, with its left view, in first angle and in inches."""
    doc = sheets.new(unit=1)
    for lines, (x, y), style in ((FRONT, (0, 0), "CONTINUOUS"), (TOP, (0, -10), "CONTINUOUS"), (LEFT, (10, 0), "CONTINUOUS"),
                                 (LEFT_HIDDEN, (10, 0), "HIDDEN")):
        for a, b, c, d in lines:
            doc.modelspace().add_line(((a + x) * scale, (b + y) * scale), ((c + x) * scale, (d + y) * scale), dxfattribs={"linetype": style})
    file = pathlib.Path(folder) / "left.dxf"
    doc.saveas(file)
    return file


@needs_program()
class Anew(unittest.TestCase):
    def test_clean_declares_its_linetypes_and_reads_back(self) -> None:
        ended = draft("clean", EXAMPLES / "untidy.dxf")
        self.assertEqual(ended.status, 0, ended.said)
        self.assertEqual(solved(ended.out.encode()), (EXAMPLES / "untidy.txt").read_text())
        self.assertRegex(ended.out, r"(?s)LTYPE\n2\nHIDDEN\n.*LAYER\n2\nFRONT\n.*ENTITIES")

    def test_there_is_no_such_solid(self) -> None:
        ended = draft("clean", EXAMPLES / "quartered_cube.dxf", "4")
        self.assertEqual((ended.status, ended.out), (1, ""))
        self.assertIn("there is no solid 4: 3 solids of this drawing", ended.said)

    def test_triangles_say_where_parts_touch_along_an_edge(self) -> None:
        for name, is_told in (("two_cubes_along_an_edge", True), ("clevis", False)):
            ended = draft("stl", EXAMPLES / f"{name}.dxf")
            self.assertEqual(ended.status, 0, ended.said)
            self.assertEqual("at 1 edge four triangles meet" in ended.said, is_told, ended.said)

    def test_triangles_of_decimals_are_in_the_drawings_unit(self) -> None:
        ended = draft("stl", EXAMPLES / "fractions.dxf")
        self.assertEqual(ended.status, 0, ended.said)
        corners = [tuple(map(float, corner.split())) for corner in re.findall(r"^vertex (.*)$", ended.out, re.M)]
        self.assertEqual([max(along) for along in zip(*corners)], [40, 25.5, 30.125])

    @needs_module("ezdxf", "python3-ezdxf")
    def test_triangles_of_a_left_view_are_turned_back(self) -> None:
        with tempfile.TemporaryDirectory() as folder:
            ended = draft("stl", left_view_sheet(folder))
        self.assertEqual(ended.status, 0, ended.said)
        corners = {corner for corner in re.findall(r"^vertex (.*)$", ended.out, re.M)}
        self.assertTrue("3 0 0" in corners and "4 0 0" not in corners, corners)
        self.assertEqual(draft("triangles", 25, data=ended.out.encode()), (0, "", ""))

    @needs_command("admesh", "admesh")
    def test_admesh_finds_nothing_to_mend(self) -> None:
        text = draft("stl", EXAMPLES / "clevis.dxf").out
        volume = int(re.search(r"volume (\d+)", (EXAMPLES / "clevis.txt").read_text())[1])  # type: ignore[index]
        self.assertEqual(draft("triangles", volume, data=text.encode()), (0, "", ""))


def has_freecad() -> bool:
    return any(pathlib.Path(folder, "FreeCAD.so").exists() for folder in
               ("/usr/lib/freecad-python3/lib", "/usr/lib/freecad/lib", "/usr/lib64/freecad/lib"))


@unittest.skipUnless(has_freecad(), "apt-get install freecad-python3")
@needs_program()
class Shapes(unittest.TestCase):
    def test_step_files_in_the_drawings_unit(self) -> None:
        with tempfile.TemporaryDirectory() as folder:
            ended = draft("step", EXAMPLES / "fractions.dxf", f"{folder}/part.step")
            self.assertEqual((ended.status, ended.out), (0, f"whole 1 nodes 2 blocks 1\n{folder}/part_1.step volume 12343.75 parts 1 voids 0\n"))
            back = draft("views", "--decimals", 3, f"{folder}/part_1.step")
            self.assertEqual(back.status, 0, back.said)
            self.assertEqual(solved(back.out.encode(), 3), (EXAMPLES / "fractions_in_thousandths.txt").read_text())

    def test_files_are_in_millimetres(self) -> None:
        with tempfile.TemporaryDirectory() as folder:
            ended = draft("step", EXAMPLES / "sheets" / "clevis_sheet.dxf", f"{folder}/clevis.step")
            self.assertIn("lengths in the files are millimetres, 25.4 to the in\n", ended.said)
            self.assertEqual(ended.out.splitlines()[1], f"{folder}/clevis_1.step volume 41 parts 1 voids 0")
            back = draft("views", "--decimals", 1, f"{folder}/clevis_1.step")
            self.assertEqual(back.status, 0, back.said)
            box = re.findall(r"volume \d+", solved(back.out.encode(), 1))
            self.assertEqual(box, [f"volume {41 * 254**3}"])

    def test_the_unit_of_a_sheet_that_tells_none_is_said(self) -> None:
        with tempfile.TemporaryDirectory() as folder:
            sheet = pathlib.Path(folder, "sheet.dxf")
            text = (EXAMPLES / "sheets" / "clevis_sheet.dxf").read_text(encoding="cp1252")
            sheet.write_text(re.sub(r"\$INSUNITS\n +70\n *1\n", "$LUNITS\n 70\n 2\n", text, count=1), encoding="cp1252")
            cases: list[tuple[list[str], str, int]] = [([], "", 10), (["--unit", "in"], "25.4 to the in", 254), (["--unit", "cm"], "10 to the cm", 100)]
            for words, unit, times in cases:
                ended = draft("step", sheet, f"{folder}/clevis.step", *words)
                self.assertEqual((ended.status, unit in ended.said), (0, True), ended.said)
                back = draft("views", "--decimals", 1, f"{folder}/clevis_1.step")
                self.assertEqual(re.findall(r"volume \d+", solved(back.out.encode(), 1)), [f"volume {41 * times**3}"])

    def test_parts_that_touch_along_an_edge_are_kept_apart(self) -> None:
        with tempfile.TemporaryDirectory() as folder:
            ended = draft("step", EXAMPLES / "two_cubes_along_an_edge.dxf", f"{folder}/two.brep")
            self.assertRegex(ended.out, r"two_1\.brep volume \d+ parts 2 voids 0\n\Z")

    def test_an_answer_of_recon(self) -> None:
        with tempfile.TemporaryDirectory() as folder:
            text = (EXAMPLES / "clevis.txt").read_bytes()
            ended = draft("step", EXAMPLES / "clevis.dxf", f"{folder}/clevis.step", "--answer", "-", data=text)
            self.assertEqual((ended.status, ended.said), (0, "draft step: no unit of length is told: millimetres are taken; --unit says another one of a sheet\n"))
            self.assertTrue(pathlib.Path(folder, "clevis_1.step").exists())

    def test_a_drawing_of_boxes(self) -> None:
        ended = draft("views", EXAMPLES / "clevis.part")
        self.assertEqual(ended.status, 0, ended.said)
        self.assertEqual(solved(ended.out.encode()), (EXAMPLES / "clevis.txt").read_text())
