"""What scripts need of `draft solve` and `draft step`: statuses of their own, drawings of several files, standard input; and files of other
kinds and dialects, which are read or named as what they are."""
import pathlib
import tempfile
import unittest

from drafting.core import notes
from drafting.core.messages import Refused
from drafting.sheet import pipeline

from .support import EXAMPLES, draft, in_words, needs_command, needs_module, needs_program
from .tables import made
from .test_sheet import arguments

try:
    from . import sheets
except ImportError:
    sheets = None  # type: ignore[assignment]

LIBRARY = pathlib.Path("/usr/share/librecad/library")
# Files of other kinds, and what is said of them.
KINDS = {
    "a.pdf": (b"%PDF-1.4\n%\xe2\xe3\n", "is a PDF, no DXF file: .*Inkscape"), "a.dwg": (b"AC1027\0\0\0\0", "is a DWG drawing.*ODA File Converter"),
    "a.svg": (b"<?xml version='1.0'?>\n<!-- it -->\n<svg xmlns='http://www.w3.org/2000/svg'/>", "is an SVG picture.*Inkscape"),
    "a.step": (b"ISO-10303-21;\nHEADER;", "is a STEP file, a solid and no drawing.*`draft views`"),
    "a.stl": (b"solid part\nfacet normal 0 0 1\n", "is an STL file"), "a.jpg": (b"\xff\xd8\xff\xe0\0\x10JFIF", "is a JPEG picture"),
    "a.png": (b"\x89PNG\r\n\x1a\n\0\0", "is a PNG picture"), "a.tif": (b"II*\0\x08\0", "is a TIFF picture"),
    "a.FCStd": (b"PK\x03\x04" + bytes(26) + b"Document.xml", "is no document of FreeCAD, or is cut"),
    "a.zip": (b"PK\x03\x04" + bytes(80), "is a ZIP"),
    "a.txt": (b"a letter\n" * 9, "is no DXF file: no section begins in it"),
}


def in_files(folder: str, **options: object) -> list[object]:
    """The clevis with each view in a file of its own, on layer 0, and the words that name these."""
    words: list[object] = []
    for view, strokes in sheets.views_in(EXAMPLES / "clevis.dxf").items():
        doc = sheets.new()
        sheets.draw(doc.modelspace(), {view: strokes}, {view: (3.0, -7.0)})
        if options.get("circle_in") == view:
            doc.modelspace().add_circle((5, -5), 0.4)
        file = pathlib.Path(folder) / f"{view.lower()}_view.dxf"
        doc.saveas(file)
        words += [f"--{view.lower()}", file]
    return words


@needs_program()
class Statuses(unittest.TestCase):
    def test_another_number_of_solids_than_expected(self) -> None:
        for name, count, expected, status in (("quartered_cube", 3, 3, 0), ("quartered_cube", 3, 1, 12), ("bracket", 1, 1, 0), ("bracket", 1, 2, 12)):
            with self.subTest(name, expected=expected):
                ended = draft("solve", "--expect", expected, EXAMPLES / f"{name}.dxf")
                self.assertEqual(ended.status, status, ended.said)
                verdict = "Unique: one solid matches" if count == 1 else f"Ambiguous: {count} solids match"
                self.assertTrue(ended.out.startswith(f"{verdict} this drawing."), ended.out)
                self.assertEqual("not as expected" in ended.said, status != 0)

    def test_a_search_that_stopped_is_what_nobody_expects(self) -> None:
        for words, status, told in ((("--nodes", 2), 3, "--nodes 2"), (("--solids", 1), 4, "--solids 1")):
            with self.subTest(words):
                ended = draft("solve", *words, EXAMPLES / "quartered_cube.dxf")
                self.assertEqual(ended.status, status, ended.said)
                self.assertTrue(ended.out.startswith(f"Not decided: the search stopped at {told}. At least "), ended.out)
                self.assertIn(f"\nNot checked: the search stopped at its limit of {told[-1]} {words[0][2:]}, so there may be more solids.\nRaise the limit by ", ended.out)
                for count in (1, 2, 3):
                    self.assertEqual(draft("solve", *words, "--expect", count, EXAMPLES / "quartered_cube.dxf").status, 12)

    def test_standard_input(self) -> None:
        data = (EXAMPLES / "bracket.dxf").read_bytes()
        ended = draft("solve", "-", data=data)
        self.assertEqual((ended.status, ended.out), (0, draft("solve", EXAMPLES / "bracket.dxf").out))
        ended = draft("solve", "-", data=b"")
        self.assertEqual((ended.status, ended.out, ended.said.splitlines()[0]), (1, "", "draft solve: standard input is empty"))
        self.assertEqual(draft("judge", "-", "-", data=data).status, 2)

    @needs_module("FreeCAD", "freecad-python3", "/usr/lib/freecad-python3/lib")
    def test_files_of_an_ambiguous_drawing(self) -> None:
        with tempfile.TemporaryDirectory() as folder:
            ended = draft("step", EXAMPLES / "quartered_cube.dxf", pathlib.Path(folder) / "cube.step")
            self.assertEqual(ended.status, 0, ended.said)
            self.assertRegex(ended.said, "warning: the drawing is ambiguous: 3 solids have its views.*would settle it")
            ended = draft("step", EXAMPLES / "bracket.dxf", pathlib.Path(folder) / "bracket.step")
            self.assertNotIn("ambiguous", ended.said)


@needs_module("ezdxf", "python3-ezdxf")
class Files(unittest.TestCase):
    def test_files_of_other_kinds_are_named(self) -> None:
        with tempfile.TemporaryDirectory() as folder:
            for name, (data, words) in KINDS.items():
                file = pathlib.Path(folder) / name
                file.write_bytes(data)
                with self.subTest(name), self.assertRaisesRegex(Refused, f"{name} {words}"):
                    pipeline.draw(str(file), arguments("sheet", file), notes.tell_none)

    @needs_program()
    def test_a_file_for_each_view(self) -> None:
        with tempfile.TemporaryDirectory() as folder:
            words = in_files(folder)
            ended = draft("solve", *words)
            self.assertEqual(ended.status, 0, ended.said)
            self.assertIn("solid 1: 6 mm by 4 mm by 4 mm, volume 41 mm³", ended.out)
            several: list[list[object]] = [words[:2], [*words, EXAMPLES / "clevis.dxf"], []]
            for wrong in several:
                self.assertEqual(draft("solve", *wrong).status, 2, wrong)

    def test_what_is_refused_in_one_of_several_files(self) -> None:
        with tempfile.TemporaryDirectory() as folder:
            words = arguments("sheet", *in_files(folder, circle_in="TOP"))
            with self.assertRaisesRegex(Refused, r"in TOP a CIRCLE \w+ on layer 0, line [\d,]+ of top_view.dxf is no straight line"):
                pipeline.draw(None, words, notes.tell_none)

    @needs_program()
    def test_a_fault_of_a_sheet_is_told_in_its_own_words(self) -> None:
        """Header variables behind the section's end, as dxflib writes them, are a fault of the program's reading."""
        part = sheets.views_in(EXAMPLES / "clevis.dxf")
        doc = sheets.new("R12")
        sheets.draw(doc.modelspace(), part, sheets.places_of(part))
        with tempfile.TemporaryDirectory() as folder:
            file = pathlib.Path(folder) / "dialect.dxf"
            doc.saveas(file)
            text = file.read_text().replace("ENDSEC\n", "ENDSEC\n  9\n$DIMSTYLE\n  2\nISO-25\n", 1)
            file.write_text(text)
            ended = draft("solve", file)
            self.assertEqual(ended.status, 0, ended.said)
            self.assertIn("6 by 4 by 4, volume 41,", ended.out)

    @needs_program()
    def test_a_fault_of_a_drawing_of_three_layers_is_the_programs(self) -> None:
        """A coordinate that is no number: the program's own fault is told, with its line, and no sheet is looked for."""
        lines = (EXAMPLES / "clevis.dxf").read_text().splitlines()
        at = lines.index("10", lines.index("LINE")) + 1
        lines[at] = "four"
        with tempfile.TemporaryDirectory() as folder:
            file = pathlib.Path(folder) / "spoiled.dxf"
            file.write_text("\n".join(lines) + "\n")
            ended = draft("solve", file)
        self.assertEqual((ended.status, ended.out), (1, ""), ended.said)
        self.assertIn(f"a coordinate is no number (fault F6 BadNumber line {at + 1} code 10)", ended.said)
        self.assertNotIn("--as-is", ended.said)

    @unittest.skipUnless(LIBRARY.is_dir(), "apt-get install librecad-data")
    def test_sheets_of_librecad(self) -> None:
        """The views within each frame of LibreCAD's, and a symbol of its own library by itself."""
        from drafting.dxf.reader import opened
        part = sheets.views_in(EXAMPLES / "clevis.dxf")
        places = {view: (x + 20, y + 90) for view, (x, y) in sheets.places_of(part).items()}
        with tempfile.TemporaryDirectory() as folder:
            for frame in sorted((LIBRARY / "sheets").glob("*.dxf")):
                doc = opened(str(frame))[0]
                if "HIDDEN" not in doc.linetypes:
                    doc.linetypes.add("HIDDEN", sheets.HIDDEN)
                sheets.draw(doc.modelspace(), part, places)
                file = pathlib.Path(folder) / frame.name
                doc.saveas(file)
                with self.subTest(frame.name):
                    said: list[str] = []
                    pipeline.draw(str(file), arguments("sheet", file), in_words(said))
                    self.assertIn("a part 6 wide, 4 deep and 4 high", "\n".join(said))
                    self.assertIn("left out: a frame round all the rest", "\n".join(said))
        for symbol in sorted((LIBRARY / "block").glob("*.dxf"))[:5]:
            with self.subTest(symbol.name), self.assertRaisesRegex(Refused, "no way to take three|no straight line"):
                pipeline.draw(str(symbol), arguments("sheet", symbol), notes.tell_none)

    @needs_program()
    @needs_command("parallel", "parallel")
    def test_a_table_takes_options_of_sheets_and_pairs(self) -> None:
        """Pairs at half scale: NAME.visible.dxf is no drawing of its own."""
        part = sheets.views_in(EXAMPLES / "clevis.dxf")
        with tempfile.TemporaryDirectory() as folder:
            for name, hidden in (("one.dxf", True), ("one.visible.dxf", False), ("two.dxf", True)):
                doc = sheets.new()
                drawn = {view: [it for it in its if hidden or not it[0]] for view, its in part.items()}
                sheets.draw(doc.modelspace(), drawn, sheets.places_of(part), lambda view, dashed: {}, scale=0.5)
                doc.saveas(pathlib.Path(folder) / name)
            ended = made("--pairs", "--scale", "1:2", folder)
        self.assertEqual({name: (row["status"], row["solids"]) for name, row in ended.rows.items()},
                         {"one.dxf": ("0", "1"), "two.dxf": ("refused", "")}, ended)
        self.assertIn("volume 41 mm³", ended.rows["one.dxf"]["message"])
        self.assertIn("two.visible.dxf isn't there", ended.rows["two.dxf"]["message"])
