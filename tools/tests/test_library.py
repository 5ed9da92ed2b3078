"""The module recon: its page runs, answers are those of `draft`, errors have one base; and the records of `draft solve --json` and `draft
table --json` are of their schema."""
import contextlib
import io
import json
import math
import os
import pathlib
import re
import tempfile
import unittest
from collections.abc import Callable
from fractions import Fraction
from typing import Any

import recon
from drafting.core.notes import KINDS
from drafting.report.record import exact

from .support import EXAMPLES, TOOLS, draft, needs_command, needs_module, needs_program

SHEETS = EXAMPLES / "sheets"


def plate_with_hole(file: pathlib.Path, hidden: tuple[int, ...] = (15, 25, 60, 70)) -> None:
    """A plate of 40 by 30 by 10 with a hole of radius 5 through it, on a sheet in millimetres, with some of its outlines."""
    import ezdxf
    doc = ezdxf.new("R2010", setup=True)
    doc.header["$INSUNITS"] = 4
    space = doc.modelspace()
    for right, up, wide, high in ((0, 0, 40, 10), (0, 20, 40, 30), (50, 0, 30, 10)):
        corners = [(right, up), (right + wide, up), (right + wide, up + high), (right, up + high)]
        space.add_lwpolyline(corners, close=True)
    space.add_circle((20, 35), 5)
    for x in hidden:
        space.add_line((x, 0), (x, 10), {"linetype": "HIDDEN"})
    doc.saveas(file)


class InAFolder(unittest.TestCase):
    def setUp(self) -> None:
        room = tempfile.TemporaryDirectory()
        self.addCleanup(room.cleanup)
        self.room = pathlib.Path(room.name)

    def record(self, *words: object, status: int = 0) -> dict[str, Any]:
        """What --json writes, which is of the schema."""
        ended = draft("solve", "--json", *words)
        self.assertEqual(ended.status, status, ended.said)
        told: dict[str, Any] = json.loads(ended.out)
        self.check(told)
        return told

    def check(self, told: dict[str, Any]) -> None:
        try:
            import jsonschema
        except ImportError:
            self.skipTest("apt-get install python3-jsonschema")
        jsonschema.validate(told, json.loads((TOOLS / "recon" / "solve-1.json").read_text()))


@needs_program()
class Records(InAFolder):
    def test_a_drawing(self) -> None:
        told = self.record(EXAMPLES / "quartered_cube.dxf")
        self.assertEqual((told["outcome"], told["status"], told["count"], told["listed"]), ("whole", 0, 3, 3))
        # As examples/quartered_cube.txt has them.
        self.assertEqual([it["volume"] for it in told["solids"]], ["5", "4", "4"])
        corners = [[str(it) for it in corner] for corner in ((0, 0, 0), (0, 0, 1), (0, 1, 1), (0, 1, 2), (0, 2, 2), (0, 2, 0))]
        self.assertEqual(told["solids"][0]["faces"][0], {"normal": [-1, 0, 0], "at": "0", "loops": [corners]})
        self.assertEqual(told["drawing"]["file"], str(EXAMPLES / "quartered_cube.dxf"))
        few = self.record("--no-faces", "--list", 1, EXAMPLES / "quartered_cube.dxf")
        self.assertEqual((len(few["solids"]), few["count"], "faces" in few["solids"][0]), (1, 3, False))

    def test_what_is_no_whole_answer(self) -> None:
        cut = self.record("--solids", 2, EXAMPLES / "quartered_cube.dxf", status=4)
        self.assertEqual((cut["outcome"], cut["count"], cut["listed"], cut["limits"]["hit"], len(cut["solids"])), ("cut", None, 2, "solids", 2))
        nodes = self.record("--nodes", 2, EXAMPLES / "quartered_cube.dxf", status=3)
        self.assertEqual((nodes["outcome"], nodes["limits"]), ("cut", {"nodes": 2, "solids": 4096, "hit": "nodes"}))
        broken = self.room / "broken.dxf"
        broken.write_bytes((EXAMPLES / "clevis.dxf").read_bytes().replace(b"LINE", b"ARC", 1))
        fault = self.record("--as-is", broken, status=1)
        self.assertEqual((fault["outcome"], fault["fault"]["code"], fault["fault"]["name"], fault["fault"]["entity"], fault["fault"]["layer"]),
                         ("fault", "F13", "Geometry", "ARC", "FRONT"))
        (self.room / "a.dxf").write_text("a letter\n")
        refused = self.record(self.room / "a.dxf", status=1)
        self.assertEqual((refused["outcome"], refused["status"], refused["solids"]), ("refused", None, []))
        self.assertIn("no section begins in it", refused["message"])
        self.assertEqual(draft("solve", "--json", "--visible-edges-alone", EXAMPLES / "clevis.dxf").status, 2)

    def test_two_views_and_files_of_views(self) -> None:
        two = self.record(SHEETS / "step_of_two_views.dxf")
        self.assertIn(two["missing"], ("FRONT", "TOP", "SIDE"))
        self.assertEqual(two["drawing"]["read"], "as_is" if not two["notes"][0]["what"].startswith("lengths") else "sheet")

    @needs_module("ezdxf", "python3-ezdxf")
    def test_a_sheet_in_parts_of_a_unit(self) -> None:
        told = self.record(SHEETS / "clevis_sheet.dxf")
        self.assertEqual((told["drawing"]["read"], told["count"]), ("sheet", 1))
        self.assertTrue(all(note["kind"] in KINDS for note in told["notes"]), told["notes"])
        said = draft("solve", SHEETS / "clevis_sheet.dxf").said.splitlines()
        self.assertEqual([f"draft solve: {note['kind']}: {note['what']}" for note in told["notes"]], said)
        self.assertTrue(any(note["count"] and note["entity"] == "LINE" and note["layer"] for note in told["notes"]), told["notes"])

    @needs_module("ezdxf", "python3-ezdxf")
    def test_a_volume_with_pi(self) -> None:
        plate_with_hole(self.room / "plate.dxf")
        told = self.record(self.room / "plate.dxf")
        solid = told["solids"][0]
        self.assertEqual((told["count"], told["unit"]["name"], told["rounds"]["squared_off"]), (1, "mm", 1))
        self.assertEqual((solid["volume"], solid["volume_with_pi"], solid["faces"]), (None, ["12000", "-250"], None))
        self.assertEqual(solid["size"], ["40", "30", "10"])
        self.assertEqual(solid["volume_about"], f"{12000 - 250 * math.pi:.9g}")
        self.assertEqual(told["rounds"]["cause"], [])

    @needs_module("ezdxf", "python3-ezdxf")
    def test_why_no_solid_is_kept(self) -> None:
        plate_with_hole(self.room / "plate.dxf", (15, 25))
        told = self.record(self.room / "plate.dxf", status=14)
        self.assertEqual((told["count"], told["listed"], told["verdict"]["kind"]), (None, 0, "not_decided"))
        [cause] = told["rounds"]["cause"]
        self.assertIn("the circle of radius 5", cause)
        self.assertIn("isn't drawn", cause)

    @needs_command("parallel", "parallel")
    def test_a_line_of_a_table_is_the_same(self) -> None:
        names = ("clevis", "quartered_cube")
        for name in names:
            (self.room / f"{name}.dxf").write_bytes((EXAMPLES / f"{name}.dxf").read_bytes())
        (self.room / "letter.dxf").write_text("a letter\n")
        ended = draft("table", self.room, "--json", "--memory", 0)
        self.assertEqual(ended.status, 15, ended.said)
        rows = {told["drawing"]["file"]: told for told in map(json.loads, ended.out.splitlines())}
        for told in rows.values():
            self.check(told)
        self.assertEqual((rows["letter.dxf"]["outcome"], rows["letter.dxf"]["count"]), ("refused", None))
        for name in names:
            alone = self.record("--no-faces", "--nodes", 2000, "--solids", 100, self.room / f"{name}.dxf")
            its = rows[f"{name}.dxf"]
            self.assertEqual({**its, "seconds": 0, "drawing": 0}, {**alone, "seconds": 0, "drawing": 0})
            self.assertEqual(its["drawing"], {**alone["drawing"], "file": f"{name}.dxf"})


class Numbers(unittest.TestCase):
    def test_numbers_are_exact(self) -> None:
        for value, wanted in (("3", "3"), ("-1/8", "-0.125"), ("1/3", "1/3"), ("-22/7", "-22/7"), ("1001/1000", "1.001"), ("0", "0"), ("1/1024", "0.0009765625")):
            self.assertEqual(exact(Fraction(value)), wanted)


@needs_program()
@needs_module("ezdxf", "python3-ezdxf")
class Library(InAFolder):
    def test_the_page_runs(self) -> None:
        code = re.findall(r"^    (.*)$|^$", (TOOLS.parent / "docs" / "LIBRARY.md").read_text(), re.M)
        text = "\n".join(line for line in code if line)
        text = text.replace('"examples/', f'"{EXAMPLES}/').replace('"clevis.stl"', repr(str(self.room / "clevis.stl")))
        out = io.StringIO()
        with contextlib.redirect_stdout(out):
            exec(compile(text, "LIBRARY.md", "exec"), {})
        self.assertTrue(out.getvalue().startswith("41 ((Fraction(0, 1), Fraction(0, 1), Fraction(0, 1)), (Fraction(6, 1), "), out.getvalue())
        self.assertIn("facet normal", (self.room / "clevis.stl").read_text())

    def test_an_answer(self) -> None:
        answer = recon.readfile(EXAMPLES / "quartered_cube.dxf")
        self.assertEqual((len(answer), answer.count, answer.is_whole, answer.status, answer.unit), (3, 3, True, 0, None))
        self.assertEqual([it.number for it in answer[1:]], [2, 3])
        self.assertEqual(answer.record()["solids"], json.loads(draft("solve", "--json", EXAMPLES / "quartered_cube.dxf").out)["solids"])
        self.assertEqual(answer.text, (EXAMPLES / "quartered_cube.txt").read_text())
        mesh = answer[2].to_mesh()
        edges = [tuple(pair) for face in mesh.faces for pair in zip(face, [*face[1:], face[0]])]
        self.assertEqual(sorted(edges), sorted((b, a) for a, b in edges))
        settling = recon.settle(answer, meant=1)
        self.assertEqual(recon.solve(settling.dxf.encode()).count, len(settling.left))
        self.assertIn(1, settling.left)
        self.assertTrue(any("Checked: " in row for row in settling.words), settling.words)
        with self.assertRaises(recon.NotThere):
            answer.settle(meant=4)
        cut = recon.readfile(EXAMPLES / "quartered_cube.dxf", solids=2)
        self.assertEqual((cut.count, cut.is_whole, len(cut)), (None, False, 2))
        self.assertEqual([(it.verdict.kind.value, it.verdict.is_decided, it.verdict.count) for it in (answer, cut)],
                         [("ambiguous", True, 3), ("not_decided", False, 2)])

    def test_of_documents_and_again(self) -> None:
        import ezdxf
        document = ezdxf.readfile(SHEETS / "clevis_sheet.dxf")
        answer = recon.solve(document.modelspace())
        self.assertEqual([it.volume for it in answer], [it.volume for it in recon.readfile(SHEETS / "clevis_sheet.dxf")])
        self.assertEqual([it.choice for it in recon.solve(answer.redraw(1))], [answer[0].choice])
        self.assertEqual(answer.record()["drawing"]["file"], document.filename)
        with self.assertRaises(recon.NotThere):
            answer.redraw(2)

    def test_why(self) -> None:
        found = recon.why(EXAMPLES / "quartered_cube_half_hidden.dxf")
        self.assertEqual(found.suggestions[0].changes, (recon.Change("TOP", (Fraction(0), Fraction(1)), (Fraction(1), Fraction(1)), "solid", "dashed"),))
        self.assertEqual((found.suggestions[0].count, found.suggestions[1].count), (1, 3))
        self.assertEqual(recon.why(EXAMPLES / "clevis.dxf").suggestions, ())

    def test_rounds(self) -> None:
        plate_with_hole(self.room / "plate.dxf")
        solid = recon.readfile(str(self.room / "plate.dxf"))[0]
        self.assertEqual((solid.volume, solid.volume_with_pi), (12000 - 250 * math.pi, (Fraction(12000), Fraction(-250))))
        self.assertEqual(solid.extents[1], (40, 30, 10))
        with self.assertRaises(recon.NotThere):
            solid.faces

    @needs_module("FreeCAD", "freecad-python3", "/usr/lib/freecad-python3/lib")
    def test_shapes(self) -> None:
        plate_with_hole(self.room / "plate.dxf")
        for file in (self.room / "plate.dxf", EXAMPLES / "fractions.dxf"):
            solid = recon.readfile(file)[0]
            self.assertAlmostEqual(solid.to_shape().Volume / float(solid.volume), 1)
            solid.write_step(self.room / "a.step")
            self.assertIn("ISO-10303-21", (self.room / "a.step").read_text())
            self.assertGreater(len(solid.to_mesh().faces), 9)
        with self.assertRaises(recon.OptionError):
            solid.write_step(self.room / "a.iges")

    def test_errors(self) -> None:
        clevis = EXAMPLES / "clevis.dxf"
        broken = clevis.read_bytes().replace(b"LINE", b"ARC", 1)
        (self.room / "a.dxf").write_text("a letter\n")
        rows: tuple[tuple[Callable[[], object], type[recon.ReconError], str], ...] = (
            (lambda: recon.readfile(clevis, nope=1), recon.OptionError, "nope"), (lambda: recon.readfile(clevis, angle="no"), recon.OptionError, "angle"),
            (lambda: recon.readfile(), recon.OptionError, "a drawing is needed"), (lambda: recon.readfile(self.room / "a.dxf"), recon.SheetRefused, "no section"),
            (lambda: recon.readfile(clevis, program="/no"), recon.ProgramFailed, "/no"), (lambda: recon.readfile(clevis, seconds=0), recon.ProgramFailed, "longer"),
            (lambda: recon.readfile(EXAMPLES / "eight_voids.dxf", solids=5, strict=True), recon.SearchCut, "the search stopped at --solids 5"),
        )
        for call, error, words in rows:
            with self.subTest(words), self.assertRaisesRegex(error, words) as raised:
                call()
            self.assertIsInstance(raised.exception, recon.ReconError)
        with self.assertRaises(recon.DrawingFault) as fault:
            recon.solve(broken, as_is=True)
        self.assertEqual((fault.exception.code, fault.exception.name, fault.exception.entity), ("F13", "Geometry", "ARC"))
        with self.assertRaises(FileNotFoundError):
            recon.readfile(self.room / "none.dxf")

    def test_all_that_is_public_is_told(self) -> None:
        for name in recon.__all__:
            thing = getattr(recon, name)
            for told in [thing, *(vars(thing).values() if isinstance(thing, type) else [])]:
                if callable(told) and not getattr(told, "__name__", "_").startswith("_"):
                    self.assertTrue(told.__doc__, (name, told))
        self.assertEqual(os.path.basename(recon.__file__), "__init__.py")
