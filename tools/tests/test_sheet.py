"""Sheets of each kind come to the answer that the part's own drawing has, or are refused in words."""
import argparse
import pathlib
import tempfile
import unittest
from fractions import Fraction

from drafting.cli import commands
from drafting.core import notes
from drafting.core.messages import Refused
from drafting.dxf.drawing import FURTHER, lines_within, views_of
from drafting.projection.cells import grid_round
from drafting.projection.draw import Shown, further_of, shown_of
from drafting.recon import process
from drafting.recon.answer import Solid, answer_of, turned_round
from drafting.sheet import pipeline as sheet
from drafting.solve import pipeline

from .support import EXAMPLES, draft, in_words, needs_module, needs_program

try:
    from . import sheets
except ImportError:
    sheets = None  # type: ignore[assignment]

PARSER = commands.parser_of(commands.commands())


def further_of_clevis() -> dict[str, Shown]:
    """What the clevis shows from the left, from behind and from below."""
    solid = answer_of((EXAMPLES / "clevis.txt").read_text()).solids[0]
    grid = grid_round([solid])
    return {view: shown_of(list(grid.all_in(grid.cells(solid))), grid.cuts, view) for view in FURTHER}


FURTHER_OF_CLEVIS = further_of_clevis()


def arguments(*words: object) -> argparse.Namespace:
    return PARSER.parse_args(list(map(str, words)))


def plain_answer(text: str, factor: int | Fraction = 1) -> list[tuple[str, int | Fraction, list[object]]]:
    """The solids of an answer, with all lengths so many times as large."""
    def grown(solid: Solid) -> list[object]:
        return [(face.outward, [[tuple(factor * it for it in corner) for corner in loop] for loop in face.loops]) for face in solid.faces]
    return [(solid.choice, solid.volume * factor**3, grown(solid)) for solid in answer_of(text).solids]


def solved(data: bytes, decimals: int = 0, most: int | None = None) -> str:
    """What recon writes of a drawing, with at most so many solids."""
    words = ["solve", *(["--decimals", decimals] if decimals else []), *(["--solids", most] if most else [])]
    return process.run(process.find(), words, data, 600).text


@needs_module("ezdxf", "python3-ezdxf")
@needs_program()
class Sheets(unittest.TestCase):
    def kind(self, kind: str) -> None:
        part = EXAMPLES / "clevis.dxf"
        own = part.with_suffix(".txt").read_text()
        with tempfile.TemporaryDirectory() as folder:
            maker = sheets.Maker(pathlib.Path(folder), sheets.views_in(part), sheets.further_of_first(own))
            for made in getattr(maker, kind)():
                with self.subTest(made.file.stem):
                    self.one(made, own)

    def test_how_visible_and_hidden_are_told(self) -> None:
        self.kind("styles")

    def test_what_stands_round_the_views(self) -> None:
        self.kind("surroundings")

    def test_how_strokes_are_drawn(self) -> None:
        self.kind("strokes")

    def test_where_views_stand(self) -> None:
        self.kind("placings")

    def test_further_views(self) -> None:
        self.kind("further_views")

    def test_what_is_refused(self) -> None:
        self.kind("refused")

    def test_versions_of_the_format(self) -> None:
        self.kind("versions")

    def one(self, made: "sheets.Made", own: str) -> None:
        said: list[str] = []
        words = arguments("sheet", made.file, *made.words)
        try:
            drawn = sheet.draw(str(made.file), words, in_words(said))
        except Refused as refusal:
            self.assertTrue(made.refusal, f"refused: {refusal}; {said}")
            self.assertRegex(str(refusal), made.refusal)
            return
        self.assertFalse(made.refusal, said)
        told = plain_answer(solved(drawn.text.encode(), drawn.decimals))
        self.assertEqual(told, plain_answer(own, made.factor or 1), said)
        self.assertEqual(drawn.origin.mirrored, "angle_left_view" in made.file.stem)
        found = further_of(views_of(lines_within(drawn.text.encode())), drawn.decimals)
        self.assertEqual(found, {view: shown for view, shown in FURTHER_OF_CLEVIS.items() if view in made.further}, said)
        self.assertRegex(said[-1], r"drawn: \d+ lines, \d+ of them hidden; recon reads it with --decimals \d")


# A step with a notch in its front right corner, drawn by hand with its left view: 4 wide, 3 deep, 3 high.
FRONT = [(0, 0, 4, 0), (4, 0, 4, 2), (4, 2, 1, 2), (1, 2, 1, 3), (1, 3, 0, 3), (0, 3, 0, 0), (3, 0, 3, 2)]
TOP = [(0, 0, 3, 0), (3, 0, 3, 1), (3, 1, 4, 1), (4, 1, 4, 3), (4, 3, 0, 3), (0, 3, 0, 0), (1, 0, 1, 3)]
LEFT = [(0, 0, 3, 0), (3, 0, 3, 3), (3, 3, 0, 3), (0, 3, 0, 0)]
LEFT_HIDDEN = [(0, 2, 3, 2), (2, 0, 2, 2)]


@needs_module("ezdxf", "python3-ezdxf")
@needs_program()
class LeftViews(unittest.TestCase):
    def test_solids_of_a_left_view_are_turned_back(self) -> None:
        for angle, top, side in (("third", (0, 10), (-10, 0)), ("first", (0, -10), (10, 0))):
            doc = sheets.new()
            space = doc.modelspace()
            for lines, (x, y), style in ((FRONT, (0, 0), "CONTINUOUS"), (TOP, top, "CONTINUOUS"), (LEFT, side, "CONTINUOUS"),
                                         (LEFT_HIDDEN, side, "HIDDEN")):
                for a, b, c, d in lines:
                    space.add_line((a + x, b + y), (c + x, d + y), dxfattribs={"linetype": style})
            with self.subTest(angle), tempfile.TemporaryDirectory() as folder:
                file = pathlib.Path(folder) / "left.dxf"
                doc.saveas(file)
                asked = pipeline.ask(str(file), arguments("solve", file), notes.tell_none)
                answer = asked.answer()
                self.assertEqual([solid.volume for solid in answer.solids], [25])
                corners = {corner for face in answer.solids[0].faces for loop in face.loops for corner in loop}
                self.assertTrue({(3, 0, 0), (3, 1, 0), (4, 1, 0), (1, 0, 3), (0, 0, 0)} <= corners, corners)
                self.assertNotIn((4, 0, 0), corners)

    def test_a_solid_turned_twice_is_the_same(self) -> None:
        solid = answer_of((EXAMPLES / "clevis.txt").read_text()).solids[0]
        self.assertEqual(turned_round(turned_round(solid, 6), 6), solid)


@needs_module("ezdxf", "python3-ezdxf")
class BrokenFiles(unittest.TestCase):
    def test_what_is_no_sheet_is_refused_in_words(self) -> None:
        rows = {
            "empty": (b"", "is empty"), "blank": (b"\n\n", "is empty"), "text": (b"hello\nworld\n" * 50, "is no DXF file"),
            "picture": (b"\x89PNG\r\n\x1a\n" + bytes(range(256)) * 40, "is a PNG picture, no DXF file: .*draw it anew"),
            "cut": ((EXAMPLES / "clevis.dxf").read_bytes()[:700], "cut.dxf is cut, it ends without an end"),
            "no_entity": (b"0\nSECTION\n2\nENTITIES\n0\nENDSEC\n0\nEOF\n", "no straight line"),
            "nan": (b"0\nSECTION\n2\nENTITIES\n0\nLINE\n8\n0\n10\nnan\n20\n0\n11\n1\n21\n0\n0\nENDSEC\n0\nEOF\n", "."),
        }
        with tempfile.TemporaryDirectory() as folder:
            for name, (data, words) in rows.items():
                file = pathlib.Path(folder) / f"{name}.dxf"
                file.write_bytes(data)
                with self.subTest(name), self.assertRaisesRegex(Refused, words):
                    sheet.draw(str(file), arguments("sheet", file), notes.tell_none)

    def test_a_file_that_is_too_long(self) -> None:
        from drafting.dxf import reader
        with tempfile.TemporaryDirectory() as folder:
            file = pathlib.Path(folder) / "long.dxf"
            with open(file, "wb") as out:
                out.truncate(reader.MOST_BYTES + 1)
            with self.assertRaisesRegex(Refused, "more than 67,108,864"):
                sheet.draw(str(file), arguments("sheet", file), notes.tell_none)

    def test_a_drawing_of_more_than_16_mib_is_drawn_anew(self) -> None:
        text = (EXAMPLES / "clevis.dxf").read_bytes()
        with tempfile.TemporaryDirectory() as folder:
            file = pathlib.Path(folder) / "long.dxf"
            file.write_bytes((b"999\n" + b"-" * 999_999 + b"\n") * 17 + text)
            drawn = sheet.draw(str(file), arguments("sheet", file), notes.tell_none)
        self.assertLess(len(drawn.text), 20_000)

    def test_blocks_that_stand_in_themselves_or_multiply(self) -> None:
        doc = sheets.new()
        for number in range(12):
            block = doc.blocks.new(f"B{number}")
            for at in range(10):
                if number:
                    block.add_blockref(f"B{number - 1}", (at, 0))
                else:
                    block.add_line((at, 0), (at, 1))
        doc.modelspace().add_blockref("B11", (0, 0))
        with tempfile.TemporaryDirectory() as folder:
            file = pathlib.Path(folder) / "many.dxf"
            doc.saveas(file)
            from drafting.dxf import reader
            most, reader.MOST_ENTITIES = reader.MOST_ENTITIES, 20_000
            try:
                with self.assertRaisesRegex(Refused, "more than 20,000 entities"):
                    sheet.draw(str(file), arguments("sheet", file), notes.tell_none)
            finally:
                reader.MOST_ENTITIES = most


@needs_module("ezdxf", "python3-ezdxf")
@needs_program()
class PassedOver(unittest.TestCase):
    """A cube of 3 with a void, whose hidden lines stand on a layer HIDDEN: as it is recon answers the full cube."""

    def file(self, folder: str) -> pathlib.Path:
        doc = sheets.new()
        for layer, x, y in (("FRONT", 0, 0), ("TOP", 0, 10), ("SIDE", 10, 0)):
            for low, high, on in ((0, 3, layer), (1, 2, "HIDDEN")):
                corners = [(x + a, y + b) for a, b in ((low, low), (high, low), (high, high), (low, high), (low, low))]
                for ends in zip(corners, corners[1:]):
                    doc.modelspace().add_line(*ends, dxfattribs={"layer": on, "linetype": "CONTINUOUS"})
        file = pathlib.Path(folder) / "void.dxf"
        doc.saveas(file)
        return file

    def test_it_is_answered_right_or_told(self) -> None:
        with tempfile.TemporaryDirectory() as folder:
            file = self.file(folder)
            ended = draft("solve", file)
            self.assertEqual(ended.status, 0)
            self.assertIn("Unique: one solid matches this drawing.", ended.out)
            self.assertIn("3 mm by 3 mm by 3 mm, volume 26 mm³", ended.out)
            self.assertIn("12 LINE on layer HIDDEN taken as hidden, by the name of layer HIDDEN", ended.said)
            ended = draft("solve", "--as-is", file)
            self.assertIn("volume 27 mm³", ended.out)
            self.assertIn("warning: 12 LINE on layer HIDDEN lie within the views and were not read", ended.said)
