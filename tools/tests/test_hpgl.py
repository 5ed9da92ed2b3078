"""Plots in HP-GL are read as sheets, exactly; what they hold that isn't read is told or refused. Files of other kinds are named with the way on."""
import pathlib
import tempfile
import unittest

from drafting.core.messages import Refused
from drafting.core.notes import Note
from drafting.dxf import file_types, hpgl
from drafting.dxf.reader import Sheet, read_sheet
from drafting.dxf.styles import Style, choice_of
from drafting.sheet import pipeline

from .support import EXAMPLES, draft, needs_module, needs_program
from .test_sheet import arguments, plain_answer, solved

try:
    from . import sheets
except ImportError:
    sheets = None  # type: ignore[assignment]

CLEVIS = EXAMPLES / "clevis.dxf"


class Plots(unittest.TestCase):
    def setUp(self) -> None:
        self.file = pathlib.Path(self.enterContext(tempfile.TemporaryDirectory())) / "sheet.plt"

    def sheet(self, text: str, *choices: tuple[str, Style]) -> Sheet:
        self.file.write_text(text, encoding="latin-1")
        return read_sheet(str(self.file), [choice_of(*it) for it in choices])

    def lines(self, text: str) -> list[tuple[float, ...]]:
        return [(*edge.start, *edge.end) for edge in self.sheet(text).edges]

    def test_pens_up_and_down_absolute_and_relative(self) -> None:
        for text in ("IN;SP1;PU0,0;PD400,0;PD400,200;PU;SP0;", "IN;SP1;PA0,0;PD;PA400,0,400,200;PU;", "IN;SP1;PU0,0PD400,0,400,200PU",
                     "IN;SP1;PR;PD400,0;PD0,200;", "\x1b%-1BIN;SP1;PU 0 0;PD 400 0;\nPA 400 200;PU;", "DF;SP1;PU;PA 0,0;PD;PR400,0;PR0,200;"):
            with self.subTest(text):
                self.assertEqual(self.lines(text), [(0, 0, 10, 0), (10, 0, 10, 5)])

    def test_coordinates_are_fortieths_of_a_millimetre(self) -> None:
        self.assertEqual(self.lines("IN;SP1;PU1,-3;PD41,-3;"), [(0.025, -0.075, 1.025, -0.075)])

    def test_line_types_and_pens(self) -> None:
        sheet = self.sheet("IN;SP2;LT2;PU0,0;PD400,0;LT;SP3;PD400,200;LT4,4;PD0,200;LT-3;PD0,0;")
        self.assertEqual([(edge.hidden, edge.colour, edge.source.layer) for edge in sheet.edges],
                         [(True, 2, "PEN2"), (False, 3, "PEN3"), (True, 3, "PEN3")])
        self.assertEqual(len(sheet.chains), 1)
        self.assertEqual([it.linetype for it in self.sheet("IN;SP1;LT1;PD40,0;").unread], ["LT1"])
        self.assertTrue(self.sheet("IN;SP1;LT1;PD40,0;", ("linetype=LT1", Style.HIDDEN)).edges[0].hidden)
        self.assertEqual(self.sheet("IN;SP5;PD40,0;SP1;PD80,0;", ("color=5", Style.APART)).edges[0].colour, 1)

    def test_circles_arcs_and_rectangles(self) -> None:
        sheet = self.sheet("IN;SP1;PU400,400;CI80;PU480,400;PD;AA400,400,90;PD400,600;PU480,400;PD;AA400,400,-90,5;")
        self.assertEqual([(*it.centre, it.radius, round(it.start, 6) % 360, it.sweep) for it in sheet.arcs],
                         [(10, 10, 2, 0, 360), (10, 10, 2, 0, 90), (10, 10, 2, 270, 90)])
        self.assertEqual([(*edge.start, *edge.end) for edge in sheet.edges], [(10, 12, 10, 15)])
        self.assertEqual(len(self.sheet("IN;SP1;PU0,0;EA400,200;").edges), 4)

    def test_labels_are_no_lines(self) -> None:
        sheet = self.sheet("IN;SP1;PU0,0;LBPD 40,40 scale 1:2;PD\x03;PD400,0;DT$;LBSP1;PD1,1$PD400,80;")
        self.assertEqual(len(sheet.edges), 2)
        self.assertEqual({str(it.words): count for it, count in sheet.left.items()}, {"LB (label) of the plot": 2})
        self.assertEqual(sheet.scales, {"1:2"})

    def test_what_is_passed_over_is_counted_and_what_draws_is_not(self) -> None:
        sheet = self.sheet("IN;VS20;SP1;SI.2,.3;PU0,0;PD40,0;AT40,80,80,0;")
        self.assertEqual([it.words for it in sheet.left], ["command VS of the plot", "command SI of the plot"])
        self.assertEqual([it.why for it in sheet.unread], ["is drawn by the command AT, which isn't read"])

    def test_scaled_and_packed_plots_are_refused(self) -> None:
        self.assertRaisesRegex(Refused, "scales its coordinates .*plot it without scaling", self.sheet, "IN;SC0,100,0,100;SP1;PD40,0;")
        self.assertRaisesRegex(Refused, "packed lines .*HP-GL rather than HP-GL/2", self.sheet, "IN;SP1;PU;PE<=ab;PD40,0;")
        self.assertRaisesRegex(Refused, "draws nothing", self.sheet, "IN;SP1;PU40,0;PU80,0;")

    def test_other_files_are_no_plots(self) -> None:
        for data in (b"", b"IN", b"INFO about PDF files; and more", b"0\nSECTION\n", b"%PDF-1.4 PD1;", b"PK\x03\x04"):
            self.assertFalse(hpgl.is_plot(data), data)


@needs_program()
@needs_module("ezdxf", "python3-ezdxf")
class Answers(unittest.TestCase):
    def setUp(self) -> None:
        self.file = pathlib.Path(self.enterContext(tempfile.TemporaryDirectory())) / "sheet.plt"

    def plot(self, hidden: str, more: str = "") -> None:
        """The clevis at ten times its size as a plot."""
        views = sheets.views_in(CLEVIS)
        rows = ["IN;SP1;"]
        for view, (right, up) in sheets.places_of(views).items():
            for dashed, (start, end) in views.get(view, ()):
                (a, b), (c, d) = ((round(400 * (x + right)), round(400 * (y + up))) for x, y in (start, end))
                rows.append(f"{hidden if dashed else 'SP1;LT;'}PU{a},{b};PD{c},{d};PU;")
        self.file.write_text("".join(rows) + more + "SP0;", encoding="latin-1")

    def test_a_plot_is_answered_as_the_drawing(self) -> None:
        for hidden, words in (("SP1;LT2;", ()), ("SP2;LT;", ("--hidden", "color=2"))):
            self.plot(hidden, "PU0,0;LBCLEVIS\x03")
            told: list[Note] = []
            drawn = pipeline.draw(str(self.file), arguments("sheet", self.file, *words), told.append)
            answer = solved(drawn.text.encode(), drawn.decimals)
            self.assertEqual(plain_answer(answer), plain_answer(solved(CLEVIS.read_bytes()), 10))
            self.assertIn("left out: 1 LB (label) of the plot", map(str, told))
        self.assertRaisesRegex(Refused, "colours 1, 2: say which are hidden", pipeline.draw, str(self.file), arguments("sheet", self.file),
                               told.append)

    def test_the_command_reads_a_plot(self) -> None:
        self.plot("SP1;LT2;")
        ended = draft("solve", self.file)
        self.assertEqual(ended.status, 0, ended.said)
        self.assertIn("plot (HP-GL) read", ended.said)


class Others(unittest.TestCase):
    def test_each_is_named_with_the_next_command(self) -> None:
        for data, words in ((b"AC1032\0\0", ("DWG", "dwg2dxf", "draft solve SHEET.dxf")),
                            (b"%PDF-1.7\n", ("PDF", "Inkscape", "draft solve SHEET.dxf")),
                            (b"(DWF V06.00)PK\3\4", ("DWF", "draft solve SHEET.plt")),
                            (b"\xd0\xcf\x11\xe0\xa1\xb1\x1a\xe1\0\0", ("SLDPRT", "draft views PART.step", "draft solve SHEET.dxf"))):
            told = file_types.told(data)
            for word in words:
                self.assertIn(word, told)


if __name__ == "__main__":
    unittest.main()
