"""What a sheet's dimensions say is compared with the lengths that they span: no wrong size is told in silence."""
import pathlib
import tempfile
import unittest
from collections.abc import Callable, Sequence
from fractions import Fraction
from typing import Any, NamedTuple

from drafting.core.messages import Refused
from drafting.dxf.drawing import lines_within, strokes_in
from drafting.sheet import scale, pipeline

from .support import EXAMPLES, draft, in_words, needs_module, needs_program
from .test_sheet import arguments

try:
    from . import sheets
except ImportError:
    sheets = None  # type: ignore[assignment]


class Row(NamedTuple):
    """A sheet of the clevis, drawn at a scale, with linear dimensions: of a view and along an axis, with these words and options of their
    style, each of which may be changed; and what has to come: words that are told, or of a refusal."""

    name: str
    drawn: Fraction
    dimensions: Sequence[tuple[str, int, str, dict[str, Any]]]
    words: Sequence[str] = ()
    told: str = ""
    refused: str = ""
    texts: Sequence[str] = ()
    unit: int = 4
    exploded: bool = False
    change: Callable[[Any, Any], object] = lambda doc, dimension: None


def all_four(*words: str, **style: Any) -> list[tuple[str, int, str, dict[str, Any]]]:
    places = [("FRONT", 0), ("FRONT", 1), ("TOP", 1), ("SIDE", 0)]
    return [(view, axis, text, style) for (view, axis), text in zip(places, words or ("<>",) * 4)]


def factor_of_style(doc: Any, dimension: Any) -> None:
    """The factor is that of the style in the file's table, and the dimension's block says nothing."""
    doc.dimstyles.get(dimension.dxf.dimstyle).dxf.dimlfac = 2
    dimension.dxf.discard("geometry")


def measured(doc: Any, dimension: Any) -> None:
    """What was measured is twice what the dimension spans, as where a view was shrunk without it."""
    dimension.dxf.actual_measurement = 2 * dimension.get_measurement()
    dimension.dxf.discard("geometry")


HALF, ONE = Fraction(1, 2), Fraction(1)
# The clevis is 6 wide, 4 deep and 4 high.
TRUE = ("6", "4", "4", "4")
ROWS = (
    Row("agree", ONE, all_four(), told="4 dimensions say the lengths that they span"),
    Row("agree_in_words", ONE, all_four("6 mm", "4,0", "4 ±0.1", "2x 4 H7"), told="4 dimensions say the lengths"),
    Row("letters_say_nothing", ONE, all_four("A", "B", "M8x1", "45°"), told="found: third-angle views"),
    Row("half_by_words", HALF, all_four(*TRUE), refused=r"4 dimensions say 2 times the lengths as drawn.*say --scale 1:2.*DIMENSION \w+ on layer 0, "
        r"line [\d,]+ of half_by_words.dxf, says '6' from .* a length of 3"),
    Row("half_by_words_said", HALF, all_four(*TRUE), ("--scale", "1:2"), "4 dimensions say the lengths that they span, at the scale 1:2"),
    Row("half_by_factor", HALF, all_four(dimlfac=2), refused="say --scale 1:2"),
    Row("half_by_factor_of_style", HALF, all_four(), refused="say --scale 1:2", change=factor_of_style),
    Row("half_by_what_was_measured", HALF, all_four(), refused="say --scale 1:2", change=measured),
    Row("half_by_a_text", HALF, all_four(*TRUE), told="lengths taken at the scale 1:2, which a text says and 4 dimensions too", texts=("SCALE 1:2",)),
    Row("half_and_another_text", HALF, all_four(*TRUE), refused="say --scale 1:2", texts=("SCALE 1:5",)),
    Row("wrong_scale_said", HALF, all_four(*TRUE), ("--scale", "2:1"), refused="4 times the lengths as taken by --scale 2:1.*say --scale 1:2"),
    Row("scale_said_for_nothing", ONE, all_four(), ("--scale", "1:2"), refused="0.5 times the lengths as taken by --scale 1:2.*leave out --scale"),
    Row("text_of_paper", ONE, all_four(), told="a text says 1:2; lengths are taken as drawn", texts=("1:2",)),
    Row("five_to_one", Fraction(5), all_four(*TRUE), refused="0.2 times .*say --scale 5:1"),
    Row("odd_scale", Fraction(3, 7), all_four(*TRUE), refused="say --scale 3:7"),
    Row("odd_scale_near_to_one", Fraction(19, 20), all_four(*TRUE), refused="say --scale 19:20"),
    Row("one_written_over", ONE, all_four("6", "4", "5", "4"), refused=r"1 of 4 dimensions says another length than the length that it spans.*says '5' from .* a length of 4$"),
    Row("one_written_over_as_drawn", ONE, all_four("6", "4", "5", "4"), ("--as-drawn",), "warning: .* 1 of 4 dimensions says another:.*says '5'"),
    Row("one_alone_written_over", ONE, all_four("5.5"), refused="1 of 1 dimension says another length"),
    Row("one_alone_at_half", HALF, all_four("6"), refused="1 dimension says 2 times .*say --scale 1:2"),
    Row("all_differ", ONE, all_four("7", "8", "9", "2"), refused="4 of 4 dimensions say another length"),
    Row("half_and_one_written_over", HALF, all_four("6", "4", "7", "4"), refused="3 dimensions say 2 times .* 1 says neither: say --scale 1:2, with --as-drawn .* "
        "beside DIMENSION"),
    Row("half_and_one_as_drawn", HALF, all_four("6", "4", "7", "4"), ("--scale", "1:2", "--as-drawn"), "1 of 4 dimensions says another"),
    Row("rounded_by_hand", ONE, all_four("6.2", "4", "4", "4"), refused="1 of 4"),
    Row("thirds_rounded", Fraction(1, 3), all_four("2", "1.3", "1.33", "1.333"), told="warning: 3 dimensions say a rounded length.*4 dimensions say the lengths"),
    Row("inches_told_in_millimetres", ONE, all_four("152.4", "101.6", "101.6", "101.6"), told="4 dimensions say in mm the lengths that they span in in", unit=1),
    Row("inches_by_fractions", ONE, all_four('6"', '4"', '3 4/4"', "0'-4\""), told="4 dimensions say the lengths", unit=1),
    Row("exploded", Fraction(10), all_four("60", "40", "40", "40"), told="numbers? between arrow heads say the lengths", exploded=True),
    Row("exploded_at_half", Fraction(5), all_four("60", "40", "40", "40"), refused="say 2 times the lengths as drawn.*say --scale 1:2", exploded=True),
    Row("exploded_and_one_written_over", Fraction(10), all_four("60", "40", "41", "40"), told="warning: 1 of . numbers between arrow heads say another", exploded=True),
    Row("metres_told_in_millimetres", Fraction(1, 1000), all_four(*TRUE), refused="say --scale 1:1000", unit=6),
)
# Words, and the lengths that they may say in millimetres.
WORDS = {
    "32": [32], "32,5": [32.5], "1,200": [1.2, 1200], "1 200": [1200], "%%c32": [32], "⌀32 H7": [32], "R5": [5], "(32)": [32], ".5": [0.5],
    "2x 16": [16], "4 × ⌀6.6": [6.6], r"\A1;32{\H0.7x;\S+0.1^-0.2;}": [32], "3 cm": [3, 30], '1 1/2"': [1.5, 38.1], "1'-6\"": [18, 457.2],
    r"{\H1x;3\S1/2;}": [3.5], "45°": [], "45%%d": [], "M6": [], "TYP": [], "": [],
}


def lengths_in(data: bytes, decimals: int) -> list[Fraction]:
    """The widths and heights of the views of a drawing, in units of its last decimal."""
    lengths = []
    for strokes in strokes_in(lines_within(data), decimals).values():
        ends = [end for _, *its in strokes for end in its]
        lengths += [Fraction(max(along) - min(along)) for along in zip(*ends)]
    return sorted(lengths)


@needs_module("ezdxf", "python3-ezdxf")
class Words(unittest.TestCase):
    def test_what_words_say(self) -> None:
        for words, lengths in WORDS.items():
            with self.subTest(words):
                self.assertEqual([round(it.length, 6) for it in scale.numbers_of(scale.plain(words), "mm")], lengths)


@needs_module("ezdxf", "python3-ezdxf")
class Scales(unittest.TestCase):
    def setUp(self) -> None:
        self.views = sheets.views_in(EXAMPLES / "clevis.dxf")
        self.places = sheets.places_of(self.views)
        self.own = lengths_in((EXAMPLES / "clevis.dxf").read_bytes(), 0)

    def made(self, row: Row, folder: str) -> pathlib.Path:
        doc = sheets.new(unit=row.unit)
        space, drawn = doc.modelspace(), float(row.drawn)
        sheets.draw(space, self.views, self.places, scale=drawn)
        for view, axis, words, style in row.dimensions:
            start = self.places[view]
            end = tuple(at + size for at, size in zip(start, sheets.size_of(self.views[view])))
            base = tuple(at - 6 for at in start)
            ends = [tuple(drawn * it for it in point) for point in (base, start, end)]
            made = space.add_linear_dim(*ends, angle=90 * axis, text=words, override={**sheets.DIMENSION, "dimtsz": 0, "dimblk": "", **style})
            made.render()
            row.change(doc, made.dimension)
            if row.exploded:
                made.dimension.explode()
        for number, text in enumerate(row.texts):
            space.add_text(text).set_placement((0, -20 - 5 * number))
        file = pathlib.Path(folder) / f"{row.name}.dxf"
        doc.saveas(file)
        return file

    def test_rows(self) -> None:
        for row in ROWS:
            with self.subTest(row.name), tempfile.TemporaryDirectory() as folder:
                self.one(row, self.made(row, folder))

    def one(self, row: Row, file: pathlib.Path) -> None:
        said: list[str] = []
        try:
            drawn = pipeline.draw(str(file), arguments("sheet", file, *row.words), in_words(said))
        except Refused as refusal:
            self.assertTrue(row.refused, f"refused: {refusal}; {said}")
            self.assertRegex(" ".join(str(refusal).split()), row.refused)
            return
        self.assertFalse(row.refused, said)
        self.assertRegex(" ".join("\n".join(said).split()), row.told)
        factor = 10**drawn.decimals * drawn.origin.times * (1 if any("as the scale" in it for it in said) else row.drawn)
        self.assertEqual(lengths_in(drawn.text.encode(), drawn.decimals), sorted(factor * length for length in self.own), said)

    @needs_program()
    def test_dimensions_beside_a_drawing_of_three_layers_are_asked(self) -> None:
        doc = sheets.new()
        for view in self.views:
            doc.layers.add(view)
        sheets.draw(doc.modelspace(), self.views, self.places, lambda view, dashed: {**sheets.by_linetype(view, dashed), "layer": view}, 0.5)
        x, y = (0.5 * at for at in self.places["FRONT"])
        doc.modelspace().add_linear_dim((x, y - 5), (x, y), (x + 3, y), text="6", dxfattribs={"layer": "DIM"}).render()
        with tempfile.TemporaryDirectory() as folder:
            file = pathlib.Path(folder) / "half.dxf"
            doc.saveas(file)
            ended = draft("solve", file)
            self.assertEqual((ended.status, ended.out), (1, ""))
            self.assertIn("say --scale 1:2", ended.said)
            self.assertIn("volume", draft("solve", "--scale", "1:2", file).out)
