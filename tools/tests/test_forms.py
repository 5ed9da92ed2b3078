"""Forms in which people draw a part: each comes to the part's own answer, or to a refusal that names why; none is wrong or silent."""
import pathlib
import tempfile
import unittest
from collections.abc import Callable
from typing import Any, NamedTuple

from drafting.cli import commands
from drafting.core.messages import Refused
from drafting.recon.answer import answer_of
from drafting.solve import pipeline

from .support import EXAMPLES, in_words, needs_module, needs_program

try:
    import ezdxf
    from . import sheets, test_causes, test_scale, test_sections
except ImportError:
    ezdxf = sheets = test_causes = test_scale = test_sections = None  # type: ignore[assignment]

PARSER = commands.parser_of(commands.commands("solve"))
# What is said of the clevis, 6 by 4 by 4, at full size; and of a sheet without its side view.
PART, TWO = "1 solid of volume 41", "two views, without SIDE"


class Form(NamedTuple):
    """A form, what is said of it, and what has to come: what is told, or words of a refusal."""

    name: str
    words: str
    comes: str


# A form a row: its name, what is said of it, and `=` with what is told or `!` with words of the refusal.
FORMS = """\
dimensions agree | | =part
dimensions half_by_words | | !say --scale 1:2
dimensions half_by_words | --scale 1:2 | =part
dimensions half_by_factor | | !say --scale 1:2
dimensions half_by_a_text | | =part
dimensions one_written_over | | !1 of 4 dimensions says another length
dimensions one_written_over | --as-drawn | =part
dimensions five_to_one | --scale 5:1 | =part
section hatch for FRONT | | !in the place of FRONT stands group .* Draw FRONT uncut too
section hatch beside | | =part
section hatch beside | --leave-out group=4 | =part
section label SECTION A-A for SIDE | | !in the place of SIDE .* stands by it
section label_of_two_lines beside | | !no view has a cutting-plane line with arrows and the letter A.*--leave-out group=4
section hatch_lines for FRONT | | !hatch lines lie in it
section arrow solid beside | | =0 solid
section layer Coupe for FRONT | | !on the layer or in the block Coupe
frame block | | =part
frame zones | | =part
frame half | --scale 1:2 | =part
frame parts beside | | !--leave-out group=4-23
frame parts beside | --leave-out group=4-23 | =part
dialect R12 | | =part
dialect R2018 | | =part
dialect binary | | =part
dialect dxflib | | =part
dialect CRLF | | =part
dialect polylines | | =part
dialect colours | | !--hidden color=NUMBER
dialect colours | --hidden color=1 | =part
two places | | =two
two places | --angle third | =two
two layers | | =two
two out of line | | !fewer than three, and the two don't stand in line
half FRONT | | !FRONT may be a half view
half TOP | | !TOP may be a half view
half SIDE | | !SIDE may be a half view
"""


def forms() -> list[Form]:
    return [Form(*(cell.strip() for cell in row.split("|"))) for row in FORMS.splitlines()]



class Maker:
    """Draws the clevis in a form."""

    def __init__(self) -> None:
        self.views = sheets.views_in(EXAMPLES / "clevis.dxf")
        self.places = sheets.places_of(self.views)

    def make(self, form: str, file: pathlib.Path) -> None:
        kind, _, how = form.partition(" ")
        getattr(self, kind)(how, file)

    def sheet(self, file: pathlib.Path, *more: Callable[[Any], object], version: str = "R2010", **drawn: Any) -> None:
        """A sheet with something more on it."""
        doc = sheets.new(version)
        sheets.draw(doc.modelspace(), drawn.pop("views", self.views), drawn.pop("places", self.places), **drawn)
        for one in more:
            one(doc.modelspace())
        doc.saveas(file)

    def dimensions(self, how: str, file: pathlib.Path) -> None:
        test = test_scale.Scales("test_rows")
        test.setUp()
        row = next(it for it in test_scale.ROWS if it.name == how)
        test.made(row, str(file.parent)).rename(file)

    def section(self, how: str, file: pathlib.Path) -> None:
        what, _, view = how.partition(" for ")
        layer = what.removeprefix("layer ") if what.startswith("layer ") else "0"
        tells = test_sections.nothing if layer != "0" else test_sections.TELLS[what.removesuffix(" beside")][0]
        test_sections.drawn_with(view or "FRONT", not view, tells, layer).doc.saveas(file)

    def frame(self, how: str, file: pathlib.Path) -> None:
        more = {"block": lambda space: sheets.frame(space.doc, space), "zones": test_causes.zoned_frame, "half": test_causes.zoned_frame,
                "parts beside": test_causes.boxes(20)}[how]
        self.sheet(file, more, scale=0.5 if how == "half" else 1.0)

    def dialect(self, how: str, file: pathlib.Path) -> None:
        if how in ("R12", "R2018"):
            self.sheet(file, version=how)
        elif how == "binary":
            doc = sheets.new("R2000")
            sheets.draw(doc.modelspace(), self.views, self.places)
            doc.saveas(file, fmt="bin")
        elif how == "polylines":
            self.sheet(file, views={}, places=self.places)
            doc = ezdxf.readfile(file)
            for view, strokes in self.views.items():
                x, y = self.places[view]
                for dashed, ends in strokes:
                    doc.modelspace().add_lwpolyline([(x + a, y + b) for a, b in ends], dxfattribs=sheets.by_linetype(view, dashed))
            doc.saveas(file)
        elif how == "colours":
            self.sheet(file, look=lambda view, dashed: {"color": 1 if dashed else 7})
        else:
            self.sheet(file, version="R12")
            text = file.read_text()
            text = text.replace("ENDSEC\n", "ENDSEC\n  9\n$DIMSTYLE\n  2\nISO-25\n", 1) if how == "dxflib" else text
            file.write_bytes(text.replace("\n", "\r\n").encode() if how == "CRLF" else text.encode())

    def two(self, how: str, file: pathlib.Path) -> None:
        views = {view: self.views[view] for view in ("FRONT", "TOP")}
        x, y = self.places["TOP"]
        places = {**self.places, "TOP": (x + 1.5, y)} if how == "out of line" else self.places
        look = (lambda view, dashed: {**sheets.by_linetype(view, dashed), "layer": view}) if how == "layers" else sheets.by_linetype
        self.sheet(file, views=views, places=places, look=look)

    def half(self, how: str, file: pathlib.Path) -> None:
        self.sheet(file, test_causes.half(how, how == "TOP"), views={})


@needs_module("ezdxf", "python3-ezdxf")
@needs_program()
class Forms(unittest.TestCase):
    def test_each_is_answered_right_or_refused_with_its_cause(self) -> None:
        maker, rows = Maker(), forms()
        self.assertEqual(len(rows), 36)
        with tempfile.TemporaryDirectory() as folder:
            for form in rows:
                with self.subTest(form.name, words=form.words):
                    file = pathlib.Path(folder) / "sheet.dxf"
                    maker.make(form.name, file)
                    self.assertRegex(self.came(file, form.words), {"=part": f"^={PART}$", "=two": f"^=.*{TWO}"}.get(form.comes, f"^{form.comes[:1]}.*{form.comes[1:]}"))

    def came(self, file: pathlib.Path, words: str) -> str:
        """What came of a sheet, in one line: `=` and what is told of its solids, or `!` and the refusal."""
        said: list[str] = []
        try:
            asked = pipeline.ask(str(file), PARSER.parse_args(["solve", str(file), *words.split()]), in_words(said))
        except Refused as refusal:
            return "!" + " ".join(str(refusal).split())
        answer = answer_of(asked.run.text)
        if asked.missing:
            return f"={answer.listed} solids of two views, without {asked.missing}"
        volume = asked.volume(answer.solids[0].volume).removesuffix(" mm³") if answer.solids else "none"
        return f"={answer.listed} solid of volume {volume}"
