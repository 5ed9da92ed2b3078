"""What a refusal advises is followed once, and gets further; no option is named that doesn't."""
import pathlib
import re
import shlex
import tempfile
import unittest
from collections.abc import Callable, Iterator, Sequence
from typing import Any

from drafting.core import notes
from drafting.core.messages import Refused
from drafting.sheet import pipeline as sheet
from drafting.solve import pipeline

from .support import EXAMPLES, needs_module, needs_program
from .test_sheet import arguments

try:
    from . import sheets, test_causes, test_forms, test_scale, test_sections
    from .test_causes import in_front, with_views
except ImportError:
    sheets = test_causes = test_forms = test_scale = test_sections = None  # type: ignore[assignment]

# How a refusal names options, each with the ways to follow it: words to be added, `-` before one that is left out.
NAMED = (
    (r"taken by --scale \S+", ()), (r"leave out --scale", ("-scale",)), (r"(--scale \S+), with --as-drawn", (r"\1 --as-drawn",)),
    (r"--visible, --hidden or --leave-out (linetype=\w+)", (r"--visible \1", r"--hidden \1", r"--leave-out \1")),
    (r"say which by --angle", ("--angle third", "--angle first")), (r"--hidden color=NUMBER", ("--hidden color=1",)),
    (r"((?:--leave-out (?:'[^']*'|[^\s:;']+) ?)+)", (r"\1",)), (r"(--(?:scale|tolerance|angle) [\w.:]+)", (r"\1",)), (r"(--(?:as-drawn|all-visible))", (r"\1",)),
)
# Of these, which say which view stands where, one alone is right.
ONE_IS_RIGHT = ("--angle third", "--angle first")


def ways_in(refusal: str) -> list[str]:
    """The ways that a refusal names, as words; a way in which an option is named that no pattern knows is its text."""
    ways: list[str] = []
    for pattern, its in NAMED:
        for found in re.finditer(pattern, refusal):
            ways += [found.expand(way).strip() for way in its]
        refusal = re.sub(pattern, "", refusal)
    return ways + re.findall(r"--\S.*", refusal)


def with_way(words: Sequence[str], way: str) -> list[str]:
    """Arguments with what a way says, in place of what they said of the same."""
    its = shlex.split(way)
    names = {it.lstrip("-") for it in its if it.startswith("-")} & {"scale", "tolerance", "angle"}
    kept = [it for at, it in enumerate(words) if not {it.lstrip("-"), *(words[at - 1:at] and [words[at - 1].lstrip("-")])} & names]
    return kept + ([] if its[0].startswith("-s") else its)


def curve(layer: str, **look: Any) -> Callable[[Any], object]:
    return in_front(lambda space, x, y: space.add_ellipse((x + 3, y + 2), (0.7, 0), 0.5, dxfattribs={"layer": layer, **look}))


def arc(layer: str, **look: Any) -> Callable[[Any], object]:
    """Three quarters of a circle, as threads are drawn."""
    return in_front(lambda space, x, y: space.add_arc((x + 1.5, y + 1.5), 0.4, 0, 270, dxfattribs={"layer": layer, **look}))


def line(start: tuple[float, float], end: tuple[float, float]) -> Callable[[Any], object]:
    return in_front(lambda space, x, y: space.add_line((x + start[0], y + start[1]), (x + end[0], y + end[1])))


def hatch(**look: Any) -> Callable[[Any], object]:
    def draw(space: Any) -> None:
        x, y = test_causes.PLACES["FRONT"]
        its = space.add_hatch(dxfattribs=look)
        its.set_pattern_fill("ANSI31", look.get("color", 7), scale=0.2)
        its.paths.add_polyline_path([(x, y), (x + 6, y), (x + 6, y + 1), (x, y + 1)])
    return draw


def label(layer: str) -> Callable[[Any], object]:
    return in_front(lambda space, x, y: space.add_text("SECTION A-A", height=1, dxfattribs={"layer": layer}).set_placement((x, y - 3)))


def two_parts(space: Any) -> None:
    test_causes.views(space)
    sheets.draw(space, test_causes.VIEWS, {view: (x + 200, y) for view, (x, y) in test_causes.PLACES.items()})


def framed(space: Any) -> None:
    """Two views in a single frame that may be a view."""
    sheets.draw(space, {view: test_causes.VIEWS[view] for view in ("FRONT", "TOP")}, test_causes.PLACES)
    test_causes.box(space, (0, 0, 420, 297), layer="SHEET")


def sheets_here() -> "list[test_causes.Row]":
    """Sheets with something in the way, and how it may be left out, if it may."""
    row = test_causes.Row
    return [
        row("curve_by_its_layer", with_views(curve("HOLES")), refused="leave it out by --leave-out layer=HOLES$"),
        row("curve_by_its_colour", with_views(curve("0", color=3)), refused="leave it out by --leave-out color=3$"),
        row("curve_as_edges_are", with_views(curve("0")), refused="arcs alone$"),
        row("curves_on_two_layers", with_views(curve("ONE"), curve("TWO")), refused="leave it out by --leave-out layer=ONE$"),
        row("curve_and_odd_linetype", with_views(curve("ONE"), in_front(lambda space, x, y: space.add_line((x, y + 2), (x + 6, y + 2), dxfattribs={"linetype": "ODD"}))),
            refused="."),
        row("thread_by_its_layer", with_views(arc("THREADS")), refused="a thread is left out by --leave-out layer=THREADS$"),
        row("thread_by_its_linetype", with_views(arc("0", linetype="HIDDEN2")), refused="a thread is left out by --leave-out linetype=HIDDEN2$"),
        row("thread_as_edges_are", with_views(arc("0")), refused="without a wall between them$"),
        row("section_by_a_hatch", with_views(hatch(layer="FILL")), refused="FRONT uncut too; what makes no section is left out by --leave-out layer=FILL$"),
        row("section_by_a_hatch_in_colour", with_views(hatch(color=2)), refused="is left out by --leave-out color=2$"),
        row("section_by_two_layers", with_views(hatch(layer="FILL"), label("NOTES A")),
            refused="is left out by --leave-out layer=FILL --leave-out 'layer=NOTES A'$"),
        row("section_by_a_label", with_views(label("0")), refused="Draw FRONT uncut too$"),
        row("oblique_by_little", with_views(line((0, 0), (6, 0.01))), refused=r"off by 0.01, .* alone; say --tolerance 0\.02 where it is noise$"),
        row("oblique", with_views(line((0, 0), (6, 4))), refused="off by 4, .* edges alone, .* no corner that is cut off or filled .*: where it ends no level or upright line goes on away from it$"),
        row("near_to_another", with_views(line((0, 0.0002), (6, 0.0002))), refused=r"--tolerance 0\.0005 where it is noise or --tolerance 0\.00002 where it is an edge$"),
        row("two_parts", two_parts, refused=r"by --leave-out group=4-6 or --leave-out group=1-3 "),
        row("frame_round_two_views", framed, ("--angle", "third"), refused="a frame is left out by --leave-out layer=SHEET$"),
    ]


@needs_module("ezdxf", "python3-ezdxf")
class Advice(unittest.TestCase):
    def setUp(self) -> None:
        folder = tempfile.TemporaryDirectory()
        self.addCleanup(folder.cleanup)
        self.folder = pathlib.Path(folder.name)

    def refusal(self, file: pathlib.Path, words: Sequence[str]) -> str:
        try:
            sheet.draw(str(file), arguments("sheet", file, *words), notes.tell_none)
        except Refused as refusal:
            return " ".join(str(refusal).split())
        return ""

    def follow(self, file: pathlib.Path, words: Sequence[str]) -> None:
        """Follows each way that is named: the sheet is drawn, or refused for another cause whose own advice leads on."""
        first = self.refusal(file, words)
        ways = ways_in(first)
        its = [self.refusal(file, with_way(words, way)) for way in ways]
        for way, after in zip(ways, its):
            if way not in ONE_IS_RIGHT:
                self.assertNotEqual(after, first, way)
                self.assertTrue(not after or ways_in(after), (way, after))
        self.assertTrue(not its or "" in its or any(ways_in(after) for after in its), its)

    def test_what_is_in_the_way(self) -> None:
        made = test_causes.Causes()
        for row in sheets_here():
            with self.subTest(row.name):
                file = made.made(row.draw, str(self.folder), row.name)
                self.assertRegex(self.refusal(file, row.words), row.refused)
                self.follow(file, row.words)

    def test_all_other_refusals(self) -> None:
        count = 0
        for name, file, words in self.others():
            if refusal := self.refusal(file, words):
                with self.subTest(name, words=words):
                    count += bool(ways_in(refusal))
                    self.follow(file, words)
        self.assertGreater(count, 30)

    def others(self) -> Iterator[tuple[str, pathlib.Path, Sequence[str]]]:
        """The sheets that other tests make."""
        made, scales = test_causes.Causes(), test_scale.Scales("test_rows")
        for row in test_causes.ROWS:
            yield row.name, made.made(row.draw, str(self.folder), row.name), row.words
        scales.setUp()
        for one in test_scale.ROWS:
            yield one.name, scales.made(one, str(self.folder)), one.words
        forms, file = test_forms.Maker(), self.folder / "sheet.dxf"
        for form in test_forms.forms():
            forms.make(form.name, file)
            yield form.name, file, form.words.split()
        part = EXAMPLES / "clevis.dxf"
        maker = sheets.Maker(self.folder, sheets.views_in(part), sheets.further_of_first(part.with_suffix(".txt").read_text()))
        for its in maker.all():
            yield its.file.name, its.file, its.words
        for name, (tells, _) in test_sections.TELLS.items():
            test_sections.drawn_with("FRONT", False, tells).doc.saveas(file)
            yield name, file, ()

    @needs_program()
    def test_as_it_is_where_the_program_takes_it(self) -> None:
        """A drawing of three layers at half scale, and one whose views no layer names."""
        views = sheets.views_in(EXAMPLES / "clevis.dxf")
        for layers in (True, False):
            doc = sheets.new()
            look = (lambda view, dashed: {**sheets.by_linetype(view, dashed), "layer": view}) if layers else sheets.by_linetype
            sheets.draw(doc.modelspace(), views, sheets.places_of(views), look, 0.5)
            doc.modelspace().add_linear_dim((20, 20), (20, 25), (23, 25), text="6", dxfattribs={"layer": "DIM"}).render()
            file = self.folder / "half.dxf"
            doc.saveas(file)
            with self.assertRaises(Refused) as caught:
                pipeline.ask(str(file), arguments("solve", file), notes.tell_none)
            self.assertIn("say --scale 1:2", str(caught.exception))
            self.assertEqual("--as-is" in str(caught.exception), layers)
            taken = pipeline.ask(str(file), arguments("solve", "--as-is", file), notes.tell_none).run
            self.assertEqual(taken.status, 0 if layers else 1)
