"""Section views of sheets become layers that recon reads: as the slow writer draws them from the definition, or they are refused by what they are."""
import itertools
import pathlib
import random
import re
import tempfile
import unittest
from collections import Counter
from collections.abc import Iterable

from drafting.cli import commands
from drafting.core.messages import Refused
from drafting.core.notes import tell_none
from drafting.core.verdict import Doubt, Kind
from drafting.dxf.drawing import lines_within
from drafting.explain import ruled_out
from drafting.projection.draw import FRAMES, Cell
from drafting.projection.sections import strokes_in_all
from drafting.sheet import pipeline as sheet
from drafting.solve import pipeline
from drafting.solve.verdict import verdict_of

from .cut_solids import Shown, area_of, planes_through, section_of, unit_cells, view_of
from .made import pierced, random_solid
from .support import in_words, needs_long, needs_module, needs_program
from .test_section_layers import cells_of

try:
    from . import section_sheets
    from .section_sheets import PART, Form, Maker, form_of
except ImportError:
    section_sheets = None  # type: ignore[assignment]

PARSER = commands.parser_of(commands.commands())
KINDS = {"SECTION": section_of, "AREA": area_of}
MIRRORED = {"SIDE": "LEFT", "LEFT": "SIDE"}
OPPOSITE = {**MIRRORED, "FRONT": "REAR", "REAR": "FRONT", "TOP": "BOTTOM", "BOTTOM": "TOP"}
# How many random sheets there are, in the gate and with --long; and of how many solids of the views alone at most.
SHEETS, MANY, MOST_SOLIDS = 20, 270, 200
# Every how manieth of them is drawn as none is read, and how: what is otherwise than in a section that is read, or a rib that is drawn uncut.
EVERY = 2
OTHERWISE = {
    "a rib uncut": ("",), "arrows the wrong way": ("wrong=reversed",), "upside down": ("turns=2",), "mirrored": ("mirrored=1",),
    "in a view's place": ("label=none where=none hatch=one", "label=none where=none hatch=lines", "where=none hatch=none", "label=none hatch=none", ""),
    "a half": ("hatch=half", "wrong=half"), "offset": ("wrong=bent", "wrong=offset", "wrong=jog"), "aligned": ("wrong=turned_end", "wrong=oblique"),
    "at another scale": ("scale=2", "scale=0.5"), "turned": ("turns=1", "turns=3"), "one arrow, or two ways": ("wrong=one_end", "wrong=opposite"),
    "without its label or line": ("label=none", "where=none"), "of another letter": ("letter=C",), "several parts": ("hatch=patterns",),
}

# A form, and its two layers: `both`, or the one that is told; the drawing's solid is the part then. Or words of a refusal behind `!`.
FORMS = """\
looks=FRONT | both
looks=REAR | both
looks=SIDE plane=4 | both
looks=LEFT plane=4 where=FRONT | both
looks=TOP plane=7 where=FRONT | both
looks=BOTTOM plane=2 where=SIDE | both
looks=FRONT where=SIDE | both
angle=first left=1 | both
angle=first left=1 looks=LEFT plane=4 where=FRONT | both
angle=first left=1 looks=TOP plane=7 where=SIDE | both
left=1 | both
left=1 looks=LEFT plane=4 where=FRONT | both
left=1 looks=SIDE plane=11 where=TOP | both
angle=first looks=BOTTOM plane=2 where=SIDE | both
names=1 layer=CUTS | both
arrow=insert | both
arrow=leader | both
arrow=open | both
arrow=hatch | both
arrow=polyline | both
arrow=PLINE | both
arrow=PLINE_from_the_tip ends=iso | both
arrow=PLINE_R12 | both
arrow=SOLIDS | both
arrow=block | both
arrow=CUTTING_PLANE_ARROW | both
marks=Schnittlinie | both
marks=Schnittlinie arrow=open | both
marks=Schnittlinie arrow=PLINE | both
hatch=crossed | both
ends=iso | both
ends=iso arrow=open | both
ends=iso arrow=insert looks=LEFT plane=4 where=FRONT | both
line=PHANTOM | both
line=DASHDOT | both
line=CUT | both
line=ACAD_ISO04W100 | both
line=none | both
hatch=edges | both
hatch=many | both
hatch=solid | both
hatch=lines | both
hatch=layer | both
hatch=none | SECTION
lines=outline | AREA
lines=hidden | both
label=A-A | both
label=A_-_A | both
label=SCHNITT_A-A | both
label=COUPE_A–A | both
label=Sezione_A-A | both
label=CORTE_A-A | both
label=SECTION_AA | both
letter=B label=SECTION_B-B | both
letter=Ж label=Ж-Ж | both
wrong=primed | both
label=SECTION_A-A_(2:1) scale=2 | both
label=SECTION_A-A_(1:2) scale=0.5 | both
turns=1 looks=LEFT plane=4 where=TOP at=beside | both
turns=3 looks=SIDE plane=4 where=TOP at=beside | both
at=above | both
turns=2 looks=REAR at=below | both
layer=SCHNITT_A | both
plane=5 | !its plane lies upon a face of the part, at y = 5
wrong=bent line=CENTER | !an offset section, of several planes
wrong=offset | !its line has its ends at y = .*: an offset section
wrong=half | !its line ends within TOP: a half section
wrong=one_end | !the letter A stands at 1 arrow, not at two
wrong=opposite | !its arrows point in opposite ways
wrong=turned_end | !its arrows go different ways, one level and one upright: an aligned or half section
wrong=jog | !its line is bent at .*: an offset, aligned or half section
wrong=oblique | !is neither level nor upright, or doesn't say whereto: an oblique or aligned section
wrong=beside | !its line goes through no view, so it cuts nothing
wrong=reversed | !in a mirror or upside down alone: its arrows point the wrong way, or it stands upside down
turns=2 | !in a mirror or upside down alone: its arrows point the wrong way, or it stands upside down
scale=2 | !another scale, which its label would have to say
hatch=half | !its hatch ends at .*, where no line is: a half or broken-out section
hatch=patterns | !its hatches are of several patterns, as those of several parts are
hatch=bent | !has a bent side
hatch=round | !its hatch ends at .*, where no line is: a half or broken-out section
label=none | !it has no label A-A, which tells its plane: a half, broken-out, revolved or removed section
label=none hatch=none | !a cutting-plane line A-A is drawn at group 2, .* which group is its section isn't told
where=none | !no view has a cutting-plane line with arrows and the letter A
letter=B | !no view has a cutting-plane line with arrows and the letter A
at=FRONT | !in the place of FRONT stands group .*, which is a section, .* Draw FRONT uncut too
looks=SIDE plane=4 at=SIDE | !in the place of SIDE stands group .*, which is a section, .* Draw SIDE uncut too
"""


def in_a_mirror(cells: Iterable[Cell]) -> set[Cell]:
    its = set(cells)
    width = max(x for x, _, _ in its) + min(x for x, _, _ in its)
    return {(width - x, y, z) for x, y, z in its}


def shown_in(lines: list[str]) -> dict[str, Shown]:
    """What the layers of sections show, in whole units."""
    return {name: section_sheets.shown_of_strokes((*start, *end) for _, start, end in its)
            for name, its in strokes_in_all(lines, 0, True).items() if "_" in name}


def wanted_of(cells: Iterable[Cell], looks: str, plane: int, kinds: Iterable[str], is_mirrored: bool) -> dict[str, Shown]:
    """What these layers have to show; of a sheet whose side view is the left one those of the part in a mirror."""
    its = set(cells)
    if is_mirrored:
        plane = max(x for x, _, _ in its) + 1 - plane if FRAMES[looks].sight == 0 else plane
        looks, its = MIRRORED.get(looks, looks), in_a_mirror(its)
    return {f"{kind}_{looks}_{plane}": KINDS[kind](its, looks, plane) for kind in kinds}


@needs_module("ezdxf", "python3-ezdxf")
@needs_program()
class SectionSheets(unittest.TestCase):
    def setUp(self) -> None:
        folder = tempfile.TemporaryDirectory()
        self.addCleanup(folder.cleanup)
        self.file = pathlib.Path(folder.name) / "sheet.dxf"
        # The angle that the user says, where the views of a sheet may be read in both.
        self.angle = ""

    def asked(self, *words: str) -> tuple[pipeline.Asked, str]:
        """What comes of the sheet, and what is said."""
        said: list[str] = []
        words = (*(("--angle", self.angle) if self.angle else ()), *words)
        return pipeline.ask(str(self.file), PARSER.parse_args(["solve", str(self.file), *words]), in_words(said)), "\n".join(said)

    def drawn(self) -> tuple[sheet.Drawn, str]:
        """What the sheet is drawn as, and what is said."""
        said: list[str] = []
        return sheet.draw(str(self.file), PARSER.parse_args(["sheet", str(self.file)]), in_words(said)), "\n".join(said)

    def test_forms(self) -> None:
        for row in FORMS.splitlines():
            words, comes = (cell.strip() for cell in row.split("|", 1))
            form = form_of(words)
            section_sheets.made(form, self.file)
            with self.subTest(words):
                if comes.startswith("!"):
                    with self.assertRaisesRegex(Refused, comes[1:]):
                        self.drawn()
                else:
                    self.one(form, tuple(KINDS) if comes == "both" else (comes,))

    def test_a_line_without_letters_leaves_its_section_out(self) -> None:
        for arrow in ("solid", "PLINE", "SOLIDS", "block", "open"):
            for ends in ("asme", "iso"):
                with self.subTest(arrow=arrow, ends=ends):
                    section_sheets.made(form_of(f"letter=none label=none arrow={arrow} ends={ends}"), self.file)
                    asked, said = self.asked("--angle", "third")
                    self.assertEqual(shown_in(asked.lines), {})
                    self.assertEqual(sum(reason.doubt is Doubt.CONTENT_NOT_READ for reason in verdict_of(asked).reasons), 1)
                    self.assertRegex(said, r"left out: \d+ lines? at the ends of 1 cutting-plane line without letters|lines of exploded dimensions")

    def test_arrows_without_letters_make_no_doubt_where_no_section_is(self) -> None:
        maker = Maker(PART)
        maker.draw_views()
        maker.cutting_line(form_of("letter=none"))
        maker.doc.saveas(self.file)
        self.assertEqual(self.drawn()[0].reasons, ())

    def one(self, form: "Form", kinds: tuple[str, ...]) -> None:
        """A sheet with a section that is read: its layers are those of the definition, and told."""
        drawn, said = self.drawn()
        wanted = wanted_of(PART, form.looks, form.plane, kinds, drawn.origin.mirrored)
        self.assertEqual(shown_in(lines_within(drawn.text.encode())), wanted, said)
        self.assertRegex(said, f"found: SECTION {form.letter}-{form.letter} is what {form.looks} shows behind [xyz] = {form.plane}.*{', '.join(wanted)}")

    def test_answers(self) -> None:
        """The part is the one solid that has the views and the sections, also where the sheet shows it in a mirror."""
        for words in ("looks=REAR", "left=1 looks=LEFT plane=4 where=FRONT", "looks=TOP plane=7 where=SIDE hatch=lines"):
            section_sheets.made(form_of(words), self.file)
            with self.subTest(words):
                asked, said = self.asked()
                self.assertEqual([cells_of(solid) for solid in asked.answer().solids], [PART], said)
                self.assertIn("found: sections of the sheet, which are read as its views are", said)

    def test_no_solid_has_the_sections(self) -> None:
        """An uncut rib, and a section whose place tells no wrong arrows: it is said that the views alone have a solid."""
        plate = section_sheets.box(0, 0, 0, 12, 10, 3) | section_sheets.box(0, 7, 3, 12, 10, 8)
        rib = section_sheets.box(5, 2, 3, 7, 7, 6)
        stepped = section_sheets.box(0, 0, 0, 12, 10, 3) | section_sheets.box(4, 0, 3, 6, 4, 8) | section_sheets.box(6, 6, 3, 8, 10, 8)
        for cells, uncut, words in ((plate | rib, rib, "looks=LEFT plane=6 where=TOP"), (stepped, (), "looks=LEFT plane=5 where=TOP wrong=reversed lines=outline")):
            maker, form = Maker(cells), form_of(words)
            maker.draw_views()
            maker.cutting_line(form)
            maker.section(form, uncut)
            maker.doc.saveas(self.file)
            with self.subTest(words):
                arguments = PARSER.parse_args(["solve", str(self.file)])
                asked = pipeline.ask(str(self.file), arguments, tell_none)
                self.assertEqual(verdict_of(asked).kind, Kind.IMPOSSIBLE)
                self.assertEqual(ruled_out.told(asked, arguments)[0], "The views alone have 1 solid: what the sections show rules it out.")

    def test_two_sections(self) -> None:
        maker = Maker(PART)
        maker.draw_views()
        forms = (form_of("plane=4"), form_of("looks=LEFT plane=4 where=FRONT letter=B label=SECTION_B-B"))
        for form in forms:
            maker.cutting_line(form)
            maker.section(form)
        maker.doc.saveas(self.file)
        drawn, said = self.drawn()
        wanted = {name: shown for it in forms for name, shown in wanted_of(PART, it.looks, it.plane, KINDS, False).items()}
        self.assertEqual(shown_in(lines_within(drawn.text.encode())), wanted, said)
        maker.section(forms[0])
        maker.doc.saveas(self.file)
        with self.assertRaisesRegex(Refused, "two groups have the label A-A"):
            self.drawn()

    def test_in_pieces(self) -> None:
        """A hatch holds them together; a label amid two of them alone tells none, and a hatch is what is advised."""
        fork = section_sheets.box(0, 0, 0, 10, 6, 6) - section_sheets.box(4, 2, 0, 6, 6, 6)
        section_sheets.made(form_of("plane=4 hatch=none"), self.file, fork)
        with self.assertRaisesRegex(Refused, "which isn't told: .*; set it nearer to its group, hatch both where they are pieces of one section, or leave out"):
            self.drawn()
        section_sheets.made(form_of("plane=4"), self.file, fork)
        drawn, said = self.drawn()
        self.assertEqual(shown_in(lines_within(drawn.text.encode())), wanted_of(fork, "FRONT", 4, ("AREA",), False), said)

    def test_a_plane_that_needs_decimals(self) -> None:
        """It lies within a gap of one unit at the part's end, where no whole coordinate is: what it shows is what the part behind it does, whole."""
        cells = section_sheets.box(0, 0, 0, 4, 3, 3) - section_sheets.box(1, 0, 0, 2, 1, 3) - section_sheets.box(2, 1, 1, 4, 2, 3)
        for plane, looks, told, decimals in ((0.4, "FRONT", "0.4", 1), (0.4, "REAR", "1", 0), (1.5, "FRONT", "1", 0), (1.5, "REAR", "2", 0),
                                             (2.6, "FRONT", "2", 0), (2.6, "REAR", "2.6", 1)):
            maker = Maker(cells)
            maker.draw_views()
            form = form_of(f"looks={looks} plane={int(plane) + (looks == 'REAR')}")
            maker.cutting_line(form, plane)
            maker.section(form)
            maker.doc.saveas(self.file)
            with self.subTest(looks, plane=plane):
                drawn, said = self.drawn()
                self.assertEqual(drawn.decimals, decimals, said)
                self.assertRegex(said, rf"shows behind y = {told}[:;]")

    def test_in_a_views_place_with_nothing_told(self) -> None:
        """No hatch, label or line tells it, and no solid has the three views: then it is said that a view may be a section, and of which plane."""
        for words, name in (("looks=FRONT plane=4 at=FRONT", "FRONT may be a section, behind y = 4 mm"),
                            ("looks=TOP plane=7 at=TOP", "TOP may be a section, behind z = 6 mm"),
                            ("looks=SIDE plane=4 at=SIDE left=1 angle=first", "SIDE may be a section, behind x = 4 mm"),
                            ("looks=LEFT plane=4 at=SIDE left=1", "LEFT may be a section, behind x = 4 mm")):
            section_sheets.made(form_of(f"{words} where=none label=none hatch=none"), self.file)
            with self.subTest(words):
                asked, _ = self.asked()
                self.assertEqual(ruled_out.may_be_sections(asked, PARSER.parse_args(["solve", str(self.file)])), [
                    f"{name}: with the other two views so it has 1 solid. A section is no view: draw it uncut."])

    def random_sheets(self, count: int, seed: int) -> "tuple[int, Counter[tuple[str, str]]]":
        """How many of so many random sheets have sections that leave fewer solids than their views do; and what comes of them, by how they are
        drawn."""
        rng, fewer, found = random.Random(seed), 0, Counter[tuple[str, str]]()
        while found.total() < count:
            cells = random_part(rng)
            forms = random_forms(rng, cells)
            self.angle, is_left = rng.choice((("third", False), ("third", False), ("first", True), ("third", True), ("first", False)))
            maker = Maker(cells, self.angle, is_left)
            if found.total() % EVERY:
                name, form = rng.choice(list(OTHERWISE)), forms[0]
                if self.draw_otherwise(maker, name, form, rng):
                    outcome = self.outcome(cells)
                    is_own = outcome == "wrong" and name == "arrows the wrong way" and self.is_of_others(maker, forms[0])
                    found[name, "right for another part" if is_own else outcome] += 1
                continue
            maker.draw_views()
            maker.doc.saveas(self.file)
            views = self.asked("--solids", str(MOST_SOLIDS))[0]
            if views.run.status or len(views.answer().solids) == 1 and rng.random() < 0.7:
                continue
            for form in forms:
                maker.cutting_line(form)
                maker.section(form)
            maker.doc.saveas(self.file)
            try:
                is_fewer, is_alone = self.checked(cells, forms, [cells_of(solid) for solid in views.answer().solids])
            except Refused as refusal:
                # A label stands amid pieces that no hatch holds together.
                self.assertRegex(str(refusal), "^'SECTION .-.', .* says that a group of lines is a section, and which isn't told")
                self.assertIn("none", [form.hatch for form in forms], refusal)
                found["in pieces, without a hatch", "refused"] += 1
                continue
            found["read", "right" if is_alone else "among several"] += 1
            fewer += is_fewer
        return fewer, found

    def draw_otherwise(self, maker: "Maker", name: str, form: "Form", rng: random.Random) -> bool:
        """Draws a sheet of a section as none is read; whether that is one at all."""
        told = dict(word.split("=") for word in rng.choice(OTHERWISE[name]).split())
        uncut: set[Cell] = set()
        if name == "a rib uncut":
            uncut, form = rib_of(maker.cells, form, rng), form._replace(hatch="one")
        if name == "in a view's place":
            form = form._replace(looks=rng.choice(("FRONT", "TOP", "SIDE")), where=form.where)
            form = form._replace(at=form.looks, plane=rng.choice([it for it in planes_through(maker.cells, form.looks) if it % 2]),
                                 where=rng.choice([view for view in ("FRONT", "TOP", "SIDE") if view != form.looks]))
        if name in ("a half", "several parts"):
            form = form._replace(hatch="one")
        is_mirrored = bool(told.pop("mirrored", ""))
        form = form._replace(**{key: type(getattr(form, key))(value) for key, value in told.items()})
        if name == "a rib uncut" and not uncut or form.at in maker.places and maker.side != "SIDE":
            return False
        maker.draw_views(*([form.at] if form.at in maker.places else []))
        if form.where != "none":
            maker.cutting_line(form)
        maker.section(form, uncut, is_mirrored)
        maker.doc.saveas(self.file)
        return True

    def outcome(self, cells: set[Cell]) -> str:
        """What comes of a sheet of a part."""
        try:
            asked, _ = self.asked("--solids", str(MOST_SOLIDS))
        except Refused:
            return "refused"
        left = [cells_of(solid) for solid in asked.answer().solids]
        if not left:
            arguments = PARSER.parse_args(["solve", str(self.file), "--angle", self.angle])
            arguments.sections = bool(shown_in(asked.lines))
            return "none, why is said" if ruled_out.told(asked, arguments) + ruled_out.may_be_sections(asked, arguments) else "none"
        return "wrong" if cells not in left else "right" if len(left) == 1 else "among several"

    def is_of_others(self, maker: "Maker", form: "Form") -> bool:
        """Whether a sheet with arrows the wrong way is, by the slow writer, that of each solid that comes of it with its arrows right: nothing
        on it tells that they are wrong."""
        shows = [show for name, show in KINDS.items() if form.hatch != "none" or name == "SECTION"]
        views = "FRONT", "TOP", maker.side
        return all(
            all(view_of(other, view) == view_of(maker.cells, view) for view in views)
            and all(show(other, OPPOSITE[form.looks], form.plane) == show(maker.cells, form.looks, form.plane) for show in shows)
            for other in map(cells_of, self.asked()[0].answer().solids))

    def checked(self, cells: set[Cell], forms: "list[Form]", solids: list[set[Cell]]) -> tuple[bool, bool]:
        """A sheet whose views alone have these solids: just those are left that show its sections, as the slow writer draws them. Whether these are
        fewer, and whether the part is alone."""
        asked, said = self.asked()
        left = [cells_of(solid) for solid in asked.answer().solids]
        told = {letter: names.split(", ") for letter, names in re.findall(r"SECTION (.)-. is .*: layers? (.*)", said)}
        self.assertEqual(set(told), {form.letter for form in forms}, said)
        self.assertEqual(set(itertools.chain(*told.values())), set(shown_in(asked.lines)), said)
        kinds = [(KINDS[name.partition("_")[0]], form.looks, form.plane) for form in forms for name in told[form.letter]]
        fitting = [it for it in solids if all(show(it, looks, plane) == show(cells, looks, plane) for show, looks, plane in kinds)]
        self.assertIn(cells, left, said)
        self.assertEqual(left, fitting, said)
        return len(left) < len(solids), len(left) == 1

    def none_is_wrong(self, count: int, seed: int) -> "Counter[tuple[str, str]]":
        fewer, found = self.random_sheets(count, seed)
        self.assertEqual([row for row in found if row[1] in ("wrong", "none")], [], found)
        self.assertGreater(fewer, count // 40)
        return found

    def test_random_sheets(self) -> None:
        self.none_is_wrong(SHEETS, 79)

    @needs_long()
    def test_many_random_sheets(self) -> None:
        found = self.none_is_wrong(MANY, 80)
        for name in sorted({name for name, _ in found}):
            print(name, {outcome: count for (one, outcome), count in sorted(found.items()) if one == name})


def random_part(rng: random.Random) -> set[Cell]:
    """A part whose gaps are two units or four wide, so that planes at odd coordinates lie within them."""
    grid = random_solid(rng, rng.randint(2, 4), rng.randint(1, 4)) if rng.random() < 0.3 else pierced(rng)
    cuts = [[0, *itertools.accumulate(rng.choice((2, 2, 4)) for _ in range(max(cell[axis] for cell in grid) + 1))] for axis in range(3)]
    cells = unit_cells(grid, cuts)
    least = [min(cell[axis] for cell in cells) for axis in range(3)]
    return {(x - least[0], y - least[1], z - least[2]) for x, y, z in cells}


def rib_of(cells: set[Cell], form: "Form", rng: random.Random) -> set[Cell]:
    """Some of the cells that a plane cuts, a box of them, but not all; none where there is no such one."""
    axis = FRAMES[form.looks].sight
    layer = form.plane - 1 if FRAMES[form.looks].sight_back else form.plane
    cut = sorted(cell for cell in cells if cell[axis] == layer)
    one, other = rng.choice(cut), rng.choice(cut)
    box = {cell for cell in cut if all(min(a, b) <= it <= max(a, b) for a, b, it in zip(one, other, cell))}
    return box if len(box) < len(cut) else set()


def random_forms(rng: random.Random, cells: set[Cell]) -> "list[Form]":
    """One section or two, each of a plane that lies upon no face, drawn in some form."""
    forms = []
    for letter in rng.sample("AB", rng.randint(1, 2)):
        looks = rng.choice(list(FRAMES))
        axis = FRAMES[looks].sight
        where = rng.choice([view for view in ("FRONT", "TOP", "SIDE") if FRAMES[view].sight != axis])
        planes = [it for it in planes_through(cells, looks) if it % 2]
        words = f"looks={looks} where={where} plane={rng.choice(planes)} letter={letter} label=SECTION_{letter}-{letter}"
        arrows, hatches = ("solid", "insert", "leader", "open", "hatch", "polyline"), ("one", "many", "edges", "solid", "lines", "layer", "none")
        words += f" arrow={rng.choice(arrows)} hatch={rng.choice(hatches)} ends={rng.choice(('asme', 'iso'))} at=apart"
        forms.append(form_of(words + f" line={rng.choice(('CENTER', 'PHANTOM', 'DASHDOT', 'ACAD_ISO04W100', 'none'))}"))
    return forms
