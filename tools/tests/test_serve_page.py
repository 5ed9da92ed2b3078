"""The page of `draft serve` in Chromium, used as a person does: drawings dropped in, looked at, stopped, compared and saved. With
--pictures=FOLDER what is seen is saved there. Long ones run with --long."""
import os
import pathlib
import re
import time

from drafting.dxf.drawing import Origin, written
from drafting.recon.answer import CUT, FAULT

from .made import lines_of_runs, runs, voids
from .opened import IS_OVER, PATIENCE, Opened, button
from .serving import Served, slowed
from .support import EXAMPLES, draft, needs_command, needs_long, needs_module, needs_program
from .test_serve import answer_of_example, needs_packages

DATA = pathlib.Path(__file__).parent / "data"
ROWS = "[...document.querySelectorAll('#settle li')].map(({dataset}) => [dataset.name, [Number(dataset.groups), Number(dataset.largest)]])"


@needs_packages
@needs_program()
@needs_command("chromium", "chromium")
class Table(Opened):
    # ---- what is seen

    def test_nothing_yet(self) -> None:
        self.assertIn("drop a DXF file", self.text(".drop"))
        self.picture("empty")

    def test_each_example(self) -> None:
        times = {}
        for file in sorted(EXAMPLES.glob("*.dxf")):
            answer = answer_of_example(file)
            times[file.stem] = self.drop_example(file.stem)
            words = self.text(".told")
            self.assertIn(answer.head, words + self.text("footer"), file.name)
            if answer.solids and not FAULT.fullmatch(answer.head) and not CUT.fullmatch(answer.head):
                self.assertEqual(self.value("viewer.choiceOf(0)"), answer.solids[0].choice, file.name)
                self.assertLess(len(self.text(".solids figcaption")), 120)
        print("from drop to first solid, or to what is wrong:", *(f"{name} {seconds:.2f} s" for name, seconds in times.items()), sep="\n  ")

    def test_a_fault_names_its_line(self) -> None:
        self.drop_example("bracket_cut")
        self.assertEqual(self.value("document.querySelector('.named').innerText.trim()").split()[0], "305")
        self.picture("fault")

    def test_no_solid_and_what_would_give_one(self) -> None:
        self.drop_example("quartered_cube_half_hidden")
        self.assertIn("solid would give 3 solids", self.text("#why"))
        self.assertEqual(self.value("document.querySelectorAll('.drawing .suggested').length"), 1)
        self.picture("none")
        self.press(button("Show what it gives", "#why"))
        self.browser.until(f"({IS_OVER}) && viewer.model.count === 3", PATIENCE)
        self.picture("given")
        self.press("document.querySelector('.given button')")
        self.browser.until(f"({IS_OVER}) && viewer.model.count === 0 && !!document.querySelector('#why li')", PATIENCE)

    def test_thirty_five_solids(self) -> None:
        """They are fixed, compared, told apart by further views, and saved."""
        self.drop_example("eight_voids")
        self.assertIn("35 solids match this drawing", self.text(".told"))
        self.browser.until("!document.getElementById('settle').hidden", PATIENCE)
        rows = dict(self.value(ROWS))
        self.assertEqual([rows[view] for view in ("REAR", "LEFT", "BOTTOM")], [[1, 35]] * 3)
        section = "section across x between 1 and 2 (area)"
        self.assertEqual(rows[section], [7, 7])
        self.type_into("#settle input", "1")
        row = f"[...document.querySelectorAll('#settle li')].find((row) => row.dataset.name === '{section}')"
        self.assertEqual(self.value(f"{row}.dataset.leaves"), "4")
        self.press(f"{row}.querySelector('button')")
        self.assertEqual(self.value("viewer.state.fitting.length"), 4)
        self.assertIn("4 of 35 solids look like solid 1 in section across x between 1 and 2 (area)", self.text(".fixing .count"))
        self.press(button("What to add for it"))
        self.browser.until("document.querySelector('.added .words')?.innerText.length > 10", PATIENCE)
        self.assertIn("Solid 1 is told by a section", self.text(".added"))
        self.press(button("One step back"))
        self.assertEqual(self.value("viewer.state.fitting.length"), 35)
        self.value("[0, 1].forEach(viewer.pick)")
        self.assertRegex(self.text(".pair figcaption"), r"^Solid 1 has, and solid 2 lacks: volume 1$")
        self.picture("several")
        for kind in ("DXF", "STL"):
            self.press(button(kind, ".solids figure:nth-child(2)"))
            self.assertIn({"DXF": b"SECTION", "STL": b"solid recon"}[kind], self.file_saved(f"eight_voids_2.{kind.lower()}")[:60])
        self.press(button("Save this page as one file"))
        self.file_saved("eight_voids.html")
        self.browser.close_tab()
        self.browser.open(self.saved / "eight_voids.html")
        self.assertEqual(self.value("[viewer.model.count, viewer.tiles.length]"), [35, 35])
        self.assertIn("35 solids match this drawing", self.text(".told"))

    def test_the_file_of_draft_page_shows_what_a_suggestion_gives(self) -> None:
        file = self.folder / "half_hidden.html"
        ended = draft("page", EXAMPLES / "quartered_cube_half_hidden.dxf", "-o", file)
        self.assertEqual(ended.status, 0, ended.said)
        self.browser.close_tab()
        self.browser.open(file)
        self.assertIn("solid would give 3 solids", self.text("#why"))
        self.press(button("Show what it gives", "#why"))
        self.assertEqual(self.value("viewer.model.count"), 3)
        self.assertIn("3 solids match this drawing", self.text(".told"))
        self.press("document.querySelector('.given button')")
        self.assertEqual(self.value("[viewer.model.count, document.querySelectorAll('#why li').length]"), [0, 2])

    def test_volumes_are_in_the_unit_of_the_drawing(self) -> None:
        """Of a drawing in tenths of a centimetre, in the captions and where two solids are compared."""
        grid = voids(1)
        file = self.folder / "tenths.dxf"
        file.write_text(written(lines_of_runs(grid, runs(grid)), 1, Origin("cm")))
        self.drop(file)
        self.browser.until(IS_OVER, PATIENCE)
        self.assertIn("volume 0.121 cm³", self.text(".solids figcaption"))
        self.assertIn("0.5 cm × 0.5 cm × 0.5 cm", self.text(".solids .size"))
        self.value("[0, 1].forEach(viewer.pick)")
        self.assertEqual(self.text(".pair figcaption"), "Solid 1 has, and solid 2 lacks: volume 0.001 cm³")

    @needs_module("FreeCAD", "freecad-python3", "/usr/lib/freecad-python3/lib")
    def test_step_is_saved(self) -> None:
        self.drop_example("clevis")
        self.press(button("STEP"))
        self.assertIn(b"ISO-10303-21", self.file_saved("clevis_1.step")[:40])

    def test_a_search_is_stopped(self) -> None:
        """Of a drawing with 1,500,625 solids, up to 65,536, those that are found are kept once it is stopped."""
        with Served("--program", slowed(self.folder)) as served:
            self.browser.close_tab()
            self.browser.visit(served.address)
            self.value("document.querySelector('.options').open = true; document.querySelector('[name=solids]').value = '65536'")
            self.browser.drop(self.made(4))
            self.browser.until("viewer.model.count > 0 && !document.querySelector('.progress').hidden", PATIENCE)
            self.value("document.querySelector('.stop').focus()")
            self.browser.key("Enter")
            self.browser.until("/was stopped/.test(document.querySelector('.told').innerText)", PATIENCE)
            count = self.value("viewer.model.count")
            self.assertIn(f"At least {count:,} solids match this drawing", self.text(".told"))
            self.assertEqual(self.value("new Set(Array.from({length: viewer.model.count}, (_, number) => viewer.choiceOf(number))).size"), count)
            self.browser.until(IS_OVER, PATIENCE)
            self.picture("stopped")
            self.browser.close_tab()

    @needs_long()
    def test_1225_solids(self) -> None:
        self.drop(self.made(2))
        self.browser.until("/1,225 solids match/.test(document.querySelector('.told').innerText)", PATIENCE)
        self.assertEqual("1 to 64 of 1,225", self.text(".pager .shown"))
        began = time.monotonic()
        for _ in range(4):
            self.press(button("Next", ".pager"))
            self.browser.settle()
        self.assertLess(time.monotonic() - began, 20)
        self.assertEqual(self.text(".solids b"), "Solid 257")

    @needs_long()
    def test_65536_solids(self) -> None:
        self.value("document.querySelector('[name=solids]').value = '65536'")
        self.drop(self.made(4))
        self.browser.until("/cut at its limit/.test(document.querySelector('.told').innerText)", 4 * PATIENCE)
        self.assertEqual(self.value("viewer.model.count"), 65_536)
        began = time.monotonic()
        self.press(button("Next", ".pager"))
        self.browser.settle()
        self.assertLess(time.monotonic() - began, 10)

    def test_two_pages_at_once(self) -> None:
        first = self.browser.target, self.browser.session, self.browser.url
        self.browser.drop(EXAMPLES / "eight_voids.dxf")
        second = self.browser.visit(self.served.address)
        self.drop_example("clevis")
        self.assertIn("One solid matches", self.text(".told"))
        self.browser.turn_to(first)
        self.browser.until(IS_OVER, PATIENCE)
        self.assertIn("35 solids match", self.text(".told"))
        self.browser.close_tab()
        self.browser.turn_to(second)
        self.assertEqual(self.value("viewer.model.count"), 1)

    def test_the_server_ends_meanwhile(self) -> None:
        with Served() as served:
            self.browser.close_tab()
            self.browser.visit(served.address)
            self.drop_example("quartered_cube")
            served.process.kill()
            self.browser.until("/server has ended/.test(document.querySelector('.failed').innerText)", PATIENCE)
            self.assertEqual(self.value("viewer.model.count"), 3)
            self.picture("gone")
            self.browser.events = [event for event in self.browser.events if event["method"] != "Log.entryAdded"]
            self.browser.events = [event for event in self.browser.events if served.origin not in str(event)]

    def test_what_is_no_drawing(self) -> None:
        texts = {"empty.dxf": b"", "noise.dxf": os.urandom(5_000), "text.dxf": b"hello\n" * 1_000, "large.dxf": b"0" * (17 << 20)}
        for name, data in texts.items():
            (self.folder / name).write_bytes(data)
            self.browser.drop(self.folder / name)
            words = "document.querySelector('.told').innerText + document.querySelector('.failed').innerText"
            self.browser.until(f"/Not read|Not taken|has a fault/.test({words})", PATIENCE)
            self.browser.until("document.querySelector('.progress').hidden", PATIENCE)
        self.drop_example("unit_cube")
        self.assertIn("One solid matches", self.text(".told"))

    @needs_module("ezdxf", "python3-ezdxf")
    def test_a_sheet_of_freecad(self) -> None:
        from .test_techdraw import exported, missing, shape_of
        if missing:
            self.skipTest(missing)
        whole, visible = exported(shape_of([("add", (0, 0, 0), (3, 2, 1)), ("add", (0, 1, 1), (1, 2, 2))]), self.folder)
        self.drop(whole)
        self.browser.until(IS_OVER, PATIENCE)
        self.assertIn("Not read", self.text(".told"))
        self.value("document.querySelector('.options').open = true")
        self.browser.give("document.querySelector('[name=second]')", visible)
        self.press(button("Read it so"))
        self.browser.until(f"({IS_OVER}) && viewer.model.count > 0", PATIENCE)
        self.assertRegex(self.text(".told"), "(No|One|\\d+) solids? match(es)? this drawing")
        self.assertTrue(re.search("mm", self.text(".drawing")) or self.text(".said"))
        self.picture("freecad")

    def options(self) -> list[object]:
        """What is said in the form of a drawing's options that isn't the default."""
        return list(self.value("[...document.querySelector('.options form').elements].filter((it) => it.type === 'checkbox' ? it.checked "
                               ": it.name && it.value).map((it) => it.name)"))

    def test_options_of_one_drawing_are_none_of_the_next(self) -> None:
        self.drop_example("unit_cube")
        self.value("document.querySelector('.options').open = true")
        for name, text in (("scale", "1:2"), ("leave-out", "layer=X")):
            self.type_into(f"[name={name}]", text)
        self.value("document.querySelector('[name=all-visible]').checked = true")
        self.press(button("Read it so"))
        self.browser.until(f"({IS_OVER}) && document.querySelector('.solids figcaption').innerText.includes('volume 8')", PATIENCE)
        self.assertEqual(self.options(), ["scale", "leave-out", "all-visible"])
        self.drop_text("next.dxf", (EXAMPLES / "unit_cube.dxf").read_bytes())
        self.assertIn("volume 1", self.text(".solids figcaption"))
        self.assertEqual(self.options(), [])

    def test_what_is_said_before_the_first_drawing_is_of_it(self) -> None:
        self.value("document.querySelector('.options').open = true")
        self.type_into("[name=scale]", "1:2")
        self.drop_example("unit_cube")
        self.assertIn("volume 8", self.text(".solids figcaption"))

    def test_a_sheet_and_its_visible_lines_are_taken_together(self) -> None:
        whole = DATA / "techdraw_front_top_side.dxf"
        for files in ((whole, whole.with_suffix(".visible.dxf")), (whole.with_suffix(".visible.dxf"), whole)):
            self.browser.drop(*files)
            self.browser.until(f"({IS_OVER}) && viewer.model.count === 1", PATIENCE)
            self.assertEqual((self.text("h1"), self.options()), (whole.name, ["second"]))
            self.assertIn("volume 11000 mm³", self.text(".solids figcaption"))
            self.drop_example("quartered_cube")

    def test_other_drawings_together_are_refused(self) -> None:
        self.drop_example("unit_cube")
        self.browser.drop(EXAMPLES / "clevis.dxf", EXAMPLES / "bracket.dxf")
        self.browser.until("!document.querySelector('.failed').hidden", PATIENCE)
        self.assertIn("Not taken: one drawing at a time is read, and these are 2: clevis.dxf, bracket.dxf.", self.text(".failed"))
        self.assertEqual((self.text("h1"), self.value("viewer.model.count")), ("unit_cube.dxf", 1))
