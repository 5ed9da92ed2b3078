"""What a person sees and does at the drafting table, in Chromium: the answer at a glance, the way to any solid, one solid large, what would
settle it, files that are saved after a cut, words that are right, and pages that are left and come back."""
import itertools
import re
import time

from drafting.dxf.drawing import Stroke, lines_within, strokes_in
from drafting.export.triangles import edges_of, triangles_of, volume_of
from drafting.messages import controls
from drafting.projection.cells import grid_round
from drafting.projection.draw import DASHED, shown_of
from drafting.recon.answer import answer_of

from .made import file_of, voids
from .opened import IS_OVER, PATIENCE, Opened, button
from .serving import Served, hesitant, slowed
from .support import EXAMPLES, needs_command, needs_module, needs_program
from .test_page import LINE, rectangle
from .test_serve import many_lines, needs_packages

FIRST = "document.querySelector('.solids figure:not([hidden])')"
# How bright a colour of the page's style is, by WCAG.
BRIGHT = """(name) => {
    const flat = document.createElement("canvas").getContext("2d");
    flat.fillStyle = getComputedStyle(document.documentElement).getPropertyValue(name).trim();
    flat.fillRect(0, 0, 1, 1);
    const [r, g, b] = [...flat.getImageData(0, 0, 1, 1).data].map((it) => it / 255).map((it) => it <= 0.03928 ? it / 12.92 : ((it + 0.055) / 1.055) ** 2.4);
    return 0.2126 * r + 0.7152 * g + 0.0722 * b;
}"""

# Counts what a page draws, and looks whether a solid is drawn in the frame after its figure has come.
WATCHED = """
window.drawn = { shaders: 0, pictures: 0, isAtOnce: null };
for (const [kind, name, count] of [[WebGLRenderingContext, "linkProgram", "shaders"], [CanvasRenderingContext2D, "drawImage", "pictures"]]) {
  const act = kind.prototype[name];
  kind.prototype[name] = function (...given) {
    drawn[count]++;
    return act.apply(this, given);
  };
}
new MutationObserver(() => {
  if (drawn.isAtOnce !== null || !window.viewer?.tiles.length) return;
  drawn.isAtOnce = false;
  requestAnimationFrame(() => (drawn.isAtOnce = viewer.tiles[0].scene !== null));
}).observe(document, { childList: true, subtree: true });
"""


@needs_packages
@needs_program()
@needs_command("chromium", "chromium")
class Viewer(Opened):
    def dxf_of(self, *lines: str) -> str:
        return "0\nSECTION\n2\nENTITIES\n" + "".join(lines) + "0\nENDSEC\n0\nEOF\n"

    # ---- the answer

    def test_the_verdict_stands_first(self) -> None:
        """In a word and a sentence; with the first solid and Save it is seen without scrolling, on a phone with the first solid."""
        rows = {"clevis": ("Unique", "One solid matches", ""), "quartered_cube": ("Ambiguous", "3 solids match", "A section across x between 0 and 1 (area) would settle it."),
                "eight_voids": ("Ambiguous", "35 solids match", "Say which is meant"),
                "quartered_cube_half_hidden": ("Impossible", "No solid matches", "Look at TOP (1, 1) to (1, 2) (line 221"),
                "bracket_cut": ("Not read", "a group code has no value", "")}
        for name, (word, sentence, then) in rows.items():
            self.drop_example(name)
            self.assertEqual(self.text(".verdict .word"), word, name)
            self.assertIn(sentence, self.text(".verdict .count"), name)
            self.assertIn(then, self.text(".verdict .then"), name)
            self.assertGreaterEqual(self.value("parseFloat(getComputedStyle(document.querySelector('.verdict .word')).fontSize)"), 24)
            for width, places in ((1440, (".verdict", ".solids canvas", ".solids [data-form=step]")), (390, (".verdict .word", ".solids canvas"))):
                self.browser.size(width, mobile=width < 800)
                self.browser.settle()
                self.value("scrollTo(0, 0)")
                for place in places if word in ("Unique", "Ambiguous") else places[:1]:
                    self.assertTrue(self.is_on_screen(f"document.querySelector('{place}')"), (name, width, place))
            self.picture(name)

    def test_a_search_that_is_cut_is_not_decided(self) -> None:
        """It says which limit, and what is known; what is known can be saved, as triangles that close, as views, and as STEP."""
        self.value("document.querySelector('[name=solids]').value = '100'")
        self.drop(self.made(2))
        self.browser.until(IS_OVER, PATIENCE)
        self.assertEqual(self.text(".verdict .word"), "Not decided")
        self.assertIn("The search stopped at “Most solids” 100. At least 100 solids match.", self.text(".verdict .count"))
        self.press(button("STL", ".solids figure:nth-child(2)"))
        triangles = triangles_of(self.file_saved("voids_2_2.stl").decode())
        # An edge at which parts touch along it alone is there twice, each way.
        edges = edges_of(triangles)
        self.assertTrue(all(count == edges[end, start] for (start, end), count in edges.items()))
        volume = int(re.sub(r"\D", "", self.text(".solids figure:nth-child(2) .volume")))
        self.assertEqual(volume_of(triangles), 6 * volume)
        self.press(button("DXF", ".solids figure:nth-child(2)"))
        views = strokes_in(lines_within(self.file_saved("voids_2_2.dxf")), 0)
        self.assertEqual({view: len(lines) for view, lines in views.items()}, {view: len(lines) for view, lines in views_of_voids().items()})

    @needs_module("FreeCAD", "freecad-python3", "/usr/lib/freecad-python3/lib")
    def test_a_solid_of_a_cut_search_is_saved_as_step(self) -> None:
        self.value("document.querySelector('[name=solids]').value = '100'")
        self.drop(self.made(2))
        self.browser.until(IS_OVER, PATIENCE)
        self.press(button("STEP"))
        self.assertIn(b"ISO-10303-21", self.file_saved("voids_2_1.step")[:40])

    # ---- any solid

    def test_any_solid_is_one_step_away(self) -> None:
        """Of 1,225 by its number, which becomes the one that is meant; by Before and Next and by arrow keys, which stay in sight."""
        self.drop(self.made(2))
        self.browser.until("/1,225 solids match/.test(document.querySelector('.told').innerText)", PATIENCE)
        self.type_into(".pager input", "1000")
        self.assertIn(1000, self.numbers())
        self.assertEqual(self.value("viewer.state.meant"), 999)
        self.assertEqual(self.value("document.querySelectorAll('.is-meant b').length"), 1)
        self.assertEqual(self.text(".is-meant b"), "Solid 1000")
        self.assertEqual(self.value("document.querySelector('#settle input').value"), "1000")
        self.value("scrollTo(0, document.body.scrollHeight)")
        self.browser.settle()
        self.assertTrue(self.is_on_screen("document.querySelector('.pager .before')"))
        self.press(button("Before", ".pager"))
        self.assertEqual(self.numbers()[0], 897)
        self.value("document.activeElement.blur()")
        self.browser.key("ArrowRight")
        self.assertEqual(self.numbers()[0], 961)
        self.press("document.querySelector('.solids figure:nth-child(3) button.meant')")
        self.assertEqual(self.value("viewer.state.meant"), 962)
        self.type_into(".pager input", "1226")
        self.assertEqual(self.value("[viewer.state.meant, document.querySelector('.pager input').getAttribute('aria-invalid')]"), [None, "true"])

    def test_one_large(self) -> None:
        """A click opens it, with its three views, turned, zoomed and fitted, cut by sections; Escape closes it."""
        self.drop_example("quartered_cube")
        self.press(f"{FIRST}.querySelector('canvas')")
        self.assertTrue(self.value("document.querySelector('#large').open"))
        self.assertEqual(self.text("#large h2"), "Solid 1")
        self.assertEqual(self.value("document.querySelectorAll('#large .views-of svg').length"), 3)
        whole = self.value("viewer.large.cells.filter(Boolean).length")
        self.press("document.querySelector('#large [data-zoom=\"1.25\"]')")
        self.assertAlmostEqual(self.value("viewer.large.zoom"), 1.25)
        self.press("document.querySelector('#large [data-zoom=\"0\"]')")
        self.assertEqual(self.value("viewer.large.zoom"), 1)
        self.value("(() => { const it = document.querySelector('#large select'); it.value = '0'; it.dispatchEvent(new Event('change')); })()")
        self.browser.settle()
        self.assertLess(self.value("viewer.large.cells.filter(Boolean).length"), whole)
        self.assertIn("Section across x between 1 and 2", self.text("#large .cut-of"))
        self.assertEqual(self.value("document.querySelectorAll('#large .cut-of .hatched').length"), 2)
        self.press(button("Next", "#large"))
        self.assertEqual(self.text("#large h2"), "Solid 2")
        self.picture("large")
        self.browser.key("Escape")
        self.browser.until("!document.querySelector('#large').open", PATIENCE)
        self.value(f"{FIRST}.querySelector('canvas').focus()")
        self.browser.key("Enter")
        self.browser.until("document.querySelector('#large').open", PATIENCE)

    def test_a_block_is_fixed_by_its_own_control(self) -> None:
        """It says what it filters, and has one step back; without it a click fixes nothing."""
        self.drop_example("eight_voids")
        self.value("document.querySelector('.fixing details').open = true")
        self.press("document.querySelector('[data-brush=\"1\"]')")
        self.press(f"{FIRST}.querySelector('canvas')")
        self.assertFalse(self.value("document.querySelector('#large').open"))
        self.assertRegex(self.text(".fixing .count"), r"^\d+ of 35 solids have block \d+ full$")
        self.assertLess(self.value("viewer.state.fitting.length"), 35)
        self.press(button("One step back"))
        self.assertEqual(self.value("viewer.state.fitting.length"), 35)
        self.assertEqual(self.text(".fixing .count"), "")

    def test_a_lone_solid_is_not_compared(self) -> None:
        self.drop_example("clevis")
        self.assertFalse(self.value(f"{FIRST}.querySelector('.compare').checkVisibility()"))
        self.assertFalse(self.value("document.querySelector('#compared').checkVisibility()"))

    # ---- what would settle it

    def test_views_are_drawn_as_they_are_written(self) -> None:
        """What the page draws of a view has the lines that the program's own definitions give."""
        self.drop_example("eight_voids")
        answer = answer_of((EXAMPLES / "eight_voids.txt").read_text())
        cells = grid_round(answer.solids)
        for number, view in itertools.product((0, 34), ("FRONT", "TOP", "SIDE", "LEFT", "REAR", "BOTTOM")):
            drawn = self.value(f"viewer.linesOf({number}, '{view}')")
            shown = shown_of(cells.all_in(cells.cells(answer.solids[number])), cells.cuts, view)
            here = {(it["upright"], it["at"], it["style"] == "dashed", it["low"], it["high"]) for it in drawn}
            self.assertEqual(here, {(upright, at, style == DASHED, low, high) for upright, at, style, low, high in shown}, (number, view))

    def test_what_would_settle_it_is_drawn(self) -> None:
        """Beside the views, with its lines marked: saved, read and copied; views come before sections, and all is told in sentences."""
        self.drop_example("quartered_cube")
        self.browser.until("!document.getElementById('settle').hidden", PATIENCE)
        names = self.value("[...document.querySelectorAll('#settle li')].map((it) => it.dataset.name)")
        self.assertEqual(set(names[:3]), {"LEFT", "REAR", "BOTTOM"})
        self.assertTrue(all(name.startswith("section") for name in names[3:]))
        self.assertIn("parts them into 2 groups, the largest of 2", self.text("#settle"))
        self.press(f"{FIRST}.querySelector('button.meant')")
        left = "document.querySelector('#settle li[data-name=LEFT]')"
        self.assertIn("it leaves solid 1 alone", self.value(f"{left}.innerText"))
        self.assertIn("A view from the left (LEFT) would settle it", self.text(".verdict .then"))
        self.press(f"{left}.querySelector('button')")
        self.assertEqual(self.value("document.querySelectorAll('#pictured .suggested').length"), self.value("viewer.linesOf(0, 'LEFT').length"))
        self.assertTrue(self.value("document.querySelector('.drawing svg').checkVisibility()"))
        self.picture("settle")
        self.press(button("Save the drawing with it", "#pictured"))
        saved = self.file_saved("quartered_cube_with_LEFT.dxf")
        self.assertIn("LEFT", strokes_in(lines_within(saved), 0))
        self.press(button("Read the drawing with it", "#pictured"))
        self.browser.until(f"({IS_OVER}) && viewer.model.count === 1", PATIENCE)
        self.assertEqual(self.text(".verdict .word"), "Unique")
        self.press(button("Back to the drawing as it was"))
        self.browser.until(f"({IS_OVER}) && viewer.model.count === 3", PATIENCE)
        self.value("viewer.change({meant: 0})")
        section = "document.querySelector('#settle li[data-name^=section]')"
        self.press(f"{section}.querySelector('button')")
        self.assertEqual(self.value("document.querySelectorAll('#pictured .acts button').length"), 3)

    # ---- right words

    def test_files_that_are_no_drawing_are_named(self) -> None:
        png = b"\x89PNG\r\n\x1a\n" + bytes(200)
        rows = {"part.dwg": (b"AC1032" + bytes(500), "DWG"), "picture.dxf": (png, "PNG"), "notes.dxf": (b"a note\nof two lines\n" * 50, "no DXF file"),
                "empty.dxf": (b"", "empty")}
        for name, (data, word) in rows.items():
            self.drop_text(name, data)
            told = self.text(".told") + self.text(".failed")
            self.assertIn(word, told, name)
            self.assertIn(name, told)
            self.assertNotIn("/", told.replace("https://", ""), name)

    def test_a_linetype_without_a_style_is_named(self) -> None:
        """Where a view has no other lines, too."""
        self.drop_text("zigzag.dxf", self.dxf_of(
            rectangle("0", 0, 0, 3, "ZIGZAG"), rectangle("0", 0, 9, 3), rectangle("0", 9, 0, 3)))
        told = self.text(".told")
        self.assertIn("ZIGZAG", told)
        self.assertNotIn("fewer than three", told)
        self.assertIn("“Hidden lines”", told)

    def test_controls_are_named(self) -> None:
        """No option stands in a text, but the name of the control that has it; and what is drawn may be called as one."""
        coloured = [rectangle("0", x, y, 3).replace("\n6\n", f"\n62\n{colour}\n6\n") for colour, (x, y) in enumerate(((0, 0), (0, 9), (9, 0)), 1)]
        self.drop_text("colours.dxf", self.dxf_of(*coloured))
        told = self.text(".told")
        self.assertIn("“Hidden lines” color=NUMBER, or “no line is hidden”", told)
        self.assertNotIn("--", told)
        form = self.text(".options") + str(self.value("document.querySelector('.options').textContent"))
        for option, name in controls.CONTROLS["page"].items():
            self.assertIn(name, form, option)
        for name in ("a", "--scale"):
            self.drop_text(name, self.dxf_of(rectangle("--scale", 0, 0, 3, "ZIGZAG"), rectangle("0", 0, 9, 3), rectangle("0", 9, 0, 3)))
            self.assertIn("in FRONT a LINE 100 on layer --scale has the linetype ZIGZAG, which tells no style: say “Visible lines”, “Hidden lines” "
                          "or “Leave out” linetype=ZIGZAG.", self.text(".told"))

    def test_long_numbers_do_not_widen_the_page(self) -> None:
        self.drop_text("long.dxf", self.dxf_of(LINE.format("FRONT", "CONTINUOUS", "1" * 100_000, 0, 1, 0), rectangle("TOP", 0, 9, 3)))
        self.picture("long")

    # ---- pages that are left

    def test_what_waits_or_is_read_is_stopped(self) -> None:
        with Served("--at-once", 1, "--program", slowed(self.folder)) as served:
            self.browser.close_tab()
            first = self.browser.visit(served.address)
            self.value("document.querySelector('[name=solids]').value = '65536'")
            self.browser.drop(self.made(4))
            self.browser.until("viewer.model.count > 0", PATIENCE)
            self.browser.visit(served.address)
            self.browser.drop(EXAMPLES / "clevis.dxf")
            self.browser.until("/Waiting/.test(document.querySelector('.progress').innerText)", PATIENCE)
            self.press(button("Stop"))
            self.browser.until(f"({IS_OVER}) && /was stopped/.test(document.querySelector('.told').innerText)", PATIENCE)
            self.browser.close_tab()
            self.browser.turn_to(first)
            self.press(button("Stop"))
            self.browser.until(IS_OVER, PATIENCE)
            (self.folder / "many.dxf").write_bytes(many_lines())
            self.browser.drop(self.folder / "many.dxf")
            self.browser.until("/Reading/.test(document.querySelector('.progress').innerText)", PATIENCE)
            self.press(button("Stop"))
            self.browser.until(f"({IS_OVER}) && /was stopped/.test(document.querySelector('.told').innerText)", PATIENCE)
            self.browser.close_tab()
            self.browser.events = []

    def test_a_drawing_comes_before_what_is_looked_for_beyond_a_search(self) -> None:
        """It is shown while another tab's drawing is still looked into, and there it is told that this makes way."""
        with Served("--at-once", 1, "--program", hesitant(self.folder)) as served:
            self.browser.close_tab()
            first = self.browser.visit(served.address)
            self.browser.drop(EXAMPLES / "quartered_cube_half_hidden.dxf")
            self.browser.until("/Changes are tried/.test(document.querySelector('#why .state').innerText)", PATIENCE)
            self.browser.visit(served.address)
            self.browser.drop(EXAMPLES / "clevis.dxf")
            self.browser.until("!!document.querySelector('.verdict.unique')", 40)
            self.browser.close_tab()
            self.browser.turn_to(first)
            self.browser.until(IS_OVER, PATIENCE)
            self.assertIn("since another drawing was dropped in: read this one again for it", self.text("#why .state"))
            self.browser.close_tab()
            self.browser.events = []

    def test_eight_tabs(self) -> None:
        """Each shows its drawing, and the last one saves, though a browser has six connections to a server."""
        tabs = []
        for _ in range(8):
            tabs.append(self.browser.visit(self.served.address))
            self.drop_example("clevis")
            self.assertEqual(self.text(".verdict .word"), "Unique")
        self.press(button("STL"))
        self.file_saved("clevis_1.stl")
        for tab in tabs[:-1]:
            self.browser.turn_to(tab)
            self.browser.close_tab()
        self.browser.turn_to(tabs[-1])

    def test_a_page_that_is_loaded_anew_has_its_drawing(self) -> None:
        """And that one is there when it was stopped being looked at for a while, and gone when the page is closed."""
        self.drop_example("quartered_cube")
        self.assertTrue(self.value("location.hash").endswith("#quartered_cube.dxf"))
        self.browser.call("Page.reload")
        self.browser.until(f"document.readyState === 'complete' && !!window.viewer && ({IS_OVER}) && viewer.model.count === 3", PATIENCE)
        self.assertEqual(self.text("h1"), "quartered_cube.dxf")
        time.sleep(6)
        self.press(button("STL"))
        self.file_saved("quartered_cube_1.stl")
        self.value("document.querySelector('.options').open = true")
        self.press(button("Read it so"))
        self.browser.until(f"({IS_OVER}) && viewer.model.count === 3", PATIENCE)
        self.browser.url = self.value("location.href")
        self.browser.visit("about:blank")
        self.browser.close_tab()

    def test_a_page_that_is_closed_gives_its_place_back(self) -> None:
        self.drop_example("unit_cube")
        self.browser.close_tab()
        self.served.until_idle(20)

    def test_what_draws_is_ready_before_a_drawing_comes(self) -> None:
        """The page has drawn, and shows nothing of it; the first solid needs no further shader, and is drawn in the frame that first has
        its figure."""
        self.browser.call("Page.addScriptToEvaluateOnNewDocument", source=WATCHED)
        self.browser.call("Page.reload")
        self.browser.until("document.readyState === 'complete' && drawn.pictures > 0", PATIENCE)
        self.assertEqual(self.value("[viewer.model.count, viewer.tiles.length, viewer.state.how, [...document.body.classList].sort()]"),
                         [0, 0, "", ["alone", "served"]])
        shaders = self.value("drawn.shaders")
        self.drop_example("clevis")
        self.assertEqual(self.value("[drawn.shaders, drawn.isAtOnce]"), [shaders, True])

    def test_the_first_page(self) -> None:
        """It says what a drawing needs, and has two examples to click."""
        self.assertIn("three views", self.text(".first"))
        self.picture("first")
        for name, word in (("clevis", "Unique"), ("quartered_cube", "Ambiguous")):
            self.browser.close_tab()
            self.browser.visit(self.served.address)
            self.press(f"document.querySelector('[data-example={name}]')")
            self.browser.until(f"!!document.querySelector('.verdict') && ({IS_OVER})", PATIENCE)
            self.assertEqual(self.text(".verdict .word"), word)

    # ---- for everyone

    def test_the_page_for_everyone(self) -> None:
        """A skip link; buttons with names; what means different things in colours that differ by 3 and more; no motion where none is asked."""
        self.drop_example("quartered_cube")
        self.value("document.activeElement.blur()")
        self.value("scrollTo(0, 0)")
        self.browser.key("Tab")
        self.assertEqual(self.value("document.activeElement.innerText"), "To the solids")
        self.browser.key("Enter")
        self.assertEqual(self.value("document.activeElement.id"), "solids")
        self.assertEqual(self.value(f"{FIRST}.querySelector('[data-form=step]').getAttribute('aria-label')"), "Save solid 1 as STEP")
        nameless = self.value(
            "[...document.querySelectorAll('button, input:not([type=file]), select, canvas, svg[role=img]')].filter((it) =>"
            " !(it.getAttribute('aria-label') || it.textContent || it.labels?.length || it.closest('[hidden], dialog:not([open])'))).map((it) => it.outerHTML)")
        self.assertEqual(nameless, [])
        names = self.value("[...document.querySelectorAll('.solids button')].map((it) => it.getAttribute('aria-label'))")
        self.assertEqual(len(set(names)), len(names))
        for dark in (False, True):
            self.browser.dark(dark)
            bright = {name: self.value(f"({BRIGHT})('--{name}')") for name in ("plain", "most", "few", "card", "muted", "field", "accent", "ink", "page")}
            pairs = [("plain", "most", 3), ("most", "few", 3), ("plain", "few", 3), ("muted", "card", 4.5), ("muted", "page", 4.5),
                     ("field", "card", 3), ("accent", "card", 4.5), ("ink", "card", 7)]
            for one, other, least in pairs:
                low, high = sorted((bright[one], bright[other]))
                self.assertGreaterEqual((high + 0.05) / (low + 0.05), least, (one, other, dark))
        self.browser.dark(False)
        self.browser.call("Emulation.setEmulatedMedia", features=[{"name": "prefers-reduced-motion", "value": "reduce"}])
        self.value("document.querySelector('.progress').hidden = false")
        self.assertEqual(self.value("getComputedStyle(document.querySelector('.bar'), '::before').animationName"), "none")
        self.browser.dark(False)


def views_of_voids() -> dict[str, list[Stroke]]:
    """The strokes of the drawing of two cubes with voids, one for each run."""
    return strokes_in(lines_within(file_of(voids(2)).encode()), 0)
