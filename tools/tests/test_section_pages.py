"""Sections on pages: their pictures, their planes in the views, solids that are cut there, and sections that settle a drawing; in Chromium what is
seen of them. With --pictures=FOLDER it is saved there."""
import json
import unittest
from collections.abc import Iterable
from typing import Any

from drafting.dxf.drawing import VIEWS, Stroke, is_of_section, lines_within, places_of, sections_drawn, views_of, written
from drafting.projection.draw import FRAMES, Cell
from drafting.render.sections import drawn_sections, figures, place_of, planes_in, runs_in, within
from drafting.render.svg import View

from .cut_solids import layers_of, lines_of, view_of
from .opened import IS_OVER, PATIENCE, Opened, button
from .support import draft, needs_command, needs_module, needs_program
from .test_cut_solids import FALLING
from .test_section_commands import InAFolder, aside
from .test_serve import needs_packages
from .test_settle import SHALLOW, rectangles


def box(x0: int, y0: int, z0: int, x1: int, y1: int, z1: int) -> set[Cell]:
    return {(x, y, z) for x in range(x0, x1) for y in range(y0, y1) for z in range(z0, z1)}


# A block with a pocket, a step and a slot from below: it is like itself in no mirror and no turn.
PART = box(0, 0, 0, 12, 10, 8) - box(2, 2, 3, 6, 6, 8) - box(8, 5, 5, 12, 10, 8) - box(7, 0, 0, 9, 3, 3)
PLANES = (("FRONT", 4), ("SIDE", 3))


def part_drawing(*planes: tuple[str, int], views: Iterable[str] = VIEWS) -> str:
    """The part's views, and the layers of its sections in a row to their right."""
    layers: dict[str, list[Stroke]] = {}
    for view in views:
        place = places_of(12, 10, 8, 4)[view]
        layers[view] = [(dashed, (a + place[0], b + place[1]), (c + place[0], d + place[1])) for dashed, (a, b), (c, d) in lines_of(view_of(PART, view))]
    for number, plane in enumerate(planes):
        for at, (name, strokes) in enumerate(layers_of(PART, *plane).items()):
            layers[name] = aside(strokes, 60 + 40 * number + 20 * at)
    return written(layers, 0)


def lines_in(text: str) -> list[str]:
    return lines_within(text.encode())


def area(rectangles_within: list[Any]) -> float:
    return float(sum((right - left) * (high - low) for (left, low), (right, high) in rectangles_within))


class Pictures(unittest.TestCase):
    def test_what_is_within_an_outline(self) -> None:
        """Of each area it is as much as the cells that the plane cuts; where the outline is open it is nothing."""
        lines = lines_in(part_drawing(*PLANES))
        cuts = drawn_sections(lines, 0)
        for cut, (view, plane) in zip(cuts, PLANES, strict=True):
            axis, back = FRAMES[view].sight, FRAMES[view].sight_back
            outline = runs_in(View(cut.area, None))
            self.assertEqual(area(within(outline)), sum(cell[axis] == plane - back for cell in PART), view)
            open_one = {key: runs for key, runs in outline.items() if not key[0] or key[1]}
            self.assertEqual(within(open_one), [])

    def test_an_area_lies_where_its_lines_are(self) -> None:
        """An area that begins elsewhere than its lines: behind y = 2 of a corner before a wall, whose left end is cut off less far."""
        cells = box(0, 4, 0, 9, 5, 6) | box(3, 0, 1, 5, 5, 4)
        its = sections_drawn(lines_in(written(layers_of(cells, "FRONT", 2), 0)))
        lines, inner = (runs_in(View(its[f"{kind}_FRONT_2"], None)) for kind in ("SECTION", "AREA"))
        self.assertEqual(place_of(inner, lines), (3, 1))
        self.assertIsNone(place_of({(True, 0): [(0, 7)]}, lines))

    def test_planes_stand_in_the_views_that_look_along_them(self) -> None:
        """FRONT at y = 4 looks on to greater y, SIDE at x = 3 back to lesser x; in views from behind both stand turned round."""
        lines = lines_in(part_drawing(*PLANES, views=FRAMES))
        planes = planes_in(drawn_sections(lines, 0), views_of(lines), 0, str)
        told = {view: [(it.upright, it.at, it.looks_ahead, it.letter) for it in its] for view, its in planes.items()}
        side = True, 3, False, "B"
        self.assertEqual(told, {
            "FRONT": [side], "TOP": [(False, 4, True, "A"), side], "SIDE": [(True, 4, True, "A")], "LEFT": [(True, 6, False, "A")],
            "REAR": [(True, 9, True, "B")], "BOTTOM": [(False, 6, False, "A"), side],
        })

    def test_a_letter_is_that_of_its_label(self) -> None:
        text = part_drawing(*PLANES).replace("0\nENDSEC\n0\nEOF", "0\nTEXT\n8\nAREA_SIDE_3\n10\n0\n20\n0\n40\n1\n1\nSECTION C-C\n0\nENDSEC\n0\nEOF")
        self.assertEqual([(cut.view, cut.letter) for cut in drawn_sections(lines_in(text), 0)], [("FRONT", "A"), ("SIDE", "C")])
        comments = "999\ndraft section D AREA_FRONT_4\n999\ndraft section A SECTION_SIDE_30E-1\n"
        self.assertEqual([cut.letter for cut in drawn_sections(lines_in(comments + part_drawing(*PLANES)), 0)], ["D", "A"])

    def test_an_area_whose_place_is_not_told_has_a_picture_of_its_own(self) -> None:
        lines = lines_in(written({"SECTION_FRONT_1": rectangles("S 0 0 9 9"), "AREA_FRONT_1": rectangles("S 0 0 2 2")}, 0))
        told = figures(drawn_sections(lines, 0), str, lambda *_: "")
        self.assertEqual(told.count("<svg"), 2)
        self.assertIn("Section y = 1 from FRONT", told)


@needs_program()
class Told(InAFolder):
    """What `draft follow` and `draft settle` tell."""

    def events(self, *words: object) -> dict[str, Any]:
        return {event["kind"]: event for event in map(json.loads, draft("follow", self.file, *words).out.splitlines())}

    def test_planes_are_told_where_sections_are_read(self) -> None:
        self.file.write_text(part_drawing(*PLANES))
        told = self.events("--sections")
        self.assertEqual(told["planes"]["planes"], [{"told": "A-A, y = 4 from FRONT", "axis": 1, "at": 4, "back": False},
                                                    {"told": "B-B, x = 3 from SIDE", "axis": 0, "at": 3, "back": True}])
        self.assertEqual(told["drawing"]["html"].count('class="hatched"'), 2)
        told = self.events()
        self.assertNotIn("planes", told)
        self.assertNotIn("hatched", told["drawing"]["html"])

    @needs_module("ezdxf", "python3-ezdxf")
    def test_those_of_a_sheet_are_read_unasked(self) -> None:
        """Its letter is the sheet's, and what is told after its blocks is of its sections too; in a mirror planes are the part's."""
        from .section_sheets import form_of, made
        for words, told, plane in (("looks=FRONT", "A-A, y = 4 mm from FRONT", (1, 4, False)),
                                   ("angle=first left=1 looks=LEFT plane=4 where=FRONT", "A-A, x = 4 mm from LEFT", (0, 4, False))):
            made(form_of(words), self.file)
            planes = self.events()["planes"]["planes"]
            self.assertEqual([(it["told"], (it["axis"], it["at"], it["back"])) for it in planes], [(told, plane)])

    def test_a_section_that_has_a_fault(self) -> None:
        """It is told as one, with its line, as that of a view is."""
        self.quartered({"SECTION_FRONT_2": FALLING})
        end = self.events("--sections")["end"]
        self.assertEqual(end["how"], "fault")
        self.assertIn("plane doesn&#x27;t lie within the part", end["html"])

    def test_sections_are_told_as_views_are(self) -> None:
        """In one shape: in words, the lines, the drawing with these, how many solids it leaves, and whether its sections have to be read."""
        self.file.write_text(written({view: aside(rectangles(text), 20 * at) for at, (view, text) in enumerate(SHALLOW.items())}, 0))
        rows = {row["layer"]: row for row in self.events()["means"]["rows"]}
        self.assertEqual([row["at"] for layer, row in rows.items() if not is_of_section(layer)], [None] * 3)
        self.assertEqual(rows["AREA_FRONT_15E-1"]["name"], "section across y between 1 and 2 (area)")
        told = {layers: json.loads(draft("settle", self.file, "--meant", 1, "--json", *(f"--by={it}" for it in layers)).out)
                for layers in ((), ("REAR",), ("AREA_FRONT_1.5",))}
        self.assertEqual({it.keys() == {"words", "lines", "dxf", "left", "sections"} for it in told.values()}, {True})
        self.assertEqual([(it["left"], it["sections"]) for it in told.values()], [(1, True), (4, False), (4, True)])
        self.assertTrue(all(line.startswith("AREA_FRONT_15E-1 (") for line in told["AREA_FRONT_1.5",]["lines"]))
        self.assertIn("just those.", told["AREA_FRONT_1.5",]["words"][-1])
        ended = draft("settle", self.file, "--meant", 1, "--by=AREA_FRONT_2")
        self.assertEqual((ended.status, ended.out), (1, ""))
        self.assertEqual(draft("settle", self.file, "--meant", 1, "--by=ABOVE").status, 2)


# The volume that the surface of the first tile encloses, in units.
ENCLOSED = """(() => {
    const { attributes, index } = viewer.tiles[0].skin.geometry;
    const corner = (at) => [attributes.position.getX(at), attributes.position.getY(at), attributes.position.getZ(at)];
    let six = 0;
    for (let at = 0; at < index.count; at += 3) {
        const [a, b, c] = [0, 1, 2].map((more) => corner(index.array[at + more]));
        six += a[0] * (b[1] * c[2] - b[2] * c[1]) + a[1] * (b[2] * c[0] - b[0] * c[2]) + a[2] * (b[0] * c[1] - b[1] * c[0]);
    }
    return six / 6;
})()"""
# Along y where the lines of its hatch lie, all of them.
HATCHED = """(() => {
    const found = viewer.tiles[0].hatches.filter((it) => it.visible).flatMap(({ geometry }) => [...geometry.attributes.instanceStart.data.array]);
    return [...new Set(found.filter((_, at) => at % 3 === 1))];
})()"""

@needs_packages
@needs_program()
@needs_command("chromium", "chromium")
class Seen(Opened):
    def painted(self, element: str) -> int:
        """How many kinds of stretches there are along a level line through the middle of an element: of a hatch there are many."""
        left, top, width, height = self.value(f"(({{left, top, width, height}}) => [left, top, width, height])({element}.getBoundingClientRect())")
        clip = {"x": left, "y": top + height / 2, "width": width, "height": 1, "scale": 1}
        data = self.browser.call("Page.captureScreenshot", format="png", clip=clip)["data"]
        count = int(self.value(f"""new Promise((done) => {{
            const image = new Image();
            image.onload = () => {{
                const flat = Object.assign(document.createElement("canvas"), {{ width: image.width, height: 1 }}).getContext("2d");
                flat.drawImage(image, 0, 0);
                const light = [...flat.getImageData(0, 0, image.width, 1).data].filter((_, at) => at % 4 === 0).map((red) => red > 160);
                done(light.filter((it, at) => at && it !== light[at - 1]).length);
            }};
            image.src = "data:image/png;base64,{data}";
        }})"""))
        # This picture was asked for here, and not by the page.
        self.browser.events = [it for it in self.browser.events if not it.get("params", {}).get("request", {}).get("url", "").startswith("data:")]
        return count

    def shown(self) -> tuple[float, list[float]]:
        """The volume that the first tile shows, and where along y its hatch lies."""
        self.browser.middle("viewer.tiles[0].canvas")
        self.browser.until("viewer.tiles[0].scene !== null", PATIENCE)
        volume, hatched = self.value(f"[{ENCLOSED}, {HATCHED}]")
        return round(volume, 3), hatched

    def test_a_drawing_is_read_with_its_sections(self) -> None:
        """It is told that they weren't read, and offered; then each has its picture, and stands in the other views, and cuts the solid."""
        self.drop_text("part.dxf", part_drawing(*PLANES))
        self.assertIn("were not read: “with its sections” has sections read", self.text(".warnings"))
        self.assertEqual(self.value("document.querySelectorAll('.cuts figure, .drawing .plane').length"), 0)
        self.press(button("Read it with its sections"))
        self.browser.until(f"({IS_OVER}) && document.querySelectorAll('.cuts figure').length === 2", PATIENCE)
        self.assertTrue(self.value("document.querySelector('[name=sections]').checked"))
        captions = self.value("[...document.querySelectorAll('.cuts figcaption')].map((it) => it.innerText)")
        self.assertEqual(captions, ["Section A-A, y = 4 from FRONT", "Section B-B, x = 3 from SIDE"])
        self.assertEqual(self.value("getComputedStyle(document.querySelector('.cuts .hatched')).fill"), 'url("#hatch")')
        self.assertGreater(self.painted("document.querySelector('.cuts .hatched')"), 12)
        told = self.value("[...document.querySelectorAll('.drawing .plane')].map((it) => it.dataset.told)")
        self.assertEqual(sorted(told), ["The plane of section A-A, y = 4 from FRONT"] * 2 + ["The plane of section B-B, x = 3 from SIDE"] * 2)
        self.assertEqual(self.value("document.querySelectorAll('.drawing .arrow').length"), 8)
        self.check_cut()

    def check_cut(self) -> None:
        """The solid is whole, cut so that just what lies behind the plane is left, and whole again; large it is cut too."""
        front, side = button("Cut at A-A, y = 4 from FRONT"), button("Cut at B-B, x = 3 from SIDE")
        self.assertEqual(self.shown(), (len(PART), []))
        self.value(f"{front}.focus()")
        self.browser.key("Enter")
        self.assertEqual(self.value(f"{front}.getAttribute('aria-pressed')"), "true")
        self.assertEqual(self.shown(), (sum(cell[1] >= 4 for cell in PART), [4]))
        self.picture("cut")
        self.press("document.querySelector('.solids .large')")
        self.assertEqual(self.value("[viewer.large.plane.at, document.querySelectorAll('#large .cutting button').length]"), [4, 2])
        self.picture("cut_large")
        self.press("document.querySelector('#large .close')")
        self.press(side)
        self.assertEqual(self.shown()[0], sum(cell[0] < 3 for cell in PART))
        # From where it was seen what is cut was behind the rest.
        self.assertEqual(self.value("viewer.state.right"), 32)
        self.press(side)
        self.assertEqual(self.shown(), (len(PART), []))

    def test_a_section_settles_a_drawing(self) -> None:
        """It is drawn with its lines marked, saved, and read: one solid is left; the way back is to the drawing without it."""
        self.drop_example("quartered_cube")
        self.browser.until("!document.getElementById('settle').hidden", PATIENCE)
        self.assertNotIn("recon reads no", self.text("body"))
        self.value("viewer.change({meant: 0})")
        rows = self.value("[...document.querySelectorAll('#settle li')].map(({dataset}) => [dataset.name, dataset.leaves])")
        name = next(name for name, leaves in rows if name.startswith("section") and leaves == "1")
        row = f"[...document.querySelectorAll('#settle li')].find((it) => it.dataset.name === '{name}')"
        self.press(f"{row}.querySelector('button')")
        layer = self.value("viewer.state.means.find(({name}) => name === viewer.state.pictured).layer")
        lines = self.value(f"viewer.linesOf(0, '{layer}', viewer.state.means.find(({{layer}}) => layer === '{layer}').at).length")
        self.assertGreater(lines, 0)
        self.assertEqual(self.value("document.querySelectorAll('#pictured .suggested').length"), lines)
        self.assertIn(f"on the layer {layer}", self.text("#pictured"))
        self.picture("settling_section")
        self.press(button("Save the drawing with it", "#pictured"))
        self.assertTrue(sections_drawn(lines_within(self.file_saved(f"quartered_cube_with_{layer}.dxf"))))
        self.press(button("Read the drawing with it", "#pictured"))
        self.browser.until(f"({IS_OVER}) && viewer.model.count === 1", PATIENCE)
        self.assertEqual(self.text(".verdict .word"), "Unique")
        self.assertEqual(self.value("document.querySelectorAll('.cuts figure').length"), 1)
        self.press(button("Back to the drawing as it was"))
        self.browser.until(f"({IS_OVER}) && viewer.model.count === 3", PATIENCE)
        self.assertFalse(self.value("document.querySelector('[name=sections]').checked"))

    def test_in_a_file(self) -> None:
        drawing, page = self.folder / "part.dxf", self.folder / "part.html"
        drawing.write_text(part_drawing(*PLANES))
        ended = draft("page", drawing, "--sections", "-o", page)
        self.assertEqual(ended.status, 0, ended.said)
        self.browser.close_tab()
        self.browser.open(page)
        self.assertGreater(self.painted("document.querySelector('.cuts .hatched')"), 12)
        self.check_cut()


if __name__ == "__main__":
    unittest.main()
