"""Where a drawing may be taken in several ways, what may be said of it is offered by name: `draft serve` tells it, its page has a button for each,
and each one is followed."""
import pathlib
import tempfile
import unittest
from typing import Any

from drafting.core.messages import Refused

from .opened import IS_OVER, PATIENCE, Opened, button
from .serving import Served
from .support import needs_command, needs_module, needs_program
from .test_serve import needs_packages

try:
    from . import sheets, test_advice, test_causes
except ImportError:
    sheets = test_advice = test_causes = None  # type: ignore[assignment]
try:
    from .documents import Document, box, corner
    missing = ""
except Refused:
    missing = "apt-get install freecad-python3"


def document(folder: pathlib.Path) -> pathlib.Path:
    """A document with two pages, of which the second one shows two parts."""
    one = Document()
    features = [one.feature(shape, label) for shape, label in ((corner(), "Corner; cut"), (box(10, 20, 30), "Block"))]
    one.group(one.page("First"), features[:1])
    second = one.page("Second; both")
    for feature in features:
        one.group(second, [feature])
    return one.saved(str(folder), "several")


def two_views(space: Any) -> None:
    """FRONT and TOP of a box, which may be read in third and in first angle."""
    for at in ((0.0, 0.0, 6.0, 5.0), (0.0, 10.0, 6.0, 14.0)):
        test_causes.box(space, at)


@needs_packages
@needs_program()
class Told(unittest.TestCase):
    def setUp(self) -> None:
        room = tempfile.TemporaryDirectory()
        self.addCleanup(room.cleanup)
        self.folder = pathlib.Path(room.name)
        self.served = Served()
        self.addCleanup(self.served.close)

    def end(self, file: pathlib.Path, *options: list[str]) -> dict[str, Any]:
        events = self.served.follow(file.read_bytes(), list(options), "end", name=file.name)
        return next(event for event in events if event["kind"] == "end")

    @unittest.skipIf(missing, missing)
    def test_pages_and_parts_of_a_document(self) -> None:
        file = document(self.folder)
        pages = self.end(file)
        self.assertEqual((pages["how"], pages["option"], pages["ways"]), ("refused", "sheet-page", ["First", "Second; both"]))
        self.assertIn("name one of First, Second; both by “Page”", pages["text"])
        self.assertEqual(self.end(file, ["sheet-page", "Third"])["ways"], pages["ways"])
        self.assertEqual(self.end(file, ["sheet-page", "First"])["how"], "whole")
        second = ["sheet-page", "Second; both"]
        parts = self.end(file, second)
        self.assertEqual((parts["how"], parts["option"], parts["ways"]), ("refused", "part", ["Corner; cut", "Block"]))
        self.assertEqual(self.end(file, second, ["part", "Ring"])["ways"], parts["ways"])
        self.assertEqual(self.end(file, second, ["part", "Block"])["how"], "whole")

    @needs_module("ezdxf", "python3-ezdxf")
    def test_groups_and_angles_of_a_sheet(self) -> None:
        for draw, option, ways in (
            (test_advice.two_parts, "leave-out", ["group=4-6", "group=1-3"]),
            (test_causes.with_views(test_causes.boxes(2)), "leave-out", ["group=4-5"]),
            (two_views, "angle", ["third", "first"]),
        ):
            with self.subTest(ways):
                doc = sheets.new()
                draw(doc.modelspace())
                file = self.folder / "sheet.dxf"
                doc.saveas(file)
                told = self.end(file)
                self.assertEqual((told["how"], told["option"], told["ways"]), ("refused", option, ways))
                for way in ways:
                    self.assertIn(self.end(file, [option, way])["how"], ("whole", "cut"))


@needs_packages
@needs_program()
@needs_command("chromium", "chromium")
@unittest.skipIf(missing, missing)
class Offered(Opened):
    def said(self) -> list[str]:
        return [str(self.value(f"document.querySelector('[name={name}]').value")) for name in ("sheet-page", "part")]

    def until_told(self, words: str) -> None:
        self.browser.until(f"({IS_OVER}) && document.querySelector('.told').innerText.includes('{words}')", PATIENCE)

    def test_pages_and_parts_are_offered_and_read(self) -> None:
        self.drop(document(self.folder))
        self.until_told("2 pages in the document")
        self.picture("several_pages")
        self.press(button("Second; both", ".ways"))
        self.until_told("which part is meant has to be said")
        self.assertEqual(self.said(), ["Second; both", ""])
        self.press(button("Block", ".ways"))
        self.until_told("One solid")
        self.assertEqual(self.said(), ["Second; both", "Block"])
        self.assertEqual(self.value("document.querySelector('.ways')"), None)
        self.drop_example("clevis")
        self.assertEqual(self.said(), ["", ""])
        self.assertIn("One solid matches", self.text(".told"))
