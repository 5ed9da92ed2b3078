"""A page of `draft serve` that is open in Chromium, for tests that use it as a person does."""
import os
import pathlib
import tempfile
import time
import unittest

from .browser import Browser
from .made import file_of, voids
from .serving import Served
from .support import EXAMPLES

# How long anything may take on a machine that is busy, in seconds.
PATIENCE = 240
PICTURES = os.environ.get("DRAFT_PICTURES")
IS_OVER = (
    "document.querySelector('.progress').hidden && [...document.querySelectorAll('.told, .failed')].some((it) => it.textContent.trim())"
)
HAS_SOLID = "!!document.querySelector('.solids figure:not([hidden])') && viewer.tiles[0].scene !== null"
# A solid is drawn, or it is told that there is none.
IS_SHOWN = f"({HAS_SOLID}) || viewer.model.count === 0 && !!document.querySelector('.told *')"
# What a page may ask of its server.
PATHS = ("drawing", "events", "leave", "stop", "here", "example", "solid", "settle", "page")


def button(text: str, within: str = "body") -> str:
    return f"[...document.querySelectorAll('{within} button')].find((it) => it.innerText === '{text}' && !it.closest('[hidden]'))"


class Opened(unittest.TestCase):
    """A server, a browser, and in each test the server's page in a tab of its own."""

    room: "tempfile.TemporaryDirectory[str]"
    folder: pathlib.Path
    saved: pathlib.Path
    served: Served
    browser: Browser

    @classmethod
    def setUpClass(cls) -> None:
        cls.room = tempfile.TemporaryDirectory(ignore_cleanup_errors=True)
        cls.folder = pathlib.Path(cls.room.name)
        cls.served = Served()
        cls.browser = Browser(str(cls.folder / "browser"))
        cls.saved = cls.folder / "saved"
        cls.saved.mkdir()
        cls.browser.call("Browser.setDownloadBehavior", behavior="allow", downloadPath=str(cls.saved))

    @classmethod
    def tearDownClass(cls) -> None:
        cls.browser.close()
        cls.served.close()
        cls.room.cleanup()

    def setUp(self) -> None:
        self.browser.close_tab()
        self.browser.visit(self.served.address)
        self.value = self.browser.value

    def tearDown(self) -> None:
        asked = [f"{self.served.origin}/{path}" for path in PATHS] + ["blob:"]
        odd = [said for said in self.browser.said() if not any(it in said for it in asked)]
        self.assertEqual(odd, [])

    # ---- what a person does

    def drop(self, file: pathlib.Path) -> float:
        """Drops a drawing in, and answers after how many seconds a solid, or what is wrong, was seen."""
        began = time.monotonic()
        self.browser.drop(file)
        self.browser.until(IS_SHOWN, PATIENCE)
        return time.monotonic() - began

    def drop_example(self, name: str) -> float:
        seconds = self.drop(EXAMPLES / f"{name}.dxf")
        self.browser.until(IS_OVER, PATIENCE)
        return seconds

    def drop_text(self, name: str, data: str | bytes) -> None:
        """Drops a file of these contents in, and waits until it is over."""
        file = self.folder / name
        file.write_bytes(data.encode() if isinstance(data, str) else data)
        self.browser.drop(file)
        self.browser.until(f"document.querySelector('h1').innerText === {name!r}", PATIENCE)
        self.browser.until(IS_OVER, PATIENCE)

    def made(self, count: int) -> pathlib.Path:
        file = self.folder / f"voids_{count}.dxf"
        file.write_text(file_of(voids(count)))
        return file

    def press(self, element: str) -> None:
        self.browser.mouse(element)

    def type_into(self, place: str, text: str) -> None:
        """Types a text in place of what stands there."""
        self.value(f"(() => {{ const it = document.querySelector('{place}'); it.focus(); it.select(); }})()")
        self.browser.call("Input.insertText", text=text)
        self.browser.settle()

    def text(self, place: str) -> str:
        return str(self.value(f"document.querySelector('{place}').innerText"))

    def numbers(self) -> list[int]:
        """The numbers of the solids whose tiles are shown."""
        return list(self.value("[...document.querySelectorAll('.solids figure:not([hidden]) b')].map((it) => Number(it.innerText.slice(6)))"))

    def is_on_screen(self, element: str) -> bool:
        """Whether an element is wholly within the window, without scrolling."""
        return bool(self.value(
            f"(({{left, top, right, bottom}}) => left >= 0 && top >= 0 && right <= innerWidth && bottom <= innerHeight)({element}.getBoundingClientRect())"
        ))

    def picture(self, name: str) -> None:
        """What is seen, wide, less wide, dark and on a phone, in which nothing may be wider than the screen."""
        for dress, dark, width in (("wide", False, 1440), ("middle", False, 900), ("dark", True, 1440), ("phone", False, 390)):
            self.browser.dark(dark)
            self.browser.size(width, mobile=width < 800)
            self.browser.settle()
            self.value("scrollTo(0, 0)")
            self.assertLessEqual(self.value("document.documentElement.scrollWidth"), width, (name, dress))
            if PICTURES:
                self.browser.picture(pathlib.Path(PICTURES) / f"table_{name}_{dress}.png")
        self.browser.dark(False)
        self.browser.size()

    def file_saved(self, name: str) -> bytes:
        until = time.monotonic() + PATIENCE
        while not (self.saved / name).exists():
            self.assertLess(time.monotonic(), until, f"{name} isn't saved; {self.text('.failed')}")
            time.sleep(0.05)
        return (self.saved / name).read_bytes()
