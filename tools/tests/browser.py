"""A browser for page_check and the tests of pages: Chromium without a window. It opens pages, takes keys, mouse, touch and files, and tells
what a page does."""
import base64
import json
import os
import pathlib
import select
import shutil
import subprocess
import time
from collections.abc import Iterator
from typing import Any

from drafting.core.messages import Refused
from drafting.dxf.drawing import Place

# How long the browser may take over one answer, in seconds.
PATIENCE = 600

OPTIONS = [
    "--headless=new", "--remote-debugging-pipe", "--no-first-run", "--disable-background-networking", "--hide-scrollbars",
    "--use-angle=swiftshader", "--enable-unsafe-swiftshader", "--disable-dev-shm-usage",
]
# Codes of keys, as the protocol wants them.
KEYS = {"Enter": 13, "Escape": 27, "Tab": 9, "ArrowLeft": 37, "ArrowUp": 38, "ArrowRight": 39}


class Browser:
    """Chromium, spoken to by its remote debugging protocol over two pipes: messages in JSON, each ended by a zero byte."""

    def __init__(self, folder: str) -> None:
        program = shutil.which("chromium")
        if not program:
            raise Refused("no chromium: apt-get install --no-install-recommends chromium libjs-three")
        theirs_in, self.out = os.pipe()
        self.back, theirs_out = os.pipe()

        def placed() -> None:
            os.dup2(theirs_in, 3)
            os.dup2(theirs_out, 4)

        root = ["--no-sandbox"] if os.geteuid() == 0 else []
        self.process = subprocess.Popen(
            [program, *OPTIONS, *root, f"--user-data-dir={folder}", "about:blank"],
            pass_fds=(3, 4), preexec_fn=placed, stdin=subprocess.DEVNULL, stdout=subprocess.DEVNULL, stderr=subprocess.DEVNULL,
        )
        os.close(theirs_in)
        os.close(theirs_out)
        self.number = 0
        self.rest = b""
        self.events: list[dict[str, Any]] = []
        self.session = self.target = self.url = ""

    def close(self) -> None:
        os.close(self.out)
        os.close(self.back)
        self.process.terminate()
        self.process.wait(PATIENCE)

    def message(self) -> dict[str, Any]:
        while b"\0" not in self.rest:
            if not select.select([self.back], [], [], PATIENCE)[0]:
                raise Refused("chromium doesn't answer")
            piece = os.read(self.back, 1 << 20)
            if not piece:
                raise Refused("chromium has ended")
            self.rest += piece
        text, _, self.rest = self.rest.partition(b"\0")
        return dict(json.loads(text))

    def call(self, method: str, **parameters: Any) -> dict[str, Any]:
        """What the browser answers; what it tells meanwhile is kept."""
        self.number += 1
        call = {"id": self.number, "method": method, "params": parameters}
        if self.session:
            call["sessionId"] = self.session
        data = json.dumps(call).encode() + b"\0"
        while data:
            data = data[os.write(self.out, data):]
        while True:
            told = self.message()
            if told.get("id") == self.number:
                if "error" in told:
                    raise Refused(f"{method}: {told['error']['message']}")
                return dict(told["result"])
            self.events.append(told)

    def open(self, path: pathlib.Path) -> None:
        """Opens a file in a tab of its own, in place of the one before."""
        self.close_tab()
        self.visit(path.as_uri())

    def close_tab(self) -> None:
        self.session = ""
        if self.target:
            self.call("Target.closeTarget", targetId=self.target)
        self.target = ""

    def turn_to(self, tab: tuple[str, str, str]) -> None:
        """Turns to another tab, as `visit` answered it."""
        self.target, self.session, self.url = tab
        self.call("Page.bringToFront")

    def visit(self, url: str) -> tuple[str, str, str]:
        """Opens a page in a further tab."""
        self.session = ""
        self.target = self.call("Target.createTarget", url="about:blank")["targetId"]
        self.session = self.call("Target.attachToTarget", targetId=self.target, flatten=True)["sessionId"]
        self.events = []
        for domain in ("Page", "Runtime", "Log", "Network"):
            self.call(f"{domain}.enable")
        self.size()
        self.url = url
        self.call("Page.navigate", url=self.url)
        until = time.monotonic() + PATIENCE
        while self.value("[location.href, document.readyState]") != [self.url, "complete"]:
            if time.monotonic() > until:
                raise Refused(f"chromium doesn't open {url}")
            time.sleep(0.05)
        self.settle()
        return self.target, self.session, self.url

    def until(self, script: str, seconds: float = 60) -> float:
        """Waits until a script in the page is true, and answers for how many seconds."""
        began = time.monotonic()
        while not self.value(script):
            if time.monotonic() - began > seconds:
                raise Refused(f"not so within {seconds:g} seconds: {script[:100]}")
            time.sleep(0.01)
        return time.monotonic() - began

    def drop(self, *files: pathlib.Path) -> None:
        """Drops files into the middle of the page, as from a desktop."""
        data = {"items": [], "files": list(map(str, files)), "dragOperationsMask": 1}
        for kind in ("dragEnter", "dragOver", "drop"):
            self.call("Input.dispatchDragEvent", type=kind, x=400, y=300, data=data)

    def give(self, element: str, file: pathlib.Path) -> None:
        """Gives a file to an input of files."""
        given = self.call("Runtime.evaluate", expression=element)["result"]["objectId"]
        self.call("DOM.setFileInputFiles", files=[str(file)], objectId=given)

    def size(self, width: int = 1280, mobile: bool = False) -> None:
        self.call("Emulation.setDeviceMetricsOverride", width=width, height=900, deviceScaleFactor=1, mobile=mobile)

    def dark(self, dark: bool) -> None:
        scheme = {"name": "prefers-color-scheme", "value": "dark" if dark else "light"}
        self.call("Emulation.setEmulatedMedia", features=[scheme])

    def value(self, script: str) -> Any:
        """The value of a script in the page."""
        told = self.call("Runtime.evaluate", expression=script, returnByValue=True, awaitPromise=True)
        if "exceptionDetails" in told:
            raise Refused(f"{script[:60]}: {told['exceptionDetails']['exception'].get('description', '')[:200]}")
        return told["result"].get("value")

    def settle(self) -> None:
        """Waits until what was asked for is drawn."""
        frames = "let left = 4; const next = () => left-- ? requestAnimationFrame(next) : done(true); next();"
        self.value(f"new Promise((done) => {{ {frames} }})")

    def picture(self, file: pathlib.Path) -> None:
        """Saves what is on the screen, as far down as there is something."""
        self.settle()
        width, height = self.value("[innerWidth, Math.min(innerHeight, document.body.getBoundingClientRect().bottom)]")
        clip = {"x": 0, "y": 0, "width": width, "height": height, "scale": 1}
        file.write_bytes(base64.b64decode(self.call("Page.captureScreenshot", format="png", clip=clip)["data"]))

    def said(self) -> Iterator[str]:
        """What the page has put on the console, and what it has asked for beside itself."""
        for event in self.events:
            if event.get("sessionId") != self.session:
                continue
            told = event.get("params", {})
            if event["method"] in ("Runtime.consoleAPICalled", "Runtime.exceptionThrown", "Log.entryAdded"):
                yield f"on the console: {json.dumps(told)[:300]}"
            elif event["method"] == "Network.requestWillBeSent" and told["request"]["url"] != self.url:
                yield f"a request: {told['request']['url'][:100]}"

    def key(self, name: str) -> None:
        """Presses a key, and lets it go."""
        text = {"text": "\r"} if name == "Enter" else {}
        key = {"key": name, "code": name, "windowsVirtualKeyCode": KEYS[name]}
        self.call("Input.dispatchKeyEvent", type="keyDown", **key, **text)
        self.call("Input.dispatchKeyEvent", type="keyUp", **key)

    def middle(self, element: str) -> Place:
        """Where the middle of an element is on the screen, once it is scrolled there."""
        self.value(f"{element}.scrollIntoView({{block: 'center'}})")
        self.settle()
        middle = "(({left, top, width, height}) => [left + width / 2, top + height / 2])"
        x, y = self.value(f"{middle}({element}.getBoundingClientRect())")
        return x, y

    def mouse(self, element: str, right: int = 0, down: int = 0) -> None:
        """Presses the mouse on an element, moves it so far, and lets it go."""
        x, y = self.middle(element)
        for kind, share in (("mousePressed", 0), ("mouseMoved", 0.5), ("mouseMoved", 1), ("mouseReleased", 1)):
            place = {"x": x + share * right, "y": y + share * down}
            buttons = 0 if kind == "mouseReleased" else 1
            self.call("Input.dispatchMouseEvent", type=kind, **place, button="left", buttons=buttons, clickCount=1)

    def touch(self, element: str, right: int) -> None:
        """Draws a finger over an element, so far to the right."""
        x, y = self.middle(element)
        self.call("Input.dispatchTouchEvent", type="touchStart", touchPoints=[{"x": x, "y": y}])
        for step in range(1, 9):
            self.call("Input.dispatchTouchEvent", type="touchMove", touchPoints=[{"x": x + right * step / 8, "y": y}])
        self.call("Input.dispatchTouchEvent", type="touchEnd", touchPoints=[])
