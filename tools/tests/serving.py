"""A `draft serve` for tests, and what is asked of it as a page does, or as no page does."""
import http.client
import json
import os
import pathlib
import signal
import subprocess
import tempfile
import time
import urllib.parse
from collections.abc import Iterator
from typing import Any, NamedTuple

from drafting.core.messages import Refused
from drafting.recon import process
from drafting.serve.folder import OWNER, PREFIX

from .support import TOOLS, is_built

PATIENCE = 60
EDGE = "edge-of-the-parts"


class Answered(NamedTuple):
    """A status, and what came with it."""

    status: int
    text: str


def part(name: str, data: bytes, file: str | None = None) -> bytes:
    """A part of a form as a browser sends it."""
    more = f'; filename="{file}"' if file is not None else ""
    head = f'--{EDGE}\r\nContent-Disposition: form-data; name="{name}"{more}\r\n'
    return head.encode("utf-8", "surrogateescape") + b"\r\n" + data + b"\r\n"


def form(drawing: bytes, options: object = (), name: str = "part.dxf", second: bytes | None = None) -> bytes:
    """The body of a request with a drawing."""
    parts = [part("options", json.dumps(options).encode()), part("drawing", drawing, name)]
    parts += [part("visible", second, "visible.dxf")] if second is not None else []
    return b"".join(parts) + f"--{EDGE}--\r\n".encode()


def takes_limits() -> bool:
    """Whether the built program runs within a limit of memory; one that `rt try` built, with checks, doesn't."""
    if not is_built():
        return True
    words = ["prlimit", f"--as={1 << 31}", str(process.find()), "make", "1"]
    return subprocess.run(words, capture_output=True).returncode == 0


SLOWED = """#!/usr/bin/python3
import subprocess, sys, time
run = subprocess.Popen([{program!r}, *sys.argv[1:]], stdout=subprocess.PIPE)
for line in run.stdout:
    time.sleep(0.1 if line.startswith(b"page ") else 0)
    sys.stdout.buffer.write(line)
    sys.stdout.buffer.flush()
sys.exit(run.wait())
"""


def slowed(folder: pathlib.Path) -> pathlib.Path:
    """A program that writes what the built one does, and takes a tenth of a second for each page, so that a search can be stopped."""
    path = folder / "slowed"
    path.write_text(SLOWED.format(program=str(process.find())))
    path.chmod(0o755)
    return path


HESITANT = """#!/usr/bin/python3
import os, sys, time
if sys.argv[1] != "blocks" and "--pages" not in sys.argv:
    time.sleep(60)
os.execv({program!r}, [{program!r}, *sys.argv[1:]])
"""


def hesitant(folder: pathlib.Path) -> pathlib.Path:
    """A program that answers as the built one does, after a minute where it is asked for what goes beyond a drawing's search."""
    path = folder / "hesitant"
    path.write_text(HESITANT.format(program=str(process.find())))
    path.chmod(0o755)
    return path


class Served:
    """A server that runs until it is closed."""

    def __init__(self, *words: object, within: pathlib.Path | None = None) -> None:
        self.room = tempfile.TemporaryDirectory(dir=within, ignore_cleanup_errors=True)
        memory = () if "--memory" in words or takes_limits() else ("--memory", 0)
        command = [str(TOOLS / "draft"), "serve", "--no-browser", *map(str, (*memory, *words))]
        self.process = subprocess.Popen(
            command, stdout=subprocess.PIPE, stderr=subprocess.DEVNULL, text=True, env={**os.environ, "TMPDIR": self.room.name},
        )
        assert self.process.stdout
        self.address = self.process.stdout.readline().strip()
        url = urllib.parse.urlsplit(self.address)
        if not url.port:
            raise Refused("draft serve doesn't start")
        self.port, self.host = url.port, url.netloc
        self.token = urllib.parse.parse_qs(url.query)["token"][0]
        self.origin = f"http://{self.host}"

    def __enter__(self) -> "Served":
        return self

    def __exit__(self, *_: object) -> None:
        self.close()

    def close(self) -> int:
        """Ends it, and answers how it ended."""
        self.process.send_signal(signal.SIGTERM)
        status = self.process.wait(PATIENCE)
        if self.process.stdout:
            self.process.stdout.close()
        self.room.cleanup()
        return status

    def headers(self, **others: str | None) -> dict[str, str]:
        """What a page of it sends; with None one is left out."""
        told: dict[str, str | None] = {
            "X-Draft-Token": self.token, "Origin": self.origin, "Content-Type": f"multipart/form-data; boundary={EDGE}",
            **{name.replace("_", "-"): value for name, value in others.items()},
        }
        return {name: value for name, value in told.items() if value is not None}

    def begin(self, path: str, body: bytes = b"", method: str = "POST", headers: dict[str, str] | None = None) -> http.client.HTTPConnection:
        connection = http.client.HTTPConnection("127.0.0.1", self.port, timeout=PATIENCE)
        connection.request(method, path, body, self.headers() if headers is None else headers)
        return connection

    def ask(self, path: str, body: bytes = b"", method: str = "POST", headers: dict[str, str] | None = None) -> Answered:
        """A whole answer."""
        connection = self.begin(path, body, method, headers)
        try:
            response = connection.getresponse()
            return Answered(response.status, response.read().decode(errors="replace"))
        finally:
            connection.close()

    def tell(self, path: str, **told: Any) -> Answered:
        """A request in JSON."""
        return self.ask(path, json.dumps(told).encode(), headers=self.headers(Content_Type="application/json"))

    def job(self, drawing: bytes, options: object = (), **more: Any) -> str:
        """Has a drawing be looked at, and answers the name of that; refused with the status where it isn't."""
        answered = self.ask("/drawing", form(drawing, options, **more))
        if answered.status != 200:
            raise Refused(f"{answered.status} {answered.text}")
        return str(json.loads(answered.text)["job"])

    def events(self, job: str, seconds: float = 600) -> Iterator[dict[str, Any]]:
        """What is told of a drawing, up to its end, asked for piece by piece as a page does."""
        start, until = 0, time.monotonic() + seconds
        while time.monotonic() < until:
            answered = self.ask("/events", json.dumps({"job": job, "from": start}).encode(), headers=self.headers(Content_Type="application/json"))
            if answered.status != 200:
                raise Refused(f"{answered.status} {answered.text}")
            start += len(answered.text.encode())
            for event in map(json.loads, answered.text.splitlines()):
                yield event
                if event["kind"] == "over":
                    return
        raise Refused(f"not over within {seconds:g} seconds")

    def follow(self, drawing: bytes, options: object = (), last: str = "over", **more: Any) -> list[dict[str, Any]]:
        """What is told of a drawing up to an event of this kind; then it goes away."""
        job = self.job(drawing, options, **more)
        try:
            told = []
            for event in self.events(job):
                told.append(event)
                if event["kind"] == last:
                    break
            return told
        finally:
            self.leave(job)

    def leave(self, job: str) -> None:
        """Goes away, as a page that has another drawing."""
        self.tell("/leave", job=job, for_good=True)

    # ---- what it holds

    def memory(self) -> int:
        """How many MiB of memory the server itself holds."""
        status = pathlib.Path(f"/proc/{self.process.pid}/status").read_text()
        return int(next(line.split()[1] for line in status.splitlines() if line.startswith("VmRSS"))) >> 10

    def children(self) -> dict[int, str]:
        """The processes that it began and that still run, and where each of them does."""
        found = {}
        for stat in pathlib.Path("/proc").glob("[0-9]*/stat"):
            try:
                fields = stat.read_text().rpartition(")")[2].split()
                if int(fields[1]) == self.process.pid and fields[0] != "Z":
                    found[int(stat.parent.name)] = os.readlink(stat.parent / "cwd")
            except OSError:
                continue
        return found

    def below(self) -> list[int]:
        """Those of them that work at a drawing."""
        return [pid for pid, place in self.children().items() if not pathlib.Path(place).name.startswith(PREFIX)]

    def ready(self) -> int:
        """The one that waits for a drawing, once there is one."""
        until = time.monotonic() + PATIENCE
        while time.monotonic() < until:
            for pid, place in self.children().items():
                if pathlib.Path(place).name.startswith(PREFIX):
                    return pid
            time.sleep(0.05)
        raise Refused("no process is ready")

    def kept(self) -> list[str]:
        """The files that it keeps of drawings."""
        return sorted(file for _, _, files in os.walk(self.room.name) for file in files if file != OWNER)

    def until_idle(self, seconds: float = 20) -> None:
        """Waits until nothing runs for a page, and no file is kept; refused where that takes longer."""
        until = time.monotonic() + seconds
        while self.below() or self.kept():
            if time.monotonic() > until:
                raise Refused(f"still there: {self.below()} {self.kept()}")
            time.sleep(0.05)
