"""What `draft serve` takes, refuses and queues, asked as a page does and as no page does; test_serve_page opens pages in a browser."""
import importlib.util
import json
import os
import pathlib
import random
import re
import signal
import socket
import tempfile
import threading
import time
import unittest
import unittest.mock
from collections import Counter
from typing import Any

from drafting.core.messages import Refused
from drafting.live.search import solids_event
from drafting.recon.answer import Answer, answer_of
from drafting.serve import jobs

from .made import file_of, voids
from .serving import EDGE, Answered, Served, form, hesitant, part, slowed, takes_limits
from .support import EXAMPLES, draft, needs_program

needs_packages = unittest.skipUnless(
    all(map(importlib.util.find_spec, ("flask", "waitress"))) and pathlib.Path("/usr/share/javascript/three/three.min.js").exists(),
    "apt-get install python3-flask python3-waitress libjs-three",
)
CUBE = (EXAMPLES / "quartered_cube.dxf").read_bytes()
MIB = 1 << 20
NO_OPTIONS = (
    ["--output=x"], [["output", "/tmp/x"]], [["solids", "-1"]], [["hidden", "a\n"]], [["scale", "1:2;x"]], "x", [[1, 2]], [["workers", "9"]] * 50,
)
NAMES = (
    "../../../x.dxf", "/etc/passwd", "", ".", "CON", "a" * 5_000, "-o", "--program=x", "\u00e4\u202e.dxf", "%00.dxf", "\x07",
    "<script>alert(1)</script>.dxf",
)


def choices_in(events: list[dict[str, Any]]) -> list[str]:
    """The choices of all events, in the stated order, as hexadecimal digits."""
    return sorted((choice for event in events if event["kind"] == "solids" for choice in event["choices"]), reverse=True)


def answer_of_example(file: pathlib.Path) -> Answer:
    """What the program answers to an example, with the decimals that it needs."""
    text = EXAMPLES / "fractions_in_thousandths.txt" if file.stem == "fractions" else file.with_suffix(".txt")
    return answer_of(text.read_text())


def many_lines() -> bytes:
    """A sheet on layer 0 with 15,000 lines, which takes seconds to be read."""
    line = "0\nLINE\n8\n0\n10\n{}\n20\n0\n11\n{}\n21\n9\n"
    return ("0\nSECTION\n2\nENTITIES\n" + "".join(line.format(at, at) for at in range(15_000)) + "0\nENDSEC\n0\nEOF\n").encode()


def kinds_of(events: list[dict[str, Any]]) -> list[str]:
    return [event["kind"] for event in events]


@needs_packages
@needs_program()
class Serving(unittest.TestCase):
    served: Served

    @classmethod
    def setUpClass(cls) -> None:
        cls.served = Served()

    @classmethod
    def tearDownClass(cls) -> None:
        cls.served.close()

    def test_requests_that_are_refused(self) -> None:
        """Each is refused in words, and the server answers as before."""
        served, body = self.served, form(CUBE)
        headers = served.headers
        rows: list[tuple[str, int, str, Answered]] = []

        def row(name: str, status: int, words: str, path: str, data: bytes = body, method: str = "POST", **others: str | None) -> None:
            rows.append((name, status, words, served.ask(path, data, method, headers(**others))))

        row("a foreign host", 403, "alone", "/drawing", Host="example.org")
        row("a host with another port", 403, "alone", "/drawing", Host="127.0.0.1:1")
        row("a page of another origin", 403, "pages of its own", "/drawing", Origin="http://example.org")
        row("an origin of another port", 403, "pages of its own", "/drawing", Origin="http://127.0.0.1:1")
        row("the origin null", 403, "pages of its own", "/drawing", Origin="null")
        row("no origin", 403, "pages of its own", "/drawing", Origin=None)
        row("fetched across sites", 403, "pages of its own", "/drawing", Sec_Fetch_Site="cross-site")
        row("no token", 403, "token", "/drawing", X_Draft_Token=None)
        row("another token", 403, "token", "/drawing", X_Draft_Token="A" * 32)
        row("the token in the address alone", 403, "token", f"/drawing?token={served.token}", X_Draft_Token=None)
        row("the page without token", 403, "token", "/", b"", "GET", X_Draft_Token=None)
        row("a path upwards", 404, "Not Found", "/../../etc/passwd", b"", "GET")
        row("a script's path", 404, "Not Found", "/viewer/page.js", b"", "GET")
        row("a drawing got", 405, "Not Allowed", "/drawing", b"", "GET")
        row("another site's question", 403, "pages of its own", "/drawing", b"", "OPTIONS", Origin="http://example.org")
        row("no form", 400, "no drawing", "/drawing", CUBE, Content_Type="application/octet-stream")
        row("a form without edge", 400, "no drawing", "/drawing", body, Content_Type="multipart/form-data")
        row("a form cut in two", 400, "", "/drawing", body[: len(body) // 2])
        row("a form of noise", 400, "no drawing", "/drawing", random.Random(1).randbytes(10_000))
        row("no file", 400, "no drawing", "/drawing", part("drawing", CUBE) + f"--{EDGE}--\r\n".encode())
        row("options that are no JSON", 400, "no JSON", "/drawing", part("options", b"{") + body)
        for options in NO_OPTIONS:
            row(f"options {json.dumps(options)[:40]}", 400, "option", "/drawing", form(CUBE, options))
        row("a file of more than 16 MiB", 413, "", "/drawing", form(b"0" * (16 * MIB + 1)))
        with self.assertRaises(OSError):
            served.ask("/drawing", form(b"0" * (40 * MIB)))
        solid = {"job": "../x", "number": 1, "form": "dxf"}
        asked: list[tuple[str, dict[str, Any]]] = [("/stop", {"job": "x"}), ("/solid", solid), ("/page", {"job": None}), ("/settle", {})]
        for path, told in asked:
            rows.append((f"{path} of no drawing", 404, "no such drawing", served.tell(path, **told)))
        row("a request that is no JSON", 400, "no JSON", "/stop", b"{", Content_Type="application/json")
        for name, status, words, answered in rows:
            with self.subTest(name):
                self.assertEqual(answered.status, status, answered.text[:200])
                self.assertIn(words, answered.text)
        self.assertEqual(len(choices_in(served.follow(CUBE))), 3)
        self.assertLess(served.memory(), 300)
        served.until_idle(60)

    def test_bodies_that_never_come_whole(self) -> None:
        """Connections with headers that are broken, too long, or whose body doesn't come, are dropped or wait; others are answered."""
        served = self.served
        begun = []
        for text in (b"\r\n\r\n", b"POST", b"POST /drawing HTTP/9\r\n\r\n", b"GET / HTTP/1.1\r\nHost: " + b"x" * 300_000 + b"\r\n\r\n",
                     b"POST /drawing HTTP/1.1\r\nContent-Length: -5\r\n\r\n", b"POST /drawing HTTP/1.1\r\nContent-Length: 1000\r\n\r\nabc",
                     b"POST /drawing HTTP/1.1\r\nTransfer-Encoding: chunked\r\n\r\nzzz\r\n", bytes(range(256)) * 100):
            connection = socket.create_connection(("127.0.0.1", served.port), timeout=20)
            try:
                connection.sendall(text)
            except OSError:
                pass
            begun.append(connection)
        self.assertEqual(kinds_of(served.follow(CUBE))[-1], "over")
        for connection in begun:
            connection.close()
        served.until_idle(60)

    def test_odd_names_are_no_paths(self) -> None:
        """What is kept of a file's name is no path, and begins no option; and what is told names the file as far as that goes."""
        served = self.served
        for name in NAMES:
            job = served.job(CUBE, name=name)
            events = list(served.events(job))
            self.assertIn("whole 3 ", next(event for event in events if event["kind"] == "end")["html"], name[:40])
            odd = [file for file in served.kept() if not re.fullmatch(r"events|said_[0-9a-f]+|[\w.()+][\w .()+-]{0,80}", file)]
            self.assertEqual(odd, [], name[:40])
            if name in NAMES[-2:]:
                text = served.tell("/page", job=job).text
                self.assertEqual((text[:15], "<script>alert" in text), ("<!DOCTYPE html>", False))
            served.leave(job)
        served.until_idle(60)

    def test_each_example_is_told_as_it_is_answered(self) -> None:
        for file in sorted(EXAMPLES.glob("*.dxf")):
            answer = answer_of_example(file)
            events = self.served.follow(file.read_bytes(), last="means" if answer.listed > 1 else "end")
            end = next(event for event in events if event["kind"] == "end")
            self.assertIn(answer.head, end["html"], file.name)
            self.assertEqual(choices_in(events), solids_event([solid.choice for solid in answer.solids])["choices"], file.name)
            if answer.listed > 1:
                means = next(event for event in events if event["kind"] == "means")
                self.assertTrue(all(len(row["keys"]) == answer.listed for row in means["rows"]))
        self.served.until_idle(60)

    def test_what_is_wrong_is_suggested(self) -> None:
        events = self.served.follow((EXAMPLES / "quartered_cube_half_hidden.dxf").read_bytes())
        suggestions = [event for event in events if event["kind"] == "suggestion"]
        self.assertIn("TOP (1, 1) to (1, 2) (line 221 of the file): drawn dashed; solid would give 3 solids", suggestions[0]["words"])
        self.assertIn('class="suggested"', suggestions[0]["html"])
        self.assertEqual(len(choices_in(self.served.follow(suggestions[0]["dxf"].encode()))), 3)

    def test_solids_are_saved_as_the_commands_write_them(self) -> None:
        job = self.served.job(CUBE)
        list(self.served.events(job))
        for kind, command in (("dxf", "clean"), ("stl", "stl")):
            wanted = draft(command, EXAMPLES / "quartered_cube.dxf", 2).out
            self.assertEqual(self.served.tell("/solid", job=job, number=2, form=kind), (200, wanted))
        refused = self.served.tell("/solid", job=job, number=4, form="stl")
        self.assertEqual((refused.status, "there is no solid 4" in refused.text), (422, True), refused.text)
        for number in (0, 65_537, "1", True, None):
            self.assertEqual(self.served.tell("/solid", job=job, number=number, form="stl").status, 400)
        self.assertEqual(self.served.tell("/solid", job=job, number=1, form="exe").status, 400)
        settled = json.loads(self.served.tell("/settle", job=job, number=2, views=["LEFT"]).text)
        self.assertEqual((settled["left"], len(settled["lines"])), (2, 6))
        self.assertEqual(len(choices_in(self.served.follow(settled["dxf"].encode()))), 2)
        settled = json.loads(self.served.tell("/settle", job=job, number=2, views=["AREA_FRONT_0.5"]).text)
        self.assertTrue(settled["sections"])
        self.assertEqual(len(choices_in(self.served.follow(settled["dxf"].encode(), ["sections"]))), settled["left"])
        # A main view settles nothing where all three are drawn; what is no view or section isn't taken.
        for view, status in (("FRONT", 422), ("ABOVE", 400), ("AREA_FRONT", 400), (f"AREA_FRONT_{'1' * 100}", 400), (1, 400)):
            self.assertEqual(self.served.tell("/settle", job=job, number=2, views=[view]).status, status)
        self.served.leave(job)
        self.served.until_idle(60)
        self.assertEqual(self.served.tell("/solid", job=job, number=1, form="stl").status, 404)

    def test_a_search_is_stopped_and_a_page_that_goes_away_ends_it(self) -> None:
        large = file_of(voids(4)).encode()
        job = self.served.job(large, [["solids", "65536"]])
        events = self.served.events(job)
        next(event for event in events if event["kind"] == "solids")
        self.assertEqual(self.served.tell("/stop", job=job).status, 200)
        rest = list(events)
        self.assertEqual([event["how"] for event in rest if event["kind"] == "end"], ["stopped"])
        self.assertEqual(rest[-1], {"kind": "over", "text": ""})
        self.served.leave(job)
        job = self.served.job(large, [["solids", "65536"]])
        next(event for event in self.served.events(job) if event["kind"] == "solids")
        # A page that is left may be loaded anew: so its drawing stays for moments.
        self.served.tell("/leave", job=job)
        self.assertTrue(self.served.below())
        self.served.until_idle(60)

    def test_a_page_that_is_left_gives_its_place_back(self) -> None:
        """Within moments, however lately a page was asked for; but as long as one is being loaded that may be this one."""
        served = self.served
        job = served.job(CUBE)
        list(served.events(job))
        self.assertEqual(served.ask("/", b"", "GET").status, 200)
        served.tell("/leave", job=job)
        time.sleep(jobs.GRACE + 2)
        self.assertEqual(served.tell("/here", job=job), (200, CUBE.decode()))
        self.assertEqual(served.ask("/", b"", "GET").status, 200)
        self.assertEqual(served.tell("/here", job="").status, 204)
        served.tell("/leave", job=job)
        served.until_idle(jobs.GRACE + 15)

    def test_two_hundred_at_once(self) -> None:
        """Each is answered or refused in words; the server stays, and holds little."""
        came: Counter[str] = Counter()
        lock = threading.Lock()

        def one() -> None:
            try:
                events = self.served.follow(CUBE, last="solids")
                what = "answered" if choices_in(events) else str(events[-1])
            except Refused as refusal:
                what = str(refusal)[:3]
            except OSError as failure:
                what = type(failure).__name__
            with lock:
                came[what] += 1

        threads = [threading.Thread(target=one) for _ in range(200)]
        for thread in threads:
            thread.start()
        most = 0
        while any(thread.is_alive() for thread in threads):
            most = max(most, self.served.memory())
            time.sleep(0.1)
        self.assertEqual(set(came) - {"answered", "503"}, set(), came)
        self.assertGreater(came["answered"], 20)
        self.assertLess(most, 400)
        self.assertEqual(len(choices_in(self.served.follow(CUBE))), 3)
        # Pages that ask no more, and didn't say that they leave, keep their drawing for a while.
        self.served.until_idle(jobs.LIFE + 60)


class Jobs(unittest.TestCase):
    def test_what_is_told_while_its_folder_is_removed_leaves_none(self) -> None:
        with tempfile.TemporaryDirectory() as session:
            job = jobs.Job(pathlib.Path(session))
            job.tell(b"{}\n")
            removed = []

            def last_step(path: Any, **how: Any) -> None:
                """The folder is empty: now its search tells that it is over."""
                if path == job.folder:
                    job.tell(b"{}\n")
                    removed.append(path)
                rmdir(path, **how)

            rmdir = os.rmdir
            with unittest.mock.patch("os.rmdir", last_step):
                job.end()
            self.assertEqual(removed, [job.folder])
            self.assertEqual(list(pathlib.Path(session).iterdir()), [])


@needs_packages
@needs_program()
class Limits(unittest.TestCase):
    def test_time_is_limited_and_others_wait(self) -> None:
        large = file_of(voids(4)).encode()
        room = tempfile.TemporaryDirectory()
        self.addCleanup(room.cleanup)
        program = slowed(pathlib.Path(room.name))
        with Served("--seconds", 4, "--at-once", 1, "--program", program) as served:
            first = served.job(large, [["solids", "65536"]])
            events = served.events(first)
            next(event for event in events if event["kind"] == "began")
            second = served.job(CUBE)
            told = list(events)
            ends = [event for event in told if event["kind"] in ("end", "over")]
            self.assertRegex(str(ends), "longer than [24] seconds")
            self.assertIn("queued", kinds_of(list(served.events(second))))
            served.leave(first)
            served.leave(second)
            served.until_idle(60)

    def stopped(self, served: Served, job: str) -> list[dict[str, Any]]:
        """What is told of a drawing once it is stopped."""
        self.assertEqual(served.tell("/stop", job=job).status, 200)
        told = list(served.events(job))
        self.assertEqual([event["how"] for event in told if event["kind"] == "end"], ["stopped"])
        self.assertEqual(told[-1], {"kind": "over", "text": ""})
        return told

    def test_what_waits_or_is_read_is_stopped(self) -> None:
        """A drawing that waits is never run, and one that is read is ended; that it was stopped is told of both."""
        room = tempfile.TemporaryDirectory()
        self.addCleanup(room.cleanup)
        program = slowed(pathlib.Path(room.name))
        with Served("--at-once", 1, "--program", program) as served:
            first = served.job(file_of(voids(4)).encode(), [["solids", "65536"]])
            next(event for event in served.events(first) if event["kind"] == "solids")
            second = served.job(CUBE)
            next(event for event in served.events(second) if event["kind"] == "queued")
            self.assertNotIn("began", kinds_of(self.stopped(served, second)))
            self.stopped(served, first)
            # A sheet of many lines takes seconds to be read.
            third = served.job(many_lines())
            next(event for event in served.events(third) if event["kind"] == "began")
            began = time.monotonic()
            self.assertNotIn("grid", kinds_of(self.stopped(served, third)))
            self.assertLess(time.monotonic() - began, 20)

    def test_a_drawing_comes_before_what_is_looked_for_beyond_a_search(self) -> None:
        """What would have to be drawn otherwise, or added, makes way for a drawing that comes, and that is told; so is a stop."""
        room = tempfile.TemporaryDirectory()
        self.addCleanup(room.cleanup)
        half_hidden = (EXAMPLES / "quartered_cube_half_hidden.dxf").read_bytes()
        with Served("--at-once", 1, "--program", hesitant(pathlib.Path(room.name))) as served:
            for stop, why in ((False, "since another drawing was dropped in"), (True, "since it was stopped")):
                first = served.job(half_hidden)
                events = served.events(first)
                next(event for event in events if event["kind"] == "looking")
                if stop:
                    served.tell("/stop", job=first)
                else:
                    second = served.job(CUBE)
                    self.assertEqual(len(choices_in(list(served.events(second, 40)))), 3)
                told = list(events)
                self.assertEqual([why in event["first"] for event in told if event["kind"] == "looked"], [True], told)
                self.assertEqual(told[-1], {"kind": "over", "text": ""})
            asked: list[Answered] = []
            thread = threading.Thread(target=lambda: asked.append(served.tell("/settle", job=second, number=1)))
            thread.start()
            while not served.below():
                time.sleep(0.05)
            self.assertEqual(len(choices_in(list(served.events(served.job(CUBE), 40)))), 3)
            thread.join()
            self.assertEqual((asked[0].status, "another drawing" in asked[0].text), (503, True), asked)

    @unittest.skipUnless(takes_limits(), "the built program is one with checks, which runs within no limit of memory")
    def test_memory_is_limited(self) -> None:
        with Served("--memory", 64) as served:
            last = served.follow(file_of(voids(4)).encode())[-1]
            self.assertEqual(last["kind"], "over")

    def test_a_process_is_ready_for_the_next_drawing(self) -> None:
        """It works at the drawing that comes, within the limits, and then another one is ready; so it is where the one that was has died."""
        large = file_of(voids(4)).encode()
        with Served("--processors", 1, "--seconds", 300) as served:
            first = served.ready()
            job = served.job(large, [["solids", "65536"]])
            next(event for event in served.events(job) if event["kind"] == "solids")
            self.assertEqual(served.below(), [first])
            self.assertEqual(len(os.sched_getaffinity(first)), 1)
            self.assertRegex(pathlib.Path(f"/proc/{first}/limits").read_text(), r"Max cpu time +300 ")
            served.leave(job)
            second = served.ready()
            os.kill(second, signal.SIGKILL)
            while second in served.children():
                time.sleep(0.05)
            self.assertEqual(len(choices_in(served.follow(CUBE))), 3)
            self.assertNotIn(served.ready(), (first, second))

    def test_a_process_that_is_ready_ends_with_who_asked(self) -> None:
        self.assertEqual(draft("ready"), (0, "", ""))
        self.assertEqual(draft("ready", data=b'{"words": 1}\n'), (1, "", "draft ready: the line is none that `draft serve` tells\n"))

    def test_limits_that_are_not_taken(self) -> None:
        for name, value in (("seconds", 0), ("memory", 1), ("at-once", 0), ("processors", 0), ("port", 70_000), ("program", "/dev/null")):
            ended = draft("serve", "--no-browser", f"--{name}", value)
            self.assertEqual((ended.status, ended.out), (1, ""), name)

    def test_the_server_ends_with_all_that_it_began(self) -> None:
        room = tempfile.TemporaryDirectory()
        self.addCleanup(room.cleanup)
        served = Served("--program", slowed(pathlib.Path(room.name)))
        job = served.job(file_of(voids(4)).encode(), [["solids", "65536"]])
        next(event for event in served.events(job) if event["kind"] == "solids")
        served.ready()
        began_by_it = list(served.children())
        self.assertEqual((len(began_by_it), len(served.below())), (2, 1))
        began = time.monotonic()
        self.assertEqual(served.close(), 0)
        self.assertLess(time.monotonic() - began, 10)
        self.assertEqual([pid for pid in began_by_it if pathlib.Path(f"/proc/{pid}").exists()], [])

    def test_nothing_runs_on_once_the_server_is_killed(self) -> None:
        served = Served()
        ready = pathlib.Path(f"/proc/{served.ready()}")
        served.process.kill()
        served.process.wait()
        until = time.monotonic() + 20
        while ready.exists():
            self.assertLess(time.monotonic(), until)
            time.sleep(0.05)
        served.close()
