"""Who may come to `draft serve`, how long they may take, and what is left of one that was killed, tried against a server that runs."""
import os
import pathlib
import signal
import socket
import stat
import subprocess
import tempfile
import time
import unittest
import urllib.parse

from drafting.core.messages import Refused
from drafting.serve.connections import STRANGERS
from drafting.serve.folder import PREFIX

from .serving import EDGE, PATIENCE, Served, form
from .support import TOOLS, needs_program
from .test_serve import CUBE, choices_in, needs_packages


def head_of(served: Served, token: str, length: int) -> bytes:
    """The head of a request with a drawing."""
    rows = ["POST /drawing HTTP/1.1", f"Host: {served.host}", f"Origin: {served.origin}", f"X-Draft-Token: {token}",
            f"Content-Type: multipart/form-data; boundary={EDGE}", f"Content-Length: {length}", "", ""]
    return "\r\n".join(rows).encode()


@needs_packages
@needs_program()
class Door(unittest.TestCase):
    def connection(self, served: Served) -> socket.socket:
        connection = socket.create_connection(("127.0.0.1", served.port), timeout=30)
        self.addCleanup(connection.close)
        return connection

    def test_strangers_keep_nobody_out(self) -> None:
        """A hundred and fifty connections that say nothing, or have no token: a page is answered at once all the same."""
        with Served() as served:
            strangers = [self.connection(served) for _ in range(150)]
            for number, stranger in enumerate(strangers):
                if number % 2:
                    stranger.sendall(head_of(served, "x", 1_000_000)[:-4])
            began = time.monotonic()
            self.assertEqual(len(choices_in(served.follow(CUBE))), 3)
            self.assertLess(time.monotonic() - began, 20)
            time.sleep(0.5)
            held = [fd for fd in pathlib.Path(f"/proc/{served.process.pid}/fd").iterdir() if os.readlink(fd).startswith("socket:")]
            self.assertLess(len(held), STRANGERS + 8)

    def test_the_token_is_asked_for_at_the_headers(self) -> None:
        """Who has none is told so before the body comes; who has it and sends no more of the body is dropped within seconds."""
        with Served() as served:
            stranger = self.connection(served)
            stranger.sendall(head_of(served, "x", 1_000_000))
            began = time.monotonic()
            self.assertIn(b"403", stranger.recv(4096).split(b"\r\n")[0])
            self.assertLess(time.monotonic() - began, 4)
            slow = self.connection(served)
            slow.sendall(head_of(served, served.token, 1_000_000) + b"--")
            self.assertEqual(slow.recv(4096), b"")
            self.assertLess(time.monotonic() - began, 25)

    def test_requests_that_nest_or_come_to_nothing(self) -> None:
        deep = b"[" * 100_000
        with Served() as served:
            as_json = served.headers(Content_Type="application/json")
            self.assertEqual(served.ask("/stop", deep, headers=as_json)[0], 400)
            self.assertIn("no JSON", served.ask("/stop", deep, headers=as_json).text)
            self.assertEqual(served.ask("/drawing", form(CUBE).replace(b"\r\n\r\n[]", b"\r\n\r\n" + deep)).status, 400)

    def test_a_folder_that_is_gone(self) -> None:
        with Served() as served:
            for folder in pathlib.Path(served.room.name).glob(f"{PREFIX}*"):
                subprocess.run(["rm", "-r", folder], check=True)
            answered = served.ask("/drawing", form(CUBE))
            self.assertEqual((answered.status, "the server's folder is gone" in answered.text), (507, True), answered)
            self.assertNotIn(served.room.name, answered.text)

    @unittest.skipUnless(os.geteuid() == 0, "only root makes a small disk")
    def test_a_full_disk(self) -> None:
        with tempfile.TemporaryDirectory() as room:
            if subprocess.run(["mount", "-t", "tmpfs", "-o", "size=600k", "tmpfs", room], capture_output=True).returncode:
                self.skipTest("no disk can be mounted here")
            try:
                with Served(within=pathlib.Path(room)) as served:
                    answered = served.ask("/drawing", form(b"0" * 2_000_000))
                    self.assertEqual((answered.status, "the disk is full" in answered.text), (507, True), answered)
                    self.assertEqual(len(choices_in(served.follow(CUBE))), 3)
                    next(pathlib.Path(served.room.name).glob(f"{PREFIX}*")).joinpath("ballast").write_bytes(b"0" * 500_000)
                    with self.assertRaises(OSError):
                        pathlib.Path(room, "more").write_bytes(b"0" * 600_000)
                    with self.assertRaisesRegex(Refused, "507 the disk is full"):
                        served.follow(CUBE)
            finally:
                subprocess.run(["umount", "-l", room], check=True)


@needs_packages
@needs_program()
class Ends(unittest.TestCase):
    def folders(self, served: Served) -> list[pathlib.Path]:
        return list(pathlib.Path(served.room.name).glob(f"{PREFIX}*"))

    def test_a_hang_up_ends_it(self) -> None:
        served = Served()
        self.assertEqual(len(self.folders(served)), 1)
        served.process.send_signal(signal.SIGHUP)
        self.assertEqual(served.process.wait(PATIENCE), 0)
        self.assertEqual(self.folders(served), [])
        served.close()

    def test_the_next_one_clears_what_a_killed_one_left(self) -> None:
        """And nothing of one that runs."""
        first, killed = Served(), Served()
        killed.process.kill()
        killed.process.wait(PATIENCE)
        left, kept = self.folders(killed), self.folders(first)
        self.assertEqual((len(left), len(kept)), (1, 1))
        for folder in (*left, *kept):
            (folder / "drawing").write_text("x")
        for one in (killed, first):
            command = [str(TOOLS / "draft"), "serve", "--no-browser"]
            again = subprocess.Popen(command, stdout=subprocess.PIPE, stderr=subprocess.DEVNULL, text=True, env={**os.environ, "TMPDIR": one.room.name})
            assert again.stdout
            again.stdout.readline()
            again.send_signal(signal.SIGTERM)
            again.wait(PATIENCE)
            again.stdout.close()
        self.assertEqual(self.folders(killed), [])
        self.assertEqual(self.folders(first), kept)
        first.close()
        killed.room.cleanup()

    def test_the_token_is_on_no_command_line(self) -> None:
        """The browser gets a file, which its owner alone can read, and which leads to the page."""
        with tempfile.TemporaryDirectory() as room:
            told = pathlib.Path(room, "told")
            browser = pathlib.Path(room, "browser")
            browser.write_text(f'#!/bin/sh\necho "$@" > {told}.part && mv {told}.part {told}\n')
            browser.chmod(0o755)
            environment = {**os.environ, "TMPDIR": room, "BROWSER": f"{browser} %s"}
            command = [str(TOOLS / "draft"), "serve"]
            served = subprocess.Popen(command, stdout=subprocess.PIPE, stderr=subprocess.DEVNULL, text=True, env=environment)
            assert served.stdout
            address = served.stdout.readline().strip()
            until = time.monotonic() + PATIENCE
            while not told.exists() and time.monotonic() < until:
                time.sleep(0.05)
            opened = told.read_text().strip()
            file = pathlib.Path(urllib.parse.urlsplit(opened).path)
            try:
                self.assertNotIn(urllib.parse.urlsplit(address).query.removeprefix("token="), opened)
                self.assertIn(address, file.read_text())
                self.assertEqual(stat.S_IMODE(file.stat().st_mode) & 0o077, 0)
            finally:
                served.send_signal(signal.SIGTERM)
                served.wait(PATIENCE)
                served.stdout.close()
