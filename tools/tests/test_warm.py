"""Batches that are handed to a process which has begun what they need: what they answer, and that nothing is left of one that is stopped."""
import json
import os
import pathlib
import shutil
import signal
import subprocess
import tempfile
import time
import unittest
from collections.abc import Callable

from drafting.core import executable
from drafting.table import worker
from drafting.table.prefork import Warm

from .support import EXAMPLES, needs_command
from .tables import made

PATIENCE = 600
# A program that tells which process its batch is a fork of, and answers; and one that is still at it.
TELLS = """#!/bin/sh
parent() { ps -o ppid= -p "$1" | tr -d ' '; }
parent "$(parent "$PPID")" > "$(dirname "$0")/forked"
echo cut nodes 2000
exit 3
"""
# One that tells how the process of its batch was begun.
NAMES = """#!/bin/sh
echo "$(tr '\\0' ' ' < "/proc/$(ps -o ppid= -p "$PPID" | tr -d ' ')/cmdline")" >> "$(dirname "$0")/begun"
echo cut nodes 2000
exit 3
"""
SLEEPS = """#!/bin/sh
echo $$ > "$(dirname "$0")/asleep"
exec sleep 1000
"""


class Handed(unittest.TestCase):
    def setUp(self) -> None:
        room = tempfile.TemporaryDirectory()
        self.addCleanup(room.cleanup)
        self.room = pathlib.Path(room.name)
        (self.room / "temporary").mkdir()
        self.door = str(self.room / "door")
        said = open(self.room / "said", "wb")
        self.addCleanup(said.close)
        before = os.environ.get("TMPDIR")
        os.environ["TMPDIR"] = str(self.room / "temporary")
        self.warm = Warm(self.door, pathlib.Path("/bin/true"), said)
        os.environ.pop("TMPDIR") if before is None else os.environ.update(TMPDIR=before)
        self.addCleanup(self.warm.end)

    def job(self, text: str, door: str = "", machine: str = ":") -> "subprocess.Popen[bytes]":
        """A job of a batch of one drawing, whose bytes come along, with a program of this text."""
        program = self.room / "program"
        program.write_text(text)
        program.chmod(0o755)
        file = EXAMPLES / "unit_cube.dxf"
        drawing = worker.Drawing(7, str(file), file.stat().st_size, file.stat().st_mtime_ns, file.read_bytes())
        job = subprocess.Popen(executable.words(door or self.door, module="drafting.table.handover"), stdin=subprocess.PIPE, stdout=subprocess.PIPE,
                               stderr=subprocess.PIPE, env={**os.environ, "PARALLEL_SSHLOGIN": machine})
        assert job.stdin
        job.stdin.write(worker.text_of(["--program", str(program), "--memory", "0"], [drawing]))
        job.stdin.close()
        return job

    def answered(self, job: "subprocess.Popen[bytes]") -> tuple[int, list[tuple[int, int]]]:
        """The status of a job, and the number and status of each of its rows."""
        assert job.stdout and job.stderr
        rows = [json.loads(line) for line in job.stdout]
        self.addCleanup(job.stderr.close)
        job.stdout.close()
        return job.wait(PATIENCE), [(row["number"], row["status"]) for row in rows]

    def until(self, is_so: Callable[[], bool]) -> None:
        end = time.monotonic() + PATIENCE
        while not is_so():
            self.assertLess(time.monotonic(), end)
            time.sleep(0.05)

    def asleep(self) -> int:
        """The process that sleeps, once it does."""
        self.until(lambda: (self.room / "asleep").exists() and (self.room / "asleep").read_text() != "")
        return int((self.room / "asleep").read_text())

    def forked(self) -> int:
        return int((self.room / "forked").read_text())

    def test_a_batch_is_a_fork_of_the_process_behind_the_door(self) -> None:
        assert self.warm.process
        for _ in range(2):
            self.assertEqual(self.answered(self.job(TELLS)), (0, [(7, 3)]))
            self.assertEqual(self.forked(), self.warm.process.pid)
            (self.room / "forked").unlink()
        self.assertEqual(list((self.room / "temporary").iterdir()), [])

    def test_where_nobody_is_there_a_job_answers_by_itself(self) -> None:
        assert self.warm.process
        for door, machine in ((str(self.room / "none"), ":"), (self.door, "other")):
            self.assertEqual(self.answered(self.job(TELLS, door, machine)), (0, [(7, 3)]))
            self.assertNotEqual(self.forked(), self.warm.process.pid)
        self.warm.end()
        self.assertEqual(self.answered(self.job(TELLS)), (0, [(7, 3)]))

    def test_a_job_that_is_stopped_stops_its_batch(self) -> None:
        for how, status in ((signal.SIGTERM, 128 + signal.SIGIO), (signal.SIGKILL, -signal.SIGKILL)):
            with self.subTest(how):
                (self.room / "asleep").unlink(missing_ok=True)
                job = self.job(SLEEPS)
                process = self.asleep()
                self.assertEqual(len(list((self.room / "temporary").iterdir())), 1)
                job.send_signal(how)
                self.assertEqual(self.answered(job), (status, []))
                self.until(lambda: not pathlib.Path(f"/proc/{process}").exists())
                self.until(lambda: not list((self.room / "temporary").iterdir()))

    def test_a_batch_that_is_not_whole(self) -> None:
        job = subprocess.Popen(executable.words(self.door, module="drafting.table.handover"), stdin=subprocess.DEVNULL, stdout=subprocess.PIPE, stderr=subprocess.PIPE)
        self.assertEqual((*job.communicate(timeout=PATIENCE), job.returncode), (b"", b"draft batch: the batch isn't whole\n", 1))


@needs_command("parallel", "parallel")
class InTables(unittest.TestCase):
    def test_each_batch_of_a_table_here_is_such_a_fork(self) -> None:
        with tempfile.TemporaryDirectory() as room:
            program, folder = pathlib.Path(room, "program"), pathlib.Path(room, "drawings")
            program.write_text(NAMES)
            program.chmod(0o755)
            folder.mkdir()
            for number in range(16):
                shutil.copy(EXAMPLES / "unit_cube.dxf", folder / f"{number}.dxf")
            ended = made(folder, "--program", program, "--jobs", 2)
            self.assertEqual((ended.status, {row["status"] for row in ended.rows.values()}), (0, {"3"}), ended.said)
            begun = (pathlib.Path(room) / "begun").read_text().splitlines()
        # A drawing is asked about in both passes.
        self.assertEqual((len(begun), sum(" batch --door " in words for words in begun)), (32, 32))
