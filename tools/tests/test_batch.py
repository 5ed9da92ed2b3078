"""Workers that read drawing after drawing: each row is what a process of its own would say, whatever other drawings do to theirs."""
import argparse
import contextlib
import json
import os
import pathlib
import resource
import subprocess
import tempfile
import time
import unittest
from collections.abc import Sequence
from unittest import mock

from drafting.core.messages import Refused
from drafting.recon import process as program
from drafting.solve import pipeline
from drafting.table import worker
from drafting.table.rows import Row

from .serving import takes_limits
from .support import EXAMPLES, needs_module, needs_program

# What a process holds of the drawings that it read, and how long one sleeps that is left behind, by which it is known.
held: list[object] = []
ASLEEP = f"1000.{os.getpid()}"


def ask(name: str, arguments: argparse.Namespace, tell: object) -> None:
    """Does to the process what the drawing's name says; any other one is refused, with the process and how much that holds."""
    held.append(name)
    if name == "abort":
        os.abort()
    if name == "exit":
        os._exit(3)
    if name == "bomb":
        while True:
            held.append(bytearray(1 << 24))
    if name == "endless":
        while True:
            pass
    if name == "leave":
        subprocess.Popen(["sleep", ASLEEP])
        os.abort()
    if name == "hold":
        held.append(bytearray(b"x" * (1 << 26)))
    if name == "stale" and len(held) > 1:
        raise RuntimeError("what others left is in its way")
    raise Refused(f"{os.getpid()} {len(held)}")


class Spite(unittest.TestCase):
    def setUp(self) -> None:
        # The limit of a worker's memory, in MiB, has room above what it has from its start: what this process has, whatever was tested in it.
        size = int(pathlib.Path("/proc/self/statm").read_text().split()[0]) * resource.getpagesize()
        self.memory = (size >> 20) + 512

    def rows(self, *names: str, seconds: float = 60, grown: int = worker.GROWN) -> list[Row]:
        arguments = worker.options().parse_args(["--seconds", str(seconds), "--memory", str(self.memory)])
        changed = mock.patch.multiple(worker, GRACE=0.2, GROWN=grown)
        with changed, mock.patch.object(pipeline, "ask", ask), contextlib.closing(worker.Workers(arguments)) as workers:
            return [workers.row(worker.Drawing(number, f"/tmp/{name}", 0, 0), "/tmp") for number, name in enumerate(names)]

    def test_one_worker_for_many(self) -> None:
        rows = self.rows("a", "b", "c")
        told = [row["message"].split() for row in rows]
        self.assertEqual({process for process, _ in told}, {told[0][0]})
        self.assertEqual([count for _, count in told], ["1", "2", "3"])
        self.assertEqual([(row["number"], row["status"]) for row in rows], [(0, "refused"), (1, "refused"), (2, "refused")])

    def test_a_drawing_costs_itself_alone(self) -> None:
        told = {"abort": "reading it was ended by SIGABRT", "exit": "reading it ended with status 3", "bomb": f"reading it took more than {self.memory:,} MiB",
                "endless": "reading it took longer than 10 seconds", "leave": "reading it was ended by SIGABRT"}
        for name, message in told.items():
            # The limit is that of the others too, which may wait for a processor.
            before, spiteful, *behind = self.rows("a", name, "b", "c", seconds=10 if name == "endless" else 600)
            self.assertEqual((spiteful["status"], spiteful["message"]), ("failed", message))
            self.assertEqual([row["status"] for row in (before, *behind)], ["refused"] * 3)
            # Those behind it have a worker that has read none but these.
            self.assertEqual([row["message"].split()[1] for row in behind], ["1", "2"])
            self.assertNotEqual(before["message"].split()[0], behind[0]["message"].split()[0])

    def test_nothing_is_left_of_what_a_drawing_began(self) -> None:
        self.rows("leave", "a")
        end, left = time.monotonic() + 60, b"asked"
        while left and time.monotonic() < end:
            left = subprocess.run(["pgrep", "-f", f"^sleep {ASLEEP}$"], capture_output=True).stdout
        self.assertEqual(left, b"")

    def test_a_worker_that_grew_is_replaced(self) -> None:
        # Each message tells how many drawings the worker has read: what a drawing held is gone with its worker alone.
        self.assertEqual([row["message"].split()[1] for row in self.rows("hold", "b", grown=1 << 25)], ["2", "1"])
        self.assertEqual([row["message"].split()[1] for row in self.rows("hold", "b", grown=1 << 28)], ["2", "3"])

    def test_what_fails_behind_others_is_asked_again(self) -> None:
        rows = self.rows("a", "stale", "b")
        self.assertEqual([row["status"] for row in rows], ["refused"] * 3)
        self.assertEqual([row["message"].split()[1] for row in rows], ["1", "1", "2"])


@needs_module("ezdxf", "python3-ezdxf")
@needs_program()
class Order(unittest.TestCase):
    def rows(self, files: Sequence[pathlib.Path], room: str) -> dict[int, Row]:
        """The rows of files, but for their times; each has the number that it has among all."""
        words = ["--nodes", "2000", "--program", str(program.find()), *([] if takes_limits() else ["--memory", "0"])]
        drawings = [worker.Drawing(FILES.index(file), str(file), file.stat().st_size, file.stat().st_mtime_ns) for file in files]
        rows = {row["number"]: row for row in worker.rows_of(worker.text_of(words, drawings).splitlines(), room)}
        for row in rows.values():
            del row["seconds"], row["record"]["seconds"]
        return rows

    def test_the_same_rows_in_any_order_and_alone(self) -> None:
        with tempfile.TemporaryDirectory() as room:
            rows = self.rows(FILES, room)
            self.assertEqual(set(rows), set(range(len(FILES))))
            self.assertEqual({row["status"] for row in rows.values()}, {0, 1})
            self.assertEqual(json.dumps(self.rows(FILES[::-1], room), sort_keys=True), json.dumps(rows, sort_keys=True))
            for number, file in enumerate(FILES):
                self.assertEqual(self.rows([file], room), {number: rows[number]})


FILES = [*sorted(EXAMPLES.glob("*.dxf")), *sorted((EXAMPLES / "sheets").glob("*.dxf"))]
