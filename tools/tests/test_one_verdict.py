"""One verdict, told in five places: the command line, JSON, a table, a page and FreeCAD's panel say the same of a drawing."""
import csv
import io
import json
import pathlib
import re
import shutil
import subprocess
import sys
import tempfile
import unittest
from typing import Any

from drafting.core.verdict import Kind

from .support import EXAMPLES, TOOLS, Ended, draft, needs_command, needs_module, needs_program
from .tables import words_of

# A drawing, what is said of it, and the verdict with the status of `draft solve`; of sheets with rounds FreeCAD restores these.
ROWS: tuple[tuple[str, tuple[str, ...], Kind, int], ...] = (
    ("clevis.dxf", (), Kind.UNIQUE, 0), ("quartered_cube.dxf", (), Kind.AMBIGUOUS, 0), ("quartered_cube_half_hidden.dxf", (), Kind.IMPOSSIBLE, 0),
    ("bracket_cut.dxf", (), Kind.NOT_READ, 1), ("sheets/clevis_sheet.dxf", (), Kind.UNIQUE, 0), ("sheets/rounded_bracket.dxf", (), Kind.UNIQUE, 0),
    ("sheets/step_of_two_views.dxf", (), Kind.AMBIGUOUS, 0), ("quartered_cube.dxf", ("--solids", "2"), Kind.NOT_DECIDED, 4),
)
PANEL = TOOLS / "freecad" / "Recon" / "recon_addon" / "asked.py"


@needs_program()
@needs_module("ezdxf", "python3-ezdxf")
@needs_module("FreeCAD", "freecad-python3", "/usr/lib/freecad-python3/lib")
class OneVerdict(unittest.TestCase):
    def test_the_command_line_json_the_page_and_the_panel_say_the_same(self) -> None:
        for name, words, kind, status in ROWS:
            with self.subTest(name, words=words):
                told, record = self.told_by_solve(name, words)
                self.assertEqual((told.status, record["kind"]), (status, kind.value))
                if kind is not Kind.NOT_READ:
                    self.assertTrue(told.out.startswith(record["message"]), told.out)
                for place in (self.headline_of_page(name, words), self.headline_of_panel(name, words)):
                    # Of a fault the page has the rest below; the panel adds what leaves it open to the sentence.
                    length = min(len(place), len(record["message"]))
                    self.assertGreater(length, 30)
                    self.assertEqual(place[:length].rstrip("."), record["message"][:length].rstrip("."))

    def told_by_solve(self, name: str, words: tuple[str, ...]) -> tuple[Ended, dict[str, Any]]:
        """The run of `draft solve`, and the verdict in its JSON, which has the same status."""
        told, as_json = draft("solve", EXAMPLES / name, *words), draft("solve", "--json", "--no-faces", EXAMPLES / name, *words)
        self.assertEqual(told.status, as_json.status)
        return told, json.loads(as_json.out)["verdict"]

    def headline_of_page(self, name: str, words: tuple[str, ...]) -> str:
        """The word and the sentence of the page's end, as one line."""
        end = next(it for line in draft("follow", "--runs", 1, "--search", 1, EXAMPLES / name, *words).out.splitlines() if (it := json.loads(line))["kind"] == "end")
        found = re.search('<p class="word">(.*?)</p><p class="count">(.*?)</p>', end["html"])
        assert found
        return f"{found[1]}: {found[2][0].lower()}{found[2][1:].rstrip('.')}"

    def headline_of_panel(self, name: str, words: tuple[str, ...]) -> str:
        """The word and the sentence that FreeCAD's panel is told."""
        with tempfile.TemporaryDirectory() as folder:
            command = [sys.executable, str(PANEL), str(TOOLS), str(EXAMPLES / name), folder, *words]
            # It ends with its input, which stays open here until all is told.
            with subprocess.Popen(command, stdin=subprocess.PIPE, stdout=subprocess.PIPE, stderr=subprocess.DEVNULL, text=True) as run:
                assert run.stdout
                events = [json.loads(line) for line in run.stdout if line.startswith("{")]
        if refused := next((it["refused"] for it in events if "refused" in it), None):
            return f"Not read: {refused}"
        its = next(it for it in events if "verdict" in it)
        return f"{its['word']}: {its['sentence'][0].lower()}{its['sentence'][1:]}"

    @needs_command("parallel", "parallel")
    def test_a_table_says_the_same(self) -> None:
        with tempfile.TemporaryDirectory() as folder:
            for name, words, *_ in ROWS:
                if not words:
                    shutil.copy(EXAMPLES / name, folder)
            ended = subprocess.run(words_of(folder), capture_output=True)
            rows = {row["file"]: row["verdict"] for row in csv.DictReader(io.StringIO(ended.stdout.decode(), newline=""))}
        self.assertEqual(rows, {pathlib.Path(name).name: kind.value for name, words, kind, _ in ROWS if not words})
        self.assertEqual(ended.returncode, 15)
