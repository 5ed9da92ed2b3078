"""What `draft why` says of drawings with mistakes: the change that was made is among those that it tells."""
import contextlib
import importlib.util
import io
import pathlib
import random
import sys
import tempfile
import unittest
from collections.abc import Callable
from typing import Any, NamedTuple

from drafting.dxf.drawing import lines_of, views_of
from drafting.explain import why
from drafting.projection.draw import Grid, grid_of, sheet_of
from drafting.recon import process

from .made import MISTAKES, Canon, Run, canon, drawn, file_of, painted, random_cuts, random_solid, runs
from .support import EXAMPLES, draft, needs_command, needs_program

# Where Debian's package puts FreeCAD's modules.
FREECAD = ("/usr/lib/freecad-python3/lib", "/usr/lib/freecad/lib")
Mistake = Callable[[random.Random, Grid, list[Run]], list[Run]]
LIMITS = why.Limits(processes=1)


def needs_freecad() -> Callable[[Any], Any]:
    there = importlib.util.find_spec("FreeCAD") or any((pathlib.Path(folder) / "FreeCAD.so").exists() for folder in FREECAD)
    return unittest.skipUnless(there, "apt-get install freecad-python3")


class Spoiled(NamedTuple):
    """A drawing with a mistake, as a file, and what it showed before."""

    text: str
    right: Canon


def spoiled(rng: random.Random, right: Grid, mistakes: list[Mistake]) -> Spoiled | None:
    """A drawing with mistakes, unless it shows the same as before."""
    told = runs(right)
    for mistake in mistakes:
        told = mistake(rng, right, told)
    wrong = canon(right, painted(right, told))
    before = canon(right, right.panels)
    return None if wrong == before else Spoiled(file_of(right, told), before)


def has_no_solid(text: str) -> str | None:
    """What the program says of a drawing that no solid has; nothing of another one."""
    head = process.run(process.find(), ["solve", "--solids", 1], text.encode()).text.partition("\n")[0]
    return head if head.startswith("whole 0 ") else None


def suggestions(text: str, head: str, limits: why.Limits = LIMITS) -> tuple[list[str], list[why.Suggestion]]:
    with tempfile.NamedTemporaryFile("w", suffix=".dxf") as file:
        file.write(text)
        file.flush()
        sheet = sheet_of(views_of(lines_of(file.name)), 0)
    with contextlib.redirect_stderr(io.StringIO()):
        return why.looked_at(process.find(), sheet, head, limits)


def shown(one: why.Suggestion) -> Canon:
    return canon(one.placed.grid, {**one.placed.grid.panels, **dict(one.rows)})


def drawn_by_freecad(rng: random.Random) -> list[str]:
    """The lines of a drawing that FreeCAD's TechDraw makes of random boxes."""
    with tempfile.TemporaryDirectory() as folder:
        part, file = pathlib.Path(folder) / "boxes.part", pathlib.Path(folder) / "boxes.dxf"
        boxes = [[sorted(rng.sample(range(6), 2)) for _ in range(3)] for _ in range(rng.randint(2, 6))]
        words = ["add", *rng.choices(("add", "cut"), k=len(boxes) - 1)]
        corners = ((word, *(low for low, _ in box), *(high for _, high in box)) for word, box in zip(words, boxes))
        part.write_text("".join(" ".join(map(str, row)) + "\n" for row in corners))
        ended = draft("views", part, "--output", file)
        if ended.status:
            # What is cut off may be all that there was.
            return drawn_by_freecad(rng)
        return lines_of(str(file))


class Tally:
    """How many drawings were looked at, and of how many the change is the only one told."""

    def __init__(self, what: str) -> None:
        self.what, self.drawings, self.only, self.told = what, 0, 0, 0

    def add(self, found: list[why.Suggestion]) -> None:
        self.drawings += 1
        self.only += len(found) == 1
        self.told += len(found)

    def print(self) -> None:
        print(
            f"{self.what}: {self.drawings} drawings without solids; the change that was made is the only one told in {self.only},"
            f" and {self.told} changes are told in all", file=sys.stderr,
        )


@needs_program()
class Why(unittest.TestCase):
    def test_the_change_that_was_made_is_told(self) -> None:
        rng = random.Random(64)
        for mistake in MISTAKES:
            tally = Tally(f"random solids, one line {mistake.__name__}")
            while tally.drawings < 25:
                cells = random_solid(rng, rng.randint(2, 7), rng.randint(2, 7))
                made = spoiled(rng, drawn(cells, random_cuts(rng, cells)), [mistake])
                head = made and has_no_solid(made.text)
                if made and head:
                    rows, found = suggestions(made.text, head)
                    self.assertIn(made.right, map(shown, found), (rows, made.text))
                    tally.add(found)
            tally.print()

    @needs_freecad()
    def test_parts_from_freecad(self) -> None:
        rng = random.Random(68)
        tally = Tally("parts from FreeCAD, one line dropped, flipped, added or moved")
        while tally.drawings < 20:
            right = grid_of(sheet_of(views_of(drawn_by_freecad(rng)), 0))
            made = spoiled(rng, right, [MISTAKES[tally.drawings % 4]])
            head = made and has_no_solid(made.text)
            if made and head:
                rows, found = suggestions(made.text, head)
                self.assertIn(made.right, map(shown, found), (rows, made.text))
                tally.add(found)
        tally.print()

    def test_words_and_lines_of_the_file(self) -> None:
        ended = draft("why", EXAMPLES / "quartered_cube_half_hidden.dxf")
        self.assertEqual(ended.status, 0, ended.said)
        self.assertEqual(ended.out.splitlines()[1:], [
            "TOP (0, 1) to (1, 1) (line 185 of the file): drawn solid; dashed would give 1 solid",
            "TOP (1, 1) to (1, 2) (line 221 of the file): drawn dashed; solid would give 3 solids",
        ])

    def test_the_changed_drawing_is_written(self) -> None:
        with tempfile.TemporaryDirectory() as folder:
            out = pathlib.Path(folder) / "out.dxf"
            ended = draft("why", EXAMPLES / "quartered_cube_half_hidden.dxf", "--write", out, "--take", 2)
            self.assertEqual(ended.status, 0, ended.said)
            run = process.run(process.find(), ["solve"], out.read_bytes())
            self.assertTrue(run.text.startswith("whole 3 "))
            self.assertEqual(draft("why", out).out, "Nothing is wrong: 3 solids have these views.\n")
            ended = draft("why", EXAMPLES / "quartered_cube_half_hidden.dxf", "--write", out, "--take", 3)
            self.assertEqual(ended.status, 1)

    def test_the_picture_of_the_readme(self) -> None:
        with tempfile.TemporaryDirectory() as folder:
            out = pathlib.Path(folder) / "out.svg"
            ended = draft("why", EXAMPLES / "quartered_cube_half_hidden.dxf", "--picture", out, "--take", 2)
            self.assertEqual(ended.status, 0, ended.said)
            self.assertEqual(out.read_text(), (EXAMPLES.parent / "docs" / "why.svg").read_text())

    def test_a_fault_comes_first(self) -> None:
        ended = draft("why", EXAMPLES / "bracket_cut.dxf")
        self.assertEqual((ended.status, ended.out), (1, ""))
        self.assertIn("fault F3 NoValue line 305", ended.said)

    def test_decimals(self) -> None:
        text = (EXAMPLES / "fractions.dxf").read_text()
        dashed = text.replace("FRONT\n100\nAcDbLine", "FRONT\n  6\nHIDDEN\n100\nAcDbLine", 1)
        self.assertNotEqual(text, dashed)
        with tempfile.NamedTemporaryFile("w", suffix=".dxf") as file:
            file.write(dashed)
            file.flush()
            ended = draft("why", file.name)
        self.assertEqual(ended.status, 0, ended.said)
        self.assertIn("FRONT (0, 6.25) to (40, 6.25) (line 37 of the file): drawn dashed; solid would give 1 solid\n", ended.out)

    @needs_command("clingo", "gringo")
    def test_several_mistakes(self) -> None:
        """A least change is told, and the program lists solids of each drawing that is."""
        rng = random.Random(65)
        count = 0
        while count < 10:
            cells = random_solid(rng, 4, 4)
            right = drawn(cells, random_cuts(rng, cells))
            made = spoiled(rng, right, rng.choices(MISTAKES[:2], k=2 + count % 2))
            head = made and has_no_solid(made.text)
            if not made or not head:
                continue
            rows, found = suggestions(made.text, head)
            told = "\n".join(rows)
            self.assertTrue(found, told)
            self.assertTrue(all(one.outcome.count or one.outcome.more for one in found), told)
            if "The least change" in told:
                count += 1


if __name__ == "__main__":
    unittest.main()
