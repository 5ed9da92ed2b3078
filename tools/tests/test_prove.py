"""`draft prove` writes logs that others take, and `draft check` says yes or what is wrong, of drawings and of sheets."""
import pathlib
import subprocess
import sys
import tempfile
import unittest

from drafting.cli import check
from drafting.recon import process

from .support import EXAMPLES, TOOLS, draft, needs_module, needs_program

try:
    from . import sheets
except ImportError:
    sheets = None  # type: ignore[assignment]

YES = {0: "Yes: no solid has these views.\n", 1: "Yes: one solid has these views, and no other.\n",
       3: "Yes: 3 solids have these views, and no others.\n"}


class InAFolder(unittest.TestCase):
    def setUp(self) -> None:
        folder = tempfile.TemporaryDirectory()
        self.addCleanup(folder.cleanup)
        self.folder = pathlib.Path(folder.name)
        self.log, self.drawn = self.folder / "log", self.folder / "drawn.dxf"

    def proved(self, file: pathlib.Path, *words: object) -> str:
        """Has a log and its drawing written, and sees that check_log.py, which knows no sheets, says yes to them; what it said."""
        ended = draft("prove", file, "--output", self.log, "--drawing", self.drawn, *words)
        self.assertEqual((ended.status, ended.out), (0, ""), (file, ended.said))
        command = [sys.executable, str(TOOLS / "check_log.py")]
        judged = subprocess.run(command, input=self.drawn.read_bytes() + self.log.read_bytes(), capture_output=True)
        self.assertEqual((judged.returncode, judged.stderr.count(b"\n")), (0, 1), (file, judged.stdout[:80], judged.stderr))
        return judged.stdout.decode()

    def checked(self, file: pathlib.Path, *words: object) -> str:
        ended = draft("check", file, self.log, *words)
        self.assertEqual(ended.status, 0, (file, ended.said))
        return ended.out


@needs_program()
class Drawings(InAFolder):
    def test_examples(self) -> None:
        for name, count in (("quartered_cube", 3), ("bracket", 1), ("untidy", 1), ("quartered_cube_half_hidden", 0)):
            file = EXAMPLES / f"{name}.dxf"
            rows = file.with_suffix(".txt").read_text().splitlines()
            choices = [f"choice {row.split()[3]}" for row in rows if row.startswith("solid ")]
            self.assertEqual(self.proved(file).splitlines(), [f"yes {count}", *choices])
            self.assertEqual(self.checked(file), YES[count])
            self.assertEqual(self.drawn.read_bytes(), file.read_bytes())

    def test_decimals_become_whole(self) -> None:
        file = EXAMPLES / "fractions.dxf"
        self.assertTrue(self.proved(file).startswith("yes 1\n"))
        self.assertIn("999\ndraft times 1000\n", self.drawn.read_text())
        self.assertEqual([self.checked(it) for it in (file, self.drawn)], [YES[1]] * 2)

    def test_what_stands_behind_the_end_is_no_part_of_it(self) -> None:
        text = (EXAMPLES / "quartered_cube.dxf").read_bytes()
        self.proved(EXAMPLES / "quartered_cube.dxf")
        file = self.folder / "longer.dxf"
        for more in (text.removesuffix(b"\n"), text + b"log 1 blocks 8\nsolid\n", text + b"\0"):
            file.write_bytes(more)
            self.assertEqual(self.checked(file), YES[3])
            self.proved(file)

    def test_a_log_from_standard_input(self) -> None:
        self.proved(EXAMPLES / "bracket.dxf")
        ended = draft("check", EXAMPLES / "bracket.dxf", "-", data=self.log.read_bytes())
        self.assertEqual((ended.status, ended.out), (0, YES[1]))

    def test_a_cut_search_and_a_fault_write_nothing(self) -> None:
        for word, status in (("--solids", 4), ("--nodes", 3)):
            ended = draft("prove", EXAMPLES / "quartered_cube.dxf", word, 1, "--output", self.log, "--drawing", self.drawn)
            self.assertEqual((ended.status, ended.out), (status, ""))
            self.assertIn(f"no log is written, since the search was cut at its limit of 1 {word[2:]}: raise it by {word}", ended.said)
        for command in (("prove",), ("check", EXAMPLES / "bracket.txt")):
            ended = draft(command[0], EXAMPLES / "bracket_cut.dxf", *command[1:])
            self.assertEqual((ended.status, ended.out), (1, ""))
            self.assertIn("(fault F3 NoValue line 305)", ended.said)
        self.assertEqual(list(self.folder.iterdir()), [])


@needs_program()
class WrongLogs(InAFolder):
    """Logs of the quartered cube with something changed."""

    FILE = EXAMPLES / "quartered_cube.dxf"

    def setUp(self) -> None:
        super().setUp()
        self.proved(self.FILE)
        self.lines = self.log.read_text().splitlines()

    def refused(self, lines: list[str], *words: str) -> None:
        self.log.write_text("".join(f"{line}\n" for line in lines))
        ended = draft("check", self.FILE, self.log)
        self.assertEqual((ended.status, ended.out), (process.NO_LOG, ""), ended.said)
        for text in words:
            self.assertIn(text, ended.said)

    def test_each_kind(self) -> None:
        solid, end = self.lines.index("solid"), len(self.lines) - 1
        self.assertEqual(self.lines[1], "split 0")
        for at, line, kind, words in (
            (0, "log 1 blocks 9", "G1 BadLine", "it may be the log of another drawing"), (2, "solids", "G1 BadLine", "none of the forms"),
            (2, "split 0", "G2 BadBlock", "decided there already"), (2, "split 8", "G2 BadBlock", "the drawing doesn't have"),
            (1, "fail front l 0 0", "G3 Unproved", "doesn't show what is claimed"), (1, "solid", "G4 Unsolid", "some block isn't decided"),
            (end, "end 4", "G6 BadCount", "another number of solids"),
        ):
            said = f"line {at + 1} of the log is refused (log {kind} line {at + 1}): {line!r}"
            self.refused([*self.lines[:at], line, *self.lines[at + 1:]], said, words)
        self.refused(self.lines[:solid], f"(log G7 Short line {solid + 1})\n", "ends before its `end`")
        self.refused([*self.lines, "solid"], f"(log G8 Long line {end + 2}): 'solid'", "behind the log's end")
        self.refused([f"{line}\r" for line in self.lines], "'log 1 blocks 8\\r'")

    def test_where_the_line_of_the_grid_lies(self) -> None:
        # The bracket's grid has y 0, 30, 40 and z 0, 10, 50; TOP begins at (100, 170) on its sheet, SIDE at (180, 100). In
        # fractions.dxf y is 0, 19.25, 25.5 and z 0, 6.25, 30.125, and SIDE begins at (62.5, 0).
        for name, line, place in (
            ("bracket", "fail top l 1 0", "TOP (100, 200) to (160, 200)"),
            ("bracket", "force 0 0 side u 1 1", "SIDE (210, 110) to (210, 150)"),
            ("fractions", "fail side u 1 0", "SIDE (81.75, 0) to (81.75, 6.25)"),
        ):
            self.log.write_text(f"log 1 blocks 1\n{line}\n")
            ended = draft("check", EXAMPLES / f"{name}.dxf", self.log)
            self.assertEqual(ended.status, process.NO_LOG)
            self.assertIn(f"the line of the grid is {place}\n", ended.said)
        self.refused([self.lines[0], "fail front l 3 0"], "a line of the grid that isn't there")

    def test_the_log_of_another_drawing(self) -> None:
        self.log.write_text("log 1 blocks 1\nforce 0 1 front l 0 0\nsolid\nend 1\n")
        self.assertEqual(draft("check", self.FILE, self.log).status, process.NO_LOG)
        self.assertEqual(draft("check", EXAMPLES / "unit_cube.dxf", self.log).status, 0)

    def test_every_kind_has_words(self) -> None:
        self.assertEqual([kind[:2] for kind in check.WORDS], [f"G{number}" for number in range(1, 9)])

    def test_no_log(self) -> None:
        for data in (b"", b"\xff\n", b"\0" * 1000, b"0\nSECTION\n"):
            self.log.write_bytes(data)
            ended = draft("check", self.FILE, self.log)
            self.assertEqual((ended.status, ended.out), (process.NO_LOG, ""))
        ended = draft("check", self.FILE, self.folder / "none")
        self.assertEqual((ended.status, ended.out), (1, ""))
        self.assertIn("none: No such file or directory", ended.said)


@needs_module("ezdxf", "python3-ezdxf")
@needs_program()
class Sheets(InAFolder):
    def test_sheets(self) -> None:
        views = sheets.views_in(EXAMPLES / "clevis.dxf")
        maker = sheets.Maker(self.folder, views)
        made = {it.file.stem: it for kind in ("strokes", "placings") for it in getattr(maker, kind)()}
        for name in ("inches_in_sixteenths", "thirds", "third_angle_left_view"):
            file = made[name].file
            self.assertTrue(self.proved(file).startswith("yes 1\n"), name)
            self.assertEqual([self.checked(it) for it in (file, self.drawn)], [YES[1]] * 2, name)

    def test_it_is_said_that_the_log_goes_with_another_file(self) -> None:
        file = next(sheets.Maker(self.folder, sheets.views_in(EXAMPLES / "bracket.dxf")).styles()).file
        ended = draft("prove", file)
        self.assertEqual(ended.status, 0, ended.said)
        self.assertTrue(ended.out.startswith("log 1 blocks 1\n") and ended.out.endswith("end 1\n"))
        self.assertIn("the log is of a drawing that --drawing would write", ended.said)


if __name__ == "__main__":
    unittest.main()
