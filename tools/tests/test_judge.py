"""`draft judge` takes right answers, and refuses those that were changed."""
import pathlib
import random
import re
import tempfile
import unittest

from drafting.recon import process

from .made import drawn, file_of, random_cuts, random_solid, scattered
from .support import EXAMPLES, Ended, draft, needs_command, needs_program


def solids_in(answer: str) -> list[str]:
    """The texts of an answer's solids."""
    return re.split(r"(?m)^(?=solid )", answer)[1:]


def answer_with(answer: str, solids: list[str]) -> str:
    """The answer with other solids, numbered anew, and their count in its first line."""
    head = re.sub(r"^whole \d+", f"whole {len(solids)}", answer.partition("\n")[0])
    return "\n".join([head, *(re.sub(r"^solid \d+", f"solid {number}", it.rstrip("\n")) for number, it in enumerate(solids, 1)), ""])


@needs_command("clingo", "gringo")
@needs_program()
class Judge(unittest.TestCase):
    def setUp(self) -> None:
        folder = tempfile.TemporaryDirectory()
        self.addCleanup(folder.cleanup)
        self.file, self.answer = (pathlib.Path(folder.name) / name for name in ("drawing.dxf", "answer.txt"))

    def judged(self, drawing: str, answer: str) -> Ended:
        self.file.write_text(drawing)
        self.answer.write_text(answer)
        return draft("judge", self.file, self.answer)

    def test_the_examples(self) -> None:
        for drawing in sorted(EXAMPLES.glob("*.dxf")):
            answer = drawing.with_suffix(".txt")
            if not answer.exists():
                continue
            ended = draft("judge", drawing, answer)
            if answer.read_text().startswith("fault"):
                self.assertEqual((ended.status, ended.out), (1, ""), drawing)
            else:
                self.assertEqual(ended.status, 0, (drawing, ended.said))
                self.assertTrue(ended.out.startswith("The same: "), (drawing, ended.out))
        ended = draft("judge", EXAMPLES / "fractions.dxf", EXAMPLES / "fractions_in_thousandths.txt")
        self.assertEqual(ended.status, 0, ended.said)

    def test_answers_that_were_changed(self) -> None:
        for name in ("quartered_cube", "eight_voids"):
            drawing, answer = (EXAMPLES / f"{name}{end}" for end in (".dxf", ".txt"))
            right = answer.read_text()
            solids = solids_in(right)
            moved = re.sub(r"(?m)(?<=[ ,])1(?=,)", "0", solids[0], count=2)
            for what, changed in (
                ("dropped", solids[:1] + solids[2:]), ("doubled", [*solids[:2], *solids[1:]]), ("twice in place of one", [solids[0], *solids[:1], *solids[2:]]),
                ("out of order", [solids[1], solids[0], *solids[2:]]), ("changed", [moved, *solids[1:]]),
            ):
                ended = self.judged(drawing.read_text(), answer_with(right, changed))
                self.assertEqual((ended.status, ended.out), (1, ""), (name, what))
                self.assertIn("difference" if what != "changed" else "judge", ended.said, (name, what))

    def test_the_answer_to_another_drawing(self) -> None:
        ended = draft("judge", EXAMPLES / "unit_cube.dxf", EXAMPLES / "bracket.txt")
        self.assertEqual((ended.status, ended.out), (1, ""))
        ended = draft("judge", EXAMPLES / "quartered_cube_half_hidden.dxf", EXAMPLES / "quartered_cube.txt")
        self.assertEqual((ended.status, ended.out), (1, ""))

    def test_random_drawings(self) -> None:
        rng = random.Random(67)
        for number in range(60):
            if number % 2:
                cells = random_solid(rng, rng.randint(2, 6), rng.randint(2, 8))
            else:
                cells = scattered(rng, (rng.randint(1, 3), rng.randint(1, 3), rng.randint(1, 3)), 0.6)
            drawing = file_of(drawn(cells, random_cuts(rng, cells)))
            answer = process.run(process.find(), ["solve", "--solids", 200], drawing.encode()).text
            ended = self.judged(drawing, answer)
            self.assertEqual(ended.status, 0, (number, ended.said, sorted(cells)))
            solids = solids_in(answer)
            if len(solids) > 1 and answer.startswith("whole"):
                lost = rng.randrange(len(solids))
                ended = self.judged(drawing, answer_with(answer, solids[:lost] + solids[lost + 1:]))
                self.assertEqual(ended.status, 1, (number, sorted(cells)))

    def test_an_answer_that_was_cut(self) -> None:
        answer = process.run(process.find(), ["solve", "--solids", 5], (EXAMPLES / "eight_voids.dxf").read_bytes()).text
        ended = self.judged((EXAMPLES / "eight_voids.dxf").read_text(), answer)
        self.assertEqual((ended.status, ended.out[:20]), (0, "The answer was cut. "), ended.said)


if __name__ == "__main__":
    unittest.main()
