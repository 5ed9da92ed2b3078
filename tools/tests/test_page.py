"""What a page holds and says; page_check opens pages in a browser."""
import itertools
import pathlib
import re
import subprocess
import tempfile
import unittest
from collections import Counter

from drafting.core.messages import Refused
from drafting.dxf.drawing import Origin, content_of, lines_of, lines_within, origin_of, passed_over, views_of, written
from drafting.live.search import Event, solids_event
from drafting.recon.blocks import Blocks, blocks_in
from drafting.render import page

from .made import lines_of_runs, runs, voids
from .support import EXAMPLES, TOOLS, draft, needs_module, needs_program

LINE = "0\nLINE\n8\n{}\n6\n{}\n10\n{}\n20\n{}\n11\n{}\n21\n{}\n"


def drawing(*lines: str, header: str = "") -> list[str]:
    head = f"0\nSECTION\n2\nHEADER\n{header}0\nENDSEC\n" if header else ""
    return lines_within((head + "0\nSECTION\n2\nENTITIES\n" + "".join(lines) + "0\nENDSEC\n0\nEOF\n").encode())


def rectangle(layer: str, x: int, y: int, size: int, linetype: str = "CONTINUOUS") -> str:
    corners = [(x, y), (x + size, y), (x + size, y + size), (x, y + size), (x, y)]
    return "".join(LINE.format(layer, linetype, *start, *end) for start, end in itertools.pairwise(corners))


CUBE = [rectangle("FRONT", 0, 0, 3), rectangle("TOP", 0, 9, 3), rectangle("SIDE", 9, 0, 3)]


class Pages(unittest.TestCase):
    def told(self, lines: list[str], text: str, its: Blocks | None = None) -> list[Event]:
        return list(page.answer_told(lines, text, its))

    def made(self, lines: list[str], text: str, its: Blocks | None = None) -> str:
        return page.page("part.dxf", self.told(lines, text, its), 64)

    def test_an_answer_of_another_drawing_is_refused(self) -> None:
        lines = lines_of(str(EXAMPLES / "quartered_cube.dxf"))
        with self.assertRaisesRegex(Refused, "drawing"):
            self.told(lines, (EXAMPLES / "eight_voids.txt").read_text(), blocks_in((EXAMPLES / "quartered_cube_blocks.txt").read_text()))

    def test_choices_are_told_by_four_blocks(self) -> None:
        self.assertEqual(solids_event(["10010", "00001"])["choices"], ["90", "08"])

    @unittest.skipUnless((page.THREE / "three.min.js").exists(), "apt-get install libjs-three")
    def test_the_page_has_its_own_scripts_alone(self) -> None:
        """Their hashes stand in its policy; and as they are joined, no two modules have one name for something."""
        text = self.made(drawing(*CUBE), "whole 0 nodes 1 blocks 1\n")
        policy = re.search(r'Content-Security-Policy" content="([^"]*)"', text)[1]  # type: ignore[index]
        self.assertNotIn("unsafe", policy)
        self.assertEqual(policy.count("'sha256-"), len(re.findall(r"<script(?: type=.module.)?>|<style>", text)))
        known: dict[str, str] = {}
        page.modules("table", known)
        names = re.findall(r"^(?:export )?(?:async )?(?:function|const|let|class) (\w+)", "\n".join(known.values()), re.M)
        self.assertEqual([name for name, count in Counter(names).items() if count > 1], [])
        self.assertIsNone(re.search(r"^(import|export) ", page.joined("table"), re.M))

    @needs_program()
    @needs_module("ezdxf", "python3-ezdxf")
    def test_a_file_of_a_short_name_is_told_as_it_is(self) -> None:
        """`draft follow a` and `draft page a` speak of nothing else that has an a."""
        with tempfile.TemporaryDirectory() as folder:
            pathlib.Path(folder, "a").write_text("\n".join(drawing(rectangle("0", 0, 0, 3))))
            for command in ("follow", "page"):
                ended = subprocess.run([TOOLS / "draft", command, "a"], cwd=folder, capture_output=True, text=True)
                self.assertIn("there is no way to take three of these as FRONT, TOP and SIDE", ended.stdout + ended.stderr)

    @needs_program()
    def test_a_choice_that_is_no_solid_is_refused(self) -> None:
        with tempfile.TemporaryDirectory() as folder:
            out = pathlib.Path(folder, "x.stl")
            for choice, words in (("0" * 9, "hasn't the views"), ("01", "9"), ("2" * 9, "hasn't the views")):
                ended = draft("chosen", EXAMPLES / "eight_voids.dxf", choice, out)
                self.assertEqual((ended.status, words in ended.said, out.exists()), (1, True, False), ended.said)

    def test_a_linetype_without_a_meaning(self) -> None:
        odd = LINE.format("FRONT", "ZIGZAG", 1, 0, 1, 3)
        lines = drawing(odd, *CUBE)
        text = self.made(lines, "fault F12 Linetype line 5\n")
        self.assertIn("of linetype ZIGZAG", text)
        named = re.search(r"<pre>(.*?)</pre>", text, re.S)[1]  # type: ignore[index]
        self.assertEqual([row.split()[0] for row in re.sub("<[^>]*>", "", named).splitlines()], [str(it) for it in range(5, 19)])
        self.assertEqual(text.count('class="unknown"'), 1)

    def test_an_empty_view_names_the_layers(self) -> None:
        lines = drawing(rectangle("A", 0, 0, 3), rectangle("B", 0, 9, 3))
        self.assertIn("lines are on A (4), B (4)", self.made(lines, "fault F14 EmptyView view FRONT\n"))

    @unittest.skipUnless((page.THREE / "three.min.js").exists(), "apt-get install libjs-three")
    def test_sizes_have_units(self) -> None:
        told = self.made(drawing(*CUBE, header="9\n$INSUNITS\n70\n4\n"), (EXAMPLES / "unit_cube.txt").read_text().replace("1", "3").replace(
            "whole 3 nodes 2 blocks 3", "whole 1 nodes 2 blocks 1").replace("solid 3 choice 3 volume 3 faces 6", "solid 1 choice 1 volume 27 faces 6"), blocks_in("blocks 1\nx 0 3\ny 0 3\nz 0 3\nrow 0\n"))
        self.assertIn("FRONT 3 mm × 3 mm; TOP 3 mm × 3 mm; SIDE 3 mm × 3 mm", told)
        self.assertIn('"units":{"per":["1","1"],"unit":"mm"}', told)

    def test_the_unit_is_that_of_the_header(self) -> None:
        grid = voids(1)
        text = written(lines_of_runs(grid, runs(grid)), 1, Origin("mm"))
        self.assertEqual(origin_of(lines_within(text.encode())), Origin("mm"))

    def test_comments_are_those_before_the_entities(self) -> None:
        header = "999\na\n0\nSECTION\n2\nHEADER\n999\nb\n0\nENDSEC\n"
        entities = "0\nSECTION\n2\nENTITIES\n999\nc\n0\nENDSEC\n0\nEOF\n"
        for text, comments in ((header + entities, [(1, "a"), (7, "b")]), (header + "0\nEOF\n999\nd\n", [(1, "a"), (7, "b")]),
                               ("999\na\nno code\nb\n" + header, [(1, "a")]), (entities, []), ("", [])):
            self.assertEqual(content_of(lines_within(text.encode())).comments, comments)

    def test_views_are_those_of_the_lines_that_are_asked_about(self) -> None:
        large, small = drawing(rectangle("FRONT", 0, 0, 2)), drawing(rectangle("FRONT", 0, 0, 1))
        for lines, reach in ((large, 2), (small, 1), (large, 2)):
            self.assertEqual(max(line.end for line in views_of(lines)["FRONT"]), (reach, reach))

    def test_what_lies_within_the_views_and_is_not_read(self) -> None:
        lines = drawing(*CUBE, rectangle("HIDDEN", 1, 1, 1), rectangle("HIDDEN", 40, 40, 1), "0\nCIRCLE\n8\nHOLES\n10\n5\n20\n1\n40\n2.5\n",
                        "0\nTEXT\n8\nNOTES\n10\n1\n20\n1\n1\nA\n", "0\nINSERT\n8\nX\n2\nB\n10\n10\n20\n1\n")
        self.assertEqual(dict(passed_over(lines)), {("HIDDEN", "LINE"): 4, ("HOLES", "CIRCLE"): 1, ("X", "INSERT"): 1})
