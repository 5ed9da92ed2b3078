"""The commands' arguments, statuses and streams."""
import pathlib
import subprocess
import sys
import tempfile
import unittest

from drafting.cli import commands

from .support import EXAMPLES, TOOLS, draft


class Command(unittest.TestCase):
    def test_help_and_version_are_what_is_asked(self) -> None:
        for words, begins in ((["--help"], "usage: draft"), (["--version"], "draft "), (["page", "--help"], "usage: draft page")):
            ended = draft(*words)
            self.assertEqual((ended.status, ended.said), (0, ""), words)
            self.assertTrue(ended.out.startswith(begins), ended.out)

    def test_help_fits_eighty_columns(self) -> None:
        for name in ("", *commands.MODULES):
            ended = draft(*([name] if name else []), "--help")
            self.assertEqual([line for line in ended.out.splitlines() if len(line) > 80], [], name)

    def test_arguments_that_are_not_taken(self) -> None:
        for line in ("", "pge", "page", "page --frobnicate x", "--vers"):
            words = line.split()
            ended = draft(*words)
            self.assertEqual((ended.status, ended.out), (2, ""), words)
            self.assertIn("usage:", ended.said)

    def test_a_refusal_is_one_line_and_writes_no_result(self) -> None:
        with tempfile.TemporaryDirectory() as folder:
            out = pathlib.Path(folder) / "out.html"
            ended = draft("page", EXAMPLES / "bracket.dxf", EXAMPLES / "bracket.dxf", "--output", out)
            self.assertEqual((ended.status, ended.out, list(pathlib.Path(folder).iterdir())), (1, "", []))
            self.assertRegex(ended.said, r"\Adraft page: no answer of recon solve[^\n]*\n\Z")
            ended = draft("page", pathlib.Path(folder) / "none.dxf", EXAMPLES / "bracket.txt", "--output", out)
            self.assertEqual((ended.status, ended.out), (1, ""))
            self.assertIn("none.dxf: No such file or directory", ended.said)

    def test_a_part_of_python_that_is_not_there_is_named(self) -> None:
        """As with python3-minimal alone, in which a module that is imported is none."""
        for name in ("shlex", "json"):
            block = f"import runpy, sys; sys.modules[{name!r}] = None; sys.argv[1:] = ['table', '--help']; runpy.run_path({str(TOOLS / 'draft')!r})"
            ended = subprocess.run([sys.executable, "-c", block], capture_output=True, text=True)
            told = f"draft: a part of Python isn't there, {name}: apt-get install python3\n"
            self.assertEqual((ended.returncode, ended.stdout, ended.stderr), (1, "", told))

    def test_a_result_goes_into_a_file(self) -> None:
        with tempfile.TemporaryDirectory() as folder:
            out = pathlib.Path(folder) / "out.svg"
            ended = draft("picture", EXAMPLES / "bracket.dxf", EXAMPLES / "bracket.txt", "--output", out)
            self.assertEqual(ended, (0, "", ""))
            self.assertEqual(out.read_text(), draft("picture", EXAMPLES / "bracket.dxf", EXAMPLES / "bracket.txt").out)

    def test_what_is_no_drawing_gives_no_page_and_no_picture(self) -> None:
        """A file that is empty or something else is refused, also with the program's fault as its answer; of what has no view nothing is drawn."""
        rows = {"empty": (b"", "is empty"), "text": (b"hello\nworld\n", "is no DXF file"), "picture": (b"\x89PNG\r\n\x1a\n\0", "is a PNG picture"),
                "no_view": (b"0\nSECTION\n2\nENTITIES\n0\nENDSEC\n0\nEOF\n", "no line is on the layer FRONT, TOP or SIDE")}
        with tempfile.TemporaryDirectory() as folder:
            fault = pathlib.Path(folder) / "fault.txt"
            fault.write_text("fault F4 NoEof line 1\n")
            for name, (data, words) in rows.items():
                file = pathlib.Path(folder) / f"{name}.dxf"
                file.write_bytes(data)
                for name_of, *more in (("picture",), ("picture", fault), ("page", fault)):
                    if (name, name_of) == ("no_view", "page"):
                        continue
                    with self.subTest(name, command=name_of, more=more):
                        ended = draft(name_of, file, *more)
                        self.assertEqual((ended.status, ended.out), (1, ""), ended.said)
                        self.assertIn(words, ended.said)
