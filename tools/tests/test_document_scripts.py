"""The scripts that look after the documents: what they find, and what they pass over."""
import contextlib
import importlib.machinery
import importlib.util
import io
import os
import pathlib
import subprocess
import sys
import tempfile
import unittest
from types import ModuleType
from unittest import mock

from .support import TOOLS


def script(name: str) -> ModuleType:
    """A script of docs/ as a module."""
    loader = importlib.machinery.SourceFileLoader(f"docs_{name}", str(TOOLS.parent / "docs" / name))
    spec = importlib.util.spec_from_loader(loader.name, loader)
    assert spec
    module = importlib.util.module_from_spec(spec)
    with mock.patch.object(sys, "dont_write_bytecode", True):
        loader.exec_module(module)
    return module


PAGE = """\
# A page

```console
$ echo one; echo two
one
{second}
$ printf '%s\\n' a b c d > letters
$ cat letters
a
..
d
```

```console needs=root
$ rm letters
```

```console
$ apt-get install -y nothing && cat letters | head -n 1
a
```
"""


class Commands(unittest.TestCase):
    def setUp(self) -> None:
        self.script = script("commands")
        room = tempfile.TemporaryDirectory()
        self.addCleanup(room.cleanup)
        self.room = pathlib.Path(room.name)

    def run_page(self, text: str) -> tuple[str, int, dict[str, int], list[str]]:
        """A page's text as its commands write it anew, how many ran, what was left out, and the commands that differ."""
        (self.room / "README.md").write_text(text)
        with mock.patch.object(self.script, "TOP", self.room), mock.patch.dict(os.environ, RECON="/bin/cat"):
            pages = self.script.Pages(is_long=False)
            written = pages.run("README.md")
        return written, pages.count, dict(pages.left_out), [it.command.words for it in pages.differences]

    def test_what_a_page_shows_is_compared(self) -> None:
        text = PAGE.format(second="two")
        left_out = {"README.md: root": 1, "README.md: apt-get install -y nothing": 1}
        self.assertEqual(self.run_page(text), (text, 4, left_out, []))

    def test_another_output_differs_and_is_written_anew(self) -> None:
        written, _, _, differ = self.run_page(PAGE.format(second="three"))
        self.assertEqual((written, differ), (PAGE.format(second="two"), ["echo one; echo two"]))

    def test_two_points_stand_for_any_lines(self) -> None:
        for shown, output, wanted in (("a ..", "a b c", True), ("a ..", "a", True), (".. c", "a b c", True), ("a .. c", "a b d", False),
                                      ("a", "a b", False), ("", "a", False), ("", "", True), ("a .. b .. d", "a x b y d", True)):
            self.assertEqual(self.script.is_shown(shown.split(), output.split()), wanted, (shown, output))

    def test_an_output_is_shortened_as_it_was(self) -> None:
        for shown, output, wanted in (("a .. z", "b c d e", "b .. e"), ("a ..", "b c d", "b .."), (".. z", "b c", ".. c"), ("a b .. z", "x y z", "x y z"),
                                      ("a .. z", "a q z", "a .. z"), ("a b", "c", "c")):
            self.assertEqual(self.script.as_shown(shown.split(), output.split()), wanted.split(), (shown, output))

    def test_a_package_that_is_not_there_is_named(self) -> None:
        text = "```console needs=no-such-package\n$ false\n```\n"
        self.assertEqual(self.run_page(text), (text, 0, {"README.md: no-such-package": 1}, []))


class Avoided(unittest.TestCase):
    def setUp(self) -> None:
        self.script = script("avoided")

    def words(self, kind: str, text: str) -> list[tuple[int, str]]:
        find = {"md": self.script.in_page, "py": self.script.in_python, "js": self.script.in_script}[kind]
        return [(place.line, place.word) for place in find(f"a.{kind}", text)]

    def test_prose_is_looked_through_and_code_is_not(self) -> None:
        text = "It is told.\n\n    it stands\n\n`kept` and [such](kept.md)\n\n| Told | by which |\n\n```\ncomes\n```\nIt comes.\n"
        self.assertEqual(self.words("md", text), [(1, "told"), (5, "such"), (7, "told"), (7, "by which"), (12, "comes")])

    def test_messages_and_heads_count_and_other_comments_do_not(self) -> None:
        text = '"""A head that tells."""\n\n\ndef told() -> str:\n    """What is told."""\n    return f"{told} is kept"  # such\n'
        self.assertEqual(self.words("py", text), [(1, "tells"), (6, "kept")])
        self.assertEqual(self.words("js", 'const told = "is kept"; // such\nsay(`it ${told} stands`);\n'), [(1, "kept"), (2, "told"), (2, "stands")])

    def test_the_count_may_only_fall(self) -> None:
        with tempfile.TemporaryDirectory() as folder:
            top = pathlib.Path(folder)
            subprocess.run(["git", "init", "-q", folder], check=True)
            (top / "docs").mkdir()

            def ended(text: str, *words: str) -> tuple[str, str]:
                (top / "README.md").write_text(text)
                out = io.StringIO()
                with mock.patch.multiple(self.script, TOP=top, COUNT=top / "docs" / "count"), mock.patch.object(sys, "argv", ["avoided", *words]):
                    try:
                        with contextlib.redirect_stdout(out):
                            self.script.main()
                    except SystemExit as stop:
                        return str(stop.code), out.getvalue()
                return "", out.getvalue()

            self.assertEqual(ended("told, kept\n", "--write"), ("", ""))
            self.assertEqual((top / "docs" / "count").read_text(), "2\n")
            self.assertEqual(ended("told, kept\n"), ("", ""))
            self.assertTrue(ended("told, kept, told\n")[0].startswith("3 words that should be avoided, and there were 2: "))
            self.assertTrue(ended("told, kept, told\n", "--write")[0].startswith("3 words"))
            self.assertIn("1, fewer than the 2", ended("told\n")[1])
            self.assertEqual(ended("told\n", "--write"), ("", ""))
            self.assertEqual((top / "docs" / "count").read_text(), "1\n")
            self.assertEqual(ended("told\n", "--list")[1], "README.md:1: told\n")


SOURCE = """\
//! A head.

ghost use Rattle.std.specs.Prelude.{IfOk,
    IsErrOf};

use std::alloc::Global;

/// What it is for.
pub fn one(alloc: Global) -> Result<u8, Memory>
    requires few { 1 ≤ 2 }
    ensures { IfOk result (λ one.
        one ≡ 1) }
{
    // why
    Ok(1)
}

impl Counted {
    ghost view = { λ s. record {
        a = s.a;
    } };
}
"""


class Counts(unittest.TestCase):
    def test_lines_of_code_and_of_clauses_are_counted_apart(self) -> None:
        self.assertEqual(script("excerpts").lines_of_source(SOURCE), (7, 3))

    def test_a_row_of_the_table_of_passes_is_filled(self) -> None:
        excerpts = script("excerpts")
        row = "| the run | [`run`](../crates/run) | a → b | `Ends` | law | 0 | 1,000 | 0 |"
        with mock.patch.object(excerpts, "counts_of", {"run": (1022, 249, 3762)}.__getitem__):
            filled = excerpts.PASS.sub(excerpts.counted_pass, row)
        self.assertEqual(filled, "| the run | [`run`](../crates/run) | a → b | `Ends` | law | 1,022 | 249 | 3,762 |")


class Definitions(unittest.TestCase):
    def test_the_types_that_definitions_name_are_printed(self) -> None:
        out = io.StringIO()
        rests_on = script("rests_on")
        with contextlib.redirect_stdout(out):
            rests_on.printed(rests_on.asked_for("AreFittingSolids"))
        for name in ("pub struct Cut ", "pub struct Layer ", "pub enum Style ", "pub struct Cell ", "abbrev pub Matches "):
            self.assertIn(name, out.getvalue())
        self.assertNotIn("pub enum Fault ", out.getvalue())
