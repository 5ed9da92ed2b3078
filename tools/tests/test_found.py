"""Where recon and `draft` are found: in the repository, and in a copy of the package without it, from any folder."""
import os
import pathlib
import shutil
import subprocess
import sys
import tempfile
import unittest

from drafting.core import executable
from drafting.recon import process as program

from .support import EXAMPLES, TOOLS, needs_command, needs_program

# No recon, as its status shows.
OTHER = "#!/bin/sh\ncat > /dev/null\nexit 42\n"


class Found(unittest.TestCase):
    def setUp(self) -> None:
        room = tempfile.TemporaryDirectory()
        self.addCleanup(room.cleanup)
        self.room = pathlib.Path(room.name).resolve()
        # What lies where it runs is a user's, and never imported.
        self.work = self.room / "work"
        self.work.mkdir()
        for name in ("json.py", "drafting.py", "argparse.py"):
            (self.work / name).write_text("raise SystemExit('a user's file was imported')\n")

    def program(self, *parts: str) -> pathlib.Path:
        path = self.room.joinpath(*parts)
        path.parent.mkdir(parents=True, exist_ok=True)
        path.write_text(OTHER)
        path.chmod(0o755)
        return path

    def copied(self, folder: str) -> pathlib.Path:
        target = self.room / folder
        shutil.copytree(TOOLS / "drafting", target / "drafting", ignore=shutil.ignore_patterns("__pycache__"))
        return target

    def ran(self, copy: pathlib.Path, *words: object, path: str = "/usr/bin:/bin", **more: str) -> "subprocess.CompletedProcess[str]":
        others = {name: value for name, value in os.environ.items() if name != "RECON"}
        variables = {**others, "PYTHONPATH": str(copy), "PATH": path, **more}
        command = [sys.executable, "-P", "-m", "drafting", *map(str, words)]
        return subprocess.run(command, capture_output=True, text=True, cwd=self.work, env=variables)

    def test_recon_is_the_named_one_else_the_own_one_else_that_on_the_path(self) -> None:
        named, told, on_path = self.program("named"), self.program("told"), self.program("bin", "recon")
        away, here = self.copied("site"), self.copied("repository/tools")
        own = self.program("repository", "crates", "recon", "out", "recon")
        path = f"/usr/bin:/bin:{on_path.parent}"
        cases: list[tuple[pathlib.Path, list[object], dict[str, str], pathlib.Path]] = [
            (here, ["--program", named], {"RECON": str(told)}, named), (here, [], {"RECON": str(told)}, told), (here, [], {}, own),
            (away, ["--program", named], {"RECON": str(told)}, named), (away, [], {"RECON": str(told)}, told), (away, [], {}, on_path),
        ]
        for copy, words, variables, wanted in cases:
            ended = self.ran(copy, "solve", EXAMPLES / "unit_cube.dxf", *words, path=path, **variables)
            self.assertEqual((ended.returncode, ended.stdout), (1, ""), ended.stderr)
            self.assertIn(f"{wanted} isn't recon, or not as it is known here: status 42", ended.stderr)

    def test_where_recon_is_nowhere_the_ways_to_it_are_told(self) -> None:
        away, here = self.copied("site"), self.copied("repository/tools")
        (self.room / "repository" / "crates" / "recon").mkdir(parents=True)
        for copy, said in ((away, "recon isn't there: apt install ./recon_"), (here, f"recon isn't there: {program.BUILD}; or apt install ./")):
            self.assertIn(said, self.ran(copy, "solve", EXAMPLES / "unit_cube.dxf").stderr)
        named = self.ran(away, "solve", EXAMPLES / "unit_cube.dxf", "--program", "/none")
        told = self.ran(away, "solve", EXAMPLES / "unit_cube.dxf", RECON=str(self.work))
        for ended, who in ((named, "--program"), (told, "RECON")):
            self.assertIn(f", which {who} names, is no program that may be run", ended.stderr)

    def test_draft_starts_itself_from_any_folder(self) -> None:
        ended = subprocess.run(executable.words("--version"), capture_output=True, text=True, cwd=self.work)
        self.assertTrue(ended.stdout.startswith("draft "), ended.stderr)

    @needs_command("parallel", "parallel")
    @needs_program()
    def test_a_copy_makes_a_table(self) -> None:
        copy = self.copied("a folder/site")
        shutil.copy(EXAMPLES / "bracket.dxf", self.work)
        ended = self.ran(copy, "table", self.work, "--csv", "--memory", 0, RECON=str(program.find()))
        self.assertEqual((ended.returncode, "volume 48,000" in ended.stdout), (0, True), ended.stderr)
