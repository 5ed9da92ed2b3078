"""The addon in FreeCAD's own window, which is drawn nowhere (QT_QPA_PLATFORM=offscreen): what window.py does step by step. With --long it is
drawn by Xvfb, and with --pictures=FOLDER saved there."""
import importlib.machinery
import importlib.util
import json
import os
import pathlib
import shutil
import subprocess
import tempfile
import unittest
from fractions import Fraction
from typing import Any

from drafting.core.messages import Refused
from drafting.dxf.drawing import Origin, lines_of, strokes_in, written
from drafting.recon import process

from .support import EXAMPLES, TOOLS, needs_command, needs_long, needs_module, needs_program

try:
    from drafting.cad.freecad import Part
    from . import documents
    from .documents import Document, box, corner, quartered, without_a_corner
    missing = ""
except Refused:
    missing = "apt-get install freecad-python3"

PROGRAM = "/usr/lib/freecad/bin/freecad-python3"
ADDON = TOOLS / "freecad" / "Recon"
# The settings of a FreeCAD that begins with this workbench: with the one that it begins with elsewhere it opens a browser.
SETTINGS = """<?xml version="1.0" encoding="UTF-8" standalone="no" ?>
<FCParameters><FCParamGroup Name="Root"><FCParamGroup Name="BaseApp"><FCParamGroup Name="Preferences">
<FCParamGroup Name="General"><FCText Name="AutoloadModule">ReconWorkbench</FCText></FCParamGroup>
<FCParamGroup Name="Document"><FCBool Name="RecoveryEnabled" Value="0"/></FCParamGroup>
</FCParamGroup></FCParamGroup></FCParamGroup></FCParameters>
"""
# Programs in recon's place: one that waits, and says which process it is; one that lists nothing; one that lists another solid.
SCRIPTS = {
    "waits": 'echo $$ > "$RECON_TRIED/begun"\nexec sleep 100000',
    "none": "cat > /dev/null\necho whole 0 nodes 1 blocks 8",
    "another": 'cat > /dev/null\nprintf "whole 1 nodes 1 blocks 8\\n"\ntail -n +2 "$RECON_TRIED/cube.txt"',
}


def make_documents(folder: str) -> None:
    """The documents that are opened."""
    def group(name: str, shape: Any, **told: object) -> None:
        one = Document()
        one.group(one.page(), [one.feature(shape)], **told)  # type: ignore[arg-type]
        one.saved(folder, name)

    group("quartered", quartered("10110110"))
    group("no_hidden", corner(), HardHidden=False)
    group("hole", box(40, 30, 10).fuse(box(10, 30, 20)).cut(Part.makeCylinder(5, 10, documents.vector((25, 15, 0)))).removeSplitter())
    group("perspective", corner(), Perspective=True)
    group("cut_corner", without_a_corner())
    one = Document()
    page, feature = one.page(), one.feature(quartered("10110110"))
    for x, (direction, right) in enumerate((((0, -1, 0), (1, 0, 0)), ((0, 0, 1), (1, 0, 0)), ((1, 0, 0), (0, 1, 0)))):
        one.single(page, [feature], direction, right, X=60 + 60 * x, Y=100)
    one.saved(folder, "singles")
    one = Document()
    page = one.page()
    for shape, label in ((corner(), "Corner"), (box(10, 20, 30), "Block")):
        one.group(page, [one.feature(shape, label)])
    one.saved(folder, "two_parts")
    make_link(folder)


def make_link(folder: str) -> None:
    """A page of a part that another document has."""
    other = Document("Other")
    feature = other.feature(corner())
    other.doc.recompute()
    other.doc.saveAs(f"{folder}/other.FCStd")
    one = Document("Linking")
    one.doc.saveAs(f"{folder}/linking.FCStd")
    link = one.add("App::Link", "Link")
    link.LinkedObject = feature
    one.group(one.page(), [link])
    one.saved(folder, "linking")
    other.close()


def make_drawings(folder: str) -> None:
    for name in ("quartered_cube", "quartered_cube_half_hidden"):
        shutil.copy(EXAMPLES / f"{name}.dxf", folder)
    shutil.copy(EXAMPLES / "unit_cube.txt", f"{folder}/cube.txt")
    views = strokes_in(lines_of(str(EXAMPLES / "unit_cube.dxf")), 0)
    twice = {view: [(dashed, *((2 * x, 2 * y) for x, y in ends)) for dashed, *ends in its] for view, its in views.items()}
    pathlib.Path(folder, "inches.dxf").write_text(written(twice, 0, Origin("in", Fraction(1))))  # type: ignore[arg-type]
    for name, text in SCRIPTS.items():
        script = pathlib.Path(folder, name)
        script.write_text(f"#!/bin/sh\n{text}\n")
        script.chmod(0o755)


def environment(folder: str) -> dict[str, str]:
    """A home of its own, into which the addon is linked as its users do."""
    home, temporary = pathlib.Path(folder, "home"), pathlib.Path(folder, "temporary")
    modules = home / ".local" / "share" / "FreeCAD" / "Mod"
    modules.mkdir(parents=True)
    (modules / "Recon").symlink_to(ADDON)
    (home / ".config" / "FreeCAD").mkdir(parents=True)
    (home / ".config" / "FreeCAD" / "user.cfg").write_text(SETTINGS)
    temporary.mkdir()
    kept = {name: value for name, value in os.environ.items() if not name.startswith(("XDG_", "PYTHON"))}
    return {**kept, "HOME": str(home), "TMPDIR": str(temporary), "RECON": str(process.find()), "RECON_TRIED": folder,
            "QT_QPA_PLATFORM": "offscreen", "QTWEBENGINE_DISABLE_SANDBOX": "1"}


class Words(unittest.TestCase):
    def test_each_text_of_the_addon_is_translated(self) -> None:
        done = subprocess.run([TOOLS / "freecad" / "words"], capture_output=True, text=True)
        self.assertEqual((done.returncode, done.stderr), (0, ""))

    @needs_module("PySide2", "python3-pyside2.qtcore")
    def test_what_is_compiled_is_what_is_translated(self) -> None:
        from PySide2 import QtCore  # type: ignore[import]
        loader = importlib.machinery.SourceFileLoader("words", str(TOOLS / "freecad" / "words"))
        words = importlib.util.module_from_spec(importlib.util.spec_from_loader("words", loader))  # type: ignore[arg-type]
        loader.exec_module(words)
        translator = QtCore.QTranslator()
        self.assertTrue(translator.load(str(ADDON / "Resources" / "translations" / "Recon_de.qm")))
        for (context, text), translation in words.told("de").items():
            self.assertEqual(translator.translate(context, text), translation)


@unittest.skipIf(missing, missing)
@needs_program()
class Window(unittest.TestCase):
    def test_the_addon(self) -> None:
        self.run_in([], {})

    @needs_long()
    @needs_command("Xvfb", "xvfb")
    def test_the_addon_in_a_window_that_is_drawn(self) -> None:
        pictures = os.environ.get("DRAFT_PICTURES", "")
        self.run_in(["xvfb-run", "-a", "-s", "-screen 0 1400x900x24"], {"QT_QPA_PLATFORM": "xcb", "RECON_PICTURES": pictures})

    def run_in(self, around: list[str], more: dict[str, str]) -> None:
        with tempfile.TemporaryDirectory() as folder:
            make_documents(folder)
            make_drawings(folder)
            macro = pathlib.Path(__file__).parent / "window.py"
            done = subprocess.run([*around, PROGRAM, str(macro)], env={**environment(folder), **more}, capture_output=True, cwd=folder, timeout=7200)
            file = pathlib.Path(folder, "told.json")
            self.assertTrue(file.exists(), done.stderr.decode(errors="replace")[-2000:])
            for step, why in json.loads(file.read_text()).items():
                with self.subTest(step):
                    self.assertEqual(why, "")
