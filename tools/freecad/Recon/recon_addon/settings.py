"""What the page of preferences keeps, and what is taken where nothing is said there."""
import os
import pathlib
import shutil
import sys

import FreeCAD

from . import FOLDER
from .words import translate

PREFERENCES = FreeCAD.ParamGet("User parameter:BaseApp/Preferences/Mod/Recon")
# Where this addon stands in a copy of the repository, and where the package puts the modules and the program.
BESIDE, PACKAGED = FOLDER.parent.parent.parent, pathlib.Path("/usr/lib/python3/dist-packages")
SOLIDS = 50
# What says to the modules of `draft` where is shown what they tell.
TOLD_ON = "DRAFT_TOLD_ON"


class Lacking(Exception):
    """Something that the addon stands on isn't there."""


def tools() -> str:
    """The folder in which the modules of `draft` are."""
    said = PREFERENCES.GetString("Tools", "")
    for folder in [pathlib.Path(said)] if said else [BESIDE, PACKAGED]:
        if (folder / "drafting" / "cli" / "commands.py").is_file():
            return str(folder)
    raise Lacking(translate("Recon", "The modules of draft aren't in {}: name their folder in the preferences, Recon.", said or PACKAGED))


def program() -> list[str]:
    """The words that name the program recon; none where `draft` finds it by itself."""
    said = PREFERENCES.GetString("Program", "")
    if said and not os.access(said, os.X_OK):
        raise Lacking(translate("Recon", "{} is no program that may be run: name recon in the preferences, Recon.", said))
    return ["--program", said] if said else []


def python() -> str:
    """The program that runs the process that asks."""
    said = PREFERENCES.GetString("Python", "") or "/usr/bin/python3"
    found = shutil.which(said)
    if not found:
        raise Lacking(translate("Recon", "{} isn't there: name a Python 3 in the preferences, Recon.", said))
    return found


def solids() -> int:
    """How many solids are listed at most."""
    return int(PREFERENCES.GetInt("Solids", SOLIDS))


def with_tools() -> None:
    """Has this process find the modules of `draft`, which tell by the controls of the panel."""
    os.environ[TOLD_ON] = "panel"
    folder = tools()
    if folder not in sys.path:
        sys.path.append(folder)
