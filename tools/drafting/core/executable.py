"""How `draft` starts itself: this Python with this package, here and on other machines that have both at the same paths."""
import os
import pathlib
import site
import sys

FOLDER = pathlib.Path(__file__).resolve().parents[2]


def is_installed() -> bool:
    """Whether this Python finds the package without being told where it is."""
    return str(FOLDER) in [*site.getsitepackages(), site.getusersitepackages()]


def words(*more: object, module: str = "drafting") -> list[str]:
    """The words of a command of `draft`, or of a module of it. By -P nothing is imported from the folder in which it runs, where a drawing's json.py may lie."""
    python = [sys.executable, "-P", "-m", module, *map(str, more)]
    if is_installed():
        return python
    folders = dict.fromkeys([str(FOLDER), *filter(None, os.environ.get("PYTHONPATH", "").split(os.pathsep))])
    return ["env", f"PYTHONPATH={os.pathsep.join(folders)}", *python]
