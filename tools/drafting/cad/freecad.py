"""What commands over FreeCAD share: its modules, and the files of shapes. Only what needs them imports this.

FreeCAD runs without a window. On Debian it is `apt-get install --no-install-recommends freecad-python3`, whose modules are for
/usr/bin/python3, which the first line of `draft` names. For a FreeCAD elsewhere PYTHONPATH names the folder of its modules, and
its own Python runs `draft`. Tried with FreeCAD 0.20.2, OpenCASCADE 7.6.3 and Python 3.11.
"""
import pathlib
import sys

from ..core.messages import Refused
from ..dxf.drawing import MILLIMETRES

# Where FreeCAD's packages put its modules.
sys.path += ["/usr/lib/freecad-python3/lib", "/usr/lib/freecad/lib", "/usr/lib64/freecad/lib"]
# What objects of documents are made by, PartDesign's bodies among them: without these a document opens, and lacks them.
MODULES = ("/usr/share/freecad/Mod", "/usr/lib/freecad/Mod", "/usr/lib64/freecad/Mod")
sys.path += [path for root in map(pathlib.Path, MODULES) if root.is_dir() for path in map(str, [root, *sorted(root.glob("*/"))]) if path not in sys.path]
try:
    import FreeCAD
    import Part
    import TechDraw
except ImportError as missing:
    version = ".".join(map(str, sys.version_info[:2]))
    raise Refused(
        f"FreeCAD's modules aren't there for Python {version} of {sys.executable} ({missing}):"
        " apt-get install --no-install-recommends freecad-python3, or name their folder in PYTHONPATH"
    ) from None

__all__ = ["FreeCAD", "Part", "TechDraw", "is_shape_file", "load", "save"]

STEP, BREP = (".step", ".stp"), (".brep", ".brp")


def is_shape_file(path: str) -> bool:
    return pathlib.Path(path).suffix.lower() in STEP + BREP


def load(path: str) -> Part.Shape:
    """The shape of a STEP or BREP file."""
    shape = Part.Shape()
    try:
        shape.read(path)
    except (OSError, RuntimeError):
        raise Refused(f"{path}: not there, or not what its ending says") from None
    if shape.isNull():
        raise Refused(f"{path}: no shape in it")
    return shape


def save(shape: Part.Shape, path: str, unit: str) -> None:
    """Writes the shape, whose lengths are in a unit that a drawing tells, as STEP or BREP, as the path ends. Lengths in the file are
    millimetres, as those of STEP are told to be and FreeCAD takes those of BREP; where a drawing tells no unit they stay as they are."""
    if unit not in ("", "mm"):
        shape = shape.scaled(float(MILLIMETRES[unit]))
    write = shape.exportStep if pathlib.Path(path).suffix.lower() in STEP else shape.exportBrep
    try:
        write(path)
    except (OSError, RuntimeError):
        raise Refused(f"{path}: can't be written") from None
