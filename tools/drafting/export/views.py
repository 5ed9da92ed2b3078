"""Draws the three views of a shape as a drawing for recon, and further views that are asked for: of a STEP file (.step, .stp), a BREP
file (.brep, .brp), or else of a text of boxes, each line of which adds a box or cuts one off, by its least and its greatest corner;
what follows a # is a comment:

    add 0 0 0 60 40 10
    cut 20 10 0 30 20 10

FreeCAD's TechDraw projects the shape. A shape is refused where it has no solid, a face that isn't parallel to a view plane, or
a corner that has more decimals.
"""
import argparse

from ..core.messages import write_result
from ..dxf.drawing import FURTHER

NAME = "views"
HELP = "draw the three views of a shape: STEP, BREP or a text of boxes"


def add_arguments(parser: argparse.ArgumentParser) -> None:
    parser.add_argument("shape", metavar="SHAPE")
    parser.add_argument("--decimals", type=int, choices=range(7), default=0, help="how many decimals its coordinates have")
    parser.add_argument("--further", action="append", default=[], choices=FURTHER, help="a further view, which the drawing has too")
    parser.add_argument("-o", "--output", metavar="OUT.dxf", help="the file to write, else standard output")


def run(arguments: argparse.Namespace) -> int:
    from ..cad.project import drawing_of
    write_result(drawing_of(arguments.shape, arguments.decimals, dict.fromkeys(arguments.further)), arguments.output)
    return 0
