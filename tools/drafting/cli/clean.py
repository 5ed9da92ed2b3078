"""Draws a drawing, or a sheet, anew: the drawing of one of its solids as recon writes it, one line for each edge, and with a table of
linetypes and layers, which recon leaves out and other programs ask for before they draw HIDDEN dashed. It is read back here, line by
line, from what the program writes. recon writes the three main views; further ones and sections, which the solid fits, are those of the
drawing.
"""
import argparse

from ..core.messages import Refused, many, say, write_result
from ..core.notes import Tell
from ..dxf.drawing import Stroke, lines_within, places_of, strokes_in, written
from ..messages.controls import option
from ..projection.draw import strokes_shown
from ..projection.sections import Layer, Section, layer_of, shown_in
from ..recon import faults, process
from ..solve import pipeline

NAME = "clean"
HELP = "draw a drawing or a sheet anew, one line for each edge"


def add_arguments(parser: argparse.ArgumentParser) -> None:
    parser.add_argument("drawing", metavar="IN.dxf")
    parser.add_argument("solid", metavar="K", nargs="?", type=int, default=1, help="the solid whose drawing is written (else 1)")
    parser.add_argument("-o", "--output", metavar="OUT.dxf", help="the file to write, else standard output")
    pipeline.add_arguments(parser)


def redrawn(arguments: argparse.Namespace, say_it: Tell) -> pipeline.Asked:
    """What recon redraws of a solid; refused where there is none, but for a sheet with rounds, whose solids are rounded back."""
    asked = pipeline.ask(arguments.drawing, arguments, say_it, ("redraw", arguments.solid))
    if asked.rounds:
        return asked
    head = asked.run.text.partition("\n")[0]
    if asked.run.status == process.FAULT:
        raise Refused("; ".join(faults.told(head, asked.lines)))
    if asked.run.status == process.NO_SUCH_SOLID:
        raise Refused(f"there is no solid {arguments.solid}: {many(int(head.split()[-1]), 'solid')} of this drawing")
    if asked.run.status != process.WHOLE:
        raise Refused(f"the search was cut, {head}: raise the limit by {option(head.split()[1])}")
    return asked


# Between the views that recon writes, in units.
GAP = 10


def with_further(asked: pipeline.Asked, with_sections: bool) -> dict[str, list[Stroke]]:
    """The strokes of the drawing that recon redraws, and beside them those of the further views and below them those of the sections, a line
    for each run."""
    strokes = strokes_in(lines_within(asked.run.text.encode()), asked.decimals)
    further = shown_in(asked.lines, asked.decimals, with_sections)
    (width, height), (_, depth) = (
        (max(end[axis] for _, *ends in strokes[view] for end in ends) - min(end[axis] for _, *ends in strokes[view] for end in ends)
         for axis in (0, 1)) for view in ("FRONT", "TOP")
    )
    places: dict[Layer, tuple[int, int]] = dict(places_of(width, depth, height, GAP).items())
    right, low = 0, -2 * (depth + GAP) - height
    for layer in further:
        if isinstance(layer, Section):
            places[layer] = right, low
            right += max(width, depth) + GAP
    return {**strokes, **{layer_of(layer, asked.decimals): strokes_shown(shown, *places[layer]) for layer, shown in further.items()}}


def run(arguments: argparse.Namespace) -> int:
    asked = redrawn(arguments, lambda note: say(f"draft clean: {note}"))
    if asked.rounds:
        raise Refused("a sheet with rounds or chamfers isn't drawn anew: `draft sheet` writes it squared off")
    strokes = with_further(asked, arguments.sections)
    say(f"draft clean: {many(sum(map(len, strokes.values())), 'line')}, read with {option('decimals', str(asked.decimals))}")
    write_result(written(strokes, asked.decimals, asked.origin), arguments.output)
    return 0
