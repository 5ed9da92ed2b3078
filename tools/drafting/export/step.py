"""Makes each solid that recon lists for a drawing or a sheet from its faces, and saves it in millimetres: of SHAPE.step the first as
SHAPE_1.step, the second as SHAPE_2.step, and so on; as BREP where the name ends in .brep. A drawing that tells no unit is taken to be
in millimetres, which is told. It writes for each solid the file, the volume in the drawing's unit, and how many parts and voids it has. Nothing is saved, and the status is 1, where the drawing has a fault or some solid
isn't closed or hasn't the volume that is told. Of a sheet with rounds those solids are saved that are kept once they are rounded back.

Parts that touch along an edge or at a corner alone are kept apart, each closed, which triangles can't tell.
"""
import argparse
import pathlib
from fractions import Fraction
from typing import Any, NamedTuple

from ..core.messages import Refused, many, say, write_result
from ..dxf.drawing import MILLIMETRES, Origin, lines_of, origin_of, views_of
from ..explain.settle import of_first_reading, settled_by
from ..messages import verdict as in_words
from ..messages.controls import command, option
from ..projection.draw import Sheet, sheet_of
from ..recon import faults, process
from ..recon.answer import FAULT, Answer, Solid, answer_of, text_of, turned_back
from ..rounds.features import given_in
from ..rounds.verify import Kept
from ..solve import pipeline
from ..solve.verdict import verdict_of

NAME = "step"
HELP = "save the solids of a drawing or a sheet as STEP or BREP files, by FreeCAD"


def add_arguments(parser: argparse.ArgumentParser) -> None:
    parser.add_argument("drawing", metavar="FILE.dxf")
    parser.add_argument("shape", metavar="SHAPE.step", help="the name of which the files' names are made, .step or .brep")
    parser.add_argument("--only", type=int, metavar="K", help="the solid that is saved, alone")
    parser.add_argument("--answer", metavar="ANSWER", help="what recon solve wrote for it as it is; - for standard input")
    pipeline.add_arguments(parser)


class Shape(NamedTuple):
    """A solid as it is saved: its shape, in the drawing's unit, and its volume, as it is told."""

    shape: Any
    volume: str


def warn_ambiguous(count: int, answer: Answer, sheet: Sheet) -> None:
    """Of several solids it is told that one alone is the part, and what would settle the drawing, where that tells these apart."""
    if count > 1:
        told_apart = len({it.choice for it in answer.solids}) == count
        way = settled_by(answer, sheet) if told_apart else "squared off it doesn't tell them apart"
        say(f"draft step: warning: the drawing is ambiguous: {many(count, 'solid')} have its views, and one alone is the part; {way}"
            + (f" ({command('settle', 'meant K')} says how)" if told_apart else ""))


class Shapes(NamedTuple):
    """The first line of an answer, the shapes that are saved of it by their numbers, how many solids it has, and the drawing's unit."""

    head: str
    shapes: dict[int, Shape]
    listed: int
    unit: str


def given_shapes(arguments: argparse.Namespace) -> Shapes:
    """The shapes of an answer that is given."""
    lines = lines_of(arguments.drawing)
    answer, origin = answer_of(text_of(arguments.answer)), origin_of(lines)
    answer = turned_back(answer) if origin.mirrored else answer
    if FAULT.fullmatch(answer.head):
        raise Refused("; ".join(faults.told(answer.head, lines)))
    if given_in(lines):
        raise Refused("the drawing is squared off: its solids are rounded back where the answer isn't given")
    warn_ambiguous(len(answer.solids), answer, sheet_of(views_of(lines), answer.decimals))
    solids = dict(enumerate(answer.solids, 1))
    return Shapes(answer.head, plain_shapes(solids, origin.times * 10**answer.decimals, arguments.only), len(solids), origin.unit)


def asked_of(arguments: argparse.Namespace) -> pipeline.Asked:
    """What the program says; refused where that is no whole list."""
    asked = pipeline.ask(arguments.drawing, arguments, lambda note: say(f"draft step: {note}"))
    head = asked.run.text.partition("\n")[0]
    if FAULT.fullmatch(head):
        raise Refused("; ".join(faults.told(head, asked.lines)))
    if asked.run.status != process.WHOLE:
        raise Refused(f"the search was cut, {head}: raise the limit, or have a cut answer saved by {option('answer')}")
    return asked


def of_kept(one: Kept, origin: Origin) -> Any:
    """The shape of a solid that is rounded back, in the sheet's unit, and as it is where the drawing shows it in a mirror."""
    from ..cad.rounded_shapes import turned_round
    shape = turned_round(one.shape) if origin.mirrored else one.shape
    return shape.scale(float(1 / origin.times))


def of_solid(solid: Solid, per_unit: Fraction) -> Any:
    """The shape of a solid without rounds, of which one unit of the sheet has so many."""
    from ..cad.freecad import Part
    from ..cad.shells import shape_of
    try:
        shape = shape_of(solid)
    except Part.OCCError as failure:
        raise Refused(str(failure)) from None
    return shape.scale(float(1 / per_unit)) if per_unit != 1 else shape


def rounded_shapes(asked: pipeline.Asked) -> dict[int, Shape]:
    """The shapes of a sheet with rounds."""
    assert asked.rounds
    its = verdict_of(asked)
    told = [*in_words.reasons(its), *in_words.details(asked.rounds)]
    if not asked.kept:
        raise Refused(" ".join([in_words.headline(its), *told]))
    for text in told:
        say(f"draft step: {text}")
    answer = asked.answer()._replace(solids=of_first_reading(asked))
    warn_ambiguous(len(asked.kept), turned_back(answer) if asked.origin.mirrored else answer, asked.sheet())
    shapes = {}
    for number, one in enumerate(asked.kept, 1):
        shapes[number] = Shape(of_kept(one, asked.origin), asked.rounded_volume(one).removesuffix(asked.cubic()).strip())
    return shapes


def plain_shapes(solids: dict[int, Solid], per_unit: Fraction, only: int | None) -> dict[int, Shape]:
    """The shapes of solids without rounds."""
    shapes = {}
    for number in [only] if only in solids else solids:
        try:
            shape = of_solid(solids[number], per_unit)
        except Refused as refusal:
            raise Refused(f"solid {number}: {refusal}") from None
        shapes[number] = Shape(shape, pipeline.measure(solids[number].volume / per_unit**3, "").replace(",", ""))
    return shapes


def shapes_of(arguments: argparse.Namespace) -> Shapes:
    """The shapes of the solids that the program lists."""
    asked = asked_of(arguments)
    unit = asked.origin.unit
    if asked.rounds:
        shapes = rounded_shapes(asked)
        return Shapes(f"{many(len(shapes), 'solid')}. {in_words.scope(asked.rounds)}", shapes, len(shapes), unit)
    answer = asked.answer()
    warn_ambiguous(len(answer.solids), answer, asked.sheet())
    solids = dict(enumerate(answer.solids, 1))
    return Shapes(asked.run.text.partition("\n")[0], plain_shapes(solids, asked.per_unit(), arguments.only), len(solids), unit)


def run(arguments: argparse.Namespace) -> int:
    from ..cad.freecad import is_shape_file, save
    if not is_shape_file(arguments.shape):
        raise Refused(f"{arguments.shape} ends neither in .step nor in .brep")
    made = given_shapes(arguments) if arguments.answer else shapes_of(arguments)
    if arguments.only is not None and arguments.only not in made.shapes:
        raise Refused(f"there is no solid {arguments.only}: {many(made.listed, 'solid')} of this drawing")
    if made.unit != "mm":
        say("draft step: " + (f"lengths in the files are millimetres, {float(MILLIMETRES[made.unit]):.9g} to the {made.unit}" if made.unit else
                              f"no unit of length is told: millimetres are taken; {option('unit')} says another one of a sheet"))
    rows = [made.head]
    path = pathlib.Path(arguments.shape)
    for number, one in made.shapes.items():
        if arguments.only in (None, number):
            file = str(path.with_name(f"{path.stem}_{number}{path.suffix}"))
            save(one.shape, file, made.unit)
            parts = len(one.shape.Solids)
            rows.append(f"{file} volume {one.volume} parts {parts} voids {len(one.shape.Shells) - parts}")
    write_result("".join(f"{row}\n" for row in rows), None)
    return 0
