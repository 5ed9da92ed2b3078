"""Writes the boundary of one solid of a drawing or a sheet as triangles, ASCII STL, in the drawing's unit, as recon's `stl` writes it.

Where two parts of a solid touch along an edge alone four triangles meet at that edge, and such a text isn't closed to programs that
join two and two: this is told, and `draft step` writes each part with a closed shell of its own.
"""
import argparse
import re
from collections.abc import Iterator
from fractions import Fraction

from ..cli import clean
from ..core.messages import Refused, many, say, write_result
from ..dxf.drawing import written
from ..projection.sections import strokes_in_all
from ..recon import process
from ..rounds import verify
from ..rounds.features import given_in
from ..solve import pipeline
from .triangles import edges_of, triangles_of

NAME = "stl"
HELP = "write the boundary of a solid as triangles"


def add_arguments(parser: argparse.ArgumentParser) -> None:
    parser.add_argument("drawing", metavar="IN.dxf")
    parser.add_argument("solid", metavar="K", nargs="?", type=int, default=1, help="the solid that is written (else 1)")
    parser.add_argument("-o", "--output", metavar="OUT.stl", help="the file to write, else standard output")
    pipeline.add_arguments(parser)


def in_unit(text: str, per_unit: Fraction) -> str:
    """The text with its vertices in the sheet's unit."""
    def coordinate(told: str) -> str:
        value = int(told) / per_unit
        return str(value.numerator) if value.denominator == 1 else repr(float(value))

    def vertex(match: re.Match[str]) -> str:
        return "vertex " + " ".join(map(coordinate, match[1].split()))

    return text if per_unit == 1 else re.sub(r"^vertex (.*)$", vertex, text, flags=re.M)


def turned_round(text: str) -> str:
    """The text of the solid in the mirror, x turned round: of each triangle the last two corners change places."""
    width = max(int(x) for x in re.findall(r"^vertex (-?\d+)", text, re.M))
    text = re.sub(r"^facet normal (-?\d+)", lambda match: f"facet normal {-int(match[1])}", text, flags=re.M)
    text = re.sub(r"^vertex (-?\d+)", lambda match: f"vertex {width - int(match[1])}", text, flags=re.M)
    return re.sub(r"^(vertex .*\n)(vertex .*\n)(vertex .*\n)", r"\1\3\2", text, flags=re.M)


def of_rounds(asked: pipeline.Asked, number: int) -> str:
    """The triangles of a solid with rounds: each circle as a prism of so many sides at least, by the least one's chord height."""
    from ..cad.rounded_shapes import turned_round as in_a_mirror
    from ..cad.meshes import fineness
    if not 1 <= number <= len(asked.kept):
        cause = asked.rounds.cause if asked.rounds else []
        raise Refused(" ".join([f"there is no solid {number}: {many(len(asked.kept), 'solid')} of this sheet are kept.", *cause]))
    one, given = asked.kept[number - 1], given_in(asked.lines)
    if one.shape is None or given is None:
        raise Refused(verify.LACKING)
    shape = in_a_mirror(one.shape) if asked.origin.mirrored else one.shape
    times = float(asked.origin.times)
    points, triangles = shape.scale(1 / times).tessellate(fineness(given) / times)
    rows = ["solid rounded"]
    for corners in ([points[at] for at in triangle] for triangle in triangles):
        normal = (corners[1] - corners[0]).cross(corners[2] - corners[0])
        if normal.Length > 0:
            rows += ["facet normal {:.9g} {:.9g} {:.9g}".format(*normal.normalize()), "outer loop"]
            rows += ["vertex {:.9g} {:.9g} {:.9g}".format(*corner) for corner in corners] + ["endloop", "endfacet"]
    return "\n".join([*rows, "endsolid rounded"]) + "\n"


def corners_of(text: str) -> Iterator[list[list[float]]]:
    """The corners of each triangle of a text."""
    corners = [[float(it) for it in told.split()] for told in re.findall(r"^vertex (.*)$", text, re.M)]
    return (corners[at:at + 3] for at in range(0, len(corners), 3))


def of_recon(asked: pipeline.Asked, number: int, arguments: argparse.Namespace) -> str:
    """recon's triangles of a solid without rounds, in its units: it writes those of drawings without decimals, and so it is given the same
    drawing in whole units. With --sections it goes by the solids that show further views too, as `solve` lists them."""
    strokes = strokes_in_all(asked.lines, asked.decimals, arguments.sections)
    words = ["stl", number, *pipeline.views_words(asked.lines), process.SECTIONS, *pipeline.words_of(arguments)]
    made = process.run(process.find(arguments.program), words, written(strokes, 0).encode(), arguments.seconds)
    if made.status != process.WHOLE:
        raise Refused(f"recon writes no triangles of its own drawing: {made.text[:80].strip()}")
    return turned_round(made.text) if asked.origin.mirrored else made.text


def run(arguments: argparse.Namespace) -> int:
    asked = clean.redrawn(arguments, lambda note: say(f"draft stl: {note}"))
    if asked.origin.unit not in ("", "mm"):
        say(f"draft stl: warning: lengths are in {asked.origin.unit}, and an STL file tells no unit: printers take millimetres")
    if asked.rounds:
        from ..cad.meshes import SIDES
        text = of_rounds(asked, arguments.solid)
        say(f"draft stl: circles have {SIDES} sides at least: the triangles enclose less than a boss, and leave more of a hole")
        write_result(text, arguments.output)
        return 0
    text = of_recon(asked, arguments.solid, arguments)
    twice = sum(count > 1 for count in edges_of(triangles_of(text)).values()) // 2
    if twice:
        say(f"draft stl: warning: at {many(twice, 'edge')} four triangles meet, since parts touch there along an edge alone: admesh, OpenSCAD "
            "and others hold such a text not to be closed; `draft step` keeps the parts apart")
    write_result(in_unit(text, asked.per_unit()), arguments.output)
    return 0
