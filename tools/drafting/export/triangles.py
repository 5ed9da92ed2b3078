"""Sees that an ASCII STL text on standard input closes, each directed edge being there as often as its reverse, and that it
encloses this volume. Where admesh is installed, and no edge is there twice, that program must find nothing to mend and measure
the same volume: of four triangles at an edge, as where two parts touch along it alone, it joins those that don't belong together.
"""
import argparse
import collections
import re
import shutil
import subprocess
import sys
import tempfile

from ..core.messages import Refused, say

NAME = "triangles"
HELP = "see that an STL text closes and encloses a volume"

VERTEX = re.compile(r"^vertex (-?\d+) (-?\d+) (-?\d+)$", re.M)
FOUND = (
    "Total disconnected facets", "Degenerate facets", "Edges fixed", "Facets removed", "Facets added", "Facets reversed",
    "Backwards edges",
)

Triangle = list[tuple[int, ...]]


def triangles_of(text: str) -> list[Triangle]:
    """The triangles of a text, three corners each."""
    corners = [tuple(map(int, corner)) for corner in VERTEX.findall(text)]
    return [corners[at : at + 3] for at in range(0, len(corners), 3)]


def volume_of(triangles: list[Triangle]) -> int:
    """Six times the volume that they enclose."""
    return sum(
        a[0] * (b[1] * c[2] - b[2] * c[1]) - a[1] * (b[0] * c[2] - b[2] * c[0]) + a[2] * (b[0] * c[1] - b[1] * c[0])
        for a, b, c in triangles
    )


def edges_of(triangles: list[Triangle]) -> collections.Counter[tuple[tuple[int, ...], tuple[int, ...]]]:
    """How often each directed edge is there."""
    return collections.Counter((t[at], t[(at + 1) % 3]) for t in triangles for at in range(3))


def admesh_minds(text: str, volume: int) -> list[str]:
    """What admesh finds to mend in a text, or that it measures another volume."""
    with tempfile.NamedTemporaryFile("w", suffix=".stl") as file:
        file.write(text)
        file.flush()
        told = subprocess.run(["admesh", file.name], capture_output=True, text=True, check=True).stdout
    said = dict(re.findall(r"(\w[\w ]*?)\s*:\s*([-\d.]+)", told))
    mended = [name for name in FOUND if int(said[name])]
    measured = float(said["Volume"])
    return mended + ([f"volume {measured}"] if abs(measured - volume) > 1e-5 * volume else [])


def add_arguments(parser: argparse.ArgumentParser) -> None:
    parser.add_argument("volume", metavar="VOLUME", type=int)


def run(arguments: argparse.Namespace) -> int:
    text = sys.stdin.read()
    triangles = triangles_of(text)
    edges = edges_of(triangles)
    if any(edges[edge] != edges[edge[::-1]] for edge in edges):
        raise Refused("the triangles don't close")
    if volume_of(triangles) != 6 * arguments.volume:
        raise Refused(f"six times the volume is {volume_of(triangles)}")
    if max(edges.values(), default=0) > 1:
        say("draft triangles: four triangles meet at an edge: some programs join those that don't belong together")
    elif shutil.which("admesh") and (minds := admesh_minds(text, arguments.volume)):
        raise Refused(f"admesh: {', '.join(minds)}")
    return 0
