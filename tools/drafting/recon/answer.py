"""Reading what `recon solve` writes; a text that the program doesn't write is refused."""
import pathlib
import re
import sys
from typing import NamedTuple

from ..core.messages import Refused

WHOLE = re.compile(r"whole (\d+) nodes (\d+) blocks (\d+)")
CUT = re.compile(r"cut (nodes|solids) (\d+)")
FAULT = re.compile(r"fault (F\d+ \w+)(?: line (\d+))?(?: \w+ \w+)*")
SOLID = re.compile(r"solid (\d+) choice ([01]+) volume (\d+) faces (\d+)")
NUMBER = r"-?\d+(?:\.\d+)?"
FACE = re.compile(rf"face ([-+])([xyz]) at ({NUMBER})((?: loop(?: {NUMBER},{NUMBER},{NUMBER})+)+)")

Point = tuple[int, ...]
Way = tuple[Point, Point]

def text_of(path: str) -> str:
    """What a file holds, or with `-` standard input."""
    data = sys.stdin.buffer.read() if path == "-" else pathlib.Path(path).read_bytes()
    return data.decode("latin-1")


class Face(NamedTuple):
    """A face: its outward direction, and its loops with the face on their left, seen from outside."""

    outward: Point
    loops: list[list[Point]]


class Solid(NamedTuple):
    """A solid as it is told."""

    choice: str
    volume: int
    faces: list[Face]


class Answer(NamedTuple):
    """What `recon solve` wrote: its first line, its first solids, in units of their coordinates' last decimal, how many it lists
    in all, and how many decimals there are."""

    head: str
    solids: list[Solid]
    listed: int
    decimals: int


def ways_along(loop: list[Point]) -> list[Way]:
    return list(zip(loop, loop[1:] + loop[:1]))


def number_of(told: str) -> int:
    """A coordinate, in units of its last decimal: in one answer all have as many."""
    return int(told.replace(".", ""))


def face_of(line: str) -> Face | None:
    told = FACE.fullmatch(line)
    if told is None:
        return None
    axis = "xyz".index(told[2])
    outward = tuple((1 if told[1] == "+" else -1) * (at == axis) for at in range(3))
    loops = [[tuple(map(number_of, corner.split(","))) for corner in loop.split()] for loop in told[4].split(" loop ")[1:]]
    ways = [way for loop in loops for way in ways_along(loop)]
    flat = all(start[axis] == number_of(told[3]) and sum(map(int.__ne__, start, end)) == 1 for start, end in ways)
    return Face(outward, loops) if flat else None


def solid_of(told: re.Match[str], lines: list[tuple[int, str]]) -> Solid:
    """A solid by its line and the numbered lines of its faces."""
    solid = Solid(told[2], int(told[3]), [])
    for number, line in lines:
        face = face_of(line)
        if face is None:
            raise Refused(f"line {number} of the answer isn't what recon writes: {line[:60]}")
        solid.faces.append(face)
    return solid


def answer_of(text: str, most: int | None = None) -> Answer:
    """An answer, of whose solids no more than so many are looked at."""
    head, *lines = text.splitlines() or [""]
    whole = WHOLE.fullmatch(head)
    if not (whole or CUT.fullmatch(head) or FAULT.fullmatch(head)):
        raise Refused(f"no answer of recon solve: {head[:60]}" if text else "the answer is empty")
    solids: list[Solid] = []
    count = at = 0
    while at < len(lines):
        told = SOLID.fullmatch(lines[at])
        if told is None or int(told[1]) != count + 1:
            raise Refused(f"line {at + 2} of the answer isn't what recon writes: {lines[at][:60]}")
        faces = list(enumerate(lines[at + 1:at + 1 + int(told[4])], at + 3))
        if len(faces) < int(told[4]):
            raise Refused("the answer isn't whole")
        if most is None or count < most:
            solids.append(solid_of(told, faces))
        count += 1
        at += 1 + len(faces)
    if not text.endswith("\n") or whole and int(whole[1]) != count or FAULT.fullmatch(head) and lines:
        raise Refused("the answer isn't whole")
    face = FACE.fullmatch(lines[1]) if count else None
    return Answer(head, solids, count, len(face[3].partition(".")[2]) if face else 0)


def have_views(count: int, missing: str = "", views: str = "these views") -> str:
    """How many solids have what is drawn, in words; where one of the three main views isn't drawn, that there are two."""
    if missing:
        return f"Two {views.removeprefix('these ')}: " + {0: "no solid has them", 1: "one solid has them"}.get(count, f"{count:,} solids have them")
    return {0: f"No solid has {views}", 1: f"One solid has {views}"}.get(count, f"{count:,} solids have {views}")


def turned_round(solid: Solid, width: int) -> Solid:
    """The solid in a mirror: x turned round in so many units."""
    def face(one: Face) -> Face:
        x, y, z = one.outward
        return Face((-x, y, z), [[(width - a, b, c) for a, b, c in reversed(loop)] for loop in one.loops])

    return solid._replace(faces=[face(one) for one in solid.faces])


def turned_back(answer: Answer) -> Answer:
    """The answer to a drawing that shows its part in a mirror: all its solids turned back. They have one width."""
    corners = [x for solid in answer.solids for face in solid.faces for loop in face.loops for x, _, _ in loop]
    return answer._replace(solids=[turned_round(solid, max(corners)) for solid in answer.solids])


def sizes_of(solid: Solid) -> list[int]:
    """How far a solid reaches along x, y and z."""
    corners = [corner for face in solid.faces for loop in face.loops for corner in loop]
    return [max(along) - min(along) for along in zip(*corners)]
