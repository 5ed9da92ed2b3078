"""What came of a drawing as a record for programs, in the schema `recon.solve/1`, which docs/LIBRARY.md tells: `draft solve --json` writes
it, a line of `draft table --json` is one without faces, and the module `recon` answers by what stands here. Lengths are exact, in the
drawing's unit."""
import argparse
import dataclasses
import functools
import hashlib
import math
import pathlib
import re
from collections.abc import Iterable
from fractions import Fraction
from typing import Any, NamedTuple

from .. import __version__
from ..core.messages import Refused
from ..core.notes import Note
from ..core.verdict import Verdict, not_read
from ..messages import verdict as in_words
from ..recon import faults, process
from ..recon.answer import CUT, WHOLE, Answer, Face, Solid, sizes_of
from ..rounds.verify import Kept
from ..sheet import view_files
from ..solve.pipeline import Asked
from ..solve.verdict import verdict_of

SCHEMA = "recon.solve/1"
Record = dict[str, Any]

# How many solids a line of a table tells.
LISTED = 20
# recon's own limits, where none are said.
NODES, SOLIDS = 1_000_000, 4_096
GROUP_CODE = re.compile(r" code (-?\d+)")


# ---- solids

def exact(value: Fraction) -> str:
    """A number, exactly: with decimals where these end, else as `1/3`."""
    rest, places = value.denominator, 0
    while 10**places % rest and places < 40:
        places += 1
    if 10**places % rest:
        return str(value)
    units = abs(value.numerator) * (10**places // rest)
    text = f"{units // 10**places}" + (f".{units % 10**places:0{places}d}" if places else "")
    return f"-{text}" if value < 0 else text


class Listed(NamedTuple):
    """A solid of an answer: its number, from 1 on, as it is told, how many of its units one of the drawing's has, and what is kept of it
    once it is rounded back, where the drawing has rounds."""

    number: int
    solid: Solid
    per_unit: Fraction
    kept: Kept | None = None

    @property
    def sizes(self) -> tuple[Fraction, Fraction, Fraction]:
        """How far it reaches along x, y and z."""
        x, y, z = (Fraction(size) / self.per_unit for size in sizes_of(self.solid))
        return x, y, z

    @property
    def least(self) -> tuple[Fraction, Fraction, Fraction]:
        """Its least x, y and z."""
        corners = [corner for face in self.solid.faces for loop in face.loops for corner in loop]
        x, y, z = (Fraction(min(along)) / self.per_unit for along in zip(*corners))
        return x, y, z

    def volume_with_pi(self, times: Fraction) -> tuple[Fraction, Fraction] | None:
        """Its volume as a number and a number of pi; none where FreeCAD alone can tell it. So many units of the drawing that recon read
        make one of the sheet's."""
        if self.kept is None:
            return Fraction(self.solid.volume) / self.per_unit**3, Fraction(0)
        if self.kept.volume is None:
            return None
        plain, by_pi = (it / times**3 for it in self.kept.volume)
        return plain, by_pi

    def volume_about(self, times: Fraction) -> float:
        both = self.volume_with_pi(times)
        if both is None and self.kept:
            return self.kept.size() / float(times) ** 3
        assert both
        return float(both[0]) + float(both[1]) * math.pi


def listed_in(asked: Asked, answer: Answer) -> list[Listed]:
    """The solids that were read of an answer in their order: of a drawing with rounds those that are kept."""
    per_unit = asked.per_unit()
    if asked.rounds:
        return [Listed(number, one.solid, per_unit, one) for number, one in enumerate(asked.kept, 1)]
    return [Listed(number, solid, per_unit) for number, solid in enumerate(answer.solids, 1)]


def solid_record(one: Listed, times: Fraction, with_faces: bool) -> Record:
    """A solid. Where it has rounds its volume has pi, and its faces aren't told, since recon's are of the squared one."""
    both = one.volume_with_pi(times)
    told: Record = {
        "number": one.number, "choice": one.solid.choice,
        "volume": exact(both[0]) if both and not both[1] else None,
        "volume_with_pi": [exact(it) for it in both] if both else None,
        "volume_about": f"{one.volume_about(times):.9g}", "size": [exact(it) for it in one.sizes],
        "doubt": (one.kept.doubt or None) if one.kept else None,
    }
    if with_faces:
        told["faces"] = None if one.kept else [face_record(face, one.per_unit) for face in one.solid.faces]
    return told


def face_record(face: Face, per_unit: Fraction) -> Record:
    axis = next(axis for axis, way in enumerate(face.outward) if way)
    loops = [[[exact(Fraction(it) / per_unit) for it in corner] for corner in loop] for loop in face.loops]
    return {"normal": list(face.outward), "at": loops[0][0][axis], "loops": loops}


# ---- the drawing, and what is wrong with it

@functools.cache
def program_record(path: pathlib.Path) -> Record:
    return {"path": str(path), "sha256": sum_of(path.read_bytes())}


def sum_of(data: bytes) -> str:
    return hashlib.sha256(data).hexdigest()


def drawing_record(arguments: argparse.Namespace) -> Record:
    """The file of a drawing with its sum, or those of its views."""
    path = arguments.drawing
    views = {view: file_record(file) for view, file in view_files.files_of(arguments, path).items()}
    return {**file_record(path), "views": views, "read": None}


def file_record(path: str | None) -> Record:
    if path is None:
        return {"file": None, "sha256": None}
    try:
        return {"file": str(path), "sha256": sum_of(pathlib.Path(path).read_bytes())}
    except OSError:
        return {"file": str(path), "sha256": None}


def fault_record(head: str, asked: Asked) -> Record:
    """A fault: its code and name, where it is in the file that recon read, the entity there, and how it is told. Of a sheet the file is
    the one that was drawn for it."""
    code, name = head.split()[1:3]
    line, group = faults.line_named(head), GROUP_CODE.search(head)
    entity = faults.entity_at(asked.lines, line)
    return {
        "code": code, "name": name, "line": line, "group_code": int(group[1]) if group else None,
        "entity": entity.name if entity else None, "layer": entity.values.get(8, "0") if entity else None,
        "handle": entity.values.get(5) if entity else None, "words": head, "message": "; ".join(faults.told(head, asked.lines)),
    }


def rounds_record(asked: Asked) -> Record | None:
    """What came of a drawing's rounds; nothing where it has none."""
    if not asked.rounds:
        return None
    first = next(iter(asked.rounds.kept), asked.rounds.first)
    told: Record = {"readings": {"tried": asked.rounds.tried, "among": asked.rounds.among}}
    if first:
        told |= {
            "squared_off": len(first.given.squared), "listed": first.outcome.listed, "not_rounded_back": first.outcome.lost,
            "look_otherwise": first.outcome.others, "not_looked_at": first.outcome.unseen, "is_compared": first.outcome.is_compared,
            "doubts": first.given.doubts, "cause": asked.rounds.cause,
        }
    return told


# ---- the whole record

def outcome_of(head: str) -> str:
    return "whole" if WHOLE.fullmatch(head) else "cut" if CUT.fullmatch(head) else "fault"


def count_of(asked: Asked, answer: Answer) -> int:
    """How many solids are listed."""
    return len(asked.kept) if asked.rounds else answer.listed


def verdict_record(its: Verdict) -> Record:
    """The verdict: its count is that of all solids where it is decided, else how many are known; `message` is its headline."""
    return {"kind": its.kind.value, "count": its.count, "basis": its.basis.value, "message": in_words.headline(its),
            "reasons": [{"doubt": it.doubt.value, "sentence": it.sentence, "data": dict(it.data)} for it in its.reasons]}


def limits_record(arguments: argparse.Namespace, head: str) -> Record:
    cut = CUT.fullmatch(head)
    return {"nodes": getattr(arguments, "nodes", None) or NODES, "solids": getattr(arguments, "solids", None) or SOLIDS,
            "hit": cut[1] if cut else None}


def head_record(arguments: argparse.Namespace, outcome: str) -> Record:
    """What every record begins with."""
    try:
        ran: Record | None = program_record(process.find(arguments.program))
    except (process.NoProgram, OSError):
        ran = None
    return {"schema": SCHEMA, "draft": __version__, "program": ran, "drawing": drawing_record(arguments), "outcome": outcome}


def record(asked: Asked, arguments: argparse.Namespace, notes: Iterable[Note], most: int | None = None, with_faces: bool = True) -> Record:
    """What came of a drawing, of whose solids no more than so many are told. `outcome` and `status` are of recon's run alone; `verdict` is of all that
    was done."""
    answer = asked.answer(most)
    outcome = outcome_of(answer.head)
    told, is_fault = head_record(arguments, outcome), outcome == "fault"
    told["drawing"]["read"] = "sheet" if asked.paper else "as_is"
    listed, its = 0 if is_fault else count_of(asked, answer), verdict_of(asked)
    return {
        **told, "verdict": verdict_record(its), "status": asked.run.status, "fault": fault_record(answer.head, asked) if is_fault else None, "message": None,
        "limits": limits_record(arguments, answer.head),
        "unit": {"name": asked.origin.unit or None, "per_unit": exact(asked.per_unit()), "mirrored": asked.origin.mirrored},
        "missing": asked.missing or None, "count": its.count if its.is_decided else None, "listed": listed,
        "solids": [] if is_fault else [solid_record(one, asked.origin.times, with_faces) for one in listed_in(asked, answer)[:most]],
        "rounds": rounds_record(asked), "notes": list(map(dataclasses.asdict, notes)), "seconds": round(asked.run.seconds, 3),
    }


def of_none(outcome: str, why: str) -> Record:
    """The record of a drawing of which there is no answer, but for what every record begins with: `refused`, `failed` or `lost`, and why."""
    return {
        "schema": SCHEMA, "draft": __version__, "program": None, "drawing": {**file_record(None), "views": {}, "read": None}, "outcome": outcome,
        "verdict": verdict_record(not_read(why)), "status": None, "fault": None, "message": why, "limits": None, "unit": None, "missing": None, "count": None, "listed": 0, "solids": [],
        "rounds": None, "notes": [], "seconds": None,
    }


def without_answer(arguments: argparse.Namespace, refusal: Refused, notes: Iterable[Note]) -> Record:
    """The record of a drawing of which there is no answer: `failed` where a run of recon came to no end, else `refused`."""
    outcome = "failed" if isinstance(refusal, process.Failed) else "refused"
    return {**of_none(outcome, str(refusal)), **head_record(arguments, outcome), "notes": list(map(dataclasses.asdict, notes))}
