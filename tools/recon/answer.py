"""An answer and its solids."""
import argparse
import functools
import io
import pathlib
from collections.abc import Iterator, Sequence
from fractions import Fraction
from typing import TYPE_CHECKING, Any, overload

from drafting.cli import clean, chosen
from drafting.core.messages import write_result
from drafting.core.notes import Note
from drafting.core.verdict import Verdict
from drafting.dxf.drawing import written
from drafting.explain import settle as settling, why as looking
from drafting.export import step, stl
from drafting.projection import cells
from drafting.recon import blocks, process
from drafting.report import record as records
from drafting.solve import pipeline
from drafting.solve.verdict import verdict_of

from .errors import DrawingFault, NotThere, OptionError, raised_as
from .told import Settling, Why, groups_of, line_of, suggestion_of

if TYPE_CHECKING:
    from ezdxf.document import Drawing
    from ezdxf.render import MeshBuilder

Point = tuple[Fraction, Fraction, Fraction]


class Solid:
    """A solid that has the views. Lengths are in the drawing's unit, and exact."""

    def __init__(self, answer: "Answer", listed: records.Listed) -> None:
        self._answer, self._listed = answer, listed
        self.number = listed.number
        """Its number in the answer, from 1 on."""
        self.choice = listed.solid.choice
        """For each block of the drawing whether the solid fills it, as recon tells it."""
        self.doubt = listed.kept.doubt if listed.kept else ""
        """Of a solid with rounds what of its tangent edges isn't as on the sheet, in words."""

    def __repr__(self) -> str:
        return f"<recon.Solid {self.number} of {len(self._answer)}, volume {self.volume}>"

    @property
    def is_rounded(self) -> bool:
        """Whether the drawing has rounds, and this solid was rounded back."""
        return self._listed.kept is not None

    @property
    def volume(self) -> Fraction | float:
        """Its volume: a Fraction; of a solid with rounds, whose volume has pi, a float as near as one can be."""
        both = self.volume_with_pi
        return both[0] if both and not both[1] else self._listed.volume_about(self._times)

    @property
    def volume_with_pi(self) -> tuple[Fraction, Fraction] | None:
        """Its volume as a number and a number of pi, exactly; None where no formula has it."""
        return self._listed.volume_with_pi(self._times)

    @property
    def _times(self) -> Fraction:
        return self._answer._asked.origin.times

    @property
    def extents(self) -> tuple[Point, Point]:
        """The least and the greatest x, y and z."""
        (x, y, z), (wide, deep, high) = self._listed.least, self._listed.sizes
        return (x, y, z), (x + wide, y + deep, z + high)

    @property
    def faces(self) -> list[tuple[tuple[int, int, int], list[list[Point]]]]:
        """Its faces: the outward direction of each, and its loops with the face on their left, seen from outside. Of a solid with rounds
        there are none here: `to_shape` has them."""
        if self.is_rounded:
            raise NotThere("the faces of a solid with rounds aren't told by recon: to_shape() makes them")
        return [((x, y, z), [[self._point(corner) for corner in loop] for loop in loops])
                for (x, y, z), loops in self._listed.solid.faces]

    def _point(self, corner: Sequence[int]) -> Point:
        x, y, z = (Fraction(it) / self._listed.per_unit for it in corner)
        return x, y, z

    def to_shape(self) -> Any:
        """The solid as FreeCAD's `Part.Shape`; NotThere where FreeCAD isn't."""
        with raised_as(NotThere):
            if self._listed.kept is None:
                return step.of_solid(self._listed.solid, self._listed.per_unit)
            if self._listed.kept.shape is None:
                raise NotThere("FreeCAD isn't there: apt-get install --no-install-recommends freecad-python3")
            return step.of_kept(self._listed.kept, self._answer._asked.origin)

    def to_mesh(self) -> "MeshBuilder":
        """The solid as ezdxf's `MeshBuilder`: the squares of its grid, which share their corners; with rounds the triangles of
        `write_stl`."""
        from ezdxf.render import MeshVertexMerger
        mesh = MeshVertexMerger()
        if self.is_rounded:
            for corners in stl.corners_of(self._stl()):
                mesh.add_mesh(vertices=corners, faces=[range(3)])
            return mesh
        grid = cells.grid_round([self._listed.solid])
        for face in chosen.squares_of(grid, grid.cells(self._listed.solid)):
            corners = [[float(it) for it in self._point(corner)] for corner in face.loops[0]]
            mesh.add_mesh(vertices=corners, faces=[range(4)])
        return mesh

    def _stl(self) -> str:
        asked, arguments = self._answer._asked, self._answer._arguments
        with raised_as(NotThere):
            if asked.rounds:
                return stl.of_rounds(asked, self.number)
            return stl.in_unit(stl.of_recon(asked, self.number, arguments), asked.per_unit())

    def write_stl(self, path: str | pathlib.Path) -> None:
        """Saves its boundary as triangles: those of recon, which are proved to close; with rounds those of FreeCAD."""
        write_result(self._stl(), str(path))

    def write_step(self, path: str | pathlib.Path) -> None:
        """Saves it by FreeCAD as STEP, or as BREP where the path ends in .brep, in millimetres; in the drawing's unit where it tells none."""
        with raised_as(NotThere):
            from drafting.cad.freecad import is_shape_file, save
            if not is_shape_file(str(path)):
                raise OptionError(f"{path} ends neither in .step nor in .brep")
            save(self.to_shape(), str(path), self._answer.unit or "")


class Answer:
    """What recon says of a drawing: its solids, in recon's order, each once."""

    def __init__(self, asked: pipeline.Asked, arguments: argparse.Namespace, notes: Sequence[Note], name: str | None) -> None:
        self._asked, self._arguments = asked, arguments
        self.notes: list[Note] = list(notes)
        """What was found, changed, left out and drawn, and of what is warned: `kind`, `what`, `count`, `view`, `layer`, `entity`, and as text a sentence."""
        told = records.record(asked, arguments, notes, 0)
        if told["fault"]:
            raise DrawingFault(told["fault"])
        self._drawing = {**told["drawing"], "file": name}
        self.status: int = asked.run.status
        """recon's status: 0, or 3 or 4 where a limit cut its search."""
        self.verdict: Verdict = verdict_of(asked)
        """The verdict: its `kind`, `count` and `basis`, whether it `is_decided`, and the `reasons` that leave it open."""
        self.count: int | None = told["count"]
        """How many solids match the drawing; None where that isn't decided."""
        self.unit: str | None = told["unit"]["name"]
        """The drawing's unit of length, as `mm`; None where it tells none."""
        self.missing: str | None = told["missing"]
        """The main view that isn't drawn, where the other two are."""
        self._solids = [Solid(self, one) for one in records.listed_in(asked, asked.answer())]

    def __repr__(self) -> str:
        return f"<recon.Answer, {self.verdict.kind.value}, {len(self)} solids>"

    @property
    def is_whole(self) -> bool:
        """Whether it is decided that the listed solids are all: of boxes and rounds, where the drawing has rounds."""
        return self.count is not None

    def __len__(self) -> int:
        return len(self._solids)

    @overload
    def __getitem__(self, at: int) -> Solid: ...

    @overload
    def __getitem__(self, at: slice) -> list[Solid]: ...

    def __getitem__(self, at: int | slice) -> Solid | list[Solid]:
        return self._solids[at]

    def __iter__(self) -> Iterator[Solid]:
        return iter(self._solids)

    def record(self, faces: bool = True) -> dict[str, Any]:
        """The answer in the schema `recon.solve/1`, as `draft solve --json` writes it."""
        return {**records.record(self._asked, self._arguments, self.notes, None, faces), "drawing": self._drawing}

    @property
    def text(self) -> str:
        """What recon wrote, to the byte."""
        return self._asked.run.text

    @property
    def dxf(self) -> str:
        """The drawing of three layers that recon read."""
        return self._asked.data.decode("utf-8", "surrogateescape")

    def redraw(self, number: int = 1) -> "Drawing":
        """The drawing of a solid anew, a line for each edge, as ezdxf's document."""
        import ezdxf
        asked = self._asked
        if asked.rounds or not 1 <= number <= len(self):
            raise NotThere("a sheet with rounds isn't drawn anew" if asked.rounds else f"there is no solid {number} of {len(self)}")
        words = ["redraw", number, *pipeline.views_words(asked.lines), *pipeline.sections_words(("redraw",), self._arguments),
                 *pipeline.decimals_words(("redraw",), asked.decimals), *pipeline.words_of(self._arguments)]
        with raised_as(NotThere):
            run = process.run(process.find(self._arguments.program), words, asked.data, self._arguments.seconds)
            if run.status != process.WHOLE:
                raise NotThere(f"recon redraws a solid of a whole list alone: {run.text.partition(chr(10))[0]}")
        strokes = clean.with_further(asked._replace(run=run), self._arguments.sections)
        return ezdxf.read(io.StringIO(written(strokes, asked.decimals, asked.origin)))

    def why(self, runs: int = looking.RUNS, search: float = looking.SEARCH, processes: int | None = None) -> Why:
        """Where no solid has the drawing, what would have to be drawn otherwise: on so many changed drawings recon is run, by so many
        processes, and so many seconds clingo looks."""
        with raised_as(NotThere):
            is_none = looking.known_head(self._asked).startswith("whole 0 ")
            if len(self) or not is_none:
                return Why(() if len(self) else tuple(looking.rounds_told(self._asked)), ())
            path = process.find(self._arguments.program)
            rows, found = looking.told_of(self._asked, path, looking.Limits(runs, search, processes), lambda suggestion: None,
                                           self._arguments.sections)
        return Why(tuple(rows), tuple(map(suggestion_of, found)))

    def settle(self, meant: int | None = None, by: Sequence[str] = ()) -> Settling:
        """What tells the solids apart; and where one is meant, the fewest further views that tell it from all others, else sections, or
        those on the layers that are named, whose lines recon has read: it lists just what is left."""
        if len(self) < 2:
            return Settling(())
        if meant is not None and not 1 <= meant <= len(self):
            raise NotThere(f"there is no solid {meant} of {len(self)}")
        case = settling.of_asked(self._asked)
        if len(case.answer.solids) != len(self):
            raise NotThere("solids of several readings of a sheet aren't told apart by views")
        with raised_as(NotThere):
            sheet, solids, views, sections = settling.looked_at(case)
            groups = groups_of([*views, *sections])
            if meant is None:
                return Settling(groups)
            its = functools.partial(blocks.of, self._arguments, case.data, case.lines, case.decimals)
            told = settling.told_meant(case, solids, meant - 1, views, sections, sheet, its, by)
            text, said = settling.text_for(self._arguments, case, told) if told.added else ("", "")
        faces = [solid.faces for solid in case.answer.solids]
        numbers = tuple(at for at, one in enumerate(faces, 1) if one in told.left)
        return Settling(groups, tuple(line_of(it, case.decimals) for it in told.added), numbers, text, tuple([*told.rows, said] if said else told.rows))
