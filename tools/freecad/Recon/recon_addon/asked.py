"""Asks about a drawing, or about a page that was taken of a document, in a process of its own: `asked.py TOOLS FILE FOLDER WORDS..`, with the
folder of `draft`'s modules and one for the shapes. It tells what comes as it comes, an event in JSON a line. With whoever began it, when
standard input ends, it ends too, with all that it began: recon and clingo among these.
"""
import argparse
import json
import os
import pathlib
import signal
import sys
import threading
from collections.abc import Iterator, Sequence
from fractions import Fraction
from typing import TYPE_CHECKING, Any

if TYPE_CHECKING:
    from drafting.solve.pipeline import Asked


def tell(**event: object) -> None:
    print(json.dumps(event), flush=True)


def end_with_input() -> None:
    """Ends this process and its children once standard input ends; read by its number, since a reader of sys.stdin aborts Python's end."""
    os.read(0, 1)
    os.killpg(0, signal.SIGKILL)


class Asking:
    """A drawing that is asked about, and what comes of it."""

    def __init__(self, path: str, folder: pathlib.Path, words: Sequence[str]) -> None:
        from drafting.solve import pipeline
        parser = argparse.ArgumentParser()
        pipeline.add_arguments(parser)
        self.path, self.folder, self.arguments = path, folder, parser.parse_args(words)
        # The number of the document's own part among the solids, once it is known.
        self.part = 0

    def events(self) -> Iterator[dict[str, object]]:
        from drafting.solve import pipeline
        yield {"stage": "searched"}
        asked = pipeline.ask(self.path, self.arguments, lambda note: tell(told=str(note)))
        (self.folder / "drawing.dxf").write_bytes(asked.data)
        (self.folder / "answer.txt").write_text(asked.run.text)
        its = self.verdict(asked)
        yield its
        yield from self.solids(asked, its["count"])
        if its["count"] > 1:
            yield self.settled(asked)
        yield from self.left_open(asked)
        yield {"done": True}

    def verdict(self, asked: "Asked") -> dict[str, Any]:
        """The verdict as `draft` tells it everywhere: its kind, its word, and the sentence with what leaves it open; refused where the drawing has a
        fault. And how many solids come, whether the search came to its end, and of which kind they are."""
        from drafting.core.messages import Refused
        from drafting.core.verdict import Doubt, Kind
        from drafting.messages import verdict as in_words
        from drafting.solve.verdict import verdict_of
        its = verdict_of(asked)
        if its.kind is Kind.NOT_READ:
            raise Refused(its.message)
        for text in in_words.details(asked.rounds) if asked.rounds else ():
            tell(told=text)
        sentence = in_words.sentence_alone(its)
        told = [sentence, *in_words.reasons(its), *in_words.advice(its)]
        told += [in_words.next_step(its)] if its.kind is Kind.IMPOSSIBLE else []
        lacking = [view.label for view in asked.page.lacking] if asked.page else []
        is_whole = not any(it.doubt is Doubt.SEARCH_STOPPED for it in its.reasons)
        return {"verdict": its.kind.value, "word": in_words.word(its), "sentence": " ".join(told), "count": its.count, "is_whole": is_whole,
                "has_rounds": bool(asked.rounds), "lacking": lacking, "missing": asked.missing, "unit": asked.origin.unit}

    # ---- solids

    def millimetres(self, asked: "Asked") -> float:
        """How many millimetres a unit of the drawing has; where it tells none, one."""
        from drafting.dxf.drawing import MILLIMETRES
        if not asked.origin.unit:
            tell(told="found: no unit of length is told: millimetres are taken")
        return float(MILLIMETRES.get(asked.origin.unit, Fraction(1)))

    def shapes(self, asked: "Asked") -> Iterator[dict[str, Any]]:
        """The shapes of all solids where they stand, and of a page what each has more and less than the part."""
        from drafting.cad import in_document
        if asked.page:
            for it in in_document.stood(asked):
                yield {"shape": it.shape, "more": it.more, "less": it.less, "is_part": it.is_part}
            return
        times = self.millimetres(asked)
        for shape in in_document.shapes_of(asked):
            yield {"shape": shape.scaled(times)}

    def solids(self, asked: "Asked", count: int) -> Iterator[dict[str, object]]:
        for number, shapes in enumerate(self.shapes(asked), 1):
            is_part = bool(shapes.pop("is_part", False))
            files = {name: str(self.folder / f"{number}_{name}.brep") for name, shape in shapes.items() if shape}
            for name, path in files.items():
                shapes[name].exportBrep(path)
            self.part = number if is_part else self.part
            yield {"solid": number, "of": count, "files": files, "volume": self.volume(asked, number), "is_part": is_part}

    def volume(self, asked: "Asked", number: int) -> str:
        if asked.rounds:
            return asked.rounded_volume(asked.kept[number - 1])
        return asked.volume(asked.answer(number).solids[number - 1].volume)

    # ---- what would settle it

    def settled(self, asked: "Asked") -> dict[str, object]:
        """The views that leave the part alone, or as few as views can, by their directions, and the sections that would settle it."""
        from drafting.explain import distinguishing, settle
        from drafting.projection.cells import grid_round
        solids = settle.of_first_reading(asked) if asked.rounds else asked.answer().solids
        if not 1 < len(solids) <= settle.MOST_SETTLED or asked.rounds and asked.rounds.elsewhere:
            return {"views": [], "left": len(asked.kept) if asked.rounds else len(solids), "words": ""}
        if not asked.page or not 0 < self.part <= len(solids):
            return {"views": [], "left": len(solids), "words": settle.settled_by(asked.answer()._replace(solids=solids), asked.sheet())}
        cells = grid_round(solids)
        views, sections = distinguishing.all_means(distinguishing.Solids(cells, [cells.cells(it) for it in solids]), asked.sheet())
        chosen, left = settle.views_for(views, self.part - 1)
        words = [it.name for it in settle.sections_for(sections, self.part - 1, left)] if len(left) > 1 else []
        return {"views": [self.way(asked, it.name) for it in chosen if it.sizes[0] < len(solids) or len(left) == 1], "left": len(left),
                "words": f"a {' and a '.join(words)} would settle it" if words else ""}

    def way(self, asked: "Asked", view: str) -> dict[str, object]:
        """A view by the direction towards its viewer and by what is to its right, in the document."""
        from drafting.projection.draw import FRAMES
        from drafting.cad.techdraw import TOWARDS
        assert asked.page
        axis, sign = TOWARDS[view]
        frame, own = asked.page.frame, FRAMES[view]
        right = frame[own.right] * (-1 if own.right_back else 1)
        return {"name": view, "towards": tuple(frame[axis] * sign), "right": tuple(right)}

    def left_open(self, asked: "Asked") -> Iterator[dict[str, object]]:
        """What the page as it is leaves open, where it lacks hidden lines."""
        from drafting.explain import hidden_unknown as left_open
        if asked.page and asked.page.lacking:
            yield {"stage": "open"}
            yield {"open": left_open.told(asked, self.arguments)[1:]}


def main(tools: str, path: str, folder: str, *words: str) -> int:
    sys.path.insert(0, tools)
    from drafting.core.messages import Refused
    try:
        for event in Asking(path, pathlib.Path(folder), words).events():
            tell(**event)
    except Refused as refusal:
        tell(refused=str(refusal))
        return 1
    return 0


if __name__ == "__main__":
    if os.getpgid(0) != os.getpid():
        os.setsid()
    threading.Thread(target=end_with_input, daemon=True).start()
    sys.exit(main(*sys.argv[1:]))
