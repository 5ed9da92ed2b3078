"""Running the proved program on many changed drawings, on all processors."""
import contextlib
import dataclasses
import multiprocessing
import os
import pathlib
import signal
from collections.abc import Callable, Iterable, Iterator

from ..core.messages import Refused
from ..projection.draw import DASHED, Grid, Row, runs_of
from . import process
from .answer import CUT, WHOLE

# How far a trial goes: so many solids and nodes.
SOLIDS, NODES = 100, 20_000


@dataclasses.dataclass(frozen=True)
class Outcome:
    """What the program says of a drawing: how many solids it has, or that there are more of them, or of nodes, than a trial goes
    to; nothing where it is refused with a fault, which is told."""

    count: int | None
    more: bool = False
    said: str = ""

    @property
    def words(self) -> str:
        """In words: `1 solid`."""
        if self.count is None:
            return self.said
        if self.said:
            return self.said
        return "1 solid" if self.count == 1 else f"{'more than ' if self.more else ''}{self.count:,} solids"


def outcome_of(run: process.Run) -> Outcome:
    head = run.text.partition("\n")[0]
    whole, cut = WHOLE.fullmatch(head), CUT.fullmatch(head)
    if whole:
        return Outcome(int(whole[1]))
    if cut and cut[1] == "solids":
        return Outcome(int(cut[2]), more=True)
    if cut:
        return Outcome(0, more=True, said=f"a search that isn't done after {int(cut[2]):,} nodes")
    return Outcome(None, said=head)


# ---- what a changed drawing is as a file

def entity(view: str, style: int, start: tuple[str, str], end: tuple[str, str]) -> str:
    linetype = "HIDDEN" if style == DASHED else "CONTINUOUS"
    return (
        f"0\nLINE\n8\n{view}\n6\n{linetype}\n10\n{start[0]}\n20\n{start[1]}\n30\n0\n11\n{end[0]}\n21\n{end[1]}\n31\n0\n"
    )


def row_text(grid: Grid, row: Row, styles: bytes, place: Callable[[str, int, int], tuple[str, str]]) -> str:
    """The lines of a row, one for each run; `place` says where a place of a view stands on the sheet."""
    along, at = grid.along(row), grid.ats(row)[row.number]
    lines = []
    for style, low, high in runs_of(styles):
        ends = [(at, along[end]) if row.upright else (along[end], at) for end in (low, high)]
        start, end = (place(row.view, *it) for it in ends)
        lines.append(entity(row.view, style, start, end))
    return "".join(lines)


def file_text(entities: Iterable[str]) -> str:
    return "0\nSECTION\n2\nENTITIES\n" + "".join(entities) + "0\nENDSEC\n0\nEOF\n"


def with_entities(data: bytes, entities: Iterable[str]) -> bytes:
    """A file that was written so, with further entities."""
    text = data.decode()
    end = text.rindex("0\nENDSEC\n")
    return (text[:end] + "".join(entities) + text[end:]).encode()


def bare(view: str, right: int, up: int) -> tuple[str, str]:
    """A place of a view as it is, in whole units: where views stand has no effect."""
    return str(right), str(up)


class Tried:
    """A drawing of which changed ones are tried: what its rows are as lines of a file is written once."""

    def __init__(self, grid: Grid) -> None:
        self.grid = grid
        self.texts = {row: row_text(grid, row, styles, bare) for row, styles in grid.panels.items()}

    @property
    def words(self) -> list[object]:
        """What the program is asked of it, before limits."""
        return ["solve", *([process.TWO_VIEWS] if len(self.grid.views) == 2 else [])]

    def changed(self, rows: Iterable[tuple[Row, bytes]]) -> bytes:
        texts = dict(self.texts)
        for row, styles in rows:
            texts[row] = row_text(self.grid, row, styles, bare)
        return file_text(texts.values()).encode()


def outcome(path: pathlib.Path, words: list[object], data: bytes, nodes: int = NODES, solids: int = SOLIDS) -> Outcome:
    """What the program says of a drawing, asked by these words."""
    return outcome_of(process.run(path, [*words, "--nodes", nodes, "--solids", solids], data, seconds=600))


# ---- all processors

# What a worker process has: the function that it calls.
working: Callable[[object], object] | None = None


def begin(function: Callable[[object], object]) -> None:
    """A worker leaves interruptions to the process that started it."""
    global working
    signal.signal(signal.SIGINT, signal.SIG_IGN)
    working = function


def work(item: object) -> object:
    assert working is not None
    try:
        return working(item)
    except Refused as refusal:
        return refusal


@contextlib.contextmanager
def on_all_processors(
    function: Callable[[object], object], items: list[object], workers: int | None = None
) -> Iterator[Iterator[object]]:
    """The function's results, in the order of the items, from so many processes. What one refuses is refused here."""
    count = workers or len(os.sched_getaffinity(0))

    def told(results: Iterable[object]) -> Iterator[object]:
        for result in results:
            if isinstance(result, Refused):
                raise result
            yield result

    if count == 1 or len(items) < 2:
        yield map(function, items)
        return
    with multiprocessing.get_context("fork").Pool(count, begin, (function,)) as pool:
        yield told(pool.imap(work, items, chunksize=4))
