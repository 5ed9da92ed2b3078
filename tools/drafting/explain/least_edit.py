"""The least change by which some solid has a drawing, as clingo finds it."""
from ..projection.draw import Grid, Row
from . import clingo
from .clingo import WORDS, is_there

__all__ = ["change_of", "is_there"]

# How many changes of one length are told.
MOST = 10

Rows = tuple[tuple[Row, bytes], ...]


def changed_rows(grid: Grid, atoms: list[str], names: dict[str, tuple[Row, int]]) -> Rows:
    """The rows that become of what clingo holds to be wrong."""
    rows: dict[Row, bytearray] = {}
    for atom in atoms:
        name, _, style = atom.removeprefix("wrong(").removesuffix(")").rpartition(",")
        row, segment = names[name]
        rows.setdefault(row, bytearray(grid.panels[row]))[segment] = WORDS.index(style)
    return tuple((row, bytes(rows[row])) for row in grid.panels if row in rows)


def change_of(grid: Grid, seconds: float) -> tuple[list[Rows], int, bool]:
    """The least changes, up to so many, or else the best one that was found in time; how long each is; whether none is less. The
    last is true of no change at all where clingo knows that there is none."""
    names = {
        clingo.segment_name(row, segment): (row, segment) for row, styles in grid.panels.items() for segment in range(len(styles))
    }
    facts = clingo.facts_of(grid) + "\n" + clingo.laws_of(grid)
    options = ["--opt-strategy=usc", "--opt-mode=optN", "--project", f"--models={MOST}"]
    found = clingo.ask("why.lp", facts, options, seconds)
    if found.least is None:
        return [], 0, found.done
    best = {changed_rows(grid, atoms, names) for atoms, cost in found.models if cost == found.least}
    return sorted(best), found.least * clingo.unit_of(grid), found.done
