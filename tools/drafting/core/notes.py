"""What is found, changed, left out or drawn while a drawing is read, and of what is warned: a record each, which is made where it is seen. It
is told as a sentence here alone, and written as JSON as it is."""
import dataclasses
from collections import Counter
from collections.abc import Callable
from typing import NamedTuple

KINDS = ("found", "changed", "left out", "drawn", "warning")


@dataclasses.dataclass(frozen=True)
class Note:
    """What it is, in words; and of how many, in which view of the drawing, on which layer and of which kind of entity, where that is known."""

    kind: str
    what: str
    count: int | None = None
    view: str | None = None
    layer: str | None = None
    entity: str | None = None

    def __str__(self) -> str:
        return f"{self.kind}: {self.what}"


Tell = Callable[[Note], object]


def found(what: str, count: int | None = None, view: str | None = None) -> Note:
    return Note("found", what, count, view)


def changed(what: str, count: int | None = None, view: str | None = None) -> Note:
    return Note("changed", what, count, view)


def left_out(what: str, count: int | None = None, view: str | None = None) -> Note:
    return Note("left out", what, count, view)


def drawn(what: str, count: int | None = None) -> Note:
    return Note("drawn", what, count)


def warning(what: str, count: int | None = None) -> Note:
    return Note("warning", what, count)


class Thing(NamedTuple):
    """A thing of which there may be many, in words; with its layer and kind of entity, and the view that it was taken to."""

    words: str
    layer: str | None = None
    entity: str | None = None
    view: str | None = None


Things = Counter[Thing]


def counted(kind: str, things: Things) -> list[Note]:
    """How often each thing is there."""
    return [Note(kind, f"{count} {it.words}", count, it.view, it.layer, it.entity) for it, count in things.items()]


def tell_none(note: Note) -> None:
    """For who only asks whether there is an answer."""
