"""What this module raises, all of it with one base; files that can't be read raise OSError, as everywhere."""
import contextlib
from collections.abc import Iterator
from typing import TYPE_CHECKING, Any

from drafting.core.messages import Refused, Usage
from drafting.recon.process import Failed, NoProgram

if TYPE_CHECKING:
    from .answer import Answer


class ReconError(Exception):
    """The base of all errors of this module."""


class OptionError(ReconError, ValueError):
    """An option that there isn't, or a value that it doesn't take."""


class SheetRefused(ReconError):
    """A file that is no drawing, or a sheet that can't be read without a guess: why, and which option says what lacks."""


class NotThere(ReconError):
    """There is no such solid, or none of which this can be told; or a package isn't there by which it would be."""


class ProgramFailed(ReconError):
    """recon isn't there, or a run of it came to no end: out of time or of memory."""


class DrawingFault(ReconError):
    """The drawing's first fault, as recon has it: its `code` (F7) and `name` (NotWhole), the `line` of the file and the `group_code`, and
    the `entity` there with its `layer` and `handle`, each None where it has none."""

    def __init__(self, told: dict[str, Any]) -> None:
        super().__init__(told["message"])
        self.code: str = told["code"]
        self.name: str = told["name"]
        self.line: int | None = told["line"]
        self.group_code: int | None = told["group_code"]
        self.entity: str | None = told["entity"]
        self.layer: str | None = told["layer"]
        self.handle: str | None = told["handle"]


class SearchCut(ReconError):
    """With strict=True: it isn't decided how many solids there are, as where a limit stopped the search. There may be more than those of its `answer`,
    whose `verdict` says why."""

    def __init__(self, why: str, answer: "Answer") -> None:
        super().__init__(why)
        self.answer = answer


@contextlib.contextmanager
def raised_as(other: type[ReconError]) -> Iterator[None]:
    """Has what `draft` refuses raised as an error of this module."""
    try:
        yield
    except Usage as refusal:
        raise OptionError(str(refusal)) from None
    except (Failed, NoProgram) as refusal:
        raise ProgramFailed(str(refusal)) from None
    except Refused as refusal:
        raise other(str(refusal)) from None
