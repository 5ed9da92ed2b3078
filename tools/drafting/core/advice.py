"""What a refusal advises: of options only those that were tried, and by which the sheet gets further."""
from collections.abc import Callable, Iterator, Mapping, Sequence

from ..dxf.reader import Source
from ..dxf.styles import Style, choice_of
from ..messages.controls import option
from .messages import Refused

# Whether a sheet gets further with something more left out, or with another tolerance.
GetsFurther = Callable[[Mapping[str, object]], bool]
# The digits of a tolerance that is named.
DIGITS = (1, 2, 5)


class Advisable(Refused):
    """A refusal that says what to do once that was tried; it is of some entities, whose edges don't have to stay."""

    sources: frozenset[Source] = frozenset()

    def advised(self, edges: Sequence[Source], gets_further: GetsFurther) -> Refused:
        """The refusal with what was tried on the sheet that has these edges."""
        return self


class InTheWay(Advisable):
    """Refused for entities that may be no part of the drawing. Words that end with an option say so, where leaving these out gets further and
    takes nothing of what has to stay: the edges that are named, else all of the sheet."""

    def __init__(self, text: str, sources: Sequence[Source], advice: str, kept: Sequence[Source] | None = None) -> None:
        super().__init__(text)
        self.sources, self.advice, self.kept = frozenset(sources), advice, kept

    def advised(self, edges: Sequence[Source], gets_further: GetsFurther) -> Refused:
        kept = [it for it in (edges if self.kept is None else self.kept) if it not in self.sources]
        ways = (its for its in ways_out(self.sources) if not any(meets(it, kept) for it in its) and gets_further({"leave_out": its}))
        way = next(ways, None)
        return Refused(f"{self}{self.advice} {option('leave-out', *way)}" if way else str(self))


class Styleless(Advisable):
    """Refused for an entity whose style nothing tells."""

    def __init__(self, text: str, source: Source) -> None:
        super().__init__(text)
        self.sources = frozenset((source,))


class Noisy(Advisable):
    """Refused for what is off by more than noise: it may be noise, or, where it is no edge then, a detail that is smaller than edges are."""

    def __init__(self, text: str, off: float, finest: float = 0.0) -> None:
        super().__init__(text)
        self.off, self.finest = off, finest

    def advised(self, edges: Sequence[Source], gets_further: GetsFurther) -> Refused:
        rows = ((next_above(self.off), "noise"), (next_below(self.finest), "an edge")) if self.finest else ((next_above(self.off), "noise"),)
        ways = [f"{option('tolerance', told(it))} where it is {what}" for it, what in rows if gets_further({"tolerance": it})]
        return Refused(f"{self}; say {' or '.join(ways)}" if ways else str(self))


def told(tolerance: float) -> str:
    return f"{tolerance:.9f}".rstrip("0").rstrip(".")


def next_above(value: float) -> float:
    """The least tolerance of one digit that is greater."""
    return next(it for power in range(-9, 9) for digit in DIGITS if (it := digit * 10.0**power) > 1.01 * value)


def next_below(value: float) -> float:
    """The greatest one that is less."""
    return next(it for power in range(8, -10, -1) for digit in reversed(DIGITS) if (it := digit * 10.0**power) < 0.99 * value)


def ways_out(sources: frozenset[Source]) -> Iterator[list[str]]:
    """How entities may be left out: by their layers, colours or linetypes."""
    looks = [it.look for it in sources if it.look]
    if looks and len(looks) == len(sources):
        yield sorted({f"layer={look.layer}" for look in looks})
        yield sorted({f"color={look.colour}" for look in looks})
        yield sorted({f"linetype={look.linetype}" for look in looks})


def meets(words: str, sources: Sequence[Source]) -> bool:
    """Whether an option takes any of some entities."""
    choice = choice_of(words, Style.APART)
    return any(it.look and choice.meets(it.look) for it in sources)
