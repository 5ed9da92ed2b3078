"""What a line of a sheet is for: a visible edge, a hidden one, or none; by what the user says, its linetype, its layer's name."""
import enum
from collections.abc import Sequence
from typing import NamedTuple

from ..core.messages import Refused
from .layer_words import Role, role_of, said_by, said_by_linetype


class Style(enum.Enum):
    VISIBLE = "visible"
    HIDDEN = "hidden"
    CENTRE = "a centre line"
    APART = "apart from the views"
    UNKNOWN = "of an unknown style"


class Look(NamedTuple):
    """How an entity looks: its layer, its linetype, and its colour, each as its layer and the inserts round it make them; and
    whether the linetype is its own, rather than its layer's."""

    layer: str
    linetype: str
    colour: int
    is_own: bool = False


# The linetypes of which the layer's name tells the style.
PLAIN = ("CONTINUOUS", "BYLAYER", "BYBLOCK")
STYLES = {Role.CENTRE: Style.CENTRE, Role.HIDDEN: Style.HIDDEN}
# Lines of these roles are apart from the views.
ASIDE = (Role.CUTTING, Role.HATCH, Role.DIMENSION, Role.TEXT, Role.FRAME)


class Choice(NamedTuple):
    """What the user says of lines: by `colour`, `layer` or `linetype`, and which one."""

    kind: str
    value: str
    style: Style

    def meets(self, look: Look) -> bool:
        told = {"color": str(look.colour), "layer": look.layer.upper(), "linetype": look.linetype.upper()}
        return told[self.kind] == self.value.upper()


def choice_of(text: str, style: Style) -> Choice:
    kind, sign, value = text.partition("=")
    kind = "color" if kind == "colour" else kind
    if not sign or not value or kind not in ("color", "layer", "linetype"):
        raise Refused(f"not color=NUMBER, layer=NAME or linetype=NAME: {text}")
    return Choice(kind, value, style)


def of_pattern(pattern: Sequence[float]) -> Style:
    """The style of a linetype by its dashes, gaps (negative) and dots: strokes of one length are dashes, of two a centre line."""
    strokes = {round(length, 6) for length in pattern if length >= 0}
    if not pattern:
        return Style.VISIBLE
    if strokes == {0.0} or len(pattern) < 2:
        return Style.UNKNOWN
    return Style.HIDDEN if len(strokes) == 1 else Style.CENTRE


def style_of(look: Look, choices: Sequence[Choice], pattern: Sequence[float] | None) -> tuple[Style, str]:
    """The style, and by what it was told, in words where that isn't the plain linetype. What names say stands in `layer_words.py`;
    a linetype's pattern, as the file's table has it, tells those whose names don't."""
    for choice in choices:
        if choice.meets(look):
            return choice.style, f"as {choice.kind}={choice.value} says"
    if look.linetype.upper() in PLAIN:
        said = said_by(look.layer)
        if said is None or said.role is Role.VISIBLE:
            return Style.VISIBLE, ""
        if said.role in ASIDE:
            return Style.APART, f"layer {look.layer} is named for {said.role.value}"
        return STYLES[said.role], f"by the name of layer {look.layer}"
    if said := said_by_linetype(look.linetype):
        return STYLES[said.role], "" if look.linetype.upper() in ("HIDDEN", "DASHED", "CENTER") else f"by linetype {look.linetype}"
    style = of_pattern(pattern) if pattern is not None else Style.UNKNOWN
    return style, f"linetype {look.linetype}" + ("" if style is Style.UNKNOWN else ", by its pattern")


def is_hidden_by_name(look: Look) -> bool:
    """Whether only the name of its layer says that a line is hidden."""
    return look.linetype.upper() in PLAIN and role_of(look.layer) is Role.HIDDEN
