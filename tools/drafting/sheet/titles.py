"""Texts of a sheet that name its views ("TOP VIEW", "DRAUFSICHT") or its projection ("FIRST ANGLE PROJECTION"), and which angle they say.

A title belongs to the view that it stands nearest to, below or above it. Where views stand says how they are unfolded: in third angle what
stands to the right of a view is seen from its right, in first angle from its left. So two titles, or one title and the place of its view, say
the angle. ISO 128 calls first angle method 1 (once method E), and third angle method 3 (once A).
"""
import itertools
import re
import unicodedata
from collections.abc import Mapping, Sequence
from typing import NamedTuple

from ..core.messages import Refused
from ..dxf.drawing import Place
from ..dxf.reader import Box
from ..projection.draw import FRAMES, Frame

# The views by what names them, a language a row; a side view without its side may be either one.
SIDES = ("SIDE", "LEFT")
NAMES: tuple[tuple[tuple[str, ...], str], ...] = (
    (("FRONT",), "FRONT VIEW|FRONT ELEVATION|FRONT|VORDERANSICHT|ANSICHT VON VORNE|VUE DE FACE|VUE AVANT|VISTA FRONTALE|VISTA FRONTAL|ALZADO|"
     "VISTA ANTERIORE|WIDOK Z PRZODU|ВИД СПЕРЕДИ|ГЛАВНЫЙ ВИД|主视图|正面図"),
    (("TOP",), "TOP VIEW|TOP|PLAN VIEW|PLAN|DRAUFSICHT|ANSICHT VON OBEN|VUE DE DESSUS|VISTA DALL'ALTO|VISTA SUPERIORE|PIANTA|VISTA SUPERIOR|PLANTA|"
     "WIDOK Z GORY|ВИД СВЕРХУ|俯视图|平面図"),
    (("BOTTOM",), "BOTTOM VIEW|BOTTOM|VIEW FROM BELOW|UNTERANSICHT|ANSICHT VON UNTEN|VUE DE DESSOUS|VISTA DAL BASSO|VISTA INFERIORE|VISTA INFERIOR|"
     "WIDOK Z DOLU|ВИД СНИЗУ|仰视图|下面図|底面図"),
    (("SIDE",), "RIGHT SIDE VIEW|RIGHT-SIDE VIEW|RIGHT VIEW|RIGHT SIDE|RIGHT HAND VIEW|RIGHT ELEVATION|RIGHT SIDE ELEVATION|SEITENANSICHT VON RECHTS|"
     "SEITENANSICHT RECHTS|ANSICHT VON RECHTS|VUE DE DROITE|VISTA DA DESTRA|VISTA LATERALE DESTRA|VISTA LATERAL DERECHA|VISTA LATERAL DIREITA|"
     "WIDOK Z PRAWEJ|WIDOK Z PRAWEJ STRONY|ВИД СПРАВА|右视图|右側面図"),
    (("LEFT",), "LEFT SIDE VIEW|LEFT-SIDE VIEW|LEFT VIEW|LEFT SIDE|LEFT HAND VIEW|LEFT ELEVATION|LEFT SIDE ELEVATION|SEITENANSICHT VON LINKS|"
     "SEITENANSICHT LINKS|ANSICHT VON LINKS|VUE DE GAUCHE|VISTA DA SINISTRA|VISTA LATERALE SINISTRA|VISTA LATERAL IZQUIERDA|VISTA LATERAL ESQUERDA|"
     "WIDOK Z LEWEJ|WIDOK Z LEWEJ STRONY|ВИД СЛЕВА|左视图|左側面図"),
    (("REAR",), "REAR VIEW|BACK VIEW|REAR ELEVATION|RUCKANSICHT|RUECKANSICHT|ANSICHT VON HINTEN|VUE ARRIERE|VISTA POSTERIORE|VISTA POSTERIOR|"
     "WIDOK Z TYLU|ВИД СЗАДИ|后视图|背面図"),
    (SIDES, "SIDE VIEW|SIDE ELEVATION|END VIEW|SEITENANSICHT|VUE DE COTE|VISTA LATERALE|VISTA LATERAL|側面図"),
)
# What says an angle.
FIRST = (r"\b(FIRST|1ST) ?-?ANGLE\b|\bISO[- ]E\b|\b(PROJECTION METHOD|PROJEKTIONSMETHODE) 1\b|\bPREMIER DIEDRE\b|\bPRIMO DIEDRO\b|\bPRIMER DIEDRO\b|"
         r"\bPRIMEIRO DIEDRO\b|\bEUROPEAN PROJECTION\b|第一角")
THIRD = (r"\b(THIRD|3RD) ?-?ANGLE\b|\bISO[- ]A\b(?! ?\d)|\b(PROJECTION METHOD|PROJEKTIONSMETHODE) 3\b|\bTROISIEME DIEDRE\b|\bTERZO DIEDRO\b|"
         r"\bTERCER DIEDRO\b|\bTERCEIRO DIEDRO\b|\bAMERICAN PROJECTION\b|第三角")
ANGLES = (("first", re.compile(FIRST)), ("third", re.compile(THIRD)))
# What may follow a title: a scale.
SCALED = re.compile(r"[\s,;:(-]*(?:(?:SCALE|MASSSTAB|MASZSTAB|M|ECHELLE|SCALA|ESCALA|SKALA|МАСШТАБ)?[\s.:=]*\d+(?:\.\d+)?\s*[:/]\s*\d+(?:\.\d+)?)?[\s).]*")
# How much nearer a title stands to its view than to another one.
NEARER = 0.8
OTHER = {"third": "first", "first": "third"}


class Text(NamedTuple):
    """A text of a sheet and where its middle is."""

    text: str
    place: Place


class Title(NamedTuple):
    """A text that names a view, the views that it may mean, and where its middle is."""

    text: str
    views: tuple[str, ...]
    place: Place


class Said(NamedTuple):
    """The angle that the texts of a sheet say, and these texts; no angle where they say none."""

    angle: str
    texts: tuple[str, ...] = ()

    @property
    def words(self) -> str:
        return " and ".join(f'"{text}"' for text in self.texts)


def plain(text: str) -> str:
    """A text in capitals, without accents, its blanks single. Cyrillic letters stay what they are."""
    letters = unicodedata.normalize("NFD", text.upper().replace("Ł", "L").replace("ß", "SS").replace("’", "'"))
    without = "".join(it for at, it in enumerate(letters) if not unicodedata.combining(it) or letters[at - 1:at] in ("И",))
    return " ".join(unicodedata.normalize("NFC", without).split())


TABLE = {name: views for views, row in NAMES for name in row.split("|")}


def views_in(line: str) -> tuple[str, ...]:
    """The views that a line of text may name; none where it says something else too, but for a scale."""
    words = plain(line)
    for name, views in TABLE.items():
        if words.startswith(name) and SCALED.fullmatch(words[len(name):]):
            return views
    return ()


def titles_in(texts: Sequence[Text]) -> list[Title]:
    """The titles among texts, of which each line may be one."""
    return [Title(line.strip(), views, it.place) for it in texts for line in it.text.splitlines() if (views := views_in(line))]


def projection_in(texts: Sequence[str]) -> Said:
    """The angle that texts name; none where they name both, as a form does in which one is to be ticked."""
    found = {angle: " ".join(text.split()) for text in texts for angle, words in ANGLES if words.search(plain(text))}
    return Said(next(iter(found)), tuple(found.values())) if len(found) == 1 else Said("")


# ---- which view a title stands by

def gap_of(box: Box, place: Place) -> float | None:
    """How far a place is below or above a box that it stands within the width of."""
    x, y = place
    return max(box[1] - y, y - box[3], 0.0) if box[0] <= x <= box[2] else None


def titled(titles: Sequence[Title], boxes: Mapping[str, Box]) -> dict[str, list[Title]]:
    """The titles of each of some boxes, by the box's name: a title is of the nearest one below or above it, if it is no farther than that
    is high or wide, and none where two boxes are about as near."""
    found: dict[str, list[Title]] = {}
    for title in titles:
        near = sorted((gap, name) for name, box in boxes.items() if (gap := gap_of(box, title.place)) is not None
                and gap <= max(box[2] - box[0], box[3] - box[1]))
        if near and (len(near) == 1 or near[0][0] < NEARER * near[1][0]):
            found.setdefault(near[0][1], []).append(title)
    return found


# ---- the angle

def toward(frame: Frame) -> tuple[tuple[int, int], tuple[int, int], tuple[int, int]]:
    """The directions to the right and upwards in a view, and toward its viewer, each as an axis and a sign."""
    return ((frame.right, -1 if frame.right_back else 1), (frame.up, -1 if frame.up_back else 1), (frame.sight, 1 if frame.sight_back else -1))


def seen_from(main: str, side: str, angle: str) -> str:
    """Which view stands on a side (right, left, above or below) of a view that stands upright, in an angle."""
    right, up, _ = toward(FRAMES[main])
    axis, sign = right if side in ("right", "left") else up
    sign = -sign if (side in ("left", "below")) != (angle == "first") else sign
    return next(view for view, frame in FRAMES.items() if toward(frame)[2] == (axis, sign))


def side_of(main: Box, box: Box) -> str:
    """On which side of the main view another one stands."""
    if box[0] >= main[2] or box[2] <= main[0]:
        return "right" if box[0] >= main[2] else "left"
    return "above" if box[1] >= main[3] else "below"


def angle_said(titles: Sequence[Title], projection: Said, boxes: Mapping[str, Box]) -> Said:
    """The angle that the titles of views and the name of the projection say, where the main view is FRONT's box; refused where they
    contradict one another, or no arrangement has the views where they stand."""
    by_box = titled(titles, boxes)
    if not by_box:
        return projection
    main, sides = boxes["FRONT"], {}
    for name, its in by_box.items():
        allowed = set.intersection(*(set(it.views) for it in its))
        sides["main" if name == "FRONT" else side_of(main, boxes[name]) if name != "REAR" else "behind"] = allowed
    texts = tuple(dict.fromkeys(it.text for its in by_box.values() for it in its))
    fits = {angle for angle, view in itertools.product(OTHER, FRAMES) if stands(view, angle, sides)}
    if not fits:
        raise Contradicted(f"the titles {' and '.join(repr(it) for it in texts)} name views that don't stand so in third angle or in first angle")
    if projection.angle and projection.angle not in fits:
        raise Contradicted(f"the text {projection.words} says {projection.angle} angle, and the titles {' and '.join(repr(it) for it in texts)} stand "
                           f"as in {OTHER[projection.angle]} angle")
    return Said(fits.pop(), texts) if len(fits) == 1 else projection


def stands(view: str, angle: str, sides: Mapping[str, set[str]]) -> bool:
    """Whether with this view as the main one, in this angle, each titled box is what its title says."""
    return all((view if side == "main" else opposite(view) if side == "behind" else seen_from(view, side, angle)) in allowed
               for side, allowed in sides.items())


def opposite(view: str) -> str:
    """The view from the other side."""
    axis, sign = toward(FRAMES[view])[2]
    return next(it for it, frame in FRAMES.items() if toward(frame)[2] == (axis, -sign))


class Contradicted(Refused):
    """Titles that contradict one another, the name of the projection, or where the views stand."""


def check_names(titles: Sequence[Title], boxes: Mapping[str, Box]) -> None:
    """Refuses titles that name other views than the layers or blocks of the lines that they stand by."""
    for view, its in titled(titles, boxes).items():
        for title in its:
            if view not in title.views:
                raise Refused(f"the layers or blocks of a view name it {view}, and the text {title.text!r} at {title.place[0]:.6g}, {title.place[1]:.6g} "
                              "stands nearest to it: rename the layers, or correct or move the text")
