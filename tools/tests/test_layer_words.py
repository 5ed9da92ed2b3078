"""What the names of layers and linetypes say, in many languages; and the views as witnesses against them."""
import pathlib
import tempfile
import unittest
from typing import Any

from drafting.core.messages import Refused
from drafting.dxf import layer_words
from drafting.dxf.styles import Look, Style, style_of
from drafting.sheet import pipeline

from .support import in_words, needs_module
from .test_sheet import arguments

# Names of layers as templates and draughtsmen have them, by what they say; "none" says nothing.
LAYERS = """
    HIDDEN: HIDDEN, HID, M-PART-HIDN, HIDDEN2, Hidden Lines, hidden_edges, FRONT_HIDDEN, DASHED, Verdeckt, VERDECKTE_KANTEN, VerdeckteKanten,
        unsichtbar, gestrichelte Linien, Strichlinie, nicht sichtbar, CACHE, CACHEES, Lignes cachées, arêtes_cachées, INTERROMPU, pointillé, NASCOSTE,
        Linee nascoste, TRATTEGGIO, OCULTAS, líneas ocultas, ARISTAS OCULTAS, linhas tracejadas, verborgen, streeplijn, Niewidoczne, linie kreskowe,
        neviditelné, skryté hrany, rejtett vonal, nem látható, skymd, skjult, piiloviiva, GİZLİ, görünmeyen, Невидимые, Штриховая, ПУНКТИР, скрытые линии,
        κρυφές, 虚线, 虛線, 隐藏线, かくれ線, 隠れ線, 破線, 숨은선, INVISIBLE
    CENTRE: CENTER, Centre Lines, CENTERLINE, M-CNTR, CL, AXES, Axis, DASHDOT, dash-dot, PHANTOM, Strichpunktlinie, STRICHPUNKT, Mitte, Mittellinien,
        Mittellinie_0.25, Achsen, Symmetrielinie, axes, AXE, traits mixtes, Assi, ASSE, mezzeria, Ejes, EJE, trazo y punto, eixos, hartlijn, osie, Osy,
        cerchovaná, középvonal, Tengely, centrumlinje, keskiviiva, eksen, Оси, Осевая, Штрихпунктирная, άξονες, 中心线, 中心線, 点划线, 一点鎖線, 중심선
    FRAME: BORDER, FRAME, Drawing Frame, TITLEBLOCK, TITLE_BLOCK, A-ANNO-TTLB, Defpoints, VIEWPORTS, Rahmen_groß, Zeichnungsrahmen, SCHRIFTFELD, CADRE,
        cartouche, squadratura, CARTIGLIO, Marco, cajetín, moldura, kader, Ramka, tabelka rysunkowa, rámeček, keret, ritningsram, çerçeve, Рамка, ШТАМП,
        основная надпись, πλαίσιο, 图框, 標題欄, 図面枠, 도면틀
    TEXT: TEXT, NOTES, annotation, Beschriftung, Texte, TESTI, textos, tekst, opisy, szöveg, YAZI, ТЕКСТ, 文字, 注記, 문자
    DIMENSION: DIM, DIMS, Dimensions, M-DIM, BEMASSUNG, Bemaßung, Maße, Maßlinien, COTES, cotation, QUOTE, quotature, COTAS, acotación, maatvoering,
        Wymiary, kóty, méretek, måttsättning, ölçü, РАЗМЕРЫ, 标注, 寸法, 치수
    HATCH: HATCH, Schraffur, schraffiert, HACHURES, RETINO, sombreado, arcering, kreskowanie, šrafování, Штриховка, 剖面线, ハッチング
    CUTTING: CUTTING_PLANE, SECTION-LINE, Schnittlinie, Schnittverlauf, plan de coupe, plano de corte, 剖切线
    VISIBLE: VISIBLE, Sichtbar, sichtbare_Kanten, OUTLINE, Körperkanten, visibili, zichtbaar, widoczne, viditelné, Видимые, 可见, 轮廓线
    none: 0, Strichstaerke 0.5, Strichstärke_05, STRICHBREITE_07, Linie_mittel, LINIE_MITTEL_035, mittelstark, FRONT, TOP, SIDE, PART, Geometrie, Layer1,
        Context, framework_x, Concentric, Taxes, Maxi, HOLES, THREADS, ROUNDS, Kanten, Konturen, Bauteil, Eckdaten, Sidewall, Hide-out, Dashboardx1, Clip, Dimmer
"""
# Coded names of ISO 13567-2.
CODED = """
    TEXT: A-B374--T-, M-------T-N, A-37420-A-
    DIMENSION: A-B374--D-, A-------D-
    HATCH: A-21B---H-
    FRAME: A-------B-, A-------P-
    none: A-B374--E-, M-PART1-E-, A-B374--XX
    HIDDEN: HIDDENLINE, M-PART1-E-HIDDEN
    CENTRE: CENTRELINE
"""
LINETYPES = """
    HIDDEN: HIDDEN, HIDDEN2, HIDDENX2, DASHED, DASHED2, DASHEDX2, ACAD_ISO02W100, ACAD_ISO03W100, JIS_02_0.7, VERDECKT, STRICHLINIE, Strich, CACHE,
        TRATTEGGIATA, OCULTA, Штриховая, 虚线
    CENTRE: CENTER, CENTER2, CENTERX2, DASHDOT, DASHDOT2, DASHDOTX2, PHANTOM, PHANTOM2, DIVIDE, BORDER, BORDER2, ACAD_ISO04W100, ACAD_ISO10W100,
        JIS_08_11, JIS_09_15, MITTE, STRICHPUNKT, ACHSE, AXES, Осевая, 中心线
    none: CONTINUOUS, DOT, MY_STROKES, Strichstaerke, FENCELINE1, ZIGZAG
"""


def rows(text: str) -> list[tuple[str, str]]:
    """The role and each name of a table."""
    found: list[tuple[str, str]] = []
    role = ""
    for line in text.strip().splitlines():
        head, colon, rest = line.strip().partition(": ")
        role, line = (head, rest) if colon else (role, line)
        found += [(role, name.strip()) for name in line.split(",") if name.strip()]
    return found


def said(role: layer_words.Role | None) -> str:
    return role.name if role else "none"


class Names(unittest.TestCase):
    def test_what_layers_say(self) -> None:
        for role, name in (*rows(LAYERS), *rows(CODED)):
            with self.subTest(name):
                self.assertEqual(said(layer_words.role_of(name)), role)

    def test_capitals_and_signs_between_do_not_matter(self) -> None:
        """But where capitals of another letter are no capitals of it, as in Turkish."""
        for role, name in rows(LAYERS):
            for form in (name.upper(), f"01_{name}_x", f"{name}-0.25", f"({name})"):
                with self.subTest(form):
                    self.assertEqual(said(layer_words.role_of(form)), role)

    def test_what_linetypes_say(self) -> None:
        for role, name in rows(LINETYPES):
            with self.subTest(name):
                told = layer_words.said_by_linetype(name)
                self.assertEqual(said(told and told.role), role)

    def test_styles(self) -> None:
        """A linetype comes before the layer's name, what the user says before both."""
        for layer, linetype, style in (("Strichpunktlinie", "CONTINUOUS", Style.CENTRE), ("Strichstaerke 0.5", "BYLAYER", Style.VISIBLE),
                                       ("Verdeckt", "CONTINUOUS", Style.HIDDEN), ("Verdeckt", "CENTER", Style.CENTRE), ("Rahmen", "HIDDEN", Style.HIDDEN),
                                       ("Rahmen", "CONTINUOUS", Style.APART), ("Sichtbar", "CONTINUOUS", Style.VISIBLE)):
            with self.subTest(layer, linetype=linetype):
                self.assertEqual(style_of(Look(layer, linetype, 7), (), None)[0], style)


# A cube of 3 with a void: the outline, and the hidden square within it.
PLACES = {"FRONT": (0, 0), "TOP": (0, 10), "SIDE": (10, 0)}


@needs_module("ezdxf", "python3-ezdxf")
class Witnesses(unittest.TestCase):
    def drawn(self, outline: str, inner: str, *words: str, more: Any = None) -> list[str]:
        """What is told of the sheet, whose outlines and inner squares are on these layers."""
        from . import sheets
        doc = sheets.new()
        for x, y in PLACES.values():
            for low, high, layer in ((0, 3, outline), (1, 2, inner)):
                corners = [(x + a, y + b) for a, b in ((low, low), (high, low), (high, high), (low, high), (low, low))]
                for ends in zip(corners, corners[1:]):
                    doc.modelspace().add_line(*ends, dxfattribs={"layer": layer})
        told: list[str] = []
        with tempfile.TemporaryDirectory() as room:
            file = pathlib.Path(room, "sheet.dxf")
            doc.saveas(file)
            pipeline.draw(str(file), arguments("sheet", str(file), *words), in_words(told))
        return told

    def test_layers_of_three_languages(self) -> None:
        for outline, inner in (("Strichstärke_0.5", "Strichlinie"), ("Видимые", "Невидимые"), ("粗实线", "虚线"), ("Linie_mittel", "HID")):
            with self.subTest(inner):
                told = self.drawn(outline, inner)
                self.assertIn(f"changed: 12 LINE on layer {inner} taken as hidden, by the name of layer {inner}", told)
                self.assertTrue(any(it.startswith("drawn: 24 lines, 12 of them hidden") for it in told), told)

    def test_a_hidden_layer_with_the_outline(self) -> None:
        with self.assertRaises(Refused) as caught:
            self.drawn("Dashed_Co", "0")
        self.assertEqual(str(caught.exception), "layer Dashed_Co is named for hidden lines (by “dashed”), and 4 sides of FRONT are drawn on it alone: an "
                         "outline is never hidden. Say --visible layer=Dashed_Co where its lines are visible, or --hidden layer=Dashed_Co where they are "
                         "hidden")
        self.assertTrue(any("24 lines, 0 of them hidden" in it for it in self.drawn("Dashed_Co", "0", "--visible", "layer=Dashed_Co")))
        self.assertTrue(any("24 lines, 12 of them hidden" in it for it in self.drawn("Dashed_Co", "0", "--hidden", "layer=Dashed_Co")))

    def test_a_layer_left_out_by_its_name_that_has_the_views(self) -> None:
        """As the part of a frame, on a layer named for it."""
        with self.assertRaises(Refused) as caught:
            self.drawn("Frame", "Hidden")
        self.assertIn("a layer was left out by its name, and with it the views are there: where it is one of edges, say --visible layer=Frame",
                      str(caught.exception))
        self.assertTrue(any("24 lines, 12 of them hidden" in it for it in self.drawn("Frame", "Hidden", "--visible", "layer=Frame")))
