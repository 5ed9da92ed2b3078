"""Labels of sections in many languages, with each dash, and what is none."""
import unittest

from drafting.dxf.reader import Source
from drafting.sections.cutting_plane_marks import Word
from drafting.sections.recognize import label_in

# A label, and its letter; nothing where a text is no label.
LABELS = """
    SEC. A-A | A
    SECTION A-A | A
    Разрез А-А | А
    Сечение Б-Б | Б
    断面A-A | A
    断面図 B-B | B
    剖面A-A | A
    剖面图 A-A | A
    METSZET A-A | A
    Cięcie A-A | A
    Przekrój B-B | B
    ŘEZ C-C | C
    Kesit A-A | A
    SECTION 1-1 | 1
    Разрез 1-1 | 1
    SECTION 12-12 | 12
    I-I | I
    II-II | II
    Schnitt III-III | III
    A–A | A
    A—A | A
    A‐A | A
    A‑A | A
    A−A | A
    A－A | A
    SECTION A-A (2:1) | A
    1-1 | none
    1:1 | none
    A | none
    A-B | none
    SECTOR A-A | none
    II | none
    12 | none
    BRACKET | none
    SECS | none
    SECTOR | none
    REZA | none
"""


class Labels(unittest.TestCase):
    def test_what_they_name(self) -> None:
        for row in LABELS.strip().splitlines():
            text, _, letter = row.strip().rpartition(" | ")
            with self.subTest(text):
                found = label_in(Word(text, (0.0, 0.0), 2.5, Source("TEXT", "0", "")))
                self.assertEqual("none" if found is None else found, letter)
