"""The tags that ezdxf is handed are those that its own loader finds, and a file of which they can't be found so is left to that."""
import io
import pathlib
import random
import tempfile
import unittest
from typing import Any

from drafting.dxf import encoding, reader, tags

from . import made, sheets
from .support import EXAMPLES, needs_module

HEAD = "  0\nSECTION\n  2\nENTITIES\n  0\nLINE\n  8\nA\n"
TAIL = "  0\nENDSEC\n  0\nEOF\n"
LINE = " 10\n1\n 20\n2\n 30\n3\n 11\n4.5\n 21\n1e3\n 62\n 7\n"
# What is found of the tags of a line, by what stands there.
FOUND = {
    "points, of which one is flat": LINE, "a comment": f"999\nhello\n{LINE}", "a comment in a point": LINE.replace(" 20\n", "999\n0\n 20\n"),
    "blanks behind names": LINE + "  0\nLINE \n  8\n B \n", "bytes": LINE + "310\n00FF\n", "a flat point at the end": LINE + " 12\n1\n 22\n2\n",
    "nothing": "", "what an application has": LINE + "102\n{X\n 40\n1.5\n102\n}\n1001\nY\n1040\n2.0\n",
}
# What is left to ezdxf.
ODD = {
    "no y": " 10\n1\n 30\n3\n", "no number": " 10\n1\n 20\nx\n", "a float for a whole number": " 62\n7.0\n", "no code": "x\n1\n", "no bytes": "310\nxyz\n",
    "a section within": "  0\nSECTION\n  2\nX\n", "an end": TAIL[:11],
}


def by_ezdxf(text: str) -> dict[str, list[Any]]:
    from ezdxf.lldxf.loader import load_dxf_structure
    from ezdxf.lldxf.tagger import ascii_tags_loader, tag_compiler
    sections: dict[str, list[Any]] = load_dxf_structure(tag_compiler(ascii_tags_loader(io.StringIO(text))))
    return sections


def told(sections: dict[str, list[Any]]) -> dict[str, list[list[tuple[object, ...]]]]:
    """The tags of each section, with their types."""
    return {name: [[(type(tag), tag.code, type(tag.value), tag.value) for tag in entity] for entity in entities]
            for name, entities in sections.items() if name not in tags.UNASKED}


def of_lines(text: str) -> dict[str, list[Any]]:
    return tags.sections_in(text.split("\n"))


@needs_module("ezdxf", "python3-ezdxf")
class Tags(unittest.TestCase):
    def test_they_are_those_of_its_own_loader(self) -> None:
        chance, doc = random.Random(7), sheets.new()
        for cells in (made.random_solid(chance, 4, 4) for _ in range(3)):
            text = made.file_of(made.drawn(cells, made.random_cuts(chance, cells)))
            self.assertEqual(told(of_lines(text)), told(by_ezdxf(text)))
        sheets.frame(doc, doc.modelspace())
        doc.modelspace().add_mtext("a text").set_location((1, 2))
        out = io.StringIO()
        doc.write(out)
        self.assertEqual(told(of_lines(out.getvalue())), told(by_ezdxf(out.getvalue())))
        self.assertIn("CLASSES", by_ezdxf(out.getvalue()))
        for what, text in FOUND.items():
            with self.subTest(what):
                self.assertEqual(told(of_lines(HEAD + text + TAIL + "  9\njunk\n")), told(by_ezdxf(HEAD + text + TAIL)))

    def test_what_is_left_to_ezdxf(self) -> None:
        for what, text in ODD.items():
            with self.subTest(what), self.assertRaises((tags.Odd, ValueError)):
                of_lines(HEAD + text + TAIL)
        for text in ("", "  0\n", HEAD, HEAD + TAIL[:11], TAIL, "  0\nSECTION\n" + TAIL, "  2\nX\n" + HEAD + TAIL):
            with self.subTest(text), self.assertRaises((tags.Odd, ValueError)):
                of_lines(text)

    def test_documents_are_those_of_ezdxf_alone(self) -> None:
        """By the text of a file as it is, with other ends of lines, and with a letter that isn't of ASCII, in the code page of Windows."""
        ezdxf = reader.library()
        plain = (EXAMPLES / "bracket.dxf").read_bytes()
        with tempfile.TemporaryDirectory() as room:
            file = pathlib.Path(room, "part.dxf")
            for data in (plain, plain.replace(b"\r", b"").replace(b"\n", b"\r\n"), plain.replace(b"\r", b"").replace(b"\n", b"\r"),
                         plain.replace(b"\nENTITIES", b"\nENTITIES\n  0\nPOINT\n  8\n\xfc\n 10\n0\n 20\n0", 1)):
                file.write_bytes(data)
                mine, its = reader.loaded(ezdxf, encoding.decode(data)), ezdxf.readfile(file)
                self.assertEqual(*([(entity.dxftype(), entity.dxf.all_existing_dxf_attribs()) for entity in document.entitydb.values()]
                                   for document in (mine, its)))
                self.assertEqual((mine.dxfversion, mine.encoding), (its.dxfversion, its.encoding))
