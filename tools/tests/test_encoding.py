"""Letters beyond ASCII: sheets in each version of the format and in many code pages are read with the names that their layers have."""
import pathlib
import tempfile
import unittest
from typing import Any

from drafting.dxf import encoding, reader
from drafting.dxf.drawing import entries_of, lines_within

from . import sheets
from .support import draft, needs_module

# A layer of a frame in some language, the code page of its header and the codec by which its bytes are made; ezdxf writes the former ones.
BY_EZDXF = """
    Rahmen_groß cp1252
    Rámeček cp1250
    Рамка cp1251
    Πλαίσιο cp1253
    Çerçeve cp1254
    מסגרת cp1255
    إطار cp1256
    Rėmelis cp1257
    กรอบ cp874
    図面枠 cp932
    图框 gbk
    도면틀 cp949
    圖框 cp950
"""
BY_HAND = """
    Rahmen_groß dos850 cp850
    Rahmen_groß dos437 cp437
    Rámeček dos852 cp852
    Рамка dos866 cp866
    Рамка DOS855 cp855
    Çerçeve dos857 cp857
    Ramme_stør dos865 cp865
    図面枠 dos932 cp932
    图框 gb2312 gbk
    圖框 big5 big5
    도면틀 ksc5601 cp949
    Rahmen_groß iso8859_1 latin-1
    Рамка iso8859_5 iso8859-5
    Rahmen_groß mac-roman mac_roman
    Rahmen_groß ANSI_1252 utf-8
    Rahmen_groß UTF-8 utf-8
    図面枠 ansi_65001 utf-8
    Rahmen_groß unheard-of cp1252
    Rahmen_groß zlib cp1252
    Khung_Đô ANSI_1258 cp1258
"""
# Escapes, and what they say: a line's end, a blank and half a letter stay as they are.
ESCAPES = r"""
    Rahmen_gro\U+00DF Rahmen_groß
    Rahmen_gro\u+00df Rahmen_groß
    \U+56FE\U+6846 图框
    \U+0001F600x 😀x
    \M+190e0 説
    \M+5CDBC 图
    \M+2B9CF 圖
    \M+3B5B5 도
    \U+000A \U+000A
    \U+0046RONT \U+0046RONT
    \U+D800 \U+D800
    \M+10041 \M+10041
    \M+1FFFF \M+1FFFF
    \M+6CDBC \M+6CDBC
    \U+12 \U+12
"""


def rows(text: str) -> list[list[str]]:
    return [row.split() for row in text.strip().splitlines()]


def sheet_with(layer: str, version: str) -> Any:
    """A square, and a frame on a layer of this name."""
    doc = sheets.new(version)
    doc.layers.add(layer)
    space = doc.modelspace()
    for name, size in (("0", 10), (layer, 50)):
        corners = [(0, 0), (size, 0), (size, size), (0, size), (0, 0)]
        for start, end in zip(corners, corners[1:]):
            space.add_line(start, end, dxfattribs={"layer": name})
    return doc


def layers_by_both(data: bytes) -> tuple[set[str], set[str], list[str]]:
    """The layers of a file's lines as ezdxf's reader has them, and as `drawing.py` has; and what was changed or left out."""
    with tempfile.NamedTemporaryFile(suffix=".dxf") as file:
        file.write(data)
        file.flush()
        sheet = reader.read_sheet(file.name, ())
    told = [thing.words for thing in (*sheet.changed, *sheet.left)]
    read = {edge.source.layer for edge in sheet.edges} | {thing.layer for thing in sheet.left if thing.layer}
    return read, {entry.values[8] for entry in entries_of(lines_within(data)) if entry.name == "LINE"}, told


def written_by_ezdxf(layer: str, version: str, page: str) -> bytes:
    doc = sheet_with(layer, version)
    doc.encoding = page
    with tempfile.TemporaryDirectory() as room:
        file = pathlib.Path(room, "sheet.dxf")
        doc.saveas(file)
        return file.read_bytes()


def in_code_page(layer: str, told: str, codec: str, version: str = "R2000") -> bytes:
    """A file that tells a code page, with the bytes of another codec."""
    data = written_by_ezdxf("A_LAYER", version, "cp1252")
    assert data.count(b"ANSI_1252") == 1
    return data.replace(b"ANSI_1252", told.encode()).replace(b"A_LAYER", layer.encode(codec))


@needs_module("ezdxf", "python3-ezdxf")
class Letters(unittest.TestCase):
    def test_each_version_in_each_code_page_that_ezdxf_writes(self) -> None:
        for layer, page in rows(BY_EZDXF):
            for version in ("R12", "R2000", "R2004", "R2007", "R2010", "R2018"):
                with self.subTest(layer, version=version):
                    data = written_by_ezdxf(layer, version, page)
                    self.assertNotIn(b"\\U+", data)
                    self.assertEqual(layers_by_both(data)[:2], ({"0", layer}, {"0", layer}))

    def test_code_pages_that_ezdxf_does_not_write(self) -> None:
        for layer, told, codec in rows(BY_HAND):
            for version in ("R12", "R2004"):
                with self.subTest(layer, told=told, version=version):
                    self.assertEqual(layers_by_both(in_code_page(layer, told, codec, version))[:2], ({"0", layer}, {"0", layer}))

    def test_letters_that_ezdxf_has_no_code_page_for(self) -> None:
        """They are written as escapes, with small letters for digits."""
        data = written_by_ezdxf("Рамка_图", "R2000", "cp1252")
        self.assertIn(b"\\U+", data)
        self.assertEqual(layers_by_both(data)[:2], ({"0", "Рамка_图"}, {"0", "Рамка_图"}))

    def test_entities_of_a_later_version_than_the_one_told(self) -> None:
        """ezdxf is handed the file with another version, by its recovery."""
        data = in_code_page("Рамка", "ANSI_1251", "cp1251", "R2000").replace(b"AC1015", b"AC1009")
        self.assertEqual(layers_by_both(data)[:2], ({"0", "Рамка"}, {"0", "Рамка"}))

    def test_a_broken_file_in_a_code_page(self) -> None:
        data = in_code_page("Рамка", "ANSI_1251", "cp1251", "R12").replace(b"  0\nENDSEC\n", b"  0\nENDSEC\n  8\nx\n", 1)
        read, found, told = layers_by_both(data)
        self.assertEqual((read, found), ({"0", "Рамка"}, {"0", "Рамка"}))

    def test_a_binary_file(self) -> None:
        """ezdxf reads it by itself, by the same code page; what is no letter there is none that can't be written."""
        doc = sheet_with("Рамка", "R2000")
        doc.encoding = "cp1251"
        with tempfile.TemporaryDirectory() as room:
            file = pathlib.Path(room, "sheet.dxf")
            doc.saveas(file, fmt="bin")
            self.assertIn("Рамка", {thing.layer for thing in reader.read_sheet(str(file), ()).left})
            file.write_bytes(file.read_bytes().replace("Рамка".encode("cp1251"), b"Ramka"[:4] + b"\x98"))
            self.assertIn("Ramk�", {edge.source.layer for edge in reader.read_sheet(str(file), ()).edges})

    def test_bytes_that_are_no_letter_are_told(self) -> None:
        for layer, told, version in ((b"Rahmen_\x81", "ANSI_1252", "R12"), (b"Rahmen_\xe5", "ANSI_932", "R2000"),
                                     (b"Rahmen_\xff\xfe", "ANSI_1252", "R2010"), (b"Rahmen_\xe5", "ANSI_936", "R2004")):
            with self.subTest(told, version=version):
                data = written_by_ezdxf("A_LAYER", version, "cp1252").replace(b"ANSI_1252", told.encode()).replace(b"A_LAYER", layer)
                read, found, words = layers_by_both(data)
                self.assertEqual(read, found)
                self.assertEqual({name.replace("\ufffd", "") for name in read}, {"0", "Rahmen_"})
                self.assertEqual([it.partition(":")[0] for it in words if "letters" in it],
                                 [f"letters that code page {encoding.page_of(data)} doesn't have, read as \ufffd"])

    def test_a_sheet_with_umlauts_is_drawn(self) -> None:
        data = in_code_page("Rahmen_groß", "ANSI_1252", "cp1252", "R12")
        with tempfile.NamedTemporaryFile(suffix=".dxf") as file:
            file.write(data)
            file.flush()
            said = draft("sheet", file.name).said
        self.assertIn("Rahmen_groß", said)
        self.assertNotIn("otherwise than it is", said)


class Escapes(unittest.TestCase):
    def test_what_they_say(self) -> None:
        for text, read in rows(ESCAPES):
            with self.subTest(text):
                self.assertEqual(encoding.decode(text.encode()), read)

    def test_lines_are_those_of_the_bytes(self) -> None:
        """Half a letter of two bytes takes no end of a line with it, in none of the code pages."""
        for page in ("ANSI_932", "ANSI_936", "ANSI_949", "ANSI_950", "ANSI_1361", "ANSI_1252", "UTF-8"):
            data = f"  9\n$DWGCODEPAGE\n  3\n{page}\n".encode() + bytes(it for at in range(128, 256) for it in (at, 10))
            with self.subTest(page):
                self.assertEqual(encoding.decode(data).count("\n"), data.count(b"\n"))

    def test_what_ezdxf_recovers_from(self) -> None:
        self.assertEqual(encoding.escaped("Rahmen_groß 图 x"), b"Rahmen_gro\\U+00DF \\U+56FE x")
