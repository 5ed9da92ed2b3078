"""The letters of an ASCII DXF file. Up to R2004 they are in the code page that the header tells by $DWGCODEPAGE, from R2007 (AC1021) on in UTF-8
(DXF Reference, "Header section"). Letters beyond these stand as `\\U+XXXX`, and in files of older programs as `\\M+NXXXX`: the bytes XXXX of
the double-byte code page number N.

Both readers of a file, ezdxf's and that of `drawing.py`, are handed what is decoded here, so that they agree on the names of layers.
"""
import codecs
import re
from typing import NamedTuple

# R2007, the first version whose files are in UTF-8.
UNICODE_VERSION = b"AC1021"
VERSION = re.compile(rb"\$ACADVER[ \t]*[\r\n]+[ \t]*1[ \t]*[\r\n]+[ \t]*(AC\d+)", re.I)
PAGE = re.compile(rb"\$DWGCODEPAGE[ \t]*[\r\n]+[ \t]*3[ \t]*[\r\n]+[ \t]*([\w.-]+)", re.I)
DEFAULT = "cp1252"
# Code pages whose names in the header aren't those of Python's codecs: `ascii` has no letters of its own.
NAMES = {
    "ascii": DEFAULT, "936": "gbk", "gb2312": "gbk", "950": "cp950", "big5": "cp950", "ksc5601": "cp949", "1361": "johab", "johab": "johab",
    "mac-roman": "mac_roman", "utf8": "utf-8", "utf-8": "utf-8", "65001": "utf-8",
}
ISO_8859 = re.compile(r"iso[-_]?8859[-_](\d{1,2})")
NUMBERED = re.compile(r"(?:ansi_?|dos_?|cp)?(\d{3,5})")
# Code pages in which letters that people write don't look like UTF-8: capitals and small letters stand above the bytes 80 to BF.
SINGLE = tuple(f"cp{number}" for number in range(1250, 1259))
# The double-byte code pages of `\M+N`.
DOUBLE = {"1": "cp932", "2": "cp950", "3": "cp949", "4": "johab", "5": "gbk"}
ESCAPES = re.compile(r"\\U\+(00(?:0[1-9A-F]|10)[0-9A-F]{4}|[0-9A-F]{4})|\\M\+([1-5])([0-9A-F]{4})", re.I)
BEYOND = re.compile(r"[^\x00-\x7f]")
LOST = "\ufffd"


class Decoded(NamedTuple):
    """The text of a file, the code page that it was read by, as Python names it, and how many letters are none there (each is � in the text)."""

    text: str
    page: str
    lost: int


def decode(data: bytes) -> str:
    """The text of an ASCII DXF file, without a byte order mark. Bytes that are no letter become �; lines are those of the bytes."""
    return decoded(data).text


def decoded(data: bytes) -> Decoded:
    """As `decode`, with what it was read by."""
    page = page_of(data)
    if data.isascii():
        return Decoded(unescaped(data.decode("ascii")), page, 0)
    text = unescaped(by_lines(data.removeprefix(codecs.BOM_UTF8), page))
    return Decoded(text, page, text.count(LOST))


def page_of(data: bytes) -> str:
    """The code page of a file, as Python names it. Many programs write UTF-8 and tell a Windows code page, or none: whatever can be read as
    UTF-8, is, where a text of that code page couldn't look so by chance."""
    if data.startswith(codecs.BOM_UTF8):
        return "utf-8"
    version, told = VERSION.search(data), PAGE.search(data)
    if version and version[1].upper() >= UNICODE_VERSION:
        return "utf-8"
    page = codec_of(told[1].decode("ascii", "replace")) if told else DEFAULT
    return "utf-8" if page in SINGLE and is_unicode(data) else page


def codec_of(name: str) -> str:
    """The codec of a code page, by its name in the header; that of Windows for western Europe where it isn't known, as ezdxf has it."""
    name = name.lower()
    if found := ISO_8859.fullmatch(name):
        name = f"iso8859_{found[1]}"
    elif found := NUMBERED.fullmatch(name):
        name = NAMES.get(found[1], f"cp{found[1]}")
    name = NAMES.get(name, name)
    try:
        # A codec of text alone: Python has others, as for compressed bytes.
        return name if codecs.lookup(name).name and isinstance(b" ".decode(name), str) else DEFAULT
    except LookupError:
        return DEFAULT


def is_unicode(data: bytes) -> bool:
    """Whether data has letters beyond ASCII and all of them are UTF-8."""
    if data.isascii():
        return False
    try:
        data.decode("utf-8")
    except UnicodeDecodeError:
        return False
    return True


def by_lines(data: bytes, page: str) -> str:
    """Data in a code page, each line by itself: the first byte of a broken double-byte letter takes no end of a line with it."""
    if page in ("utf-8", *SINGLE):
        return data.decode(page, "replace")
    return "\n".join(line.decode(page, "replace") for line in data.split(b"\n"))


def unescaped(text: str) -> str:
    """A text with the letters that stand as escapes in it. What isn't beyond ASCII stays: ends of lines and names that recon reads."""
    return ESCAPES.sub(letter_of, text) if "\\" in text else text


def letter_of(escape: re.Match[str]) -> str:
    """The letter that an escape says; the escape where it says none."""
    number, double, its = escape.groups()
    if double:
        letter = bytes.fromhex(its).lstrip(b"\0").decode(DOUBLE[double], "ignore")
        return letter if len(letter) == 1 and not letter.isascii() else escape[0]
    code = int(number, 16)
    if code < 0xA0 or 0xD800 <= code < 0xE000:
        return escape[0]
    return chr(code)


def escaped(text: str) -> bytes:
    """A text in ASCII, with the escapes that ezdxf reads; letters that it has no escape for become �."""
    return BEYOND.sub(lambda letter: f"\\U+{min(ord(letter[0]), ord(LOST)):04X}", text).encode("ascii")
