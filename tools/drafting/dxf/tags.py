"""The tags of an ASCII file for ezdxf, found in one go: its own loader hands each of them through three generators, which takes as long as all
else that it does with them. A file in which anything is amiss is none of these: ezdxf reads it by itself, and says what is wrong."""
import functools
from typing import Any

# How many tags are held, since those of one program's files are mostly the same: they are never changed.
MOST_HELD = 20_000
# Sections of which nothing is asked unless a document is written.
UNASKED = ("CLASSES", "THUMBNAILIMAGE")


class Odd(Exception):
    """A file that ezdxf has to read by itself."""


def document_of(text: str) -> Any:
    """The document of a file's text, as `ezdxf.read` gives it. Odd, or whatever ezdxf stumbles on, where it has to be read by that."""
    from ezdxf.document import Drawing
    document = Drawing()
    document.is_loading = True
    document._load_section_dict(sections_in(text.replace("\r\n", "\n").replace("\r", "\n").split("\n")))
    return document


def sections_in(lines: list[str]) -> dict[str, list[Any]]:
    """The entities of each section, as ezdxf has them: lists of tags, of which the first is (0, NAME)."""
    codes, values = list(map(int, lines[0:len(lines) - 1:2])), lines[1::2]
    if 999 in codes:
        kept = [at for at, code in enumerate(codes) if code != 999]
        codes, values = [codes[at] for at in kept], [values[at] for at in kept]
    begins = [at for at, code in enumerate(codes) if not code]
    ends = next((number for number, at in enumerate(begins) if values[at] == "EOF"), 0)
    if not ends or begins[0]:
        raise Odd("it has no end, or doesn't begin with a section")
    tags_of = tagger()
    sections: dict[str, list[Any]] = {}
    section: list[Any] | None = None
    for first, behind in zip(begins[:ends], begins[1:]):
        name = values[first].strip()
        if (name == "SECTION") != (section is None):
            raise Odd("sections stand in one another, or something outside of them")
        if name == "ENDSEC":
            section = None
            continue
        entity = tags_of(codes, values, first, behind)
        if section is None:
            if behind == first + 1 or codes[first + 1] != 2:
                raise Odd("a section has no name")
            section = sections[values[first + 1]] = []
        section.append(entity)
    if section is not None:
        raise Odd("a section has no end")
    return {name: entities for name, entities in sections.items() if name not in UNASKED}


@functools.cache
def tagger() -> Any:
    """What makes the tags of an entity, of the codes and values between two places."""
    from ezdxf.lldxf.tags import Tags
    from ezdxf.lldxf.types import BINARY_DATA, POINT_CODES, TYPE_TABLE, DXFBinaryTag, DXFTag, DXFVertex

    @functools.lru_cache(maxsize=MOST_HELD)
    def tag_of(code: int, text: str) -> Any:
        if code in BINARY_DATA:
            return DXFBinaryTag.from_string(code, text)
        return DXFTag(code, TYPE_TABLE.get(code, str)(text if code else text.strip()))

    def tags_of(codes: list[int], values: list[str], at: int, behind: int) -> Any:
        tags = Tags()
        while at < behind:
            code = codes[at]
            if code not in POINT_CODES:
                tags.append(tag_of(code, values[at]))
                at += 1
                continue
            if codes[at + 1] != code + 10:
                raise Odd("a point has no y")
            size = 3 if codes[at + 2] == code + 20 else 2
            tags.append(DXFVertex(code, map(float, values[at:at + size])))
            at += size
        return tags

    return tags_of
