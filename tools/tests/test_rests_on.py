"""docs/rests_on: what it prints of the types that definitions name."""
import re
import subprocess
import unittest

from .support import TOOLS

RESTS_ON = TOOLS.parent / "docs" / "rests_on"
TYPE = re.compile(r"^pub (?:struct|enum|type) (\w+)", re.M)


def printed(*words: str) -> str:
    return subprocess.run([RESTS_ON, "--print", *words], capture_output=True, text=True, check=True).stdout


class Types(unittest.TestCase):
    def test_named_by_a_definition_or_by_a_variant(self) -> None:
        self.assertEqual(TYPE.findall(printed("coordinate")), ["Axis", "Cell"])
        self.assertEqual(TYPE.findall(printed("answer_code")), ["Answer"])

    def test_of_which_others_are_made(self) -> None:
        """`line_between` names a pen and a line of a layer; what these are made of stands in five more sources, of two crates."""
        self.assertEqual(TYPE.findall(printed("line_between")), ["Cut", "Layer", "LayerLine", "Pen", "View", "SheetLine", "Style"])

    def test_each_once_and_before_all_definitions(self) -> None:
        for words in [(), ("Solve",)]:
            types, _, definitions = printed(*words).partition("\n-- ==== ")
            names = re.findall(r"^// ==== (.*)|^pub (?:struct|enum|type) (\w+)", types, re.M)
            self.assertIn(("", "Answer"), names)
            self.assertEqual(TYPE.findall(definitions), [])
            for source in types.split("// ==== ")[1:]:
                self.assertEqual(len(TYPE.findall(source)), len(set(TYPE.findall(source))), source)

    def test_with_comments_and_without_attributes(self) -> None:
        self.assertIn("/// How a search ended.\npub enum EndKind {\n    /// Both limits were kept.\n    Whole,\n", printed("head_text"))


class Invariants(unittest.TestCase):
    def test_of_a_type_and_what_they_cite(self) -> None:
        """No definition of a line cites what each line keeps: only the type's invariant does."""
        text = printed("line_between")
        self.assertIn("impl Model for SheetLine {\n    ghost Value = { Line };\n\n    ghost invariant = { λ s. IsKept record {\n", text)
        self.assertEqual(text.count("pub record IsKept "), 1)
        self.assertEqual(text.count("abbrev pub IsNear :"), 1)
        self.assertLess(text.index("ghost invariant"), text.index("pub record IsKept "))

    def test_none_where_a_type_has_none(self) -> None:
        self.assertNotIn("impl Model", printed("coordinate"))
        self.assertNotIn("ghost use", printed())


if __name__ == "__main__":
    unittest.main()
