"""The proved program that stands in the repository, and what is said of it."""
import os
import pathlib
import tempfile
import unittest
from unittest import mock

from drafting.core.messages import Refused
from drafting.recon import process, shipped

TOOLCHAIN = "a kit"


class OfARepository(unittest.TestCase):
    """A small repository with a program, whose files are changed one byte at a time."""

    def setUp(self) -> None:
        room = tempfile.TemporaryDirectory()
        self.addCleanup(room.cleanup)
        self.top = pathlib.Path(room.name)
        self.write("crates/low/src/lib.rt", "fn low() {}\n")
        self.write("crates/recon/src/main.rt", "fn main() {}\n")
        self.write("crates.txt", "recon: low\n")
        self.write("HANDLES", "Handles allowed: none.\n")
        self.built = self.write("crates/recon/out/recon", "the program")
        self.write("bin/recon", "the program")
        self.proved = shipped.Proved(shipped.sum_of_file(self.built), shipped.sum_of_sources(self.top), TOOLCHAIN, "2026-12-02", "3 passed, 0 failed")
        self.write("bin/PROVED", self.proved.text())

    def write(self, name: str, text: str) -> pathlib.Path:
        file = self.top / name
        file.parent.mkdir(parents=True, exist_ok=True)
        file.write_text(text)
        return file

    def faults(self, toolchain: str = TOOLCHAIN) -> list[str]:
        return shipped.faults(self.top, self.built, toolchain)

    def test_the_same_program_of_the_same_sources_has_no_fault(self) -> None:
        self.assertEqual(self.faults(), [])

    def test_one_byte_of_any_source_is_seen(self) -> None:
        for name in ("crates/low/src/lib.rt", "crates/recon/src/main.rt", "crates.txt", "HANDLES"):
            with self.subTest(name):
                file = self.top / name
                before = file.read_bytes()
                file.write_bytes(before[:-2] + bytes([before[-2] ^ 1]) + before[-1:])
                self.assertIn("the sources under crates/ have changed", self.faults()[0])
                file.write_bytes(before)
                self.assertEqual(self.faults(), [])

    def test_a_source_more_a_source_less_and_another_name_are_seen(self) -> None:
        more = self.write("crates/low/proofs/More.antt", "")
        self.assertNotEqual(self.faults(), [])
        more.unlink()
        lib = self.top / "crates/low/src/lib.rt"
        lib.rename(lib.with_name("base.rt"))
        self.assertNotEqual(self.faults(), [])
        lib.with_name("base.rt").unlink()
        self.assertNotEqual(self.faults(), [])

    def test_what_builds_leave_is_no_source(self) -> None:
        self.write("crates/low/out/rlib/low.rlib", "anything")
        self.assertEqual(self.faults(), [])

    def test_one_byte_of_the_program_is_seen(self) -> None:
        self.write("bin/recon", "the progran")
        self.assertIn("isn't the program of bin/PROVED", self.faults()[0])
        self.write("bin/recon", "the program")
        self.write("crates/recon/out/recon", "the progran")
        self.assertIn("byte for byte", self.faults()[0])

    def test_another_toolchain_may_write_other_bytes(self) -> None:
        self.write("crates/recon/out/recon", "another program")
        self.assertEqual(self.faults("another kit"), [])

    def test_a_file_that_says_something_else_is_refused(self) -> None:
        for text in ("", self.proved.text().replace("date", "when"), self.proved.text() + "more of it\n"):
            with self.subTest(text), self.assertRaises(Refused) as refused:
                shipped.read(text)
            self.assertIn("tools/refresh-bin", str(refused.exception))
        self.assertEqual(shipped.read(self.proved.text()), self.proved)
        (self.top / "bin/PROVED").unlink()
        self.assertEqual(self.faults(), ["bin/PROVED isn't there"])

    def test_the_newer_of_two_programs_is_run(self) -> None:
        paths = self.top / "bin/recon", self.built
        for path in paths:
            path.chmod(0o755)
        with mock.patch.multiple(process, SHIPPED=paths[0], BUILT=paths[1]), mock.patch.dict(os.environ):
            os.environ.pop("RECON", None)
            for newer, older in (paths, paths[::-1]):
                os.utime(older, (1, 1))
                os.utime(newer, (2, 2))
                self.assertEqual(process.find(), newer.resolve())
            self.built.unlink()
            self.assertEqual(process.find(), paths[0].resolve())
            with mock.patch.multiple(process, TOP=self.top):
                self.assertIn("its sum is that of bin/PROVED", shipped.described())
                self.write("bin/recon", "another program")
                self.assertIn("Not checked: its sum isn't that of bin/PROVED", shipped.described())


class OfThisRepository(unittest.TestCase):
    """What stands in bin/ here."""

    @unittest.skipUnless((process.TOP / "crates").is_dir(), "only in a clone of the repository")
    def test_the_program_is_that_of_the_sources(self) -> None:
        proved = shipped.read((process.TOP / "bin" / "PROVED").read_text())
        self.assertEqual(shipped.sum_of_file(process.SHIPPED), proved.program)
        self.assertEqual(shipped.sum_of_sources(process.TOP), proved.sources)


if __name__ == "__main__":
    unittest.main()
