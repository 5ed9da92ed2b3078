"""The Debian package: what is in it, that it answers without this repository, and that nothing is packaged where the gate doesn't pass."""
import gzip
import hashlib
import os
import pathlib
import re
import shutil
import subprocess
import tempfile
import time
import unittest

from drafting import __version__
from drafting.recon import process

from .support import TOOLS, draft, needs_command, needs_module, needs_program

# What a package is made of, beside the program.
COPIED = ("tools", "examples", "docs", ".gitignore", "crates/*/specs/*", "crates/recon_run/src/command.rt", "crates/tv_base/src/*")
# An `rt` that says what a test wants of it, and leaves a program.
GATE = """#!/bin/sh
case $1 in
version) echo a kit ;;
ci) mkdir -p crates/recon/out && cp '{program}' crates/recon/out/recon
    echo 'rt: ok'; echo '{last}'; exit {status} ;;
esac
"""


def ran(*words: object, folder: pathlib.Path | None = None, **variables: str) -> "subprocess.CompletedProcess[str]":
    return subprocess.run(list(map(str, words)), cwd=folder, capture_output=True, text=True, env={**os.environ, **variables})


@needs_command("dpkg-deb", "dpkg")
@needs_command("dpkg-shlibdeps", "dpkg-dev")
@needs_command("lowdown", "lowdown")
@needs_module("build_manpages", "python3-argparse-manpage")
@needs_program()
class Package(unittest.TestCase):
    def setUp(self) -> None:
        room = tempfile.TemporaryDirectory()
        self.addCleanup(room.cleanup)
        self.room = pathlib.Path(room.name).resolve()

    def made(self, folder: str) -> pathlib.Path:
        (self.room / folder).mkdir()
        ended = ran(TOOLS / "package", "--unproved", process.find(), "--output", self.room / folder)
        self.assertEqual(ended.returncode, 0, ended.stderr)
        self.assertIn("no licence is stated", ended.stderr)
        return pathlib.Path(ended.stdout.strip())

    def test_an_unproved_package_says_so_and_answers(self) -> None:
        file = self.made("one")
        self.assertEqual(file.read_bytes(), self.made("two").read_bytes())
        self.assertTrue(file.name.startswith(f"recon_{__version__}~~unproved."), file.name)
        fields = dict(line.split(": ", 1) for line in ran("dpkg-deb", "-f", file).stdout.splitlines() if not line.startswith(" "))
        self.assertLessEqual({it.split()[0] for it in fields["Depends"].split(", ")}, {"libc6", "libgcc-s1"})
        self.assertIn("UNPROVED", fields["Description"])
        tree = self.room / "tree"
        ran("dpkg-deb", "-x", file, tree)
        self.assertEqual((tree / "usr/bin/recon").read_bytes(), process.find().read_bytes())
        told = (tree / "usr/share/doc/recon/PROVED").read_text()
        self.assertIn("\nUNPROVED: ", told)
        self.assertIn(hashlib.sha256(process.find().read_bytes()).hexdigest(), told)
        for name in ("recon", "draft", "recon-check-log"):
            page = gzip.decompress((tree / f"usr/share/man/man1/{name}.1.gz").read_bytes()).decode().replace("\\", "")
            self.assertIn(f"\n{name} - ", page)
        ended = ran("/usr/bin/python3", "-P", "-m", "drafting", "solve", tree / "usr/share/doc/recon/examples/clevis.dxf", folder=self.room,
                    PYTHONPATH=str(tree / "usr/lib/python3/dist-packages"), PATH=f"{tree / 'usr/bin'}:/usr/bin:/bin", RECON="")
        self.assertIn("volume 41", ended.stdout, ended.stderr)
        use = f"import recon; print(recon.readfile({str(tree / 'usr/share/doc/recon/examples/clevis.dxf')!r})[0].volume)"
        ended = ran("/usr/bin/python3", "-P", "-c", use, folder=self.room, PYTHONPATH=str(tree / "usr/lib/python3/dist-packages"), RECON=str(tree / "usr/bin/recon"))
        self.assertEqual(ended.stdout, "41\n", ended.stderr)
        self.completes(tree)

    def completes(self, tree: pathlib.Path) -> None:
        folder = tree / "usr/share/bash-completion/completions"
        asked = [("recon", "s", "solve stl"), ("recon", "solve --n", "--nodes"), ("recon", "blocks --two", "--two-views"), ("draft", "tab", "table"),
                 ("draft", "solve --angle t", "third"), ("draft", "solve --so", "--solids"), ("draft", "solve cl", "")]
        for name, words, wanted in asked:
            text = f'. {folder / name}; COMP_WORDS=({name} {words}); COMP_CWORD=$((${{#COMP_WORDS[@]}} - 1)); _{name}; echo "${{COMPREPLY[@]}}"'
            self.assertEqual(ran("bash", "-c", text).stdout.strip(), wanted, words)

    @needs_command("lintian", "lintian")
    def test_lintian_finds_no_error(self) -> None:
        ended = ran("lintian", "--fail-on", "error", "--allow-root", self.made("one"))
        self.assertEqual(ended.returncode, 0, ended.stdout + ended.stderr)

    @needs_command("git", "git")
    def test_what_the_gate_passes_is_packaged_and_nothing_else(self) -> None:
        copy, rt = self.room / "copy", self.room / "bin" / "rt"
        for name in ran("git", "ls-files", "-co", "--exclude-standard", *COPIED, folder=TOOLS.parent).stdout.splitlines():
            (copy / name).parent.mkdir(parents=True, exist_ok=True)
            shutil.copy(TOOLS.parent / name, copy / name)
        commit = "git init -q && git add -A && git -c user.name=A -c user.email=a@example.org commit -qm all"
        self.assertEqual(ran("sh", "-c", commit, folder=copy).returncode, 0)
        rt.parent.mkdir()
        path = f"{rt.parent}:{os.environ['PATH']}"

        def packaged(last: str, status: int) -> "subprocess.CompletedProcess[str]":
            rt.write_text(GATE.format(program=process.find(), last=last, status=status))
            rt.chmod(0o755)
            return ran(copy / "tools" / "package", "--output", self.room, folder=copy, PATH=path)

        for last, status in (("9 passed, 1 failed", 0), ("0 passed, 0 failed", 0), ("9 passed, 0 failed", 1)):
            ended = packaged(last, status)
            self.assertEqual((ended.returncode, ended.stdout, list(self.room.glob("*.deb"))), (1, "", []))
            self.assertIn("rt ci doesn't pass, and nothing is packaged without", ended.stderr)
        (copy / "more").write_text("no commit has it\n")
        self.assertIn("the package is made of a commit, and here are changes", packaged("9 passed, 0 failed", 0).stderr)
        (copy / "more").unlink()
        ran("git", "tag", f"v{__version__}", folder=copy)
        ended = packaged("9 passed, 0 failed", 0)
        file = pathlib.Path(ended.stdout.strip())
        self.assertEqual(file.name.rpartition("_")[0], f"recon_{__version__}", ended.stderr)
        ran("dpkg-deb", "-x", file, self.room / "tree")
        told = (self.room / "tree/usr/share/doc/recon/PROVED").read_text()
        for said in ("rt version): a kit", "rt: ok / 9 passed, 0 failed", "  crates/recon_run/src/command.rt\n", "  crates/solid_model/specs/", ran("git", "rev-parse", "HEAD", folder=copy).stdout):
            self.assertIn(said, told)


@needs_module("build_manpages", "python3-argparse-manpage")
class Packages(unittest.TestCase):
    def test_one_list_of_packages(self) -> None:
        from packaging import deb
        listed = set(ran(TOOLS / "packages").stdout.split())
        page = (TOOLS.parent / "docs" / "USING.md").read_text()
        rows = re.findall(r"^\| (`.*?) \|", page[page.index("\n## Packages\n"):page.index("\n## Quick start\n")], re.M)
        table = {name for row in rows for name in re.findall(r"`([\w-]+)`", row)}
        fields = {name.split()[0] for name in (*deb.RECOMMENDS, *deb.SUGGESTS)} - {"python3", "openssh-client"}
        self.assertEqual(fields, table)
        self.assertLessEqual(table, listed)

    def installed(self, apt: str, seconds: int = 600) -> tuple[int, str, list[str]]:
        """How --install ends with this apt-get, whose words are noted, where one package lacks until a file `there` is; and what is said."""
        with tempfile.TemporaryDirectory() as folder:
            room = pathlib.Path(folder)
            for name, body in (("apt-get", f'echo "$*" >> {room}/asked; {apt}'), ("id", "echo 0"),
                               ("dpkg-query", f'case $4 in gringo) [ -f {room}/there ];; esac && echo install ok installed')):
                (room / name).write_text(f"#!/bin/sh\ncd {room}\n{body}\n")
                (room / name).chmod(0o755)
            ended = ran(TOOLS / "packages", "--install", PATH=f"{room}:{os.environ['PATH']}", PACKAGES_PAUSE="0", PACKAGES_SECONDS=str(seconds))
            asked = (room / "asked").read_text().splitlines() if (room / "asked").exists() else []
            return ended.returncode, ended.stderr, [line.partition("Error-Mode=any ")[2] for line in asked]

    def test_packages_are_installed_where_their_registry_answers(self) -> None:
        self.assertEqual(self.installed('case $* in *only*|*simulate*|*update*) ;; *) touch there ;; esac'),
                         (0, "", ["update", "install --simulate gringo", "install --download-only gringo", "install gringo"]))
        status, said, asked = self.installed("exit 100")
        self.assertEqual((status, asked), (3, ["update"] * 3))
        self.assertIn("the registry can't be reached, asked three times; not installed: gringo", said)
        status, said, asked = self.installed("case $* in *only*) exit 100 ;; esac")
        self.assertEqual((status, len(asked)), (3, 9))
        status, said, asked = self.installed("case $* in *simulate*) exit 100 ;; esac")
        self.assertEqual((status, asked, said), (1, ["update", "install --simulate gringo"], "packages: apt-get can't install gringo\n"))

    def test_a_slow_registry_holds_nothing_up(self) -> None:
        began = time.monotonic()
        status, _, asked = self.installed("exec sleep 90", 5)
        self.assertEqual((status, asked), (3, ["update"]))
        self.assertLess(time.monotonic() - began, 80)

    def test_words_that_are_not_taken(self) -> None:
        ended = ran(TOOLS / "packages", "--instal")
        self.assertEqual((ended.returncode, ended.stdout), (2, ""))

    def test_the_version_is_one(self) -> None:
        self.assertTrue(draft("--version").out.startswith(f"draft {__version__} "))
