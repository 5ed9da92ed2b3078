"""The tree of the Debian package, its control files, and the file that dpkg-deb makes of them."""
import email.utils
import gzip
import hashlib
import os
import pathlib
import shutil
import subprocess
import tempfile

from drafting.core.messages import Refused
from drafting.recon.process import TOP

from . import pages, proved

RECOMMENDS = ("python3 (>= 3.11)", "python3-ezdxf", "gringo", "libjs-three", "parallel", "python3-flask", "python3-waitress")
SUGGESTS = ("freecad-python3", "admesh", "openssh-client")
# What Python imports, and FreeCAD's addon, where it is there.
MODULES, ADDON = ("drafting", "recon"), TOP / "tools" / "freecad" / "Recon"
# What a command of Python begins with: recon needs none, so the package asks for none.
WRAPPER = """\
#!/bin/sh
if [ ! -x /usr/bin/python3 ]; then
    echo "{name}: python3 isn't there: apt-get install python3" >&2
    exit 1
fi
exec /usr/bin/python3 -P {words} "$@"
"""
# Python's own programs keep what is compiled of the modules, where they are there.
SCRIPTS = {
    "postinst": "if command -v py3compile > /dev/null; then py3compile -p recon || true; fi",
    "prerm": "if command -v py3clean > /dev/null; then py3clean -p recon; else find /usr/lib/python3/dist-packages/drafting /usr/lib/python3/dist-packages/recon -name '*.pyc' -delete; fi",
}
# Why what lintian calls an error is meant so.
OVERRIDES = """\
# This is the program that the gate built, to the byte: PROVED has its sum.
recon: unstripped-binary-or-object *
"""
COPYRIGHT = """\
Of this package no licence is stated yet. What is missing, and its owners' to say:

- under which terms the files of the repository may be used, copied and changed;
- under which terms the parts of the toolchain that are linked into /usr/bin/recon may be.

Until both are said, nothing here grants a right to either.
"""
ABOUT = """\
Description: lists every solid that has the views of a drawing{unproved}
 recon reads a three-view drawing, a DXF file, and lists every solid that has
 exactly these views, each once. That none is missed and none wrong is proved
 of the program of which /usr/share/doc/recon/PROVED tells.
 .
 draft, which isn't proved, reads sheets as people draw them, says what to
 look at where no solid or several have the views, and saves the solids.
"""


def write(path: pathlib.Path, text: str | bytes, mode: int = 0o644) -> None:
    path.parent.mkdir(parents=True, exist_ok=True)
    path.write_bytes(text.encode() if isinstance(text, str) else text)
    path.chmod(mode)


def copy(folder: pathlib.Path, place: pathlib.Path) -> None:
    """Puts the files of a folder that git has somewhere; nothing where there is no such folder."""
    for name in proved.git("ls-files", "-z", "--", str(folder)).split("\0") if folder.is_dir() else []:
        if name:
            file = TOP / name
            write(place / file.relative_to(folder), file.read_bytes())


def packed(text: str) -> bytes:
    return gzip.compress(text.encode(), mtime=0)


def fill(tree: pathlib.Path, source: proved.Source, built: proved.Built) -> None:
    """Puts all files of the package into its tree."""
    share, doc = tree / "usr" / "share", tree / "usr" / "share" / "doc" / "recon"
    write(tree / "usr" / "bin" / "recon", built.path.read_bytes(), 0o755)
    write(tree / "usr" / "bin" / "draft", WRAPPER.format(name="draft", words="-m drafting"), 0o755)
    log = "/usr/share/recon/check_log.py"
    write(tree / "usr" / "bin" / "recon-check-log", WRAPPER.format(name="recon-check-log", words=log), 0o755)
    write(share / "recon" / "check_log.py", (TOP / "tools" / "check_log.py").read_text().partition("\n")[2])
    for name in MODULES:
        copy(TOP / "tools" / name, tree / "usr" / "lib" / "python3" / "dist-packages" / name)
    copy(ADDON, share / "freecad" / "Mod" / ADDON.name)
    for name, made in (("recon", pages.of_recon), ("draft", pages.of_draft), ("recon-check-log", pages.of_check_log)):
        write(share / "man" / "man1" / f"{name}.1.gz", packed(made()))
    for name, text in pages.completions().items():
        write(share / "bash-completion" / "completions" / name, text)
    for file in sorted((TOP / "examples").rglob("*")):
        if file.is_file() and file.name != "check":
            write(doc / file.relative_to(TOP), file.read_bytes())
    for page in (TOP / "docs" / name for name in ("DXF.md", "OUTPUT.md", "LIBRARY.md")):
        write(doc / page.name, page.read_bytes())
    write(doc / "PROVED", proved.page(source, built))
    write(doc / "copyright", COPYRIGHT)
    version, when = source.version(built.is_proved), email.utils.formatdate(source.seconds)
    log = f"recon ({version}) unstable; urgency=medium\n\n  * Of the commit {source.commit}.\n\n -- {source.author}  {when}\n"
    write(doc / "changelog.gz", packed(log))
    write(share / "lintian" / "overrides" / "recon", OVERRIDES)


def libraries(program: pathlib.Path, room: pathlib.Path) -> str:
    """The packages with the libraries that a program is linked with, as dpkg-shlibdeps finds them."""
    write(room / "debian" / "control", "Source: recon\n\nPackage: recon\nArchitecture: any\n")
    words = ["dpkg-shlibdeps", "-O", f"-e{program.resolve()}"]
    return ran(words, room).removeprefix("shlibs:Depends=").strip()


def ran(words: list[str], room: pathlib.Path, **variables: str) -> str:
    """What a command writes; refused where it fails."""
    ended = subprocess.run(words, cwd=room, capture_output=True, text=True, env={**os.environ, **variables})
    if ended.returncode:
        raise Refused(f"{words[0]}: {ended.stderr.strip()}")
    return ended.stdout


def control(tree: pathlib.Path, source: proved.Source, built: proved.Built, room: pathlib.Path, processor: str) -> None:
    """Writes the control files of a tree that is filled."""
    files = sorted(file for file in tree.rglob("*") if file.is_file())
    size = sum(-(-file.stat().st_size // 1024) for file in files)
    sums = "".join(f"{hashlib.md5(file.read_bytes()).hexdigest()}  {file.relative_to(tree)}\n" for file in files)
    fields = {
        "Package": "recon", "Version": source.version(built.is_proved), "Architecture": processor, "Maintainer": source.author,
        "Installed-Size": size, "Depends": libraries(built.path, room), "Recommends": ", ".join(RECOMMENDS), "Suggests": ", ".join(SUGGESTS),
        "Section": "graphics", "Priority": "optional",
    }
    text = "".join(f"{name}: {value}\n" for name, value in fields.items())
    write(tree / "DEBIAN" / "control", text + ABOUT.format(unproved="" if built.is_proved else " (UNPROVED)"))
    write(tree / "DEBIAN" / "md5sums", sums)
    for name, body in SCRIPTS.items():
        write(tree / "DEBIAN" / name, f"#!/bin/sh\nset -e\n{body}\n", 0o755)


def make(source: proved.Source, built: proved.Built, folder: pathlib.Path) -> pathlib.Path:
    """Makes the package in a folder; of the same commit and program it is the same to the byte."""
    with tempfile.TemporaryDirectory(prefix="package_") as name:
        room = pathlib.Path(name)
        tree = room / "tree"
        processor = ran(["dpkg", "--print-architecture"], room).strip()
        fill(tree, source, built)
        control(tree, source, built, room, processor)
        for made in (tree, *tree.rglob("*")):
            if made.is_dir():
                made.chmod(0o755)
        file = f"recon_{source.version(built.is_proved)}_{processor}.deb"
        words = ["dpkg-deb", "--root-owner-group", "-Zxz", "--build", str(tree), str(room / file)]
        ran(words, room, SOURCE_DATE_EPOCH=str(source.seconds))
        return pathlib.Path(shutil.move(room / file, folder / file))
