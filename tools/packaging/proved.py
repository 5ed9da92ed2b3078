"""What is known of the program that is packaged: asked of `rt` and git, and told on the page PROVED."""
import hashlib
import pathlib
import re
import subprocess
import time
from typing import NamedTuple

from drafting import __version__
from drafting.core.messages import Refused, say
from drafting.recon.process import BUILT, TOP, is_program

PASSED = re.compile(r"[1-9]\d* passed, 0 failed")
# Where the clauses of `run` stand, the call that the program makes.
CLAUSES = "crates/recon_run/src/command.rt"


class Source(NamedTuple):
    """The commit of which the package is made: its name, when it was made and by whom, and whether it has the version's tag."""

    commit: str
    seconds: int
    author: str
    is_tagged: bool

    def version(self, is_proved: bool) -> str:
        """The one version of recon and `draft`; what has no tag comes before what has, and what isn't proved before both."""
        when = time.strftime("%Y%m%d%H%M%S", time.gmtime(self.seconds))
        if not is_proved:
            return f"{__version__}~~unproved.{when}.{self.commit[:12]}"
        return __version__ if self.is_tagged else f"{__version__}~{when}.{self.commit[:12]}"


class Built(NamedTuple):
    """The program, and the lines that say what is known of it."""

    path: pathlib.Path
    is_proved: bool
    known: list[str]

    @property
    def sum(self) -> str:
        return hashlib.sha256(self.path.read_bytes()).hexdigest()


def git(*words: str) -> str:
    ended = subprocess.run(["git", "-C", str(TOP), *words], capture_output=True, text=True)
    if ended.returncode:
        raise Refused(f"git {' '.join(words)}: {ended.stderr.strip() or 'it failed'}")
    return ended.stdout.strip()


def source() -> Source:
    commit, seconds, author = git("log", "-1", "--format=%H%n%ct%n%an <%ae>").splitlines()
    return Source(commit, int(seconds), author, f"v{__version__}" in git("tag", "--points-at", "HEAD").split())


def proved() -> Built:
    """The program of the gate, which is asked whether it passes."""
    if changed := git("status", "--porcelain"):
        raise Refused(f"the package is made of a commit, and here are changes:\n{changed}")
    say("package: asks rt ci, which takes an hour where nothing is proved yet, else minutes")
    try:
        toolchain = subprocess.run(["rt", "version"], capture_output=True, text=True, check=True).stdout.strip()
        gate = subprocess.run(["rt", "ci"], cwd=TOP, stdin=subprocess.DEVNULL, stdout=subprocess.PIPE, text=True, errors="replace")
    except (OSError, subprocess.CalledProcessError) as failure:
        raise Refused(f"rt can't say whether the proofs hold, and nothing is packaged without: {failure}") from None
    lines = gate.stdout.splitlines()
    if gate.returncode or not lines or not PASSED.fullmatch(lines[-1].strip()):
        raise Refused(f"rt ci doesn't pass, and nothing is packaged without: status {gate.returncode}, {lines[-1:]}")
    if not is_program(BUILT):
        raise Refused(f"rt ci passed, but left no {BUILT}")
    known = [f"toolchain (rt version): {toolchain}", f"gate (rt ci): {' / '.join(lines[-2:])}"]
    return Built(BUILT, True, [*known, "what is stated, and all that it rests on (sha256sum):", *(f"    {line}" for line in statements())])


def statements() -> list[str]:
    """The sums of the file with the clauses of `run`, and of the definitions on which these rest."""
    listed = subprocess.run([str(TOP / "docs" / "rests_on")], capture_output=True, text=True)
    if listed.returncode:
        raise Refused(f"docs/rests_on: {listed.stderr.strip()}")
    return [f"{hashlib.sha256((TOP / file).read_bytes()).hexdigest()}  {file}" for file in (CLAUSES, *listed.stdout.split())]


def unproved(path: str) -> Built:
    """Another program, of which nothing is asked."""
    if not is_program(path):
        raise Refused(f"no program that may be run: {path}")
    return Built(pathlib.Path(path), False, ["UNPROVED: nobody was asked whether the proofs hold, nor of what this program was built."])


def page(source: Source, built: Built) -> str:
    """The page PROVED."""
    lines = [
        f"recon {source.version(built.is_proved)}", "", f"commit: {source.commit}", *built.known, f"program (sha256sum /usr/bin/recon): {built.sum}", "",
        "docs/PROOF.md of that commit says what is proved, what is only tested, and what is trusted. draft isn't proved.",
    ]
    return "".join(f"{line}\n" for line in lines)


