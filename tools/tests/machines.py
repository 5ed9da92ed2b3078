"""Machines for tests: each a real sshd at 127.0.0.1 with a port, keys, a home and a configuration of its own, by a name in a configuration
of ssh that is made for the test; where this is root's, with file systems of its own. What a shell reads at a login is the machine's own: what
stands in the user's home may take a lock, which a machine that is ended in the middle never gives back."""
import getpass
import os
import pathlib
import shlex
import shutil
import signal
import socket
import subprocess
import time
import unittest
from collections.abc import Sequence

from drafting.core.messages import Refused

from .support import Decorated

SSHD = shutil.which("sshd") or "/usr/sbin/sshd"
RUNS = pathlib.Path("/run/sshd")
PATIENCE = 30

SERVER = """\
ListenAddress 127.0.0.1
Port {port}
HostKey {room}/host
AuthorizedKeysFile {room}/authorized
StrictModes no
UsePAM no
PasswordAuthentication no
PrintMotd no
MaxStartups 100
SetEnv HOME={home} TMPDIR={temporary} PATH={path}
PidFile none
"""
CLIENT = """\
Host {name}
    Hostname 127.0.0.1
    Port {port}
"""
EVERY = """\
Host *
    User {user}
    IdentityFile {room}/user
    IdentitiesOnly yes
    UserKnownHostsFile {room}/known
    StrictHostKeyChecking accept-new
    LogLevel ERROR
"""


def needs_sshd() -> Decorated:
    is_there = os.access(SSHD, os.X_OK) and shutil.which("ssh") and shutil.which("ssh-keygen")
    return unittest.skipUnless(is_there, "apt-get install openssh-server")


def may_unshare() -> bool:
    words = ["unshare", "-m", "sh", "-c", "mount -t tmpfs none /mnt"]
    return bool(shutil.which("unshare")) and subprocess.run(words, capture_output=True).returncode == 0


def needs_own_files() -> Decorated:
    return unittest.skipUnless(may_unshare(), "unshare -m isn't allowed: no machines with file systems of their own")


def free_port() -> int:
    with socket.socket() as found:
        found.bind(("127.0.0.1", 0))
        return int(found.getsockname()[1])


class Machines:
    """Machines that run until they are closed, and what ssh needs to get to them, in a folder that they don't hide from each other."""

    def __init__(self, room: pathlib.Path) -> None:
        self.room = room
        if os.geteuid() == 0:
            RUNS.mkdir(exist_ok=True)
        room.mkdir(parents=True)
        for name in ("host", "user"):
            subprocess.run(["ssh-keygen", "-q", "-t", "ed25519", "-N", "", "-f", room / name], check=True)
        shutil.copy(room / "user.pub", room / "authorized")
        self.config = room / "config"
        self.config.write_text(EVERY.format(user=getpass.getuser(), room=room))
        self.running: dict[str, subprocess.Popen[bytes]] = {}

    def close(self) -> None:
        for name in list(self.running):
            self.end(name)

    @property
    def variables(self) -> dict[str, str]:
        """The variables by which GNU parallel finds the way to them."""
        return {**os.environ, "PARALLEL_SSH": f"ssh -F {shlex.quote(str(self.config))}"}

    def temporary(self, name: str) -> pathlib.Path:
        return self.room / f"temporary_{name}"

    def home(self, name: str) -> pathlib.Path:
        return self.room / f"home_{name}"

    def begin(self, name: str, hidden: Sequence[pathlib.Path] = (), others: Sequence[tuple[pathlib.Path, pathlib.Path]] = ()) -> None:
        """Begins a machine: it has empty folders in place of those that are hidden, and a file in place of another."""
        for folder in (self.temporary(name), self.home(name)):
            folder.mkdir(exist_ok=True)
        port, server = free_port(), self.room / f"sshd_{name}"
        server.write_text(SERVER.format(port=port, room=self.room, home=self.home(name), temporary=self.temporary(name), path=os.environ["PATH"]))
        mounts = [["mount", "-t", "tmpfs", "none", str(it)] for it in hidden]
        mounts += [["mount", "--bind", str(new), str(old)] for new, old in others]
        begin = ["exec", SSHD, "-D", "-e", "-f", str(server)]
        words = ["sh", "-c", " && ".join(map(shlex.join, [*mounts, begin]))]
        with open(self.room / f"log_{name}", "wb") as log:
            self.running[name] = subprocess.Popen([*(["unshare", "-m"] if mounts else []), *words], stdin=subprocess.DEVNULL, stderr=log,
                                                  start_new_session=True)
        self.config.write_text(CLIENT.format(name=name, port=port) + self.config.read_text())
        until = time.monotonic() + PATIENCE
        while self.ask(name, "true").returncode:
            if time.monotonic() > until:
                raise Refused(f"sshd doesn't begin: {(self.room / f'log_{name}').read_text()}")
            time.sleep(0.1)

    def hide(self, name: str, folder: pathlib.Path) -> None:
        """Puts an empty folder in place of one, on a machine that runs with files of its own."""
        words = ["nsenter", "-t", str(self.running[name].pid), "-m", "mount", "-t", "tmpfs", "none", str(folder)]
        subprocess.run(words, check=True)

    def ask(self, name: str, words: str) -> "subprocess.CompletedProcess[bytes]":
        return subprocess.run(["ssh", "-F", self.config, name, words], capture_output=True, stdin=subprocess.DEVNULL)

    def end(self, name: str) -> None:
        """Ends a machine with all that runs on it, as if its plug was pulled."""
        running = self.running.pop(name)
        for process in [running.pid, *below(running.pid)]:
            try:
                os.kill(process, signal.SIGKILL)
            except ProcessLookupError:
                pass
        running.wait()


def below(process: int) -> list[int]:
    """The processes that a process began, and those that they began."""
    parents: dict[int, int] = {}
    for stat in pathlib.Path("/proc").glob("[0-9]*/stat"):
        try:
            parents[int(stat.parent.name)] = int(stat.read_text().rpartition(")")[2].split()[1])
        except OSError:
            continue
    found = [process]
    for one in found:
        found += [child for child, parent in parents.items() if parent == one]
    return found[1:]
