"""A process that has begun what batches on this machine need: each is a fork of it, which has the standard streams of the job that brings it
(`handover.py`), so that none begins Python anew."""
import atexit
import contextlib
import fcntl
import os
import pathlib
import select
import signal
import socket
import subprocess
import sys
from collections.abc import Callable
from typing import IO, NoReturn

from ..core import executable

# How many jobs may wait at the door, and for how many seconds the process is waited for at the end.
WAITING, ENDED = 512, 20


class Warm:
    """Such a process, until it is ended, for batches of a program; none where there can be no door, as in a folder with a long name."""

    def __init__(self, place: str, program: pathlib.Path, said: IO[bytes]) -> None:
        self.process: subprocess.Popen[bytes] | None = None
        with socket.socket(socket.AF_UNIX) as door, contextlib.suppress(OSError):
            door.bind(place)
            door.listen(WAITING)
            words = executable.words("batch", "--door", door.fileno(), "--program", program)
            self.process = subprocess.Popen(
                words, stdin=subprocess.PIPE, stdout=subprocess.DEVNULL, stderr=said, pass_fds=[door.fileno()],
                start_new_session=True)

    def end(self) -> None:
        """Ends it, once its batches have come to their end."""
        if self.process and self.process.stdin:
            self.process.stdin.close()
            try:
                self.process.wait(ENDED)
            except subprocess.TimeoutExpired:
                self.process.kill()
                self.process.wait()


# ---- within it

def serve(number: int, run: Callable[[], int], stopped: Callable[[int, object], None]) -> int:
    """Forks for each who comes by the door of this number, until standard input has an end: so it ends with the table, however that ends."""
    with socket.socket(fileno=number) as door:
        while sys.stdin not in select.select([door, sys.stdin], [], [])[0]:
            channel, _ = door.accept()
            if not os.fork():
                door.close()
                serve_one(channel, run, stopped)
            channel.close()
            wait(os.WNOHANG)
    wait(0)
    return 0


def wait(how: int) -> None:
    """Takes leave of the forks that have ended, or waits for all."""
    with contextlib.suppress(ChildProcessError):
        while os.waitpid(-1, how)[0]:
            pass


def serve_one(channel: socket.socket, run: Callable[[], int], stopped: Callable[[int, object], None]) -> NoReturn:
    """Runs a batch for a job, tells it the status, and ends; where the job ends before, this is stopped."""
    status: object = 1
    try:
        _, streams, _, _ = socket.recv_fds(channel, 1, 3)
        for number, stream in enumerate(streams):
            os.dup2(stream, number)
            os.close(stream)
        # What is forked from here keeps no job waiting.
        os.register_at_fork(after_in_child=channel.close)
        signal.signal(signal.SIGIO, stopped)
        fcntl.fcntl(channel, fcntl.F_SETOWN, os.getpid())
        fcntl.fcntl(channel, fcntl.F_SETFL, fcntl.fcntl(channel, fcntl.F_GETFL) | os.O_ASYNC)
        # A job that has ended by now is one of which no signal comes.
        if not select.select([channel], [], [], 0)[0]:
            status = run()
    except SystemExit as end:
        status = end.code
    except Exception:
        sys.excepthook(*sys.exc_info())
    finally:
        signal.signal(signal.SIGIO, signal.SIG_IGN)
        atexit._run_exitfuncs()
        with contextlib.suppress(OSError):
            channel.sendall(bytes([status if isinstance(status, int) else 1]))
        os._exit(0)
