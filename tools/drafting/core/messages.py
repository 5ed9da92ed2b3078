"""Words to people: refusals, what is said on standard error, progress where one waits, and results that are whole or not there."""
import os
import pathlib
import signal
import sys
import tempfile
import time
from collections.abc import Callable, Iterable, Sequence
from types import FrameType
from typing import Any


class Refused(Exception):
    """An input that isn't taken, and why; where it may be taken in several ways, the option that says which one, and what that may be."""

    def __init__(self, text: str, option: str = "", ways: Sequence[str] = ()) -> None:
        super().__init__(text)
        self.option, self.ways = option, list(ways)

    def with_words(self, more: str) -> "Refused":
        """The refusal with further words at its end."""
        return Refused(f"{self}{more}", self.option, self.ways)


class Usage(Refused):
    """Arguments that aren't taken together, and why."""


def say(text: str) -> None:
    """One line for people, on standard error."""
    Progress.clear()
    print(text, file=sys.stderr, flush=True)


def on_stop(handler: Callable[[int, FrameType | None], Any]) -> None:
    """Has a stop from outside handled; a hangup only where whoever began this doesn't have it passed over, as nohup does."""
    signal.signal(signal.SIGTERM, handler)
    if signal.getsignal(signal.SIGHUP) is not signal.SIG_IGN:
        signal.signal(signal.SIGHUP, handler)


def many(count: int, one: str, more: str | None = None) -> str:
    """A count with its noun."""
    return f"{count:,} {one if count == 1 else more or one + 's'}"


class Progress:
    """A line on a terminal that says how far something is; nothing where standard error isn't one, nor beneath another program than
    `draft`."""

    is_wanted = False
    shown = False
    last = 0.0

    @classmethod
    def clear(cls) -> None:
        if cls.shown:
            print("\r\x1b[K", end="", file=sys.stderr, flush=True)
            cls.shown = False

    @classmethod
    def is_seen(cls) -> bool:
        return cls.is_wanted and sys.stderr.isatty()

    @classmethod
    def show(cls, text: str, least: float = 0.2) -> None:
        """Shows the line, at most once in so many seconds."""
        if cls.is_seen() and time.monotonic() - cls.last >= least:
            print(f"\r\x1b[K{text}", end="", file=sys.stderr, flush=True)
            cls.shown, cls.last = True, time.monotonic()


def write_result(result: str | bytes | Iterable[bytes], path: str | None) -> None:
    """Writes a result, whole or in pieces, to a file, which is there whole or not at all, or to standard output. It is called once, last."""
    Progress.clear()
    text = result.encode() if isinstance(result, str) else result
    pieces = [text] if isinstance(text, bytes) else text
    if path is None:
        sys.stdout.buffer.writelines(pieces)
        sys.stdout.buffer.flush()
        return
    target = pathlib.Path(path)
    handle, part = tempfile.mkstemp(prefix=f".{target.name}.", dir=target.parent)
    try:
        with os.fdopen(handle, "wb") as file:
            file.writelines(pieces)
        umask = os.umask(0)
        os.umask(umask)
        os.chmod(part, 0o666 & ~umask)
        os.replace(part, target)
    except BaseException:
        os.unlink(part)
        raise
