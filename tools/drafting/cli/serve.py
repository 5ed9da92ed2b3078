"""Opens a drafting table: a page of this machine alone, into which a drawing is dropped, and in which its solids turn while the proved
program finds them. `draft sheet` and the program run as processes with limits; drawings that come at once wait for their turn. A page
that is closed ends its process, and nothing is kept but in a folder that goes with the server, or with the next one where it was killed.
It ends by an interrupt.

Standard output is the page's address, with a token without which nothing is answered. The browser is given a file that leads there: so
the token is in no list of processes.
"""
import argparse
import html
import os
import pathlib
import secrets
import shutil
import signal
import socket
import sys
import tempfile
import threading
import webbrowser

from ..core.messages import Refused, many, say
from ..recon import process
from ..render import page
from ..serve.folder import Session, clear_left
from ..serve.queue import Limits

NAME = "serve"
HELP = "open a page into which drawings are dropped"

SECONDS, MEMORY, AT_ONCE = 600.0, 2_048, 2
THREADS = 48
OPENING = '<!DOCTYPE html><meta charset="utf-8"><title>Drafting table</title><meta http-equiv="refresh" content="0; url={}">\n'


def add_arguments(parser: argparse.ArgumentParser) -> None:
    every = len(os.sched_getaffinity(0))
    parser.add_argument("--port", type=int, default=0, help="the port (else one that is free)")
    parser.add_argument("--no-browser", action="store_true", help="tell the page's address, and open no browser")
    parser.add_argument("--seconds", type=float, default=SECONDS, help=f"the most seconds for a drawing (else {SECONDS:g})")
    parser.add_argument("--memory", type=int, default=MEMORY, metavar="MIB",
                        help=f"the most memory of one, 0 for no limit (else {MEMORY:,})")
    parser.add_argument("--at-once", type=int, default=AT_ONCE, help=f"how many processes at once; others wait (else {AT_ONCE})")
    share = max(1, every // AT_ONCE)
    parser.add_argument("--processors", type=int, default=share, help=f"how many processors each may use (else {share})")
    parser.add_argument("--program", metavar="PATH", help="the built program (else $RECON, else crates/recon/out/recon)")


def limits_of(arguments: argparse.Namespace) -> Limits:
    limits = Limits(arguments.seconds, arguments.memory, arguments.processors, arguments.at_once)
    memory_is_taken = not limits.memory or 64 <= limits.memory <= 1 << 20
    if not (0 < limits.seconds <= 86_400 and memory_is_taken and 1 <= limits.processors <= 1_024 and 1 <= limits.at_once <= 64):
        raise Refused("limits that aren't taken: up to 86,400 seconds, 64 MiB of memory or more, 1 to 64 processes at once")
    if not shutil.which("prlimit"):
        raise Refused("prlimit isn't there: apt-get install util-linux")
    return limits


def bound(port: int) -> socket.socket:
    """A socket at the loopback address."""
    try:
        listening = socket.socket()
        listening.setsockopt(socket.SOL_SOCKET, socket.SO_REUSEADDR, 1)
        listening.bind(("127.0.0.1", port))
    except (OSError, OverflowError) as failure:
        raise Refused(f"port {port} can't be had: {failure}") from None
    return listening


def open_browser(folder: pathlib.Path, address: str) -> None:
    """Opens the page by a file that leads there, which its owner alone can read."""
    opening = folder / "open.html"
    opening.touch(0o600)
    opening.write_text(OPENING.format(html.escape(address)))
    threading.Thread(target=webbrowser.open, args=(opening.as_uri(),), daemon=True).start()


def run(arguments: argparse.Namespace) -> int:
    limits, path = limits_of(arguments), process.find(arguments.program)
    page.scripts("table")
    try:
        from ..serve import connections, routes
        from ..serve.jobs import Desk
    except ImportError as missing:
        raise Refused(f"{missing.name} isn't there: apt-get install python3-flask python3-waitress") from None
    listening = bound(arguments.port)
    left = clear_left(pathlib.Path(tempfile.gettempdir()))
    session = Session()
    # What the server itself puts aside of a large request goes there too.
    tempfile.tempdir = str(session.folder)
    for ending in (signal.SIGTERM, signal.SIGHUP):
        signal.signal(ending, signal.default_int_handler)
    desk = Desk(session.folder, limits, path)
    port, token = listening.getsockname()[1], secrets.token_urlsafe(24)
    address = f"http://127.0.0.1:{port}/?token={token}"
    try:
        server = connections.opened(routes.made(desk, port, token), listening, token, THREADS, routes.MOST_REQUEST)
        print(address, flush=True)
        say(f"draft serve: {path}, {limits.told()}" + (f"; {many(left, 'folder')} cleared, of a server that was killed" if left else ""))
        if not arguments.no_browser:
            open_browser(session.folder, address)
        server.run()
    except KeyboardInterrupt:
        pass
    finally:
        desk.end_all()
        session.clear()
    say("draft serve: ended")
    sys.stdout.flush()
    # Threads of open pages wait for nothing any more.
    os._exit(0)
