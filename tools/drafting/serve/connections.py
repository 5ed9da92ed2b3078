"""The connections of `draft serve`. Who they are is asked at the headers of each first request: until then they are strangers', of which
so many may stand there for so long; and the body of a request that doesn't come on is dropped. It is waitress with another channel."""
import hmac
import socket
import time
import urllib.parse
from typing import Any

from waitress.adjustments import Adjustments
from waitress.channel import HTTPChannel
from waitress.parser import HTTPRequestParser
from waitress.server import TcpWSGIServer
from waitress.utilities import Error

# How many connections there may be, and how many of strangers; how many seconds a stranger may take for the headers, and a body may take
# until it comes on, and in all.
CONNECTIONS, STRANGERS = 100, 32
HEADERS, PAUSE, BODY = 5.0, 5.0, 60.0
# What is put aside stays in memory: nobody but pages with the token sends bodies.
IN_MEMORY = 1 << 30


class Forbidden(Error):
    """Who hasn't the token."""

    code, reason = 403, "Forbidden"


class Parser(HTTPRequestParser):
    """A request, whose headers have to have the token, or its path, where it is asked for by an address."""

    def __init__(self, adjustments: Adjustments, token: str) -> None:
        super().__init__(adjustments)
        self.token = token
        self.error: Error | None = self.error
        self.is_known = False
        self.began = time.time()

    def has_token(self) -> bool:
        told = self.headers.get("X_DRAFT_TOKEN", "")
        if not told and self.command == "GET":
            told = urllib.parse.parse_qs(self.query).get("token", [""])[0]
        return hmac.compare_digest(told.encode("utf-8", "replace"), self.token.encode())

    def received(self, data: bytes) -> int:
        were_finished = self.headers_finished
        consumed = int(super().received(data))
        if self.headers_finished and not were_finished and not self.error and not self.empty:
            self.is_known = self.has_token()
            if not self.is_known:
                self.error = Forbidden("the token is missing or another one: open the address that `draft serve` told")
                self.completed = True
        return consumed


class Channel(HTTPChannel):
    """A connection, a stranger's until a request had the token."""

    is_known = False

    def parser_class(self, adjustments: Adjustments) -> Parser:
        return Parser(adjustments, self.server.token)

    def received(self, data: bytes) -> bool:
        taken = bool(super().received(data))
        coming = [*self.requests, *([self.request] if self.request else [])]
        self.is_known = self.is_known or any(request.is_known for request in coming)
        return taken

    def is_late(self, now: float) -> bool:
        """Whether a stranger, or a body, takes too long."""
        if self.requests:
            return False
        if not self.is_known:
            return bool(now - self.creation_time > HEADERS)
        return self.request is not None and bool(now - self.last_activity > PAUSE or now - self.request.began > BODY)


class Server(TcpWSGIServer):
    """The server, which has an eye on who takes too long, and lets go the stranger who has stood there longest where too many do."""

    channel_class = Channel
    token = ""

    def handle_accept(self) -> None:
        super().handle_accept()
        strangers = [channel for channel in self.active_channels.values() if not channel.is_known and not channel.will_close]
        for channel in sorted(strangers, key=lambda it: float(it.creation_time))[:max(0, len(strangers) - STRANGERS)]:
            channel.will_close = True

    def maintenance(self, now: float) -> None:
        super().maintenance(now)
        for channel in self.active_channels.values():
            if channel.is_late(now):
                channel.will_close = True


def opened(application: Any, listening: socket.socket, token: str, threads: int, most: int) -> Server:
    """A server at a socket; it runs by `run`."""
    adjustments = Adjustments(
        sockets=[listening], threads=threads, connection_limit=CONNECTIONS, channel_timeout=60, cleanup_interval=1, max_request_body_size=most,
        ident=None, inbuf_overflow=IN_MEMORY, outbuf_overflow=IN_MEMORY,
    )
    about = (listening.family, listening.type, listening.proto, listening.getsockname())
    server = Server(application, {}, True, listening, adj=adjustments, bind_socket=False, sockinfo=about)
    server.token = token
    return server
