"""`python3 -m drafting.table.handover DOOR`, the job of a batch: on this machine it hands its standard streams to a fork of the process behind the door
(`prefork.py`), and ends as that ends; where nobody is there it is `draft batch` itself. Little is imported, since each job begins with it."""
import os
import signal
import socket
import sys

# As GNU parallel tells a job the machine on which it runs, and the name of this one.
MACHINE, HERE = "PARALLEL_SSHLOGIN", ":"


def handed(door: str) -> socket.socket | None:
    """The way to who has the standard streams by now; none where nobody takes them."""
    channel = socket.socket(socket.AF_UNIX)
    try:
        channel.connect(door)
        socket.send_fds(channel, [b"\n"], [0, 1, 2])
    except OSError:
        return None
    return channel


def status_of(channel: socket.socket) -> int:
    """The status with which a batch ends. A stop is handed on by an end of what comes from here, as it would be if this process were killed."""
    def stop(*_: object) -> None:
        try:
            channel.shutdown(socket.SHUT_WR)
        except OSError:  # it has ended by now
            pass

    for one in (signal.SIGTERM, signal.SIGHUP):
        signal.signal(one, stop)
    try:
        told = channel.recv(1)
    except ConnectionError:
        told = b""
    return told[0] if told else 1


def main() -> None:
    channel = handed(sys.argv[1]) if os.environ.get(MACHINE, HERE) == HERE else None
    if channel is None:
        from ..core import executable
        words = executable.words("batch")
        os.execvp(words[0], words)
    sys.exit(status_of(channel))


if __name__ == "__main__":
    main()
