"""A server of one connection that does what a test says, in a thread of its own; and replies as it spells them."""

import contextlib
import socket
import struct
import threading
from typing import Callable, Iterator, Mapping

from eiger.errors import Collected, Refused
from eiger.results import Moved, Read, Written
from eiger.wire import Frames, Reply

SECONDS = 20.0


def sized(size: int, text: bytes) -> bytes:
    return len(text).to_bytes(size, "big") + text


def columns(row: Mapping[bytes, bytes]) -> bytes:
    return struct.pack(">I", len(row)) + b"".join(sized(2, name) + sized(4, value) for name, value in row.items())


def spelled(reply: Reply) -> bytes:
    """The body that spells a reply."""
    if isinstance(reply, Written):
        return struct.pack(">BQQH", 0x81, reply.commit, reply.stamp.time, reply.stamp.node)
    if isinstance(reply, Read):
        rows = [sized(2, key) + columns(row) for key, row in reply.rows.items()]
        return struct.pack(">BQI", 0x82, reply.time, len(rows)) + b"".join(rows)
    if isinstance(reply, Collected):
        return b"\x83"
    if isinstance(reply, Refused):
        return struct.pack(">BH", 0x84, reply.number)
    assert isinstance(reply, Moved)
    return struct.pack(">BBQ", 0x85, reply.dc, reply.floor)


def framed(reply: Reply) -> bytes:
    return sized(4, spelled(reply))


def requests(stream: socket.socket) -> Iterator[bytes]:
    """The bodies of the requests that come."""
    frames = Frames()
    while piece := stream.recv(65_536):
        frames.feed(piece)
        while (body := frames.next()) is not None:
            yield body


@contextlib.contextmanager
def serving(serve: Callable[[socket.socket], None]) -> Iterator[int]:
    """Has a connection served, and gives the port. Whoever comes is gone before it is over."""

    def run() -> None:
        with contextlib.suppress(OSError):
            stream, _ = listener.accept()
            with stream:
                stream.setsockopt(socket.IPPROTO_TCP, socket.TCP_NODELAY, 1)
                stream.settimeout(SECONDS)
                serve(stream)

    with socket.create_server(("127.0.0.1", 0)) as listener:
        listener.settimeout(SECONDS)
        thread = threading.Thread(target=run)
        thread.start()
        yield listener.getsockname()[1]
        thread.join(SECONDS)
        assert not thread.is_alive()
