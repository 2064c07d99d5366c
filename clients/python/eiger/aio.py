"""A connection of asyncio."""

import asyncio
from functools import partial
from typing import Any, Iterable, Optional, Union, cast

from . import wire
from .errors import EigerError
from .exchange import Exchange
from .results import Moved, Read, Written
from .wire import Change, R, Request


async def connect(host: str, port: int) -> "Connection":
    """Connects to a server; an OSError where it can't."""
    _, line = await asyncio.get_running_loop().create_connection(_Line, host, port)
    return Connection(line)


class Connection:
    """A connection to a server, which answers in the order of the requests. Any number of its calls may be awaited at once.

    Requests are sent in the order in which the calls began. A call that is cancelled before its request is sent sends none;
    else the request stays under way, and its reply is told to nobody.
    """

    def __init__(self, line: "_Line") -> None:
        self._line = line
        self._turn = asyncio.Lock()

    async def __aenter__(self) -> "Connection":
        return self

    async def __aexit__(self, *_: object) -> None:
        await self.close()

    async def write(self, *changes: Change) -> Written:
        """Writes all these changes in one transaction, and waits until it is committed."""
        return await self.ask(wire.batch(*changes))

    async def read(
        self,
        family: bytes,
        keys: Iterable[bytes],
        *,
        names: Optional[Iterable[bytes]] = None,
        start: bytes = b"",
        finish: bytes = b"",
        reversed: bool = False,
        count: int = wire.COUNT,
    ) -> Read:
        """Reads rows in one transaction: the columns with these names, or a range of columns, as `wire.read` says."""
        return await self.ask(
            wire.read(family, keys, names=names, start=start, finish=finish, reversed=reversed, count=count)
        )

    async def move(self, dc: int) -> Moved:
        """Moves the session to another data centre, and waits until that shows all that the session wrote and saw."""
        return await self.ask(wire.move(dc))

    async def ask(self, request: Request[R]) -> R:
        """Sends a request, and waits for its reply. Where too much waits to be sent, it waits for that first."""
        async with self._turn:
            await self._line.has_room.wait()
            reply = self._line.begin(request)
        return await reply

    async def close(self) -> None:
        """Closes the connection: what is under way is lost."""
        self._line.end(None)
        await self._line.is_closed.wait()


class _Line(asyncio.Protocol):
    """What is sent, and what comes."""

    def __init__(self) -> None:
        self._exchange = Exchange()
        self.has_room = asyncio.Event()
        self.has_room.set()
        self.is_closed = asyncio.Event()

    def begin(self, request: Request[R]) -> "asyncio.Future[R]":
        reply: "asyncio.Future[R]" = asyncio.get_running_loop().create_future()
        self._transport.write(self._exchange.begin(request, partial(_settle, reply)))
        return reply

    def end(self, cause: Optional[Exception]) -> None:
        self._exchange.end(cause)
        self.has_room.set()
        self._transport.abort()

    def connection_made(self, transport: asyncio.BaseTransport) -> None:
        self._transport = cast(asyncio.Transport, transport)

    def data_received(self, data: bytes) -> None:
        self._exchange.feed(data)
        if self._exchange.is_over:
            self.end(None)

    def eof_received(self) -> None:
        self.end(None)

    def connection_lost(self, exc: Optional[Exception]) -> None:
        self.end(exc)
        self.is_closed.set()

    def pause_writing(self) -> None:
        self.has_room.clear()

    def resume_writing(self) -> None:
        self.has_room.set()


def _settle(reply: "asyncio.Future[Any]", outcome: Union[R, EigerError]) -> None:
    if reply.done():
        return
    if isinstance(outcome, EigerError):
        reply.set_exception(outcome)
    else:
        reply.set_result(outcome)
