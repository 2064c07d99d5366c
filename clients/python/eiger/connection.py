"""A connection whose calls wait."""

import selectors
import socket
import time
from typing import Callable, Generic, Iterable, Optional, Union

from . import wire
from .errors import EigerError
from .exchange import Exchange
from .results import Moved, Read, Written
from .wire import Change, R, Request

# How many bytes are taken in at once, and how many wait to be sent before nothing more is taken on.
PIECE = 65_536
HELD = 65_536


def connect(host: str, port: int, timeout: Optional[float] = None) -> "Connection":
    """Connects to a server; an OSError where it can't. Each call, this one too, waits for so many seconds at most; None: as
    long as it takes."""
    return Connection(socket.create_connection((host, port), timeout), timeout)


class Connection:
    """A connection to a server, which answers in the order of the requests. It is used by one thread at a time.

    A call that waits too long raises a TimeoutError. If its request was sent, that stays under way, and the connection can be
    used on: its late reply is told to no other call.
    """

    def __init__(self, stream: socket.socket, timeout: Optional[float] = None) -> None:
        """Over a socket that is connected, and that belongs to the connection from now on."""
        stream.setblocking(False)
        stream.setsockopt(socket.IPPROTO_TCP, socket.TCP_NODELAY, 1)
        self._stream = stream
        self._timeout = timeout
        self._selector = selectors.DefaultSelector()
        self._selector.register(stream, selectors.EVENT_READ)
        self._exchange = Exchange()
        self._unsent = bytearray()

    def __enter__(self) -> "Connection":
        return self

    def __exit__(self, *_: object) -> None:
        self.close()

    def write(self, *changes: Change) -> Written:
        """Writes all these changes in one transaction, and waits until it is committed."""
        return self.ask(wire.batch(*changes))

    def read(
        self,
        family: bytes,
        keys: Iterable[bytes],
        *,
        names: Optional[Iterable[bytes]] = None,
        start: bytes = b"",
        finish: bytes = b"",
        reversed: bool = False,
        count: int = wire.COUNT,
    ) -> Read:
        """Reads rows in one transaction: the columns with these names, or a range of columns, as `wire.read` says."""
        return self.ask(
            wire.read(family, keys, names=names, start=start, finish=finish, reversed=reversed, count=count)
        )

    def move(self, dc: int) -> Moved:
        """Moves the session to another data centre, and waits until that shows all that the session wrote and saw."""
        return self.ask(wire.move(dc))

    def ask(self, request: Request[R]) -> R:
        """Sends a request, and waits for its reply."""
        deadline = self._deadline(self._timeout)
        return self._submit(request, deadline)._result(deadline)

    def submit(self, request: Request[R]) -> "Answer[R]":
        """Sends a request behind those that are under way, and gives a handle on its reply, for which it doesn't wait.

        Where more than 65,536 bytes wait to be sent it waits, and takes in replies meanwhile, so any number of requests may be
        under way. Where it raises an exception the request isn't sent.
        """
        return self._submit(request, self._deadline(self._timeout))

    def close(self) -> None:
        """Closes the connection, without waiting: what is under way is lost."""
        self._end(None)

    def _submit(self, request: Request[R], deadline: Optional[float]) -> "Answer[R]":
        self._wait(lambda: len(self._unsent) <= HELD, deadline)
        answer: Answer[R] = Answer(self)
        self._unsent += self._exchange.begin(request, answer._settle)
        self._send()
        return answer

    @staticmethod
    def _deadline(seconds: Optional[float]) -> Optional[float]:
        return None if seconds is None else time.monotonic() + seconds

    def _wait(self, is_there: Callable[[], bool], deadline: Optional[float]) -> None:
        """Sends and receives until it is there, or the connection is over."""
        while not is_there() and not self._exchange.is_over:
            left = None if deadline is None else max(0.0, deadline - time.monotonic())
            if not self._step(left):
                raise TimeoutError("the server didn't answer in time")

    def _step(self, seconds: Optional[float]) -> bool:
        """Receives and sends, as soon as one of them is possible. Whether it was, within so many seconds."""
        both = selectors.EVENT_READ | selectors.EVENT_WRITE
        self._selector.modify(self._stream, both if self._unsent else selectors.EVENT_READ)
        ready = self._selector.select(seconds)
        for _, events in ready:
            if events & selectors.EVENT_READ:
                self._receive()
            if events & selectors.EVENT_WRITE and not self._exchange.is_over:
                self._send()
        return bool(ready)

    def _send(self) -> None:
        try:
            sent = self._stream.send(self._unsent)
        except BlockingIOError:
            return
        except OSError as error:
            # what came before that is answered
            while self._receive():
                pass
            self._end(error)
            return
        del self._unsent[:sent]

    def _receive(self) -> bool:
        """Takes in a piece. Whether there was one, and more may come."""
        try:
            piece = self._stream.recv(PIECE)
        except BlockingIOError:
            return False
        except OSError as error:
            self._end(error)
            return False
        if piece:
            self._exchange.feed(piece)
        if not piece or self._exchange.is_over:
            self._end(None)
        return not self._exchange.is_over

    def _end(self, cause: Optional[OSError]) -> None:
        self._exchange.end(cause)
        self._selector.close()
        self._stream.close()


class Answer(Generic[R]):
    """What a request comes to that is under way."""

    def __init__(self, connection: Connection) -> None:
        self._connection = connection
        self._outcome: Union[R, EigerError, None] = None

    def done(self) -> bool:
        """Whether it is known. Looks at what has come, and waits for nothing."""
        connection = self._connection
        while self._outcome is None and connection._step(0.0):
            pass
        return self._outcome is not None

    def result(self, timeout: Optional[float] = None) -> R:
        """What it comes to, once that is known. Waits for so many seconds at most; None: as the connection does.

        Where that is an exception it is raised, each time. After a TimeoutError it can be asked again.
        """
        connection = self._connection
        return self._result(connection._deadline(connection._timeout if timeout is None else timeout))

    def _result(self, deadline: Optional[float]) -> R:
        self._connection._wait(lambda: self._outcome is not None, deadline)
        if isinstance(self._outcome, EigerError):
            raise self._outcome
        assert self._outcome is not None
        return self._outcome

    def _settle(self, outcome: Union[R, EigerError]) -> None:
        self._outcome = outcome
