"""What is under way on a connection, and what its replies come to. Nothing here knows of sockets."""

from collections import deque
from typing import Any, Callable, Deque, Optional, Tuple, Union

from .errors import ConnectionLost, EigerError, ProtocolError
from .wire import Frames, R, Request, outcome

Settle = Callable[[Any], None]


class Exchange:
    """The requests of a connection that aren't answered yet, in order. What each came to is told to its function, once."""

    def __init__(self) -> None:
        self._frames = Frames()
        self._under_way: Deque[Tuple[Request[Any], Settle]] = deque()
        self._cause: Optional[BaseException] = None
        self.is_over = False

    def begin(self, request: Request[R], settle: Callable[[Union[R, EigerError]], None]) -> bytes:
        """Adds a request, and gives the bytes to be sent. ConnectionLost where the exchange is over."""
        if self.is_over:
            raise ConnectionLost(0) from self._cause
        self._under_way.append((request, settle))
        return request.frame

    def feed(self, piece: bytes) -> None:
        """Settles what this piece of the stream answers. Where it can't be read, the exchange is over."""
        self._frames.feed(piece)
        try:
            while (body := self._frames.next()) is not None:
                self._answer(body)
        except ProtocolError as error:
            self._fail_first(error)
            self.end(error)

    def end(self, cause: Optional[BaseException] = None) -> None:
        """No reply comes any more: what is under way is lost."""
        if self.is_over:
            return
        self.is_over, self._cause = True, cause
        count = len(self._under_way)
        while self._under_way:
            lost = ConnectionLost(count)
            lost.__cause__ = cause
            self._take()[1](lost)

    def _take(self) -> Tuple[Request[Any], Settle]:
        return self._under_way.popleft()

    def _answer(self, body: bytes) -> None:
        if not self._under_way:
            raise ProtocolError("a reply that nothing was asked for")
        came = outcome(self._under_way[0][0], body)
        self._take()[1](came)

    def _fail_first(self, error: ProtocolError) -> None:
        if self._under_way:
            self._take()[1](error)
