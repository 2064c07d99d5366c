"""Requests as bytes, and replies from bytes: "Frames" in docs/formats.md. Nothing here knows of sockets.

Families, keys, names and values are bytes. What is longer or more than the server would take is a ValueError here, and what
isn't bytes a TypeError.
"""

import re
from dataclasses import dataclass
from typing import Callable, Dict, Generic, Iterable, List, Optional, Type, TypeVar, Union

from .errors import Collected, EigerError, ProtocolError, Refused, refusal
from .results import Moved, Read, Stamp, Written

LONGEST_BODY = 16_777_216
LONGEST_KEY = LONGEST_NAME = 1_024
LONGEST_VALUE = 65_536
MOST_CHANGES = MOST_NAMES = 4_096
MOST_KEYS = 256
MOST_COLUMNS = 4_294_967_295
# How many columns of a row a range gives where nothing else is said.
COUNT = 100

Result = Union[Written, Read, Moved]
Reply = Union[Result, Collected, Refused]
R = TypeVar("R", bound=Result, covariant=True)


@dataclass(frozen=True)
class Change:
    """A change of a row, as a batch spells it: what insert, delete, delete_row and delete_range make."""

    spelled: bytes


@dataclass(frozen=True)
class Request(Generic[R]):
    """The body of a request, and what it comes to where it isn't refused: what batch, read and move make."""

    body: bytes
    result: Type[R]

    def __post_init__(self) -> None:
        _check("a request", len(self.body), 0, LONGEST_BODY)

    @property
    def frame(self) -> bytes:
        """The bytes that are sent."""
        return _number(4, len(self.body)) + self.body


def insert(family: bytes, key: bytes, name: bytes, value: bytes) -> Change:
    """Inserts a column, or overwrites it."""
    return _change(family, key, 0, _name(name) + _sized(4, "a value", value, 0, LONGEST_VALUE))


def delete(family: bytes, key: bytes, name: bytes) -> Change:
    """Deletes a column."""
    return _change(family, key, 1, _name(name))


def delete_row(family: bytes, key: bytes) -> Change:
    """Deletes all columns of a row."""
    return _change(family, key, 2, b"")


def delete_range(family: bytes, key: bytes, start: bytes = b"", finish: bytes = b"") -> Change:
    """Deletes the columns of a row from a start to a finish, both included. An empty one is open."""
    return _change(family, key, 3, _end(start) + _end(finish))


def batch(*changes: Change) -> Request[Written]:
    """A write transaction: all of these changes, or none. A later one is newer than those before it."""
    spelled = [change.spelled for change in changes]
    return Request(b"\x01" + _counted("changes", spelled, 1, MOST_CHANGES), Written)


def read(
    family: bytes,
    keys: Iterable[bytes],
    *,
    names: Optional[Iterable[bytes]] = None,
    start: bytes = b"",
    finish: bytes = b"",
    reversed: bool = False,
    count: int = COUNT,
) -> Request[Read]:
    """A read transaction of the rows of these keys: of the columns with these names, or of a range of columns.

    A range goes from the start to the finish, both included; an empty one is open. Reversed, it is walked downwards, so that
    the start is the higher end. It ends after `count` columns of each row.
    """
    asked = _counted("keys", [_key(key) for key in keys], 1, MOST_KEYS)
    if names is None:
        which = _range(start, finish, reversed, count)
    elif (start, finish, reversed, count) == (b"", b"", False, COUNT):
        which = b"\x00" + _counted("names", [_name(name) for name in names], 0, MOST_NAMES)
    else:
        raise ValueError("a read asks for names, or for a range")
    return Request(b"\x02" + _family(family) + asked + which, Read)


def move(dc: int) -> Request[Moved]:
    """A move of the session to another data centre, which becomes its home."""
    _check("a data centre", dc, 0, 255)
    return Request(b"\x03" + _number(1, dc), Moved)


class Frames:
    """The bodies of frames, out of a stream that comes in pieces."""

    def __init__(self) -> None:
        self._waiting = bytearray()

    def feed(self, piece: bytes) -> None:
        """Adds a piece at the end."""
        self._waiting += piece

    def next(self) -> Optional[bytes]:
        """Takes the first body off the front, if it is whole. A ProtocolError where it would be longer than a body may be."""
        if len(self._waiting) < 4:
            return None
        length = int.from_bytes(self._waiting[:4], "big")
        if length > LONGEST_BODY:
            raise ProtocolError(f"a frame of {length} bytes")
        if len(self._waiting) < 4 + length:
            return None
        body = bytes(self._waiting[4 : 4 + length])
        del self._waiting[: 4 + length]
        return body


def parse(body: bytes) -> Reply:
    """The reply that this body spells; a refusal and Collected are given, not raised. A ProtocolError where it spells none."""
    fields = _Fields(body)
    kind = fields.number(1)
    if kind not in _REPLIES:
        raise ProtocolError(f"a reply of kind {kind:#04x}")
    reply = _REPLIES[kind](fields)
    if fields.left:
        raise ProtocolError(f"{fields.left} bytes behind a reply")
    return reply


def outcome(request: Request[R], body: bytes) -> Union[R, EigerError]:
    """What the request comes to by this reply. A ProtocolError where it is no reply to that request."""
    reply = parse(body)
    if isinstance(reply, (request.result, Refused)):
        return reply
    if isinstance(reply, Collected) and request.result is Read:
        return reply
    raise ProtocolError(f"{type(reply).__name__} in reply to a request for {request.result.__name__}")


def _check(what: str, number: int, least: int, most: int) -> None:
    if not least <= number <= most:
        raise ValueError(f"{what}: {number} is not from {least} to {most}")


def _number(size: int, number: int) -> bytes:
    return number.to_bytes(size, "big")


def _sized(size: int, what: str, text: bytes, least: int, most: int) -> bytes:
    if not isinstance(text, bytes):
        raise TypeError(f"{what} is bytes, not {type(text).__name__}")
    _check(f"the length of {what}", len(text), least, most)
    return _number(size, len(text)) + text


def _counted(what: str, spelled: List[bytes], least: int, most: int) -> bytes:
    _check(f"the number of {what}", len(spelled), least, most)
    return _number(4, len(spelled)) + b"".join(spelled)


def _family(family: bytes) -> bytes:
    spelled = _sized(1, "a family", family, 1, 64)
    if not re.fullmatch(rb"\w+", family):
        raise ValueError("a family has ASCII letters, digits and _")
    return spelled


def _key(key: bytes) -> bytes:
    return _sized(2, "a key", key, 1, LONGEST_KEY)


def _name(name: bytes) -> bytes:
    return _sized(2, "a name", name, 1, LONGEST_NAME)


def _end(end: bytes) -> bytes:
    return _sized(2, "an end of a range", end, 0, LONGEST_NAME)


def _change(family: bytes, key: bytes, kind: int, rest: bytes) -> Change:
    return Change(_family(family) + _key(key) + _number(1, kind) + rest)


def _range(start: bytes, finish: bytes, reversed: bool, count: int) -> bytes:
    _check("the count of a range", count, 0, MOST_COLUMNS)
    return b"\x01" + _end(start) + _end(finish) + _number(1, bool(reversed)) + _number(4, count)


class _Fields:
    """The fields of a body, one after the other."""

    def __init__(self, body: bytes) -> None:
        self._body = body
        self._at = 0

    @property
    def left(self) -> int:
        return len(self._body) - self._at

    def take(self, size: int) -> bytes:
        if size > self.left:
            raise ProtocolError("a reply ends inside a field")
        self._at += size
        return self._body[self._at - size : self._at]

    def number(self, size: int) -> int:
        return int.from_bytes(self.take(size), "big")

    def sized(self, size: int) -> bytes:
        return self.take(self.number(size))


T = TypeVar("T")


def _by_text(fields: _Fields, value: Callable[[_Fields], T]) -> Dict[bytes, T]:
    """So many texts, each with its value."""
    found: Dict[bytes, T] = {}
    for _ in range(fields.number(4)):
        text = fields.sized(2)
        if text in found:
            raise ProtocolError("a key or a name comes twice in a reply")
        found[text] = value(fields)
    return found


def _written(fields: _Fields) -> Written:
    return Written(fields.number(8), Stamp(fields.number(8), fields.number(2)))


def _read(fields: _Fields) -> Read:
    return Read(fields.number(8), _by_text(fields, lambda row: _by_text(row, lambda column: column.sized(4))))


_REPLIES: Dict[int, Callable[[_Fields], Reply]] = {
    0x81: _written,
    0x82: _read,
    0x83: lambda fields: Collected(),
    0x84: lambda fields: refusal(fields.number(2)),
    0x85: lambda fields: Moved(fields.number(1), fields.number(8)),
}
