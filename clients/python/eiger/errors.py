"""What a request may come to beside its result. All of it stands below EigerError.

The classes below Refused are the refusals that a reply may hold, under the names and numbers of docs/formats.md.
"""

from typing import Dict, Type


class EigerError(Exception):
    """What stands above every exception of this library.

    again: what was in the way may pass, so the same request may be answered when it is asked again.
    unsure: whether the request was done, or will be, isn't known.
    """

    again: bool = False
    unsure: bool = False


class ProtocolError(EigerError):
    """What came is no reply to the request. The connection is closed."""

    unsure = True


class ConnectionLost(EigerError, ConnectionError):
    """The connection is over, and `under_way` requests on it weren't answered: whether these were done isn't known.

    It is 0 where a request is refused because the connection is over: then that request wasn't sent.
    """

    def __init__(self, under_way: int) -> None:
        super().__init__(under_way)
        self.under_way = under_way
        self.unsure = under_way > 0

    def __str__(self) -> str:
        return f"the connection is over, with {self.under_way} requests under way"


class Collected(EigerError):
    """A read came too late for a collection: the versions that it would have shown are gone. It may be asked again."""

    again = True

    def __str__(self) -> str:
        return "the read came too late for a collection"


class Refused(EigerError):
    """The server refused a request, which changed nothing, unless `unsure` is set.

    It has the number and the name of docs/formats.md. One whose number this library doesn't know is a plain `Refused`.
    """

    number: int

    def __init__(self, number: int) -> None:
        super().__init__(number)
        self.number = number

    @property
    def name(self) -> str:
        """The name of the refusal, which is that of its class."""
        return type(self).__name__

    def __str__(self) -> str:
        return f"refused with {self.number} {self.name}"


class EmptyBatch(Refused):
    """A batch without a change."""

    number = 1


class UnknownFamily(Refused):
    """A family that isn't in the schema of the server."""

    number = 2


class KeyLength(Refused):
    """A key of 0 or more than 1,024 bytes."""

    number = 3


class NameLength(Refused):
    """A name of 0 or more than 1,024 bytes, or an end of a range of more."""

    number = 4


class ValueLength(Refused):
    """A value of more than 65,536 bytes."""

    number = 5


class TooMany(Refused):
    """More than 4,096 changes, 256 keys or 4,096 names."""

    number = 6


class RangeOrder(Refused):
    """A start after its finish, in the direction of the walk, or for a deleted range upwards."""

    number = 7


class EmptyRead(Refused):
    """A read without a key."""

    number = 8


class Busy(Refused):
    """Too many messages wait in the server. They may be fewer later, but a write may be under way there, and be done."""

    number = 20
    again = True
    unsure = True


class ClockSpent(Refused):
    """A clock of the server has no time left, and never will have. A write may have been done."""

    number = 22
    unsure = True


class Memory(Refused):
    """The server found no memory, for the request or its reply. It may find some later, but a write may have been done."""

    number = 23
    again = True
    unsure = True


class AlreadyHome(Refused):
    """A move to the data centre where the session is."""

    number = 26


class UnknownHome(Refused):
    """A move to a data centre that isn't there."""

    number = 27


class Behind(Refused):
    """Too much waits for a data centre that is away. It may be back when the server is asked again."""

    number = 28
    again = True


class Oversize(Refused):
    """The reply to a read is longer than a frame may be: ask for less."""

    number = 30


class UnknownTag(Refused):
    """A byte of the request is none of those that may stand there. The server closes the connection."""

    number = 31


class BadCount(Refused):
    """A count of the request is greater than what follows it. The server closes the connection."""

    number = 32


class TrailingBytes(Refused):
    """Bytes are left after the request. The server closes the connection."""

    number = 33


class Truncated(Refused):
    """The request ends inside a field. The server closes the connection."""

    number = 34


REFUSALS: Dict[int, Type[Refused]] = {known.number: known for known in Refused.__subclasses__()}


def refusal(number: int) -> Refused:
    """The refusal of this number, by its class where it is known."""
    return REFUSALS.get(number, Refused)(number)
