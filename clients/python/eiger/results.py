"""What requests come to where they aren't refused."""

from dataclasses import dataclass
from typing import Mapping


@dataclass(frozen=True, order=True)
class Stamp:
    """The stamp of a write: when it was committed where it was asked for, and which node coordinated it there.

    Of two writes of a column the one with the greater stamp is newer.
    """

    time: int
    node: int


@dataclass(frozen=True)
class Written:
    """A batch was committed at this time, under this stamp."""

    commit: int
    stamp: Stamp


@dataclass(frozen=True)
class Read:
    """The rows that were asked for, all of the table at one time, the effective time.

    `rows` has each asked key once, in the order of asking, with the columns of its row, by name, in the order of the walk.
    A row without columns is there, and empty.
    """

    time: int
    rows: Mapping[bytes, Mapping[bytes, bytes]]


@dataclass(frozen=True)
class Moved:
    """The session is at home in this data centre now, which shows all that the session wrote and saw: all to the floor."""

    dc: int
    floor: int
