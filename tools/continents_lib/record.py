"""What a client records of each operation: a line of JSON, in a file of its own, and how these are read again."""
import heapq
import json
from typing import Dict, NamedTuple, Optional

# What an operation came to. Of one that was refused it is known that it wasn't done; of one whose reply never came nothing is. A reply
# is malformed that is no answer to what was asked, whatever the store holds.
DONE, REFUSED, UNKNOWN, COLLECTED, MALFORMED = "done", "refused", "unknown", "collected", "malformed"


class Operation(NamedTuple):
    """One operation of a session. A client that connects again is another session.

    A column is a row and a name in it. What is written in a column is the name of its writer; None is a deletion, and where it is read
    that nothing is there. Of a range that was cut at its count only those columns count as shown at which the walk looked.
    """

    session: int
    number: int
    # which node was asked, and in which data centre the session was at home then
    node: int
    home: int
    # microseconds since the run began
    begin: int
    end: int
    # write, read or move
    kind: str
    outcome: str
    wrote: Dict[str, Optional[str]] = {}
    shown: Dict[str, Optional[str]] = {}
    # the commit time of a write, the effective time of a read, the floor of a move
    time: int = 0
    # the stamp of a write, as one number that is greater where the stamp is
    stamp: int = 0
    # where a move led
    to: int = 0

    @property
    def writer(self):
        """The name of the transaction, which its values bear."""
        return f"{self.session}.{self.number}"

    @property
    def line(self):
        return json.dumps(self, separators=(",", ":")) + "\n"


def stamp_of(time, node):
    return time << 16 | node


def time_of(stamp):
    return stamp >> 16


def operations(path):
    """What one client recorded, in order. A line that was cut off at the end is left out."""
    with open(path, encoding="utf-8") as file:
        for line in file:
            if line.endswith("\n"):
                yield Operation(*json.loads(line))


def _both(recorded):
    for operation in recorded:
        yield operation.begin, 0, operation
        yield operation.end, 1, operation


def events(clients):
    """When each operation began and ended, of all clients, by time: when, 0 or 1, and the operation. What begins when another ends comes
    before that. A client's own come one after the other."""
    return heapq.merge(*map(_both, clients), key=lambda event: event[:2])
