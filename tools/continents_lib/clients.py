"""Clients, each a thread near one node, that ask by chance and record what they were told."""
import itertools
import random
import threading
import time

from eiger import AlreadyHome, Behind, Busy, Collected, EigerError, Moved, Read, Refused, Written, move

from .asking import batch_by, reading_by, whole
from .record import COLLECTED, DONE, MALFORMED, REFUSED, UNKNOWN, Operation, stamp_of

# A call that isn't answered within so many seconds is given up, and so is its connection.
PATIENCE = 60
# How soon an operation that waits for another data centre is asked again, and how soon a node that isn't there is called again.
AGAIN, LATER = 0.02, 0.2
# After so many operations who moves does so.
STAYS, VISITS = 60, 20


class Run:
    """What all clients share: the nodes, when the run began, and whether it is over."""

    def __init__(self, nodes, rate):
        self.nodes, self.rate = nodes, rate
        self.began = time.monotonic()
        self.over = threading.Event()
        self.sessions = itertools.count(1)

    def now(self):
        """Microseconds since the run began."""
        return int((time.monotonic() - self.began) * 1e6)


class Client(threading.Thread):
    """One who asks a node, connects again where the connection is lost, and may move to other data centres and back."""

    def __init__(self, run, node, seed, path, moves):
        super().__init__(daemon=True)
        self.shared, self.node, self.path, self.moves = run, node, path, moves
        self.chance = random.Random(seed)
        self.failure = None

    def run(self):
        try:
            with open(self.path, "w", encoding="utf-8", buffering=1) as self.file:
                while not self.shared.over.is_set():
                    self.come()
        except Exception as error:
            self.failure = error
            raise

    def come(self):
        """One connection, and what is asked on it."""
        try:
            connection = self.shared.nodes.connect(self.node, PATIENCE)
        except OSError:
            self.shared.over.wait(LATER)
            return
        with connection:
            session = Talk(self.shared, connection, self.node, self.file, self.chance, self.shared.over)
            if session.begin():
                self.stay(session)
            else:
                self.shared.over.wait(LATER)

    def stay(self, session):
        """Asks until the connection is lost, or the run is over."""
        left = self.chance.randint(1, STAYS)
        while not self.shared.over.wait(self.chance.expovariate(self.shared.rate)):
            left -= 1
            if self.moves and left <= 0:
                away = session.home != self.node
                others = [dc for dc in range(self.shared.nodes.count) if dc != self.node]
                goes_on = session.go(self.node if away else self.chance.choice(others))
                left = STAYS if away else VISITS
            else:
                goes_on = session.something()
            if not goes_on:
                return


class Talk:
    """A session on one connection. Each call says whether it goes on."""

    def __init__(self, run, connection, node, file, chance, over):
        self.run, self.connection, self.node, self.file, self.chance, self.over = run, connection, node, file, chance, over
        self.session, self.number, self.home = next(run.sessions), 0, node

    def begin(self):
        """Whoever had the session before may have moved it: it is to be at home where it is asked."""
        return self.go(self.node)

    def something(self):
        self.number += 1
        if self.chance.random() < 0.5:
            request, wrote = batch_by(self.chance, f"{self.session}.{self.number}")
            return self.ask("write", request, wrote=wrote)
        reading = reading_by(self.chance)
        return self.ask("read", reading.request, reading)

    def all(self):
        """Reads all rows. Gives them, or None."""
        self.number += 1
        reading, kept = whole(), []
        return kept[0] if self.ask("read", reading.request, reading, kept=kept) and kept else None

    def go(self, to):
        self.number += 1
        return self.ask("move", move(to), to=to)

    def ask(self, kind, request, reading=None, kept=None, **more):
        begin, home = self.run.now(), self.home
        try:
            told = self.told(self.answer(request), reading)
        except AlreadyHome:
            self.home = more["to"]
            return True
        except Collected:
            told = {"outcome": COLLECTED}
        except Refused as refused:
            told = {"outcome": UNKNOWN if refused.unsure else REFUSED}
            if isinstance(refused, Behind):
                self.over.wait(LATER)
        except (EigerError, OSError):
            told = {"outcome": UNKNOWN}
        if told["outcome"] == DONE and kept is not None:
            kept.append(told["shown"])
        operation = Operation(self.session, self.number, self.node, home, begin, self.run.now(), kind, **more, **told)
        self.file.write(operation.line)
        return told["outcome"] not in (UNKNOWN, MALFORMED)

    def answer(self, request):
        """What a request comes to. What waits for another data centre is asked again."""
        while True:
            try:
                return self.connection.ask(request)
            except Busy:
                if self.over.wait(AGAIN):
                    raise

    def told(self, result, reading):
        """What a result is in the record."""
        if isinstance(result, Written):
            return {"outcome": DONE, "time": result.commit, "stamp": stamp_of(result.stamp.time, result.stamp.node)}
        if isinstance(result, Moved):
            self.home = result.dc
            return {"outcome": DONE, "time": result.floor}
        assert isinstance(result, Read)
        shown = reading.shown(result.rows)
        if shown is None:
            return {"outcome": MALFORMED, "shown": {repr(key): repr(row) for key, row in result.rows.items()}}
        return {"outcome": DONE, "time": result.time, "shown": shown}
