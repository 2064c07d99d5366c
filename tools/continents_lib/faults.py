"""Faults: which there are, when they come, by a seed, and who makes them."""
import heapq
import itertools
import random
from typing import NamedTuple, Tuple

from .nodes import Other

# How long each lasts, in seconds: at least, and at most. What was killed, or ended as its disk was full, comes back after that.
LASTS = {"kill": (0.2, 4.0), "pause": (0.5, 6.0), "cut": (1.0, 12.0), "stall": (1.0, 15.0), "full": (1.0, 5.0)}
OF_NODES, OF_LOGS = ("kill", "pause", "full"), ("kill", "full")
# How often two come at once, and how often but one way of a link is concerned.
AT_ONCE, ONE_WAY = 0.3, 0.25
# How often it is looked at nodes, in seconds; how long one may take to come back from its log, and to end once its disk was full.
LOOK, COMES_BACK, ENDS = 0.05, 600, 0.5
# How often sizes are looked at in a run.
SAMPLES = 120


class Fault(NamedTuple):
    """A fault that is to come."""

    kind: str
    # the node; or who calls whom, for each way that is concerned
    target: Tuple
    begin: float
    end: float

    @property
    def label(self):
        if self.kind in OF_NODES:
            return f"{self.kind} {self.target[0]}"
        (one, other), *back = self.target
        return f"{self.kind} {one}{'-' if back else '>'}{other}"


class Window(NamedTuple):
    """A fault that was, in microseconds since the run began, until it was over; and how many connections a cut closed, or a stall held."""

    fault: Fault
    begin: int
    end: int
    connections: int

    def nodes(self):
        if self.fault.kind in OF_NODES:
            return set(self.fault.target)
        return {node for way in self.fault.target for node in way}


def _target(chance, kind, count, one_way):
    """A node; or a link, and but one way of it so often."""
    if kind in OF_NODES:
        return (chance.randrange(count),)
    one, other = chance.sample(range(count), 2)
    return ((one, other),) if chance.random() < one_way else ((one, other), (other, one))


def plan(seed, seconds, count, kinds, calm):
    """The faults of a run of so many seconds, in order, with so many seconds in between, in the mean."""
    chance, time, faults = random.Random(seed), min(3.0, seconds / 10), []
    while kinds:
        time += chance.expovariate(1 / calm)
        kind = chance.choice(kinds)
        least, most = LASTS[kind]
        end = time + min(chance.uniform(least, most), seconds / 4)
        if end > seconds:
            break
        faults.append(Fault(kind, _target(chance, kind, count, ONE_WAY), time, end))
        if chance.random() >= AT_ONCE:
            time = end
    return faults


def plan_each(seed, seconds, count, kinds):
    """Each of these faults once, in an order by the seed, each in a part of the run of its own."""
    chance, faults = random.Random(seed), []
    part = seconds / max(len(kinds), 1)
    for place, kind in enumerate(chance.sample(kinds, len(kinds))):
        begin = part * (place + chance.uniform(0.2, 0.3))
        faults.append(Fault(kind, _target(chance, kind, count, 0), begin, begin + min(chance.uniform(*LASTS[kind]), part / 2)))
    return faults


class Faults:
    """Makes faults come and go. A node or a way has one at a time: what is to come where one is still there is left out."""

    def __init__(self, run):
        self.run, self.nodes = run, run.nodes
        self.windows = []
        self.held = set()
        self.steps = []
        self.order = itertools.count()

    def at(self, time, step, *what):
        heapq.heappush(self.steps, (time, next(self.order), step, what))

    def make(self, faults, seconds, sample):
        """Makes these faults, and comes back after so many seconds, or later, when all of them are over. Looks at sizes meanwhile."""
        for fault in faults:
            self.at(fault.begin, self.begin, fault)
        for place in range(SAMPLES + 1):
            self.at(seconds * place / SAMPLES, sample)
        while self.steps:
            time, _, step, what = heapq.heappop(self.steps)
            while (left := time - self.run.now() / 1e6) > 0:
                self.run.over.wait(min(left, LOOK))
                self.look()
            step(*what)

    def look(self):
        """No node ends by itself."""
        for dc in range(self.nodes.count):
            if (dc,) not in self.held and self.nodes.has_ended(dc):
                raise Other(f"node {dc} ended with status {self.nodes.processes[dc].returncode}, and told:\n{self.nodes.told(dc)}")

    def begin(self, fault):
        targets = {fault.target} if fault.kind in OF_NODES else set(fault.target)
        if targets & self.held:
            return
        self.look()
        self.held |= targets
        begun, connections = self.run.now(), 0
        if fault.kind in OF_NODES:
            getattr(self.nodes, fault.kind)(*fault.target)
        else:
            connections = self.change(fault.kind, fault.target)
        self.at(fault.end, self.end, Window(fault, begun, begun, connections))

    def end(self, window):
        fault = window.fault
        if fault.kind in OF_LOGS and self.has_gone(fault):
            self.nodes.start(*fault.target)
            self.await_node(window, self.run.now() / 1e6 + COMES_BACK)
            return
        if fault.kind == "pause":
            self.nodes.resume(*fault.target)
        elif fault.kind not in OF_NODES:
            self.change("heal" if fault.kind == "cut" else "flow", fault.target)
        self.over(window)

    def has_gone(self, fault):
        """Whether the node has to be started again. One whose disk was full may not have written meanwhile; if it ended, it says why."""
        (dc,) = fault.target
        if fault.kind == "full":
            self.nodes.empty(dc)
            if not self.nodes.ends_within(dc, ENDS):
                return False
            if not self.nodes.told(dc).endswith("eiger: fault 37 WriteFailed\n"):
                raise Other(f"node {dc}, whose disk was full, told {self.nodes.told(dc)}")
            self.nodes.end(dc)
        return True

    def change(self, what, ways):
        """Changes ways. Gives how many connections there were on them."""
        return sum([self.nodes.way(what, *way) for way in ways])

    def await_node(self, window, until):
        """A node that was started again is back once it serves."""
        (dc,) = window.fault.target
        if self.nodes.has_ended(dc) or self.run.now() / 1e6 > until:
            raise Other(f"node {dc} was gone, and didn't come back: {self.nodes.told(dc)}")
        if self.nodes.serves(dc):
            self.over(window)
        else:
            self.at(self.run.now() / 1e6 + LOOK, self.await_node, window, until)

    def over(self, window):
        fault = window.fault
        self.held -= {fault.target} if fault.kind in OF_NODES else set(fault.target)
        self.windows.append(window._replace(end=self.run.now()))
