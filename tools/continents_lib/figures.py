"""Figures of a run: operations a second and latency at each node, while all is whole and while something is faulty, and over time; the
sizes of nodes; and whether each fault that was asked for was there, and concerned nobody else."""
from array import array
from bisect import bisect_right
from collections import Counter, defaultdict

from .faults import OF_NODES
from .record import COLLECTED, DONE

PARTS = (0.5, 0.99, 0.999)
# What is faulty while an operation is under way: nothing, something else than its node, or that.
STATES = ("all is whole", "something else is faulty", "it is faulty itself")


def joined(windows):
    """The times at which some fault was there, as ends that follow each other: begin, end, begin, end."""
    ends = []
    for begin, end in sorted((window.begin, window.end) for window in windows):
        if ends and begin <= ends[-1]:
            ends[-1] = max(end, ends[-1])
        else:
            ends += [begin, end]
    return ends


def meets(ends, begin, end):
    at = bisect_right(ends, begin)
    return at % 2 == 1 or (at < len(ends) and ends[at] < end)


def length_of(ends):
    return (sum(ends[1::2]) - sum(ends[::2])) / 1e6


def part_of(times, part):
    """The least of the times that so great a part of them isn't above; None of none."""
    return times[min(len(times) - 1, int(part * len(times)))] if times else None


class Figures:
    """Latencies are those of operations of sessions at home. Who moved away waits for the network."""

    def __init__(self, clients, windows, seconds, count):
        self.windows, self.seconds, self.count = windows, seconds, count
        self.any = joined(windows)
        self.own = [joined(window for window in windows if window.fault.target == (node,)) for node in range(count)]
        # by node, kind and state, and by node, kind and second: latencies in milliseconds
        self.latencies = defaultdict(lambda: array("d"))
        self.seconds_of = defaultdict(lambda: array("d"))
        self.outcomes, self.away, self.total = Counter(), 0, 0
        for client in clients:
            for operation in client():
                self._take(operation)
        for times in (*self.latencies.values(), *self.seconds_of.values()):
            times[:] = array("d", sorted(times))

    def told_faults(self):
        """Lines that tell the faults, and what the operations came to."""
        lasted = defaultdict(list)
        for window in self.windows:
            lasted[window.fault.kind].append((window.end - window.begin) / 1e6)
        told = ", ".join(f"{kind} {len(its)} (the longest {max(its):.1f} s)" for kind, its in sorted(lasted.items()))
        yield f"faults: {told or 'none'}, for {self.faulty:.0f} s"
        yield f"outcomes: {', '.join(f'{outcome} {count}' for outcome, count in sorted(self.outcomes.items()))}"

    @property
    def faulty(self):
        """For how many seconds something was faulty."""
        return length_of(self.any)

    def _take(self, operation):
        self.outcomes[operation.outcome] += 1
        if operation.outcome not in (DONE, COLLECTED):
            return
        self.total += 1
        if operation.kind == "move" or operation.home != operation.node:
            self.away += 1
            return
        begin, end, node = operation.begin, operation.end, operation.node
        state = meets(self.any, begin, end) + meets(self.own[node], begin, end)
        took = (end - begin) / 1e3
        self.latencies[node, operation.kind, state].append(took)
        self.seconds_of[node, operation.kind, end // 1_000_000].append(took)

    def lines(self):
        """Lines of text."""
        for node in range(self.count):
            own = length_of(self.own[node])
            for state, seconds in enumerate((self.seconds - self.faulty, self.faulty - own, own)):
                kinds = [self.latencies.get((node, kind, state), ()) for kind in ("read", "write")]
                if any(kinds):
                    rate = sum(map(len, kinds)) / seconds if seconds > 0 else 0
                    told = ", ".join(f"{kind} {self._parts(times)}" for kind, times in zip(("reads", "writes"), kinds))
                    yield f"node {node} while {STATES[state]}, {seconds:.0f} s: {rate:.0f} a second; ms at 50, 99, 99.9 %: {told}"

    @staticmethod
    def _parts(times):
        return " ".join("-" if (time := part_of(times, part)) is None else f"{time:.2f}" for part in PARTS)


class Sizes:
    """How much memory and disk the nodes take, from time to time, which is noted in a file."""

    def __init__(self, run, path):
        self.run, self.path = run, path
        # of each node: when, in seconds, its memory, and its log, in bytes
        self.seen = [[] for _ in range(run.nodes.count)]

    def look(self):
        now = round(self.run.now() / 1e6)
        with open(self.path, "a", encoding="utf-8") as file:
            for dc, seen in enumerate(self.seen):
                seen.append((now, *self.run.nodes.size(dc)))
                print(dc, *seen[-1], file=file)

    def lines(self, total):
        """Lines of text, for so many operations of all clients together."""
        for dc, seen in enumerate(self.seen):
            held, log = [memory for _, memory, _ in seen if memory], seen[-1][2]
            told = f"{held[0] / 1e6:.1f} MB of memory at first, {max(held) / 1e6:.1f} at most, {held[-1] / 1e6:.1f} at the end"
            each = f", {log / total:.0f} bytes for an operation of any client" if total else ""
            yield f"node {dc} held {told}, and {log / 1e6:.1f} MB of log{each}"


def missing(clients, kinds, windows, count):
    """What isn't as it has to be where each of these faults comes once: one that wasn't there or was twice, met no connection, or kept a
    node from answering its own clients that it didn't end or stop. Records are gone over once for each fault and node."""
    were = Counter(window.fault.kind for window in windows)
    yield from (f"{kind} was there {were[kind]} times" for kind in sorted({*kinds, *were}) if were[kind] != kinds.count(kind))
    for window in windows:
        of_node = window.fault.kind in OF_NODES
        if not of_node and not window.connections:
            yield f"{window.fault.label} met no connection"
        for node in range(count):
            if not (of_node and node in window.fault.target) and not any(_is_answered(client, window, node) for client in clients):
                yield f"node {node} answered nobody while {window.fault.label}"


def _is_answered(client, window, node):
    """Whether a client near a node was answered there, of what it asked for within a fault."""
    return any(
        it.node == it.home == node and it.kind != "move" and it.outcome == DONE and window.begin <= it.begin and it.end <= window.end
        for it in client()
    )
