"""The judge: whether what clients recorded is what a causally consistent store may answer.

It shares no code with the store, and knows of it only what it promises. It goes over the records twice: first it learns the stamps of all
writes (`Survey`), then it follows the operations by time, and keeps for each session its past: the newest stamp of each column among all
writes that it made or saw, those that their writers had made or seen before, and so on. A write takes that past along, for whoever reads
it. So a read costs what it shows, times the columns of a past, and nothing of the run before it.

Of a write whose reply never came the stamp isn't known: nothing is asked for it but that it be whole, and that what it rests on be there.
"""
from array import array
from bisect import bisect_left
from collections import Counter, defaultdict

from .record import DONE, MALFORMED, REFUSED, events, stamp_of, time_of

# What may be wrong, and how it is told.
KINDS = {
    "half": "a batch was shown in part",
    "cause": "an effect was shown without its cause",
    "own": "a session didn't see what it had written",
    "back": "a session went back behind what it had seen",
    "time": "a time of a session fell",
    "stamp": "a stamp isn't above those of what it rests on",
    "table": "a read isn't of the table at its time",
    "stale": "a data centre showed less than before",
    "nobody": "a value was shown that nobody had written there",
    "lost": "an acknowledged write was lost",
    "differ": "nodes differ at the end",
    "slice": "a reply isn't a slice of what was asked",
}
# The stamp of what nobody knows the stamp of: above all others.
UNSURE = 1 << 80
# How many of what is wrong are told in words.
TOLD = 20


class Findings:
    """What was found wrong."""

    def __init__(self):
        self.counts = Counter()
        self.told = []

    def add(self, kind, where, what):
        self.counts[kind] += 1
        if len(self.told) < TOLD:
            self.told.append(f"{KINDS[kind]}: {where}: {what}")


class Deletions:
    """The deletions of one column, by when they were asked for."""

    def __init__(self):
        self.begins, self.newest = [], []

    def add(self, begin, stamp):
        self.begins.append(begin)
        self.newest.append(max(stamp, self.newest[-1]) if self.newest else stamp)

    def before(self, time):
        """The greatest stamp among those that were asked for before."""
        index = bisect_left(self.begins, time)
        return self.newest[index - 1] if index else 0


class Survey:
    """What has to be known of all operations before they are followed."""

    def __init__(self, clients):
        self.operations = Counter()
        self.stamps = {}
        self.refused = set()
        # how many reads show a write
        self.readers = Counter()
        # of each column the newest write, and what may have been written there, as far as is known
        self.newest, self.unsure = {}, defaultdict(set)
        # of each data centre and column the stamps of what was written there, in order
        self.local = defaultdict(lambda: array("Q"))
        self.deletions = defaultdict(Deletions)
        for _, is_end, operation in events(clients):
            if not is_end:
                self._note(operation)
        for key, stamps in self.local.items():
            self.local[key] = array("Q", sorted(stamps))

    def _note(self, operation):
        self.operations[operation.kind, operation.outcome] += 1
        if operation.kind == "write":
            self._note_write(operation)
        self.readers.update(set(operation.shown.values()))

    def _note_write(self, operation):
        if operation.outcome == REFUSED:
            self.refused.add(operation.writer)
            return
        done = operation.outcome == DONE
        stamp = operation.stamp if done else UNSURE
        if done:
            self.stamps[operation.writer] = stamp
        for column, value in operation.wrote.items():
            if value is None:
                self.deletions[column].add(operation.begin, stamp)
            if done:
                self.local[operation.home, column].append(stamp)
                self.newest[column] = max(self.newest.get(column, (0, None)), (stamp, value), key=lambda one: one[0])
            else:
                self.unsure[column].add(value)

    def by_time(self, home, column, time):
        """The newest write of a column that was made in this data centre and committed by a time there."""
        stamps = self.local.get((home, column), ())
        index = bisect_left(stamps, stamp_of(time + 1, 0))
        return stamps[index - 1] if index else 0


class Session:
    """What a session knows: of each column the newest stamp in its past, what it wrote there itself, the greatest stamp of all of that,
    and the last time that it was told."""

    __slots__ = ("past", "own", "top", "time")

    def __init__(self):
        self.past, self.own, self.top, self.time = {}, {}, 0, 0


class Version:
    """A write, for who reads it: what it wrote, its past with itself, its stamp, and where it was made."""

    __slots__ = ("wrote", "past", "top", "stamp", "home")

    def __init__(self, operation, session, stamp):
        self.wrote, self.home, self.stamp = operation.wrote, operation.home, stamp
        self.past, self.top = dict(session.past), session.top
        if stamp is not None:
            self.past.update(dict.fromkeys(operation.wrote, stamp))
            self.top = max(self.top, stamp)


class Judge:
    """Follows operations by time."""

    def __init__(self, survey, findings):
        self.survey, self.findings = survey, findings
        self.sessions = defaultdict(Session)
        self.versions = {}
        # of each data centre and column the newest stamp that was shown there; and what that was when a read began
        self.seen = defaultdict(int)
        self.fresh = {}

    def follow(self, clients):
        for _, is_end, operation in events(clients):
            if operation.kind == "write":
                (self._written if is_end else self._write)(operation)
            elif operation.kind == "read" and operation.outcome == DONE:
                (self._read if is_end else self._begin_read)(operation)
            elif operation.kind == "move" and is_end and operation.outcome == DONE:
                self.sessions[operation.session].time = operation.time
            if is_end and operation.outcome == MALFORMED:
                self._wrong("slice", operation, f"it showed {operation.shown}")

    def _wrong(self, kind, operation, what):
        self.findings.add(kind, f"{operation.kind} {operation.writer} at node {operation.node}, {operation.end / 1e6:.3f} s", what)

    def _write(self, operation):
        writer = operation.writer
        if self.survey.readers[writer] and operation.outcome != REFUSED:
            self.versions[writer] = Version(operation, self.sessions[operation.session], self.survey.stamps.get(writer))

    def _written(self, operation):
        if operation.outcome != DONE:
            return
        session, stamp = self.sessions[operation.session], operation.stamp
        if operation.time <= session.time:
            self._wrong("time", operation, f"committed at {operation.time}, after {session.time}")
        if stamp <= session.top or time_of(stamp) != operation.time:
            self._wrong("stamp", operation, f"stamp {stamp}, committed at {operation.time}, above {session.top}")
        session.past.update(dict.fromkeys(operation.wrote, stamp))
        session.own.update(dict.fromkeys(operation.wrote, stamp))
        session.top, session.time = max(stamp, session.top), operation.time

    def _begin_read(self, operation):
        self.fresh[operation.session] = [self.seen[operation.home, column] for column in operation.shown]

    def _read(self, operation):
        session, fresh = self.sessions[operation.session], self.fresh.pop(operation.session)
        if operation.time < session.time:
            self._wrong("time", operation, f"read at {operation.time}, after {session.time}")
        versions = self._versions(operation)
        stamps = {column: self._stamp(operation, column, value) for column, value in operation.shown.items()}
        for (column, stamp), seen in zip(stamps.items(), fresh):
            self._look(operation, session, versions, column, stamp, seen)
        self._learn(operation, session, versions, stamps)
        for value in set(operation.shown.values()):
            self.survey.readers[value] -= 1
            if not self.survey.readers[value]:
                self.versions.pop(value, None)

    def _versions(self, operation):
        """The writes that a read shows, by their names."""
        found = {}
        for column, value in operation.shown.items():
            version = self.versions.get(value)
            if value is not None and (version is None or version.wrote.get(column) != value):
                why = "was refused" if value in self.survey.refused else "didn't write it"
                self._wrong("nobody", operation, f"{column} shows {value}, who {why}")
            elif version is not None:
                found[value] = version
        return found

    def _stamp(self, operation, column, value):
        """The stamp of what is shown in a column; where nothing is there, the greatest that a deletion might have."""
        if value is None:
            deletions = self.survey.deletions.get(column)
            return deletions.before(operation.end) if deletions else 0
        return self.survey.stamps.get(value, UNSURE)

    def _look(self, operation, session, versions, column, stamp, seen):
        """Tells the first thing that is wrong with what a read shows in a column."""
        value = operation.shown[column]
        for writer, version in versions.items():
            if version.past.get(column, 0) > stamp or self._is_half(version, writer, column, value, stamp):
                kind = "half" if column in version.wrote else "cause"
                return self._wrong(kind, operation, f"{column} shows {value}, beside {writer}")
        known = session.past.get(column, 0)
        if known > stamp:
            kind = "own" if session.own.get(column) == known else "back"
            return self._wrong(kind, operation, f"{column} shows {value}, stamp {stamp} below {known}")
        local = self.survey.by_time(operation.home, column, operation.time)
        if local > stamp:
            return self._wrong("table", operation, f"{column} shows {value} at {operation.time}, stamp {stamp} below {local}")
        version = versions.get(value)
        if version and version.stamp is not None and version.home == operation.home and time_of(version.stamp) > operation.time:
            return self._wrong("table", operation, f"{column} shows {value} at {operation.time}, which was committed later")
        if seen > stamp:
            return self._wrong("stale", operation, f"{column} shows {value}, stamp {stamp} below {seen}")
        return None

    @staticmethod
    def _is_half(version, writer, column, value, stamp):
        """Whether a write whose stamp isn't known is missing in a column, in whose place something stands that it knew of."""
        if version.stamp is not None or column not in version.wrote or value == version.wrote[column]:
            return False
        return stamp <= version.top and value != writer

    def _learn(self, operation, session, versions, stamps):
        """The past of what a read showed belongs to the past of the session from now on."""
        past = session.past
        for column, value in operation.shown.items():
            version = versions.get(value)
            if version is None:
                continue
            if version.stamp is None or past.get(column) != version.stamp:
                for name, stamp in version.past.items():
                    if stamp > past.get(name, 0):
                        past[name] = stamp
                session.top = max(session.top, version.top)
            if version.stamp is not None and version.stamp > self.seen[operation.home, column]:
                self.seen[operation.home, column] = version.stamp
        session.time = max(session.time, operation.time)


def judge_end(survey, tables, findings):
    """At the end, when all is quiet: each node shows of each column the newest write, and so all the same. A table is a row of columns and
    their values; what isn't there stands in none."""
    columns = set().union(survey.newest, survey.unsure, *tables)
    for node, table in enumerate(tables):
        for column in sorted(columns):
            _, value = survey.newest.get(column, (0, None))
            shown = table.get(column)
            if shown != value and shown not in survey.unsure.get(column, ()):
                findings.add("lost", f"node {node}", f"{column} shows {shown}, and the newest write is {value}")
            if shown != tables[0].get(column):
                findings.add("differ", f"nodes 0 and {node}", f"{column} shows {tables[0].get(column)} and {shown}")


def judge(clients, tables=None):
    """Judges what clients recorded, each given by a function that begins to read it anew; and, if they are given, the tables of all nodes
    at the end. Gives the findings and the survey."""
    findings = Findings()
    survey = Survey([client() for client in clients])
    Judge(survey, findings).follow([client() for client in clients])
    if tables is not None:
        judge_end(survey, tables, findings)
    return findings, survey
