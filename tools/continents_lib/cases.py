"""Small histories, right and wrong, by which the judge is judged: each kind of what may be wrong has to be found, and nothing else.

A line is `SESSION@HOME` and what the session did, one line after the other; `5-9` in front says when it began and ended. A value is the
name of its writer, `SESSION.NUMBER`, counted for each session from 1; `-` is a deletion, or nothing there.

    1@0 writes x y z=- at 5         in one batch; the stamp is the commit time, 5, and the node of the home, or what `stamp T.N` says
    1@0 writes x refused            or unknown
    2@1 reads x=1.1 y=- at 7
    1@0 moves 1 at 3

Slices are judged beside that: what a reply shows of a row, or that it is none of what was asked; and runs of which each fault was asked
for once: whether it was there, met what it was for, and kept nobody else from answering."""
import itertools
import re

from .asking import Reading
from .faults import LASTS, OF_NODES, Fault, Window, plan_each
from .figures import missing
from .judge import KINDS, judge
from .record import DONE, Operation, stamp_of

# Each case: what it shows, which kinds are found, the history, and the tables at the end.
CASES = [
    ("a batch and a read of it", "", "1@0 writes x y at 5; 2@0 reads x=1.1 y=1.1 at 5", None),
    ("half of a batch", "half", "1@0 writes x y at 5; 2@1 reads x=1.1 y=- at 3", None),
    ("half of a batch, the other half newer", "", "1@0 writes x y at 5; 3@1 writes y at 6; 2@1 reads x=1.1 y=3.1 at 7", None),
    ("half of a batch, the other half older", "half", "3@1 writes y at 4; 1@0 writes x y at 5; 2@2 reads x=1.1 y=3.1 at 7", None),
    ("half of a batch is a deletion", "half", "3@1 writes y at 4; 1@0 writes x y=- at 5; 2@2 reads x=1.1 y=3.1 at 7", None),
    ("both halves of that", "", "3@1 writes y at 4; 1@0 writes x y=- at 5; 2@2 reads x=1.1 y=- at 7", None),
    ("of two batches at once the newer wins", "", "1@0 writes x y at 5; 2@1 writes x y at 5; 3@2 reads x=2.1 y=2.1 at 9", None),
    ("of two batches at once each wins in a column", "half", "1@0 writes x y at 5; 2@1 writes x y at 5; 3@2 reads x=2.1 y=1.1 at 9", None),
    ("a reply without its post", "cause", "1@0 writes x at 5; 2@1 reads x=1.1 at 6; 2@1 writes y at 7; 3@2 reads x=- y=2.2 at 9", None),
    ("a reply with its post", "", "1@0 writes x at 5; 2@1 reads x=1.1 at 6; 2@1 writes y at 7; 3@2 reads x=1.1 y=2.2 at 9", None),
    ("a second write without the first", "cause", "1@0 writes x at 5; 1@0 writes y at 6; 3@2 reads x=- y=1.2 at 9", None),
    (
        "a second write and what replaced the first",
        "",
        "1@0 writes x at 5; 1@0 writes y at 6; 2@1 writes x at 8; 3@2 reads x=2.1 y=1.2 at 9",
        None,
    ),
    (
        "a cause two writers back",
        "cause",
        "1@0 writes x at 5; 2@1 reads x=1.1 at 6; 2@1 writes y at 7; 3@2 reads y=2.2 at 8; 3@2 writes z at 9; 4@1 reads x=- z=3.2 at 9",
        None,
    ),
    (
        "a cause in an earlier read of the session",
        "back",
        "1@0 writes x at 5; 2@1 reads x=1.1 at 6; 2@1 writes y at 7; 3@2 reads y=2.2 at 8; 3@2 reads x=- at 9",
        None,
    ),
    ("a deletion is a cause", "cause", "1@0 writes x at 4; 1@0 writes x=- at 5; 1@0 writes y at 6; 3@2 reads x=1.1 y=1.3 at 9", None),
    ("a session's own write", "own", "1@0 writes x at 5; 1@0 reads x=- at 5", None),
    ("a session's own write, after a move", "own", "1@0 writes x at 5; 1@0 moves 1 at 3; 1@1 reads x=- at 4", None),
    ("a session's own deletion", "own", "2@0 writes x at 4; 1@0 writes x=- at 5; 1@0 reads x=2.1 at 5", None),
    ("another session needn't see it elsewhere", "", "1@0 writes x at 5; 2@1 reads x=- at 5", None),
    ("a session goes back", "back", "1@1 writes x at 5; 2@0 reads x=1.1 at 6; 2@0 reads x=- at 7", None),
    ("a commit time falls", "time", "1@0 writes x at 5; 1@0 writes y at 5 stamp 5.1", None),
    ("an effective time falls", "time", "1@0 reads x=- at 5; 1@0 reads x=- at 4", None),
    ("a commit time isn't above a read's", "time", "1@0 reads x=- at 5; 1@0 writes y at 5", None),
    ("times count anew after a move", "", "1@0 reads x=- at 5; 1@0 moves 1 at 2; 1@1 reads x=- at 3", None),
    ("a time below a move's floor", "time", "1@0 moves 1 at 4; 1@1 reads x=- at 3", None),
    ("a stamp below its cause", "stamp", "1@0 writes x at 9; 2@1 reads x=1.1 at 9; 2@1 moves 2 at 0; 2@2 writes y at 8", None),
    ("a stamp of another time", "stamp", "1@0 writes x at 5 stamp 6.0", None),
    ("a table without what was committed there", "table", "1@0 writes x at 5; 2@0 reads x=- at 5", None),
    ("a table of before", "", "1@0 writes x at 5; 2@0 reads x=- at 4", None),
    ("a table with what was committed later", "table", "1@0 writes x at 5; 2@0 reads x=1.1 at 4", None),
    ("a data centre shows less than before", "stale", "1@1 writes x at 5; 2@0 reads x=1.1 at 6; 3@0 reads x=- at 6", None),
    ("another data centre may", "", "1@1 writes x at 5; 2@0 reads x=1.1 at 6; 3@2 reads x=- at 6", None),
    ("so may a read that was under way", "", "0-1 1@1 writes x at 5; 2-6 3@0 reads x=- at 6; 3-4 2@0 reads x=1.1 at 6", None),
    ("a value of nobody", "nobody", "2@0 reads x=1.1 at 6", None),
    ("a value of a batch that was refused", "nobody", "1@0 writes x refused; 2@0 reads x=1.1 at 6", None),
    ("a value in another column", "nobody", "1@0 writes x at 5; 2@0 reads y=1.1 at 6", None),
    ("a value before it was written", "nobody", "2@0 reads x=1.1 at 6; 1@0 writes x at 5", None),
    ("a batch without a reply may be done", "", "1@0 writes x y unknown; 2@0 reads x=1.1 y=1.1 at 6", None),
    ("or not", "", "1@0 writes x y unknown; 2@0 reads x=- y=- at 6", None),
    ("but not half", "half", "1@0 writes x y unknown; 2@0 reads x=1.1 y=- at 6", None),
    ("what it rests on is there", "cause", "1@0 writes z at 4; 1@0 writes x unknown; 2@1 reads x=1.2 z=- at 6", None),
    ("half of it with what it knew", "half", "1@0 writes y at 4; 1@0 writes x y unknown; 2@1 reads x=1.2 y=1.1 at 6", None),
    ("a deletion without a reply may be done", "", "1@1 writes x at 5; 1@1 writes x=- unknown; 2@0 reads x=- at 6", None),
    (
        "a deletion that wasn't asked for yet",
        "stale",
        "1@1 writes x at 5; 3@0 reads x=1.1 at 6; 2@0 reads x=- at 6; 1@1 writes x=- at 8",
        None,
    ),
    ("a reply that is no slice", "slice", "1@0 reads malformed", None),
    ("all is there at the end", "", "1@0 writes x at 5; 2@1 writes x at 6", [{"x": "2.1"}, {"x": "2.1"}]),
    ("a write is lost", "lost", "1@0 writes x at 5; 2@1 writes x at 6", [{"x": "1.1"}, {"x": "1.1"}]),
    ("a write is lost at one node", "lost differ", "1@0 writes x at 5", [{"x": "1.1"}, {}]),
    ("a deletion is lost", "lost", "1@0 writes x at 5; 1@0 writes x=- at 6", [{"x": "1.1"}, {"x": "1.1"}]),
    ("what had no reply is there", "", "1@0 writes x at 5; 2@1 writes x unknown", [{"x": "2.1"}, {"x": "2.1"}]),
    ("at one node alone", "differ", "1@0 writes x at 5; 2@1 writes x unknown", [{"x": "2.1"}, {"x": "1.1"}]),
    ("what nobody wrote is there", "lost", "1@0 writes x at 5", [{"x": "1.1", "y": "1.1"}, {"x": "1.1", "y": "1.1"}]),
]
# Of one row, r: how it is read, what the reply has, in order, and what that shows; None: it is no slice.
SLICES = [
    ("names", {"names": [b"b", b"a"]}, "r: a", "a b=-"),
    ("another name", {"names": [b"b", b"a"]}, "r: c", None),
    ("another row", {"names": [b"b", b"a"]}, "s: a", None),
    ("no row", {"names": [b"b", b"a"]}, "", None),
    ("a whole row", {}, "r: a c", "a b=- c d=-"),
    ("in another order", {}, "r: c a", None),
    ("from a name", {"start": b"c"}, "r: d", "c=- d"),
    ("up to a name", {"finish": b"b"}, "r:", "a=- b=-"),
    ("a name beyond the end", {"finish": b"b"}, "r: c", None),
    ("up to a count", {"count": 2}, "r: a c", "a b=- c"),
    ("fewer than the count", {"count": 2}, "r: c", "a=- b=- c d=-"),
    ("more than the count", {"count": 2}, "r: a b c", None),
    ("downwards", {"reversed": True, "start": b"b", "count": 2}, "r: d c", "d c"),
    ("downwards, fewer", {"reversed": True, "start": b"b", "count": 2}, "r: d", "d c=- b=-"),
    ("downwards, in another order", {"reversed": True, "count": 2}, "r: c d", None),
]
# Of two nodes, where a kill and a cut were asked for: the faults that were, with the nodes, when, and how many connections they met; what
# clients did meanwhile; and how many things aren't as they have to be.
MEANWHILE = "12-15 1@1 reads x=- at 1; 32-33 1@1 reads x=- at 1; 32-33 2@0 reads x=- at 1"
FAULTY = [
    ("each once", "kill 0 10-20 0; cut 01 30-40 2", MEANWHILE, 0),
    ("in the other order", "cut 01 30-40 2; kill 0 10-20 0", MEANWHILE, 0),
    ("no cut", "kill 0 10-20 0", MEANWHILE, 1),
    ("two kills", "kill 0 10-20 0; kill 0 11-19 0; cut 01 30-40 2", MEANWHILE, 1),
    ("something else", "kill 0 10-20 0; cut 01 30-40 2; pause 0 11-19 0", MEANWHILE, 1),
    ("a cut of nothing", "kill 0 10-20 0; cut 01 30-40 0", MEANWHILE, 1),
    ("of the other node nobody was answered", "kill 1 10-20 0; cut 01 30-40 2", MEANWHILE, 1),
    ("nobody was answered while it was cut", "kill 0 10-20 0; cut 01 50-60 2", MEANWHILE, 2),
    ("nor before it was over", "kill 0 10-14 0; cut 01 30-40 2", MEANWHILE, 1),
    ("refused is not answered", "kill 0 10-20 0", "12-15 1@1 writes x refused", 2),
]


def _columns(words, unnamed):
    """Columns and values, up to a word that is none of them."""
    found = {}
    while words and words[0] not in ("at", "refused", "unknown", "malformed"):
        column, _, value = words.pop(0).partition("=")
        found[column] = None if value == "-" else value or unnamed
    return found


def _operation(line, place, numbers):
    times, session, home, kind, rest = re.fullmatch(r"(?:(\d+-\d+) )?(\d+)@(\d+) (\w+) (.*)", line).groups()
    begin, end = map(int, times.split("-")) if times else (2 * place, 2 * place + 1)
    words = rest.split()
    numbers[session] = numbers.get(session, 0) + 1
    to = int(words.pop(0)) if kind == "moves" else 0
    columns = _columns(words, f"{session}.{numbers[session]}")
    outcome = DONE if words[0] == "at" else words[0]
    time = int(words[1]) if outcome == DONE else 0
    stamp = [*map(int, words[3].split("."))] if "stamp" in words else (time, int(home))
    return Operation(
        session=int(session),
        number=numbers[session],
        node=int(home),
        home=int(home),
        begin=begin,
        end=end,
        kind=kind[:-1],
        outcome=outcome,
        wrote=columns if kind == "writes" else {},
        shown=columns if kind == "reads" else {},
        time=time,
        stamp=stamp_of(*stamp) if kind == "writes" and outcome == DONE else 0,
        to=to,
    )


def _history(text):
    """What each session did, as what its client recorded."""
    clients, numbers = {}, {}
    for place, line in enumerate(text.split("; ")):
        operation = _operation(line, place, numbers)
        clients.setdefault(operation.session, []).append(operation)
    return [lambda own=own: iter(own) for own in clients.values()]


def _wrong_slices():
    for name, asked, reply, shown in SLICES:
        row, _, columns = reply.partition(":")
        rows = {row.encode(): {column.encode(): b"1" for column in columns.split()}} if row else {}
        found = Reading([b"r"], **asked).shown(rows)
        wanted = shown and {f"r/{column}": value for column, value in _columns(shown.split(), "1").items()}
        if found != wanted:
            yield f"a slice, {name}: {found}, and not {wanted}"


def _window(line):
    """A fault that was; of a link, both ways."""
    kind, nodes, times, connections = line.split()
    begin, end = map(int, times.split("-"))
    one, *other = map(int, nodes)
    target = ((one, *other), (*other, one)) if other else (one,)
    return Window(Fault(kind, target, begin, end), begin, end, int(connections))


def _wrong_faults():
    for name, faults, text, count in FAULTY:
        found = list(missing(_history(text), ["kill", "cut"], [_window(line) for line in faults.split("; ")], 2))
        if len(found) != count:
            yield f"faults, {name}: {found}, and not {count}"
    for seed, (count, kinds) in itertools.product(range(100), ((1, OF_NODES), (2, ("kill", "cut")), (3, LASTS))):
        faults = plan_each(seed, 30.0, count, list(kinds))
        ends = [time for fault in faults for time in (fault.begin, fault.end)]
        if sorted(fault.kind for fault in faults) != sorted(kinds) or ends != sorted(ends) or ends[-1] > 30:
            yield f"seed {seed} plans {faults}"


def wrong_cases():
    """Each case that the judge judges otherwise than it stands here."""
    for name, kinds, text, tables in CASES:
        findings, _ = judge(_history(text), tables)
        if set(findings.counts) != set(kinds.split()):
            yield f"{name}: {dict(findings.counts)} was found, and not {kinds or 'nothing'}: {findings.told}"
    yield from _wrong_slices()
    yield from _wrong_faults()
    if left := set(KINDS) - {kind for _, kinds, _, _ in CASES for kind in kinds.split()}:
        yield f"no case has {sorted(left)}"
