"""What clients ask: batches and reads by chance, over few rows, with what they mean for the judge."""
from eiger import batch, delete, delete_range, delete_row, insert, read

FAMILY = b"f"
ROWS = [b"row %d" % number for number in range(24)]
NAMES = [b"a", b"b", b"c", b"d"]
# How many of a batch's changes insert, delete a column, a range, a row.
KINDS, WEIGHTS = ("insert", "column", "range", "row"), (84, 8, 5, 3)


def column_of(row, name):
    return f"{row.decode()}/{name.decode()}"


def text_of(value):
    return value.decode(errors="replace")


def _rows(chance, most):
    """Some rows, more often the first ones."""
    return list(dict.fromkeys(ROWS[int(len(ROWS) * chance.random() ** 2)] for _ in range(chance.randint(1, most))))


def _ends(chance):
    """The ends of a range, upwards; an empty one is open."""
    start, finish = sorted((chance.choice(NAMES), chance.choice(NAMES)))
    return chance.choice((b"", start)), chance.choice((b"", finish))


def _within(start, finish):
    return [name for name in NAMES if start <= name and (not finish or name <= finish)]


def _change(chance, row, value):
    """A change of a row, and which columns it leaves with which value."""
    kind = chance.choices(KINDS, WEIGHTS)[0]
    if kind == "row":
        return delete_row(FAMILY, row), dict.fromkeys(NAMES)
    if kind == "range":
        start, finish = _ends(chance)
        return delete_range(FAMILY, row, start, finish), dict.fromkeys(_within(start, finish))
    name = chance.choice(NAMES)
    if kind == "column":
        return delete(FAMILY, row, name), {name: None}
    return insert(FAMILY, row, name, value), {name: text_of(value)}


def batch_by(chance, writer):
    """A batch of one to six changes, and what it leaves in the columns that it touches."""
    changes, wrote = [], {}
    for row in _rows(chance, 3):
        for _ in range(chance.randint(1, 2)):
            change, left = _change(chance, row, writer.encode())
            changes.append(change)
            wrote.update((column_of(row, name), value) for name, value in left.items())
    return batch(*changes), wrote


class Reading:
    """A read, and what its reply shows."""

    def __init__(self, rows, names=None, start=b"", finish=b"", reversed=False, count=100):
        self.rows = rows
        self.walk = _within(start, finish) if names is None else sorted(set(names))
        self.count = len(NAMES) if names is not None else count
        if names is not None:
            self.request = read(FAMILY, rows, names=names)
            return
        if reversed:
            self.walk.reverse()
            start, finish = finish, start
        self.request = read(FAMILY, rows, start=start, finish=finish, reversed=reversed, count=count)

    def shown(self, reply):
        """What each column shows at which the read looked; None where the reply is no slice of what was asked."""
        shown = {}
        if list(reply) != self.rows:
            return None
        for row, columns in reply.items():
            names = list(columns)
            if names != [name for name in self.walk if name in columns] or len(names) > self.count:
                return None
            looked = self.walk if len(names) < self.count else self.walk[: self.walk.index(names[-1]) + 1] if names else []
            shown.update((column_of(row, name), text_of(columns[name]) if name in columns else None) for name in looked)
        return shown


def reading_by(chance):
    """A read of one to six rows: of columns by their names, of whole rows, or of ranges."""
    rows = _rows(chance, 6)
    form = chance.random()
    if form < 0.4:
        return Reading(rows, names=chance.sample(NAMES, chance.randint(1, len(NAMES))))
    if form < 0.7:
        return Reading(rows)
    start, finish = _ends(chance)
    return Reading(rows, None, start, finish, chance.random() < 0.5, chance.randint(1, 3))


def whole():
    """A read of all rows."""
    return Reading(ROWS)
