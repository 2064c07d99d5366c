"""Draws a trace: actors as columns, time downwards, messages as arrows. `./eiger trace FILE | python3 draw.py > PICTURE.svg`.

A circle is an event, with the actor's clock after it. An arrow is a message, from the event that sent it to the one that handled
it, with its number and kind; the colour is that of its transaction. A message that is handled again is dashed, one that never
came ends dotted. A box is what came of an operation. The margin says what a message or an operation is about.
"""

import json
import sys
from html import escape

CHARACTER = 7.25  # the width of a character of the font, in pixels
FONT = "DejaVu Sans Mono, Menlo, Consolas, Liberation Mono, monospace"
ROW, LINE, TOP, RADIUS = 40, 16, 74, 11
COLOURS = ["#1f5fa8", "#b3441e", "#2c7a3d", "#7a3f9d", "#a0721a", "#15798a", "#a83262", "#55606e"]
MOST = 4  # the most changes of a write that are shown
INK, FAINT, BAND = "#222222", "#9aa3ad", "#f3f6f9"
WRITES = {"Begin", "Prepare", "ReplBegin", "ReplPart"}
READS = {"Read": "from", "ReadAt": "from", "PartNow": "to", "PartAt": "to"}


def text_of(digits):
    """The text that bytes are, or their digits."""
    text = bytes.fromhex(digits).decode("utf-8", "replace")
    return text if text.isprintable() and "�" not in text else digits


def bytes_of(value):
    return text_of(value["hex"])


def rows_of(keys):
    """Rows by their keys, each once."""
    keys = list(dict.fromkeys(bytes_of(key) for key in keys))
    return ("row " if len(keys) == 1 else "rows ") + ", ".join(keys)


def change_of(change):
    """What a change does to its row."""
    key = bytes_of(change["key"])
    if "insert" in change:
        return f"{key}: {bytes_of(change['insert'])}={bytes_of(change['value'])}"
    if "delete" in change:
        return f"{key}: {bytes_of(change['delete'])} deleted"
    if "delete_range" in change:
        start, finish = (bytes_of(change["delete_range"][end]) for end in ("start", "finish"))
        return f"{key}: {start or 'the first'} to {finish or 'the last'} deleted"
    return f"{key}: all deleted"


def columns_of(row):
    if not row["columns"]:
        return f"{bytes_of(row['key'])} has nothing"
    columns = " ".join(f"{bytes_of(c['name'])}={bytes_of(c['value'])}" for c in row["columns"])
    return f"{bytes_of(row['key'])}: {columns}"


def about_message(message):
    """What the margin says of a message, in lines."""
    kind = message["kind"]
    if kind in WRITES:
        stamp = message.get("stamp")
        return rows_of(change["key"] for change in message["rows"]) + (f", stamp {stamp['time']}.{stamp['node']}" if stamp else "")
    if kind in ("Commit", "At", "Done"):
        return f"commit {message['commit']}, stamp {message['stamp']['time']}.{message['stamp']['node']}"
    if kind in ("Check", "NotBy"):
        return f"by {message['by']}"
    if kind in ("Read", "ReadAt"):
        at = f", at {message['effective']}" if kind == "ReadAt" else ""
        return rows_of(message["read"]["keys"]) + at
    if kind == "PartNow":
        return "\n".join(f"{columns_of(row)}, valid {row['evt']} to {row['lvt']}" for row in message["rows"])
    if kind == "PartAt":
        return "collected" if message.get("collected") else "\n".join(columns_of(row) for row in message["rows"])
    if kind == "DepCheck":
        return f"is operation {message['dependency']['operation']} of node {message['dependency']['session']} here?"
    return f"here, commit {message['commit']}" if kind == "DepOk" else ""


def about_event(event):
    """What the margin says of an event."""
    if event["event"] == "deliver":
        return about_message(event["message"])
    if event["event"] == "collect":
        return f"collects up to {event['time']}"
    if "batch" in event:
        changes = [change_of(change) for change in event["batch"]]
        more = [f"and {len(changes) - MOST} more"] if MOST < len(changes) else []
        return "writes " + "\n       ".join(changes[:MOST] + more)
    if "read" in event:
        return "reads " + rows_of(event["read"]["keys"])
    return f"moves to data centre {event['move']}"


def transaction_of(message):
    """The session and the number of the operation that a message belongs to."""
    if message["kind"] in READS:
        return (message[READS[message["kind"]]], message["operation"])
    txn = message.get("waiter") or message["transaction"]
    return (txn["session"], txn["operation"])


def outcome_of(event):
    """The lines of the box of an event."""
    lines = []
    rounds = {row["key"]["hex"]: row["round"] for row in event.get("accepted", [])}
    for line in event["transcript"]:
        if line.startswith("  "):
            key, _, columns = line[2:].partition(":")
            shown = " ".join("=".join(text_of(part) for part in c.split("=")) for c in columns.split()) or "nothing"
            lines.append(f"{text_of(key)}: {shown}" + (f"  (round {rounds[key]})" if key in rounds else ""))
        else:
            words = line.split()
            lines.append(" ".join(words[4:] if words[2] == "op" else words[2:]))
    return lines


class Picture:
    """A picture of a trace, in parts: those that come later lie above the earlier ones."""

    def __init__(self, lines):
        self.begin, self.events = json.loads(lines[0]), [json.loads(line) for line in lines[1:]]
        self.names = self.begin["actors"]
        self.shards = self.begin["dcs"] * self.begin["shards"]
        self.sent, self.handled, self.colours = {}, {}, {}
        self.back, self.arrows, self.front = [], [], []
        for place, event in enumerate(self.events):
            for message in event["sent"]:
                self.sent[message["number"]] = (place, message)
            if event["event"] == "deliver":
                self.handled.setdefault(event["message"]["number"], []).append(place)
        self.lay_columns()
        self.lay_rows()

    def lay_columns(self):
        """Each data centre is a band: its sessions stand outside, beside its shards."""
        taking_part = {event["node"] for event in self.events}
        taking_part |= {node for _, message in self.sent.values() for node in (message["from"], message["to"])}
        order = []
        for dc in range(self.begin["dcs"]):
            shards = list(range(dc * self.begin["shards"], (dc + 1) * self.begin["shards"]))
            sessions = [self.shards + i for i, home in enumerate(self.begin["homes"]) if home == dc]
            is_last = 0 < dc == self.begin["dcs"] - 1
            order += shards + sessions if is_last else sessions + shards
        self.order = [node for node in order if node in taking_part]
        labels = [self.label_of(message) for _, message in self.sent.values()] + ["data centre 0"]
        boxes = [line for event in self.events for line in outcome_of(event)]
        self.gap = max(len(label) for label in labels) * CHARACTER + 2 * RADIUS + 22
        self.left = max([self.gap / 2] + [len(line) * CHARACTER / 2 + 16 for line in boxes])
        self.x = {node: self.left + i * self.gap for i, node in enumerate(self.order)}
        last = self.left + (len(self.order) - 1) * self.gap
        self.margin = last + max([self.gap / 2 + 12] + [len(line) * CHARACTER / 2 + 22 for line in boxes])
        notes = [line for event in self.events for line in about_event(event).split("\n")] + [""]
        self.width = self.margin + max(len(note) for note in notes) * CHARACTER + 12

    def lay_rows(self):
        """Each event has a row, higher for a box and for messages that never come."""
        self.y, y = [], TOP + ROW
        for event in self.events:
            self.y.append(y)
            lost = sum(1 for message in event["sent"] if message["number"] not in self.handled)
            lines = len(outcome_of(event))
            row = ROW + 26 * lost + (lines * LINE + 16 if lines else 0)
            y += max(row, LINE * len(about_event(event).split("\n")) + 12)
        self.height = y + 8

    def label_of(self, message, again=False):
        return f"m{message['number']} {message['kind']}" + (" again" if again else "")

    def colour_of(self, transaction):
        self.colours.setdefault(transaction, COLOURS[len(self.colours) % len(COLOURS)])
        return self.colours[transaction]

    def add_text(self, part, x, y, text, colour=INK, anchor="start", weight="normal", ground=True):
        width = len(text) * CHARACTER
        left = {"start": x, "end": x - width, "middle": x - width / 2}[anchor]
        if ground:
            part.append(f'<rect x="{left - 2:.0f}" y="{y - 11:.0f}" width="{width + 4:.0f}" height="14" fill="#ffffff" fill-opacity="0.85"/>')
        part.append(f'<text x="{x:.0f}" y="{y:.0f}" fill="{colour}" text-anchor="{anchor}" font-weight="{weight}">{escape(text)}</text>')

    def path_between(self, start, end):
        """A way from one event to another that passes by all others: straight if it can be."""
        (x, y), (u, v) = start, end
        others = [(self.x[e["node"]], self.y[i]) for i, e in enumerate(self.events)]
        others = [p for p in others if p not in (start, end) and min(y, v) - ROW < p[1] < max(y, v) + ROW]
        length = ((u - x) ** 2 + (v - y) ** 2) ** 0.5
        best, way = -1.0, None
        for bow in (0, 34, -34, 60, -60):
            a, b = (x + u) / 2 - bow * (v - y) / length, (y + v) / 2 + bow * abs(u - x) / length
            points = [((1 - t) ** 2 * x + 2 * t * (1 - t) * a + t * t * u, (1 - t) ** 2 * y + 2 * t * (1 - t) * b + t * t * v) for t in (k / 40 for k in range(41))]
            room = min([((p - s) ** 2 + (q - r) ** 2) ** 0.5 for p, q in points for s, r in others] + [99])
            if best < min(room, RADIUS + 6):
                best, way = min(room, RADIUS + 6), (a, b)
        ends = []
        for (p, q), gap in ((start, RADIUS + 1), (end, RADIUS + 3)):
            away = ((way[0] - p) ** 2 + (way[1] - q) ** 2) ** 0.5
            ends.append((p + (way[0] - p) / away * gap, q + (way[1] - q) / away * gap))
        return f"M{ends[0][0]:.1f},{ends[0][1]:.1f} Q{way[0]:.1f},{way[1]:.1f} {ends[1][0]:.1f},{ends[1][1]:.1f}"

    def add_arrow(self, message, place, again):
        """A message from the event that sent it to one that handles it."""
        colour = self.colour_of(transaction_of(message))
        start, end = self.x[message["from"]], self.x[message["to"]]
        top, y = self.y[self.sent[message["number"]][0]], self.y[place]
        style = f'stroke="{colour}" stroke-width="1.6" fill="none" marker-end="url(#head{COLOURS.index(colour)})"'
        style += ' stroke-dasharray="7 4"' if again else ""
        if start == end:
            bulge, gap = start + 46, RADIUS + 2
            self.arrows.append(f'<path d="M{start + RADIUS:.0f},{top:.0f} C{bulge:.0f},{top + 4:.0f} {bulge:.0f},{y - 4:.0f} {end + gap:.0f},{y:.0f}" {style}/>')
            self.add_text(self.front, end + RADIUS + 8, y + 19, self.label_of(message, again), colour)
            return
        path = self.path_between((start, top), (end, y))
        self.arrows.append(f'<path d="{path}" {style}/>')
        side = -1 if start < end else 1
        self.add_text(self.front, end + side * (RADIUS + 8), y + 17, self.label_of(message, again), colour, "end" if side < 0 else "start")

    def add_lost(self, message, y, top):
        """A message that never came."""
        colour = self.colour_of(transaction_of(message))
        start, end = self.x[message["from"]], self.x[message["to"]]
        side = 1 if start <= end else -1
        x = start + side * 34
        self.arrows.append(f'<path d="M{start:.0f},{top:.0f} L{x:.0f},{y:.0f}" stroke="{colour}" stroke-width="1.6" fill="none" stroke-dasharray="2 4"/>')
        self.arrows.append(f'<path d="M{x - 4:.0f},{y - 4:.0f} l8,8 m0,-8 l-8,8" stroke="{colour}" stroke-width="1.6" fill="none"/>')
        self.add_text(self.front, x + side * 9, y + 4, self.label_of(message) + " lost", colour, "start" if side > 0 else "end")

    def add_event(self, place, event):
        x, y = self.x[event["node"]], self.y[place]
        if event["event"] == "deliver":
            number = event["message"]["number"]
            self.add_arrow(event["message"], place, self.handled[number][0] != place)
            colour = self.colour_of(transaction_of(event["message"]))
        else:
            colour = self.colour_of((event["node"], event["operation"])) if "operation" in event else INK
        for k, message in enumerate(m for m in event["sent"] if m["number"] not in self.handled):
            self.add_lost(message, y + 34 + 26 * k, y)
        fill = colour if event["event"] == "submit" and "operation" in event else "#ffffff"
        self.front.append(f'<circle cx="{x:.0f}" cy="{y:.0f}" r="{RADIUS}" fill="{fill}" stroke="{colour}" stroke-width="1.8"/>')
        self.add_text(self.front, x, y + 4, str(event["clock"]), "#ffffff" if fill == colour else INK, "middle", ground=False)
        for k, line in enumerate(about_event(event).split("\n")):
            indent = len(line) - len(line.lstrip())
            self.add_text(self.front, self.margin + indent * CHARACTER, y + 4 + LINE * k, line.strip(), INK, ground=False)
        lines = outcome_of(event)
        if lines:
            lost = sum(1 for message in event["sent"] if message["number"] not in self.handled)
            self.add_box(x, y + 24 + 26 * lost, lines, colour)

    def add_box(self, x, y, lines, colour):
        width = max(len(line) for line in lines) * CHARACTER + 14
        self.front.append(f'<rect x="{x - width / 2:.0f}" y="{y:.0f}" width="{width:.0f}" height="{len(lines) * LINE + 6}" rx="4" fill="#ffffff" stroke="{colour}" stroke-width="1.2"/>')
        for k, line in enumerate(lines):
            self.add_text(self.front, x - width / 2 + 7, y + LINE * (k + 1) - 2, line, INK, weight="normal" if k else "bold", ground=False)

    def add_columns(self):
        """The actors' names and lines, and a band for each data centre where there are several."""
        for dc in range(self.begin["dcs"]) if 1 < self.begin["dcs"] else []:
            shards = [self.x[n] for n in self.order if n < self.shards and n // self.begin["shards"] == dc]
            if shards:
                left, right = min(shards) - self.gap * 0.44, max(shards) + self.gap * 0.44
                self.back.append(f'<rect x="{left:.0f}" y="8" width="{right - left:.0f}" height="{self.height - 16:.0f}" rx="8" fill="{BAND}"/>')
        for node in self.order:
            x, (name, _, dc) = self.x[node], self.names[node].partition(" of ")
            self.back.append(f'<path d="M{x:.0f},{TOP} V{self.height - 12:.0f}" stroke="{FAINT}" stroke-width="1"/>')
            self.add_text(self.back, x, 28, name, INK, "middle", "bold", ground=False)
            for k, line in enumerate([dc, f"node {node}"] if dc else [f"node {node}"]):
                self.add_text(self.back, x, 44 + LINE * k, line, INK, "middle", ground=False)

    def drawn(self):
        for place, event in enumerate(self.events):
            self.add_event(place, event)
        self.add_columns()
        heads = "".join(f'<marker id="head{i}" viewBox="0 0 8 8" refX="7" refY="4" markerWidth="8" markerHeight="8" markerUnits="userSpaceOnUse" orient="auto"><path d="M0,0.5 L8,4 L0,7.5 z" fill="{colour}"/></marker>' for i, colour in enumerate(COLOURS))
        size = f'width="{self.width:.0f}" height="{self.height:.0f}" viewBox="0 0 {self.width:.0f} {self.height:.0f}"'
        parts = [f'<svg xmlns="http://www.w3.org/2000/svg" {size} font-family="{FONT}" font-size="12">', f"<defs>{heads}</defs>", '<rect width="100%" height="100%" fill="#ffffff"/>']
        return "\n".join(parts + self.back + self.arrows + self.front + ["</svg>"]) + "\n"


def main():
    lines = (open(sys.argv[1], encoding="utf-8") if 1 < len(sys.argv) else sys.stdin).read().splitlines()
    sys.stdout.write(Picture(lines).drawn())


if __name__ == "__main__":
    main()
