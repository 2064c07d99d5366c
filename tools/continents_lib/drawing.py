"""A run drawn as SVG: for each node operations a second and latency over time, with the faults as bands."""
import math
from collections import defaultdict

from .faults import OF_NODES
from .figures import part_of

WIDTH, LEFT, RIGHT, TOP = 1000, 70, 20, 56
RATES, TIMES, GAP, LABELS = 60, 110, 34, 3
COLOURS = {"kill": "#d33", "pause": "#e90", "cut": "#36c", "stall": "#7a4bb5", "full": "#963"}
LINES = {("read", 0.5): "#2a7", ("read", 0.99): "#2a7", ("write", 0.5): "#c26", ("write", 0.99): "#c26"}
# How many points a line has at most, and how many faults of a node have labels.
POINTS, LABELLED = 180, 40
# Milliseconds at the lower and the upper end of a panel of latencies.
LEAST, MOST = 0.1, 100_000


class Drawing:
    def __init__(self, figures, windows, title):
        self.figures, self.windows, self.title = figures, windows, title
        self.seconds = max(int(figures.seconds), 1)
        # so many seconds make a point
        self.step = math.ceil(self.seconds / POINTS)
        self.points = range(self.seconds // self.step)
        self.parts = []

    def x(self, second):
        return LEFT + (WIDTH - LEFT - RIGHT) * second / self.seconds

    @staticmethod
    def y(top, ms):
        """The height of a latency in its panel."""
        place = (math.log10(max(ms, LEAST)) - math.log10(LEAST)) / (math.log10(MOST) - math.log10(LEAST))
        return top + TIMES * (1 - min(place, 1))

    def took(self, node, kind, point):
        """The latencies of a point, in order."""
        seconds = range(point * self.step, (point + 1) * self.step)
        return sorted(ms for second in seconds for ms in self.figures.seconds_of.get((node, kind, second), ()))

    def middle(self, point):
        return self.x((point + 0.5) * self.step)

    def text(self, x, y, text, more=""):
        self.parts.append(f'<text x="{x:.1f}" y="{y:.1f}" {more}>{text}</text>')

    def line(self, points, colour, more=""):
        if points:
            path = " ".join(f"{x:.0f},{y:.0f}" for x, y in points)
            self.parts.append(f'<polyline points="{path}" fill="none" stroke="{colour}" {more}/>')

    def bands(self, node, top):
        """The faults that concern a node, those of a kind as one shape."""
        concerned = sorted((window for window in self.windows if node in window.nodes()), key=lambda window: window.begin)
        shapes = defaultdict(list)
        for window in concerned:
            begin, end = (self.x(min(time / 1e6, self.seconds)) for time in (window.begin, window.end))
            width = max(end - begin, 1)
            shapes[window.fault.kind].append(f"M{begin:.1f} {top}h{width:.1f}v{RATES + TIMES}h-{width:.1f}z")
        for kind, its in shapes.items():
            strong = 0.3 if kind in OF_NODES else 0.15
            self.parts.append(f'<path d="{"".join(its)}" fill="{COLOURS[kind]}" opacity="{strong}"/>')
        if len(concerned) <= LABELLED:
            self.labels(concerned, top)

    def labels(self, concerned, top):
        """Labels of faults. Each stands on the first of three lines that is free there, or nowhere."""
        free = [0.0] * LABELS
        for window in concerned:
            begin = self.x(min(window.begin / 1e6, self.seconds))
            for line in range(LABELS):
                if free[line] <= begin:
                    self.text(begin, top + 9 + 9 * line, window.fault.label, f'font-size="8" fill="{COLOURS[window.fault.kind]}"')
                    free[line] = begin + 5 * len(window.fault.label)
                    break

    def rates(self, node, top):
        """Operations a second."""
        counts = [sum(len(self.took(node, kind, point)) for kind in ("read", "write")) / self.step for point in self.points]
        most = max([*counts, 1])
        self.line([(self.middle(point), top + RATES * (1 - count / most)) for point, count in enumerate(counts)], "#333")
        self.text(LEFT - 6, top + 8, round(most), 'text-anchor="end"')
        self.text(LEFT - 6, top + RATES / 2 + 4, "a second", 'text-anchor="end" fill="#777"')

    def times(self, node, top):
        """Latencies. What stands by itself is a dot."""
        for ms in (1, 10, 100, 1000, 10_000):
            height = self.y(top, ms)
            self.line([(LEFT, height), (WIDTH - RIGHT, height)], "#ddd")
            self.text(LEFT - 6, height + 4, f"{ms} ms" if ms < 1000 else f"{ms // 1000} s", 'text-anchor="end"')
        for (kind, part), colour in LINES.items():
            more = 'stroke-dasharray="1 3" stroke-linecap="round"' if part > 0.5 else 'stroke-linecap="round"'
            line = []
            for point in self.points:
                took = part_of(self.took(node, kind, point), part)
                if took is not None:
                    line.append((self.middle(point), self.y(top, took)))
                else:
                    self.line(line if len(line) != 1 else line * 2, colour, more)
                    line = []
            self.line(line if len(line) != 1 else line * 2, colour, more)

    def axis(self, top):
        step = next(step for step in (1, 2, 5, 10, 30, 60, 300, 600, 1800, 3600, 36_000) if self.seconds / step <= 20 or step == 36_000)
        for second in range(0, self.seconds + 1, step):
            told = f"{second} s" if step < 60 else f"{second // 60} min"
            self.text(self.x(second), top, told, 'text-anchor="middle"')

    def legend(self):
        self.text(LEFT, 34, "green reads, red writes: lines 50 %, dots 99 %; faults:", 'fill="#555"')
        for place, (kind, colour) in enumerate(COLOURS.items()):
            left = LEFT + 290 + 60 * place
            self.parts.append(f'<rect x="{left}" y="25" width="10" height="10" fill="{colour}" opacity="0.5"/>')
            self.text(left + 14, 34, kind, 'fill="#555"')

    def svg(self):
        height = TOP + self.figures.count * (RATES + TIMES + GAP) + 20
        self.text(LEFT, 18, self.title, 'font-size="14"')
        self.legend()
        for node in range(self.figures.count):
            top = TOP + node * (RATES + TIMES + GAP)
            self.text(LEFT, top - 6, f"node {node}", 'font-weight="bold"')
            self.times(node, top + RATES)
            self.bands(node, top)
            self.rates(node, top)
            frame = f'x="{LEFT}" y="{top}" width="{WIDTH - LEFT - RIGHT}" height="{RATES + TIMES}"'
            self.parts.append(f'<rect {frame} fill="none" stroke="#999"/>')
        self.axis(height - 16)
        head = f'<svg xmlns="http://www.w3.org/2000/svg" viewBox="0 0 {WIDTH} {height}" font-family="sans-serif" font-size="10">'
        return "\n".join([head, '<rect width="100%" height="100%" fill="#fff"/>', *self.parts, "</svg>\n"])
