"""What the reports of the benches share: words for a machine and for a time, ratios that are held, and plots of lines
over two axes by powers of ten. For bench/services/report.py and bench/crc64/report.py.
"""
import collections
import datetime
import math
import pathlib
import platform
import sys


def processor():
    said = [line.split(":", 1) for line in pathlib.Path("/proc/cpuinfo").read_text().splitlines() if ":" in line]
    parts = {name.strip(): value.strip() for name, value in said}
    if "model name" in parts:
        return parts["model name"]
    arm = [f"{name} {parts[name]}" for name in ("CPU implementer", "CPU part") if name in parts]
    return ", ".join(arm) or "unknown processor"


def title(command):
    return f"{datetime.date.today()}, {processor()} ({platform.machine()}), by `{command}`"


def in_words(nanoseconds):
    for unit, size in (("s", 1e9), ("ms", 1e6), ("µs", 1e3)):
        if nanoseconds >= size:
            return f"{nanoseconds / size:.3g} {unit}"
    return f"{nanoseconds:.0f} ns"


Demand = collections.namedtuple("Demand", "words got side bound")  # side is "at least" or "at most"


def met(demand):
    return demand.got >= demand.bound if demand.side == "at least" else demand.got <= demand.bound


def held(demands):
    """Says of each demand whether it is met; whether all are, and there are some."""
    print()
    for demand in demands:
        word = "held" if met(demand) else "MISSED"
        print(f"{word}: {demand.words}: {demand.got:.2f}, {demand.side} {demand.bound:g}")
    missed = sum(not met(demand) for demand in demands)
    print(f"{len(demands) - missed} held, {missed} missed")
    return bool(demands) and not missed


def polyline(points, colour, dashed):
    path = " ".join(f"{x:.1f},{y:.1f}" for x, y in points)
    dashes = ' stroke-dasharray="5 4"' if dashed else ""
    return f'<polyline points="{path}" fill="none" stroke="{colour}" stroke-width="2"{dashes}/>'


class Panel:
    """A frame for lines through points of these xs and ys, both axes by powers of ten. `marks` are the xs that are
    named below it; if not given, all."""

    LEFT, TOP, WIDE, HIGH = 60, 40, 380, 340

    def __init__(self, xs, ys, marks=None, left=LEFT, wide=WIDE):
        self.marks, self.left, self.wide = xs if marks is None else marks, left, wide
        self.low, self.high = math.floor(math.log10(min(ys))), math.ceil(math.log10(max(ys)))
        self.first, self.last = math.log10(min(xs)), math.log10(max(xs))

    def at(self, x, y):
        right = (math.log10(x) - self.first) / (self.last - self.first)
        down = (self.high - math.log10(y)) / (self.high - self.low)
        return self.left + self.wide * right, self.TOP + self.HIGH * down

    def frame(self, heading, x_word, y_word):
        left, top, right, bottom = self.left, self.TOP, self.left + self.wide, self.TOP + self.HIGH
        yield f'<rect x="{left}" y="{top}" width="{self.wide}" height="{self.HIGH}" fill="none" stroke="#888"/>'
        yield f'<text x="{left}" y="{top - 12}">{heading}</text>'
        for power in range(self.low, self.high + 1):
            y = self.at(10**self.first, 10**power)[1]
            yield f'<line x1="{left}" x2="{right}" y1="{y:.1f}" y2="{y:.1f}" stroke="#ddd"/>'
            yield f'<text x="{left - 6}" y="{y + 4:.1f}" text-anchor="end">{y_word(10**power)}</text>'
        for x in self.marks:
            across = self.at(x, 10**self.low)[0]
            yield f'<text x="{across:.1f}" y="{bottom + 16}" text-anchor="middle">{x_word(x)}</text>'

    def line(self, points, colour, dashed=False):
        return polyline([self.at(x, y) for x, y in points], colour, dashed)


def legend(names):
    """A short line and a name for each of `names`, which gives colour and whether it is dashed."""
    y = Panel.TOP + Panel.HIGH + 42
    for k, (name, (colour, dashed)) in enumerate(names.items()):
        x = Panel.LEFT + 130 * k
        yield polyline([(x, y), (x + 30, y)], colour, dashed)
        yield f'<text x="{x + 36}" y="{y + 4}">{name}</text>'


def svg(width, below, parts):
    """The whole plot: `below` is the line of text under all the rest."""
    height = Panel.TOP + Panel.HIGH + 90
    font = 'font-family="sans-serif" font-size="12"'
    head = f'<svg xmlns="http://www.w3.org/2000/svg" width="{width}" height="{height}" {font}>'
    return "\n".join([head, *parts, f'<text x="{Panel.LEFT}" y="{height - 20}">{below}</text></svg>']) + "\n"


def leave(folder, name, page, plot):
    folder.mkdir(parents=True, exist_ok=True)
    (folder / f"{name}.md").write_text(page + "\n")
    (folder / f"{name}.svg").write_text(plot)


def report(name, read, page, plot, wanted):
    """The program `report.py [--hold] TIMES [FOLDER]`: prints the page, leaves it and the plot in FOLDER, and with
    --hold says what is wanted and whether it was met; its status is 1 where something was missed."""
    hold = sys.argv[1] == "--hold"
    path, *folders = sys.argv[1 + hold :]
    times = read(path)
    print(page(times))
    for folder in folders:
        leave(pathlib.Path(folder), name, page(times), plot(times))
    return 1 if hold and not held(list(wanted(times))) else 0
