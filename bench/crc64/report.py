"""report.py [--hold] TIMES [FOLDER]: the table, and in FOLDER the table and a plot, of what `bench` measured. With
--hold also the ratios that docs/PERFORMANCE.md wants, and status 1 where one is not met.

A line of TIMES: bytes, way, and the nanoseconds of a call in the fastest of the turns.
"""
import collections
import pathlib
import platform
import sys

from page import Demand, Panel, in_words, legend, report, svg, title

# The ways that `bench` times, and what they are called in the table.
WAYS = {
    "fast": "fast engine",
    "plain": "plain engine",
    "eight-gcc": "C by 8, gcc",
    "eight-clang": "C by 8, clang",
    "loop-gcc": "C loop, gcc",
    "loop-clang": "C loop, clang",
    "liblzma": "liblzma",
}
LONG = 65536  # the length in bytes from which speed is wanted


def read(path):
    times = collections.defaultdict(dict)
    for line in pathlib.Path(path).read_text().splitlines():
        size, way, nanoseconds = line.split()
        times[int(size)][way] = float(nanoseconds)
    return times


def by_eight(ways):
    return min(ways["eight-gcc"], ways["eight-clang"])


def loop(ways):
    return min(ways["loop-gcc"], ways["loop-clang"])


def speed(size, nanoseconds):
    """In millions of bytes a second."""
    return 1000 * size / nanoseconds


def cell(size, nanoseconds):
    took = f"{nanoseconds:.1f} ns" if nanoseconds < 100 else in_words(nanoseconds)
    return f"{took}, {speed(size, nanoseconds):,.0f} MB/s" if size else took


# The table's last columns: speeds over one another, so that more is better.
RATIOS = {
    "fast / C by 8": lambda ways: by_eight(ways) / ways["fast"],
    "fast / plain": lambda ways: ways["plain"] / ways["fast"],
    "fast / liblzma": lambda ways: ways["liblzma"] / ways["fast"],
    "plain / C loop": lambda ways: loop(ways) / ways["plain"],
}


def page(times):
    rows = [
        title("bench/crc64/run"),
        "",
        "The time of a call, the fastest of many turns, and the speed. The last columns are speeds over one another;",
        "of two compilers the faster one counts.",
        "",
        "| bytes | " + " | ".join([*WAYS.values(), *RATIOS]) + " |",
        "|" + (1 + len(WAYS) + len(RATIOS)) * "---|",
    ]
    for size, ways in times.items():
        cells = [cell(size, ways[way]) for way in WAYS] + [f"{ratio(ways):.2f}" for ratio in RATIOS.values()]
        rows.append(f"| {size:,} | " + " | ".join(cells) + " |")
    return "\n".join(rows)


def multiplies():
    """Whether liblzma has a carry-less multiply here, by which it is faster than any table."""
    return platform.machine() == "x86_64" and "pclmulqdq" in pathlib.Path("/proc/cpuinfo").read_text().split()


def wanted(times):
    if multiplies():
        print("\nnot held: fast / liblzma, which has a carry-less multiply on this processor (pclmulqdq)")
    for size, ways in times.items():
        speeds = {name: ratio(ways) for name, ratio in RATIOS.items()}
        yield Demand(f"{size:,} bytes, time of fast / plain", 1 / speeds["fast / plain"], "at most", 1.05)
        least = {"fast / C by 8": 0.95, "plain / C loop": 0.5}
        if not multiplies():
            least["fast / liblzma"] = 1.5
        if size >= LONG:
            for name, bound in least.items():
                yield Demand(f"{size:,} bytes, speed of {name}", speeds[name], "at least", bound)


# The plot: speed over length. C's lines are dashed, each by the faster compiler.
LINES = {
    "fast engine": (lambda ways: ways["fast"], ("#0b6e4f", False)),
    "C by 8": (by_eight, ("#0b6e4f", True)),
    "plain engine": (lambda ways: ways["plain"], ("#b3541e", False)),
    "C bitwise loop": (loop, ("#b3541e", True)),
    "liblzma": (lambda ways: ways["liblzma"], ("#1f5fa8", False)),
}


def length_in_words(size):
    for unit, bytes_of_it in (("Mi", 1 << 20), ("Ki", 1 << 10)):
        if size >= bytes_of_it:
            return f"{size // bytes_of_it} {unit}"
    return str(size)


def plot(times):
    sizes = [size for size in times if size]
    speeds = {name: [(size, speed(size, time(times[size]))) for size in sizes] for name, (time, _) in LINES.items()}
    # a mark below at every third power of two
    marks = [8**k for k in range(9) if sizes[0] <= 8**k <= sizes[-1]]
    panel = Panel(sizes, [y for points in speeds.values() for _, y in points], marks=marks, wide=620)
    parts = list(panel.frame("speed in MB/s over bytes", length_in_words, lambda power: f"{power:,}"))
    parts += [panel.line(points, *LINES[name][1]) for name, points in speeds.items()]
    parts += legend({name: look for name, (_, look) in LINES.items()})
    return svg(720, "full: the library's engines, and liblzma; dashed: C, by the faster of gcc and clang", parts)


sys.exit(report("crc64", read, page, plot, wanted))
