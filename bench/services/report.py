"""report.py [--hold] TIMES [FOLDER]: the table, and in FOLDER the table and a plot, of what `bench` measured. With
--hold also the ratios that docs/PERFORMANCE.md wants, and status 1 where one is not met.

A line of TIMES: service, records, order, bytes, then median, fastest and slowest nanoseconds of a call of each side:
the library as a caller gets it who does not choose, so by the fast engine; the library by its plain engine; the C
program whose checksum takes one byte at a step; and that whose checksum takes eight.
"""
import collections
import math
import pathlib
import sys
from operator import attrgetter

from page import Demand, Panel, in_words, legend, report, svg, title

# How often a service runs the checksum over a segment: tidy checks its input and seals its result.
CHECKSUMS = {"check": 1, "look_up": 1, "step": 1, "tidy_length": 1, "tidy": 2, "write": 1}
ORDERS = ("tidy", "shuffled")

SIDES = LIBRARY, BY_PLAIN, BY_ONE, BY_EIGHT = range(4)
Time = collections.namedtuple("Time", "median fastest slowest")
# Ratios are of the fastest times: a median moves with whatever else the machine does.
fastest = attrgetter("fastest")


def read(path):
    """By service, records and order: the bytes of the segment, and the time of each side."""
    times = {}
    for line in pathlib.Path(path).read_text().splitlines():
        service, records, order, size, *numbers = line.split()
        sides = [Time(*map(float, numbers[3 * side : 3 * side + 3])) for side in SIDES]
        times[service, int(records), order] = (int(size), sides)
    return times


def spread(time):
    return f"{in_words(time.median)} ({in_words(time.fastest)} to {in_words(time.slowest)})"


def over(times, case, ours, theirs):
    return fastest(times[case][1][ours]) / fastest(times[case][1][theirs])


def apart(times, case, side):
    """What is left of a side's time without the checksums that the service runs."""
    service, records, order = case
    checksum = times["checksum", records, order][1][side]
    return fastest(times[case][1][side]) - CHECKSUMS[service] * fastest(checksum)


def apart_columns(times, case):
    """The library and C by 8 without their checksums, and the ratio; `-` where nothing is left to compare."""
    library, by_eight = (apart(times, case, side) for side in (LIBRARY, BY_EIGHT))
    if min(library, by_eight) <= 0:
        return ["-", "-", "-"]
    return [in_words(library), in_words(by_eight), f"{library / by_eight:.2f}"]


COLUMNS = [
    "service", "records", "order", "bytes",
    "library", "C, checksum by 8", "ratio",
    "library, plain engine", "C, checksum by 1", "ratio",
    "library / library by plain engine",
    "library without checksums", "C by 8 without", "ratio",
]  # fmt: skip


def table(times):
    yield "| " + " | ".join(COLUMNS) + " |"
    yield "|" + len(COLUMNS) * "---|"
    for case, (size, sides) in times.items():
        service, records, order = case
        if service not in CHECKSUMS:
            continue
        cells = [service, f"{records:,}", order, f"{size:,}"]
        for ours, theirs in ((LIBRARY, BY_EIGHT), (BY_PLAIN, BY_ONE)):
            cells += [spread(sides[ours]), spread(sides[theirs]), f"{over(times, case, ours, theirs):.2f}"]
        cells.append(f"{over(times, case, LIBRARY, BY_PLAIN):.2f}")
        yield "| " + " | ".join(cells + apart_columns(times, case)) + " |"


def memory(times):
    yield "| bytes | fast engine | plain engine | C by 1 | C by 8 | liblzma | plain pass |"
    yield "|" + 7 * "---|"
    for (service, records, order), (size, engines) in times.items():
        if service != "checksum" or order != "tidy" or size < 1000:
            continue
        lzma, plain_pass, *_ = times["lzma_and_pass", records, order][1]
        speeds = [f"{1000 * size / time.fastest:,.0f} MB/s" for time in (*engines, lzma, plain_pass)]
        yield f"| {size:,} | " + " | ".join(speeds) + " |"


def growth(times, service, order, side):
    """How many times as long a call takes with 65,536 records as with 10,000; None, where one was not measured."""
    few, many = (times.get((service, records, order)) for records in (10000, 65536))
    return fastest(many[1][side]) / fastest(few[1][side]) if few and many else None


def growths(times):
    rows = []
    for service in CHECKSUMS:
        for order in ORDERS:
            grown = [growth(times, service, order, side) for side in (LIBRARY, BY_PLAIN, BY_EIGHT)]
            if None not in grown:
                library, by_plain, by_eight = grown
                others = f"by the plain engine {by_plain:.1f}; C by 8 {by_eight:.1f}"
                rows.append(f"- {service}, {order}: {library:.1f} times; {others}")
    return ["", "Growth of the time of a call from 10,000 to 65,536 records:", "", *rows] if rows else []


def page(times):
    return "\n".join(
        [
            title("bench/services/run"),
            "",
            "A call's time is the median of several, with the fastest and the slowest. All else is of the fastest: ratios,",
            "what is left without the checksums, speeds and growths.",
            "",
            *table(times),
            "",
            "The checksum alone, and a plain pass over the same bytes:",
            "",
            *memory(times),
            *growths(times),
        ]
    )


def wanted_by_eight(times, case):
    """Beside C whose checksum takes eight bytes at a step, on tidy input; with no records beside the plain engine,
    since there the tables do not pay."""
    service, records, order = case
    words = f"{service}, {records:,} records, {order}"
    if service == "check":
        library, by_eight = (apart(times, case, side) for side in (LIBRARY, BY_EIGHT))
        ratio = library / by_eight if by_eight > 0 else math.inf
        yield Demand(f"{words}, apart from the checksum, beside C by 8", ratio, "at most", 1.3)
    if service in ("check", "look_up", "tidy", "write"):
        if records == 0:
            yield Demand(f"{words}, beside the plain engine", over(times, case, LIBRARY, BY_PLAIN), "at most", 1.05)
        elif records >= 10:
            most = 1.15 if records >= 1000 else 2
            yield Demand(f"{words}, beside C by 8", over(times, case, LIBRARY, BY_EIGHT), "at most", most)


def wanted_by_one(times, case):
    """By the plain engine, beside C whose checksum takes one byte at a step: the same kind of checksum."""
    service, records, order = case
    words = f"{service}, {records:,} records, {order}, by the plain engine beside C by 1"
    ratio = over(times, case, BY_PLAIN, BY_ONE)
    if service == "check" and order == "tidy" and times[case][0] <= 256:
        yield Demand(words, ratio, "at most", 2)
    if service in ("look_up", "step", "tidy_length"):
        yield Demand(words, ratio, "at most", 1.3)
    if service in ("tidy", "write"):
        yield Demand(words, ratio, "at most", 2)


def wanted_growth(times):
    for service in CHECKSUMS:
        for order in ("tidy", "shuffled"):
            for side, engine in ((LIBRARY, ""), (BY_PLAIN, ", by the plain engine")):
                grown = growth(times, service, order, side)
                if grown is not None:
                    words = f"{service}, {order}, growth from 10,000 to 65,536 records{engine}"
                    yield Demand(words, grown, "at most", 8)


def wanted(times):
    """Each ratio that docs/PERFORMANCE.md wants of what was measured."""
    for case in times:
        service, _, order = case
        if service not in CHECKSUMS:
            continue
        if order == "tidy":
            yield from wanted_by_eight(times, case)
        yield from wanted_by_one(times, case)
    yield from wanted_growth(times)


# The plot: a line for the library (full) and one for C by 8 (dashed) for each service.
COLOURS = {
    "check": "#0b6e4f", "look_up": "#1f5fa8", "step": "#5c6b00",
    "tidy_length": "#a8326e", "tidy": "#b3541e", "write": "#7a3b8f",
}  # fmt: skip


def plot(times):
    sizes = sorted({records for _, records, _ in times if records})
    drawn = [
        (service, order, side, [(n, times[service, n, order][1][side].median) for n in sizes])
        for service in COLOURS
        for order in ORDERS
        for side in (LIBRARY, BY_EIGHT)
    ]
    values = [y for *_, points in drawn for _, y in points]
    parts = []
    for number, panel_order in enumerate(ORDERS):
        panel = Panel(sizes, values, left=Panel.LEFT + number * (Panel.WIDE + 50))
        parts += panel.frame(f"{panel_order}: time of a call over records", lambda records: f"{records:,}", in_words)
        parts += [
            panel.line(points, COLOURS[service], side == BY_EIGHT)
            for service, order, side, points in drawn
            if order == panel_order
        ]
    parts += legend({service: (colour, False) for service, colour in COLOURS.items()})
    return svg(150 + 2 * Panel.WIDE, "full: the library; dashed: C, checksum by 8", parts)


sys.exit(report("services", read, page, plot, wanted))
