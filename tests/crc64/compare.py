"""compare.py FOLDER RUN..: both engines of the checksum beside three implementations of CRC-64 by others, and the
numbers of the fast engine's tables beside tables that two of those make.

FOLDER has `driver`, which is driver.c over the engines, and programs `wrong-..`, the same over engines with a mistake
each (wrong.c). RUN are the words that stand before a program's name. An input passes when its bytes stand where they
were asked to, and each way that driver.c has, the three others and what is published of it, if anything is, are one
number. A wrong program passes when some input fails over it. The inputs come from SEED (a number; the default is
fixed).
"""

import collections
import os
import pathlib
import random
import re
import struct
import subprocess
import sys

import others
import source
import vectors

# The ways in which driver.c takes an input, in its order.
WAYS = ["whole by plain", "whole by fast"] + [
    "run by " + ", ".join("fast" if choice >> part & 1 else "plain" for part in range(parts))
    for parts in (1, 2, 3)
    for choice in range(2**parts)
]
WAYS += ["the library by plain", "the library by fast", "the library by plain, fast", "the library by fast, plain"]

Case = collections.namedtuple("Case", "data place cuts published", defaults=[None])


class Count:
    def __init__(self):
        self.passed = self.failed = 0

    def hold(self, good, otherwise):
        if good:
            self.passed += 1
            return
        self.failed += 1
        if self.failed <= 10:
            print(otherwise)


def at_random(rng, length):
    """Random bytes at a random place, cut at random."""
    cuts = sorted(rng.randint(0, length) for _ in range(2))
    return Case(rng.randbytes(length), rng.randrange(8), cuts)


def cases(rng, pays):
    for number, data in vectors.PUBLISHED:
        yield at_random(rng, len(data))._replace(data=data, published=number)
    # every length to 300, and those around and above the length from which the fast engine uses its tables, at every place
    for length in [*range(301), *range(max(0, pays - 9), pays + 64)]:
        for place in range(8):
            yield at_random(rng, length)._replace(place=place)
    # parts of about that length
    for first in range(pays - 1, pays + 2):
        for second in range(pays - 1, pays + 2):
            yield at_random(rng, 3 * pays)._replace(cuts=[first, first + second])
    # powers of two and their neighbours to 64 KiB, some of about 100 KB, and long ones
    lengths = [2**k + d for k in range(9, 17) for d in (-1, 0, 1)]
    lengths += [100_000, 102_400] + [rng.randrange(65_536, 131_072) for _ in range(3)]
    for length in [*lengths, 2**20 + 5, 2**21 + 2**20 - 1]:
        yield at_random(rng, length)
    for length in (1, 8, 9, 64, 1000, pays, pays + 7):
        for byte in (b"\x00", b"\xff"):
            yield at_random(rng, length)._replace(data=byte * length)


def run(command, asked):
    """The driver's lines for these cases, each a place and the checksums; and how it ended, if not well."""
    sent = b"".join(struct.pack("<4Q", len(c.data), c.place, *c.cuts) + c.data for c in asked)
    done = subprocess.run(command, input=sent, stdout=subprocess.PIPE, check=False)
    lines = [line.split() for line in done.stdout.decode().splitlines()]
    well = done.returncode == 0 and len(lines) == len(asked)
    return lines, "" if well else f"status {done.returncode} after {len(lines)} lines for {len(asked)} inputs"


def fault(case, line, sums):
    """What is wrong with the driver's line for a case whose checksums by the others are `sums`; nothing if it passes."""
    if len(line) != 1 + len(WAYS):
        return f"it says {' '.join(line) or 'nothing'}"
    if int(line[0]) != case.place:
        return f"its bytes stand at {line[0]} modulo 8, and not at {case.place}"
    named = {**dict(zip(WAYS, (int(word, 16) for word in line[1:]))), **sums}
    if case.published is not None:
        named["published"] = case.published
    if len(set(named.values())) > 1:
        return ", ".join(f"{name} {number:016x}" for name, number in named.items())
    return ""


def compare_engines(count, command, asked, sums):
    lines, ended = run(command, asked)
    count.hold(not ended, f"the driver ended with {ended}")
    for i, case in enumerate(asked):
        wrong = fault(case, lines[i] if i < len(lines) else [], sums[i])
        count.hold(not wrong, f"input {i}, {len(case.data)} bytes cut at {case.cuts}: {wrong}")
    return lines


def compare_wrong_engines(count, folder, before, asked, sums):
    """Each wrong engine is noticed. The longest inputs are left out: they take most of the time."""
    asked, sums = zip(*((case, right) for case, right in zip(asked, sums) if len(case.data) < 2**20))
    programs = sorted(folder.glob("wrong-*"))
    count.hold(programs, f"{folder} has no wrong program")
    for program in programs:
        lines, ended = run([*before, str(program)], asked)
        noticed = sum(map(bool, map(fault, asked, lines, sums)))
        count.hold(noticed and not ended, f"{program.name}: {ended or 'not noticed'}")
        print(f"{program.name}: {noticed} of {len(asked)} inputs tell")


def compare_wrong_lines(count, case, line, right):
    """A mistake in the driver's line for a case that passes is noticed."""
    turned = f"{int(line[-1], 16) ^ 1:016x}"
    count.hold(fault(case, [str((case.place + 1) % 8), *line[1:]], right), "a wrong place is not noticed")
    count.hold(fault(case, line[:-1], right), "a way that is left out is not noticed")
    count.hold(fault(case, [*line[:-1], turned], right), "a turned bit is not noticed")
    count.hold(fault(case._replace(published=1), line, right), "a published checksum that differs is not noticed")


def table_faults(text, tables):
    """What is wrong with the numbers in the text of the tables' source, beside tables made by others."""
    try:
        numbers = source.numbers(text)
    except ValueError as unread:
        return [str(unread)]
    if len(numbers) != 2048:
        return [f"there are {len(numbers)} numbers, and not 2048"]
    return [
        f"number {i} of the tables is {number:016x}; "
        + ", ".join(f"by {name} {by:016x}" for name, by in zip(tables, made))
        for i, (number, *made) in enumerate(zip(numbers, *tables.values()))
        if set(made) != {number}
    ]


def damaged(text):
    """The tables' source with a mistake, and what the mistake is."""
    places = [found.span() for found in re.finditer(r"0x[0-9A-Fa-f_]+", text)]

    def put(i, word):
        begin, end = places[i]
        return text[:begin] + word + text[end:]

    for i in (0, 255, 256, 1000, 2047):
        word = text[slice(*places[i])]
        yield f"bit 0 of number {i} turned", put(i, hex(int(word, 16) ^ 1))
        yield f"number {i} left out", put(i, "")
        yield f"number {i} twice", put(i, f"{word}, {word}")
    first, second = (text[slice(*places[i])] for i in (700, 701))
    yield "two numbers exchanged", put(701, first).replace(first, second, 1)
    yield "a number that is none", put(9, "0xG")
    yield "no tables", text.replace("TABLE:", "TABLES:")


def compare_tables(count):
    text = source.TABLES.read_text()
    tables = others.tables()
    faults = table_faults(text, tables)
    for wrong in faults[:10]:
        print(wrong)
    # each of the numbers is a case
    count.passed += 2048 - len(faults)
    count.failed += len(faults)
    for what, wrong in damaged(text):
        count.hold(table_faults(wrong, tables), f"{what}: not noticed")


def main():
    folder, before = pathlib.Path(sys.argv[1]), sys.argv[2:]
    seed, pays = int(os.environ.get("SEED", "64")), source.pays()
    print(f"seed {seed}; tables from {pays} bytes on; the engines beside {', '.join(others.CHECKSUMS)}")
    count = Count()
    asked = list(cases(random.Random(seed), pays))
    sums = [{name: checksum(case.data) for name, checksum in others.CHECKSUMS.items()} for case in asked]
    lines = compare_engines(count, [*before, str(folder / "driver")], asked, sums)
    if not count.failed:
        compare_wrong_lines(count, asked[-1], lines[-1], sums[-1])
        compare_wrong_engines(count, folder, before, asked, sums)
    compare_tables(count)
    print(f"{count.passed} passed, {count.failed} failed")
    return 1 if count.failed else 0


sys.exit(main())
