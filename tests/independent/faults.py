"""What can be wrong in write's arguments: a readable list, each fault a function.

A fault changes what is lent and gives a name saying what was done, or None where it does not
apply. As with damages, both sides of each edge are tried.
"""

import asl
from shapes import USUAL_LENGTHS, broken_tables

HASH_ID, DIGEST_START, DIGEST_LENGTH, VISIBILITY, IMPORTED, SOURCE, GONE, FIRST, COUNT = range(9)
BLOCK, OFFSET, LENGTH = range(3)


def some_entry(rng, lent):
    return rng.randrange(len(lent.entries)) if lent.entries else None


def some_live_entry(rng, lent):
    live = [number for number, entry in enumerate(lent.entries)
            if entry[GONE] == 0 and 0 < entry[COUNT] <= len(lent.extents) - entry[FIRST]]
    return rng.choice(live) if live else None


def of(choose):
    """Makes a fault of one entry, which is chosen so; it does not apply where there is none."""
    def marked(fault):
        def chosen(rng, lent):
            number = choose(rng, lent)
            return None if number is None else fault(rng, lent, number)
        return chosen
    return marked


of_an_entry = of(some_entry)
of_a_live_entry = of(some_live_entry)


def table(rng, lent):
    if len(lent.table) < 2:  # broken already, and no pair is left to break
        return None
    name, lent.table = rng.choice(broken_tables(rng, lent.table))
    return name


def bloom_length(rng, lent):
    lent.bloom += rng.randbytes(rng.randint(1, 9))
    return f"bloom of {len(lent.bloom)} bytes"


@of_an_entry
def entry_field(rng, lent, number):
    """Any number of an entry at an edge, or equal to the right one modulo a field's width."""
    field = rng.randrange(len(asl.Entry._fields))
    old = lent.entries[number][field]
    new = rng.choice((0, 1, 2, 255, 256, 2**16, 2**32 - 1, 2**32, 2**64 - 1, max(old - 1, 0),
                      old + 1, old + 2**8, old + 2**16, old + 2**32)) % 2**64
    lent.entries[number][field] = new
    return f"entry {number} {asl.Entry._fields[field]} {old} -> {new}"


@of_an_entry
def mark(rng, lent, number):
    field, values = rng.choice(((VISIBILITY, (0, 1, 2, 256)), (IMPORTED, (0, 1, 2, 256)),
                                (GONE, (0, 1, 2, 2**32)), (SOURCE, (0, 1, 2**32 - 1, 2**32))))
    value = rng.choice(values)
    lent.entries[number][field] = value
    return f"entry {number} {asl.Entry._fields[field]} = {value}"


@of_an_entry
def digest_at_end(rng, lent, number):
    """The digest ends at, or passes, the end of the lent bytes; or wraps."""
    end = len(lent.digests)
    last = max(end - lent.entries[number][DIGEST_LENGTH], 0)
    start = rng.choice((last, last + 1, end, end + 1, 2**64 - 1,
                        2**64 - lent.entries[number][DIGEST_LENGTH])) % 2**64
    lent.entries[number][DIGEST_START] = start
    return f"entry {number} digest start {start} of {end}"


@of_an_entry
def digest_length(rng, lent, number):
    old = lent.entries[number][DIGEST_LENGTH]
    new = rng.choice((0, max(old - 1, 0), old + 1, rng.choice(USUAL_LENGTHS), old + 2**16,
                      2**64 - 1)) % 2**64
    lent.entries[number][DIGEST_LENGTH] = new
    if rng.random() < 0.5:
        lent.entries[number][DIGEST_START] = 0
    return f"entry {number} digest length {old} -> {new}"


@of_an_entry
def extents_at_end(rng, lent, number):
    """The run of extents ends at, or passes, the end of the lent list; or wraps."""
    end, count = len(lent.extents), lent.entries[number][COUNT]
    first = rng.choice((max(end - count, 0), max(end - count, 0) + 1, end, end + 1, 2**64 - 1,
                        2**64 - count)) % 2**64
    lent.entries[number][FIRST] = first
    return f"entry {number} first extent {first}, count {count}, of {end}"


@of_an_entry
def extent_count(rng, lent, number):
    end, old = len(lent.extents), lent.entries[number][COUNT]
    first = lent.entries[number][FIRST]
    new = rng.choice((0, 1, old + 1, max(end - first, 0), max(end - first, 0) + 1, 2**32 - 1,
                      old + 2**32, 2**64 - 1, 2**64 - first)) % 2**64
    lent.entries[number][COUNT] = new
    return f"entry {number} extent count {old} -> {new}, first {first}, of {end}"


@of_an_entry
def gone_turned(rng, lent, number):
    entry = lent.entries[number]
    entry[GONE] ^= 1
    cleared = [field for field in (FIRST, COUNT) if rng.random() < 0.5]
    for field in cleared:
        entry[field] = 0
    return f"entry {number} gone mark turned, cleared {len(cleared)} numbers"


def extent_field(rng, lent):
    """A number of any extent, used or not, at an edge or too wide."""
    if not lent.extents:
        return None
    number = rng.randrange(len(lent.extents))
    field = rng.randrange(3)
    old = lent.extents[number][field]
    new = rng.choice((0, 1, 2**32 - 1, 2**32, old + 2**32, 2**64 - 1, old + 1)) % 2**64
    lent.extents[number][field] = new
    return f"extent {number} {asl.Extent._fields[field]} {old} -> {new}"


@of_a_live_entry
def extent_at_2_to_32(rng, lent, number):
    """A used extent that ends at 2^32, or passes it by one."""
    entry = lent.entries[number]
    place = entry[FIRST] + rng.randrange(entry[COUNT])
    length = rng.choice((0, 1, 2, 2**32 - 1, 2**32, rng.randint(1, 2**32 - 1)))
    offset = 2**32 - length + rng.randint(0, 1)
    lent.extents[place] = [lent.extents[place][BLOCK], offset, length]
    return f"entry {number} uses extent offset {offset} length {length}"


@of_a_live_entry
def sum_at_2_to_32(rng, lent, number):
    """An entry of two new extents whose lengths add up to 2^32 - 1, or to one more."""
    one = rng.randint(1, 2**32 - 2)
    other = 2**32 - 1 - one + rng.randint(0, 1)
    lent.entries[number][FIRST], lent.entries[number][COUNT] = len(lent.extents), 2
    lent.extents += [[rng.randrange(2**64), 0, one], [0, 0, other]]
    return f"entry {number} of total {one + other}"


@of_an_entry
def key_again(rng, lent, number):
    """Another entry with the key of one that stands there, from the same or from other bytes."""
    entry = list(lent.entries[number])
    start, length = entry[DIGEST_START], entry[DIGEST_LENGTH]
    if rng.random() < 0.5 and start + length <= len(lent.digests):
        entry[DIGEST_START] = len(lent.digests)
        lent.digests += lent.digests[start:start + length]
    entry[VISIBILITY] = rng.choice((entry[VISIBILITY], 1))
    place = rng.randint(0, len(lent.entries))
    lent.entries.insert(place, entry)
    return f"the key of an entry again at {place}"


def lists_cut(rng, lent):
    """The end of the digests or of the extents is missing."""
    if rng.random() < 0.5 and lent.digests:
        cut = min(len(lent.digests), rng.randint(1, 8))
        lent.digests = lent.digests[:-cut]
        return f"{cut} digest bytes cut"
    if lent.extents:
        cut = min(len(lent.extents), rng.randint(1, 2))
        del lent.extents[-cut:]
        return f"{cut} extents cut"
    return None


def unfinished_entry(rng, lent):
    """Not read, whatever stands in it."""
    lent.entries.append([rng.choice((0, 2, 2**64 - 1)) for _ in range(rng.randint(1, 8))])
    return f"an unfinished entry of {len(lent.entries[-1])} numbers"


def unfinished_extent(rng, lent):
    lent.extents.append([rng.choice((0, 2**64 - 1)) for _ in range(rng.randint(1, 2))])
    return f"an unfinished extent of {len(lent.extents[-1])} numbers"


def extent_made_unfinished(rng, lent):
    """The last extent loses a number: an entry that uses it now passes the end."""
    if not lent.extents:
        return None
    lent.extents[-1] = lent.extents[-1][:rng.randint(1, 2)]
    return "the last extent made unfinished"


FAULTS = (
    table, bloom_length, entry_field, entry_field, mark, mark, digest_at_end, digest_length,
    extents_at_end, extent_count, gone_turned, extent_field, extent_field, extent_at_2_to_32,
    sum_at_2_to_32, key_again, lists_cut,
)
# These change the shape of a list's end, so they come after all others.
LAST_FAULTS = (unfinished_entry, unfinished_extent, extent_made_unfinished)


def spoil(rng, lent, how_many):
    """Does some faults to what is lent; gives the name of what was done."""
    done = []
    for _ in range(how_many):
        done.append(rng.choice(FAULTS)(rng, lent))
    if rng.random() < 0.15:
        done.append(rng.choice(LAST_FAULTS)(rng, lent))
    return "; ".join(name for name in done if name) or "as lent"
