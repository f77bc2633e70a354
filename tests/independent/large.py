"""Cases at the limits: 65,536 records, and results of 1,073,741,824 bytes.

No file near the second limit is made. Extents that thousands of records share make a tidy form
of any size from half a megabyte; one that fits the limit exactly is refused for room, the next
greater one as large.
"""

import small
from case import Case
from fields import EXTENT_SIZE, HEADER_FIELDS, RECORD_FIELDS, Places, put, seal
from shapes import pack

LIMIT = 1_073_741_824
MOST = 65_536


def distinct_digests(count):
    return b"".join(number.to_bytes(4, "big") for number in range(count))


def gone_entries(order):
    """Entries that are all good: gone records with different digests, in the order given."""
    return [number for i in order for number in (7, 4 * i, 4, 0, 0, 0, 1, 0, 0)]


def write_gone(name, order, change=None, out=bytes(100)):
    entries = gone_entries(order)
    if change:
        entry, field, value = change
        entries[9 * entry + field] = value
    return Case("write", name, table=small.TABLE, heading=small.HEADING, entries=entries,
                digests=distinct_digests(len(order)), out=out)


def gone_segment(order):
    """A segment of gone records with different digests, right in all but perhaps their count."""
    digests = distinct_digests(len(order))
    digests += bytes(-len(digests) % 8)
    record = {"hash id": 7, "digest length": 4, "extents offset": None, "visibility": 0,
              "flags": 1}
    return pack(small.HEADING, [record | {"digest offset": 4 * i} for i in order], digests)


def count_cases():
    most, too_many = range(MOST), range(MOST + 1)
    yield write_gone("65,537 entries", too_many)
    yield write_gone("65,537 entries, the first bad", too_many, (0, 3, 2))
    yield write_gone("65,536 entries, the last bad", most, (MOST - 1, 3, 2))
    yield Case("check", "65,537 records", table=small.TABLE, segment=gone_segment(too_many))
    segment = bytearray(gone_segment(most))
    put(segment, Places(segment).records[-1], RECORD_FIELDS["flags"], 2)
    seal(segment)
    yield Case("check", "65,536 records, the last bad", table=small.TABLE, segment=bytes(segment))
    for count in (MOST, MOST + 1):
        segment = bytearray(small.one())
        put(segment, 0, HEADER_FIELDS["record count"], count)
        seal(segment)
        yield Case("check", f"record count {count} in a short file", table=small.TABLE,
                   segment=bytes(segment))


# 4,096 records: 4,095 share 16,384 extents and one has 3,063 of them. With 4-byte digests and 8
# bytes of bloom the tidy form has exactly LIMIT bytes.
SHARERS, SHARED, LAST_SHARE = 4_096, 16_384, 3_063
assert (136 + 8 + 48 * SHARERS + 4 * SHARERS
        + EXTENT_SIZE * (SHARED * (SHARERS - 1) + LAST_SHARE)) == LIMIT


def shares():
    return [SHARED] * (SHARERS - 1) + [LAST_SHARE]


def sharing_segment(bloom_size):
    record = {"hash id": 7, "digest length": 4, "extents offset": 0, "total": 0, "visibility": 0}
    records = [record | {"digest offset": 4 * i, "extent count": count}
               for i, count in enumerate(shares())]
    return pack(small.HEADING, records, distinct_digests(SHARERS), bytes(EXTENT_SIZE * SHARED),
                bytes(bloom_size))


def sharing_entries():
    return [number for i, count in enumerate(shares())
            for number in (7, 4 * i, 4, 0, 0, 0, 0, 0, count)]


def size_cases(rng):
    for bloom_size in (8, 16):
        name = f"result of {LIMIT + bloom_size - 8} bytes"
        segment = sharing_segment(bloom_size)
        yield Case("tidy", name, table=small.TABLE, segment=segment, out=rng.randbytes(50))
        yield Case("tidy length", name, table=small.TABLE, segment=segment)
        yield Case("write", name, table=small.TABLE, heading=small.HEADING,
                   bloom=bytes(bloom_size), entries=sharing_entries(),
                   digests=distinct_digests(SHARERS), extents=[0] * (3 * SHARED),
                   out=rng.randbytes(50))


def many_cases(rng, name, order):
    """Many records that are all good, in some order, with room to spare: accepted, found, tidied,
    walked and written."""
    segment = gone_segment(order)
    out = rng.randbytes(len(segment) + 8)
    yield Case("check", name, table=small.TABLE, segment=segment)
    yield Case("look up", name, table=small.TABLE, segment=segment, hash_id=7,
               digest=order[-1].to_bytes(4, "big"))
    yield Case("tidy", name, table=small.TABLE, segment=segment, out=out)
    yield Case("tidy length", name, table=small.TABLE, segment=segment)
    for record in (len(order) - 1, len(order)):
        yield Case("step", f"{name}, record {record}", table=small.TABLE, segment=segment,
                   record=record)
    yield write_gone(name, order, out=out)


def key_again_cases(order):
    """Many records of which the last has the key of the first."""
    name, again = f"{len(order)} records, a key again", [*order[:-1], order[0]]
    yield Case("check", name, table=small.TABLE, segment=gone_segment(again))
    yield write_gone(name, again)


def large_cases(rng):
    yield from count_cases()
    yield from size_cases(rng)
    yield from many_cases(rng, "65,536 records in order", range(MOST))
    order = rng.sample(range(MOST), MOST)
    yield from many_cases(rng, "65,536 records shuffled", order)
    yield from key_again_cases(order)
