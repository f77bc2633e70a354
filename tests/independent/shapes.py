"""Whole segments, and argument lists for write, of every shape.

A Meaning is what a segment says. `lay_out` writes one as a segment in any order, with shared and
unused bytes and extents; `lend` gives it as write's arguments. Both know nothing of the tidy
form. Random content comes from the random.Random that is handed in.
"""

from collections import namedtuple
from dataclasses import dataclass

import asl
from fields import (EXTENT_FIELDS, EXTENT_SIZE, FOOTER_FIELDS, FOOTER_SIZE, HEADER_FIELDS,
                    HEADER_SIZE, RECORD_FIELDS, RECORD_SIZE, put, seal)

Meaning = namedtuple("Meaning", "table heading bloom records")
# `extents` is a list of (block, offset, length), empty when the record is gone.
Meant = namedtuple("Meant", "hash_id digest visibility imported source gone extents")

EDGES_U16 = (0, 1, 255, 256, 65_535)
EDGES_U32 = (0, 1, 7, 255, 65_536, 2**31 - 1, 2**31, 2**32 - 2, 2**32 - 1)
EDGES_U64 = EDGES_U32 + (2**32, 2**63, 2**64 - 2, 2**64 - 1)
USUAL_LENGTHS = (1, 2, 3, 4, 5, 8, 20, 32, 64)
EDGE_LENGTHS = (1, 255, 256, 257, 1_023, 1_024)


# Random meanings ------------------------------------------------------------------------------

def number_up_to(rng, most, edges):
    return rng.choice(edges) if rng.random() < 0.5 else rng.randint(0, most)


def any_table(rng):
    pair_count = rng.choice((1, 2, 2, 3, 16, rng.randint(1, 16)))
    lengths = {}
    while len(lengths) < pair_count:
        hash_id = number_up_to(rng, 2**32 - 1, EDGES_U32)
        usual = rng.random() < 0.9
        lengths[hash_id] = rng.choice(USUAL_LENGTHS if usual else EDGE_LENGTHS)
    return [number for pair in lengths.items() for number in pair]


def any_heading(rng):
    u64 = [number_up_to(rng, 2**64 - 1, EDGES_U64) for _ in range(4)]
    return asl.Heading(number_up_to(rng, 65_535, EDGES_U16), u64[0], u64[1],
                       number_up_to(rng, 2**32 - 1, EDGES_U32), u64[2], u64[3])


def any_record_count(rng):
    low, high = rng.choices(((0, 0), (1, 1), (2, 5), (6, 20), (21, 80), (100, 400)),
                            (10, 15, 45, 24, 5, 1))[0]
    return rng.randint(low, high)


def any_extent(rng):
    """An extent that keeps its rule, often at an edge of it."""
    block = number_up_to(rng, 2**64 - 1, EDGES_U64)
    offset = number_up_to(rng, 2**32 - 1, EDGES_U32)
    room = min(2**32 - offset, 2**32 - 1)
    length = rng.choice((0, 1, min(3, room), room, rng.randint(0, room) >> rng.randint(0, 31)))
    return block, offset, length


def any_run(rng, pool):
    """Some extents of the pool in a row, at least one, with a sum that fits."""
    first = rng.randrange(len(pool))
    run = []
    for extent in pool[first:first + rng.choice((1, 1, 2, 3, len(pool)))]:
        if sum(length for _, _, length in run) + extent[2] <= 2**32 - 1:
            run.append(extent)
    return run


def any_digest(rng, pool, length):
    """A stretch of the pool, so that digests overlap; sometimes changed in one byte, so that
    they have near neighbours."""
    start = rng.randrange(len(pool) - length + 1)
    digest = bytearray(pool[start:start + length])
    if rng.random() < 0.3:
        digest[rng.randrange(length)] = rng.randrange(256)
    return bytes(digest)


def any_record(rng, hash_id, digest, extent_pool):
    imported = rng.randint(0, 1)
    source = number_up_to(rng, 2**32 - 1, EDGES_U32) if imported else 0
    gone = rng.random() < 0.25
    extents = [] if gone else any_run(rng, extent_pool)
    return Meant(hash_id, digest, rng.randint(0, 1), imported, source, gone, extents)


def any_meaning(rng, table=None, record_count=None):
    table = table or any_table(rng)
    pairs = list(zip(table[0::2], table[1::2]))
    alphabet = rng.choice((b"\x00\x01", b"\x7f\x80\xff", bytes(range(256))))
    longest = max(length for _, length in pairs)
    digest_pool = bytes(rng.choices(alphabet, k=longest + rng.randint(0, 40)))
    extent_pool = [any_extent(rng) for _ in range(rng.randint(1, 12))]
    records = {}
    # A small pool may have fewer keys than were asked for: then there are fewer records.
    for _ in range(any_record_count(rng) if record_count is None else record_count):
        hash_id, length = rng.choice(pairs)
        digest = any_digest(rng, digest_pool, length)
        records[hash_id, digest] = any_record(rng, hash_id, digest, extent_pool)
    bloom = rng.randbytes(8 * rng.choice((0, 0, 1, 2, 9)))
    return Meaning(table, any_heading(rng), bloom, list(records.values()))


# Segments -------------------------------------------------------------------------------------

def structure(fields, size, values):
    packed = bytearray(size)
    for name, value in values.items():
        put(packed, 0, fields[name], value)
    return packed


def pack_extents(extents):
    return b"".join(pack_extent(extent) for extent in extents)


def pack_extent(extent):
    return bytes(structure(EXTENT_FIELDS, EXTENT_SIZE,
                           dict(zip(("block", "offset", "length"), extent))))


def pack(heading, records, digests=b"", extents=b"", bloom=b""):
    """A sealed segment of these parts. Records are dicts of fields by name; their digest and
    extents offsets are places in the section, or None for an extents offset of 0."""
    records_offset = HEADER_SIZE + len(bloom)
    digests_offset = records_offset + RECORD_SIZE * len(records)
    extents_offset = digests_offset + len(digests)
    header = structure(HEADER_FIELDS, HEADER_SIZE, {
        "magic": int.from_bytes(b"ASLIDX03", "little"), "version": 3, "shard": heading.shard,
        "header size": 112, "snapshot min": heading.snapshot_min,
        "snapshot max": heading.snapshot_max, "record count": len(records),
        "records offset": records_offset, "bloom offset": 112 if bloom else 0,
        "bloom size": len(bloom), "digests offset": digests_offset,
        "digests size": len(digests), "extents offset": extents_offset,
        "extent count": len(extents) // EXTENT_SIZE, "domain": heading.domain,
        "visibility": max((record["visibility"] for record in records), default=0)})
    segment = header + bloom
    for record in records:
        place = record["extents offset"]
        segment += structure(RECORD_FIELDS, RECORD_SIZE, record | {
            "digest offset": digests_offset + record["digest offset"],
            "extents offset": 0 if place is None else extents_offset + place,
            "domain": heading.domain})
    segment += digests + extents
    segment += structure(FOOTER_FIELDS, FOOTER_SIZE, {
        "seal snapshot": heading.seal_snapshot, "seal time": heading.seal_time})
    seal(segment)
    return bytes(segment)


def record_fields(meant, digest_place, extents_place):
    return {"hash id": meant.hash_id, "digest length": len(meant.digest),
            "digest offset": digest_place,
            "extents offset": None if meant.gone else extents_place,
            "extent count": len(meant.extents),
            "total": sum(length for _, _, length in meant.extents),
            "visibility": meant.visibility, "imported": meant.imported,
            "source": meant.source, "flags": 1 if meant.gone else 0}


def find_at_step(section, run, step):
    """The first place of the run at a multiple of `step`, or -1."""
    place = section.find(run)
    while place > 0 and place % step != 0:
        place = section.find(run, place + 1)
    return place


def place_runs(rng, runs, step, pool):
    """Puts each run into one section: where it stands already, or at the end, perhaps after
    unused bytes. Gives the section and each run's place in it."""
    sharing = rng.choice((0, 0.5, 1))
    unused = rng.choice((0, 0, 0.3))
    section = bytearray(pool)
    places = []
    for run in runs:
        place = find_at_step(section, run, step) if rng.random() < sharing else -1
        if place < 0:
            if rng.random() < unused:
                section += rng.randbytes(step * rng.randint(1, 3))
            place = len(section)
            section += run
        places.append(place)
    if rng.random() < unused:
        section += rng.randbytes(step * rng.randint(1, 9))
    return section, places


def place_records(rng, records):
    """The digests' bytes with each record's place in them, and the extents' likewise."""
    # A first stretch of all digests or extents in another order: runs found across its seams
    # overlap each other.
    others = rng.sample(records, min(len(records), rng.choice((0, 0, 3))))
    digests, digest_places = place_runs(
        rng, [record.digest for record in records], 1,
        b"".join(record.digest for record in others))
    extents, extents_places = place_runs(
        rng, [pack_extents(record.extents) for record in records], EXTENT_SIZE,
        b"".join(pack_extents(record.extents) for record in others))
    return digests, digest_places, extents, extents_places


def lay_out(rng, meaning, padded=True):
    """The meaning as a segment in some order. Without `padded` the digest section ends at a
    place that is no multiple of 8, and only that is wrong."""
    records = rng.sample(meaning.records, len(meaning.records))
    digests, digest_places, extents, extents_places = place_records(rng, records)
    digests += rng.randbytes(-len(digests) % 8)
    if not padded:
        digests += rng.randbytes(rng.randint(1, 7))
    fields = [record_fields(*parts) for parts in zip(records, digest_places, extents_places)]
    return pack(meaning.heading, fields, bytes(digests), bytes(extents), meaning.bloom)


# Arguments for write --------------------------------------------------------------------------

@dataclass
class Lent:
    """Write's arguments, but for the output; entries and extents still one list to an item."""
    table: list
    heading: tuple
    bloom: bytes
    entries: list
    digests: bytes
    extents: list


def lend(rng, meaning):
    records = rng.sample(meaning.records, len(meaning.records))
    digests, digest_places, extents, extents_places = place_records(rng, records)
    entries = []
    for record, digest_place, place in zip(records, digest_places, extents_places):
        first = 0 if record.gone else place // EXTENT_SIZE
        entries.append([record.hash_id, digest_place, len(record.digest), record.visibility,
                        record.imported, record.source, int(record.gone), first,
                        len(record.extents)])
    lent_extents = [list(extent) for extent in asl.EXTENT.iter_unpack(extents)]
    return Lent(list(meaning.table), meaning.heading, meaning.bloom, entries, bytes(digests),
                lent_extents)


# Broken tables --------------------------------------------------------------------------------

def broken_tables(rng, table):
    """A name and a table for every way to break the table's rule, most of them one step from
    the table that is given. That one may be broken already, so sums are kept below 2^64."""
    spare = next(i for i in range(100) if i not in table[0::2])
    filled = table + [n for i in range(1_000, 1_017) for n in (i, 4)]
    return [
        ("table empty", []),
        ("table of one number", table[:1]),
        ("table with an odd last number", table + [spare]),
        ("table less its last number", table[:-1]),
        ("table of 17 pairs", filled[:34]),
        ("table of 16 pairs and a number", filled[:33]),
        ("table with a hash id twice", table + table[:2]),
        ("table with a hash id twice, other length", table + [table[0], table[1] % 1_024 + 1]),
        ("table with length 0", table[:1] + [0] + table[2:]),
        ("table with length 1,025", table[:1] + [1_025] + table[2:]),
        ("table with a length that fits modulo 2^16",
         table[:1] + [(table[1] + 2**16) % 2**64] + table[2:]),
        ("table with length 2^64 - 1", table[:-1] + [2**64 - 1]),
        ("table with hash id 2^32", [2**32] + table[1:]),
        ("table with a hash id that fits modulo 2^32",
         [(table[0] + 2**32 * rng.randint(1, 2**32 - 1)) % 2**64] + table[1:]),
    ]
