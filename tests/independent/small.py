"""Whole segments made by hand under the listing's table (1 -> 32, 7 -> 4), for fixtures, samples
and the systematic cases."""

import asl
from shapes import Meant, pack, pack_extents, record_fields

TABLE = asl.LISTING_TABLE
# All numbers differ, so that a program that swaps two of them is noticed.
HEADING = asl.Heading(shard=2, snapshot_min=3, snapshot_max=4, domain=5, seal_snapshot=6,
                      seal_time=7)
# Case L as docs/FORMAT.md prints it: what is not its domain is 0 there.
PRINTED_HEADING = asl.Heading(0, 0, 0, 5, 0, 0)

KEY_7C = bytes.fromhex("0a0b0c0c")
KEY_7D = bytes.fromhex("0a0b0c0d")
KEY_7E = bytes.fromhex("0a0b0c0e")


def live(digest, extents, hash_id=7, visibility=0, imported=0, source=0):
    return Meant(hash_id, digest, visibility, imported, source, False, extents)


def gone(digest, hash_id=7, visibility=0, imported=0, source=0):
    return Meant(hash_id, digest, visibility, imported, source, True, [])


def in_order(records, bloom=b"", heading=HEADING):
    """The records as they come, digests and extents packed in the same order: the tidy form, if
    they come in its order."""
    digests, extents, fields = b"", b"", []
    for record in records:
        fields.append(record_fields(record, len(digests), len(extents)))
        digests += record.digest
        extents += pack_extents(record.extents)
    digests += bytes(-len(digests) % 8)
    return pack(heading, fields, digests, extents, bloom)


def empty():
    """No records, no bloom: 136 bytes."""
    return in_order([])


def one():
    """One 4-byte digest, one extent: digests at 160, size 8, extents at 168, file 208."""
    return in_order([live(KEY_7D, [(9, 64, 3)])])


def case_l(heading=HEADING):
    """Case L (docs/SERVICES.md, "Cases"): 256 bytes."""
    return in_order([live(KEY_7D, [(9, 64, 3)], visibility=1), gone(KEY_7E)], heading=heading)


def mixed():
    """Everything the rules allow at once: a bloom, records out of order, one digest inside
    another, extents shared in part, unused bytes and an unused extent that breaks its rule,
    imported records, a published gone one and an empty export."""
    digests = b"\xee" + bytes(range(32)) + KEY_7D + b"\xee\xee\xee"
    extents = [(1, 0, 0), (2, 4_294_967_295, 1), (3, 64, 3), (4, 4_294_967_295, 2)]
    records = [
        (live(bytes(range(32)), extents[1:3], hash_id=1, imported=1, source=8), 1, 16),
        (gone(KEY_7D, visibility=1, imported=1), 33, 0),
        (live(bytes(range(4, 8)), extents[0:1]), 5, 0),
        (live(bytes(range(3, 7)), extents[0:3]), 4, 0),
    ]
    return pack(HEADING, [record_fields(*record) for record in records], digests,
                pack_extents(extents), bloom=bytes.fromhex("b1000000000000b8"))


LONG_BLOOM = bytes(range(0xB0, 0xC0))


def long_records():
    """Twelve records with digests of both lengths, in no order; the last one is gone."""
    by_7 = [live(bytes([9 - i, i, i, i]), [(i, 64, 3)] * (1 + i % 2), visibility=i % 2)
            for i in range(4)]
    by_1 = [live(bytes(range(i, i + 32)), [(i, 2**32 - i, i)], hash_id=1, imported=1, source=i)
            for i in range(6, 0, -1)]
    return [*by_7, live(KEY_7D, [(9, 64, 3)]), *by_1, gone(KEY_7E)]


def long():
    """1,152 bytes, and so long enough for the fast engine's tables (PAYS in crates/crc64_fast),
    which the others are not. tests/c/apart.c would notice if it became too short."""
    return in_order(long_records(), bloom=LONG_BLOOM)


SMALL_FILES = {"empty": empty, "one": one, "case L": case_l, "mixed": mixed}
