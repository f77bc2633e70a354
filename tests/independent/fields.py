"""Every field of the four structures by name: its place and its size in bytes.

asl.py reads structures whole; what damages or builds files by hand uses this second table, so
that a slip in one of them shows as a difference.
"""

import asl

HEADER_FIELDS = {
    "magic": (0, 8), "version": (8, 2), "shard": (10, 2), "header size": (12, 4),
    "snapshot min": (16, 8), "snapshot max": (24, 8), "record count": (32, 8),
    "records offset": (40, 8), "bloom offset": (48, 8), "bloom size": (56, 8),
    "digests offset": (64, 8), "digests size": (72, 8), "extents offset": (80, 8),
    "extent count": (88, 8), "domain": (96, 4), "visibility": (100, 1),
    "federation version": (101, 1), "reserved": (102, 2), "flags": (104, 8),
}
RECORD_FIELDS = {
    "hash id": (0, 4), "digest length": (4, 2), "reserved 6": (6, 2), "digest offset": (8, 8),
    "extents offset": (16, 8), "extent count": (24, 4), "total": (28, 4), "domain": (32, 4),
    "visibility": (36, 1), "imported": (37, 1), "reserved 38": (38, 2), "source": (40, 4),
    "flags": (44, 4),
}
EXTENT_FIELDS = {"block": (0, 8), "offset": (8, 4), "length": (12, 4)}
FOOTER_FIELDS = {"crc64": (0, 8), "seal snapshot": (8, 8), "seal time": (16, 8)}

HEADER_SIZE, RECORD_SIZE, EXTENT_SIZE, FOOTER_SIZE = 112, 48, 16, 24


def get(segment, start, place_and_size):
    """A field of the structure that starts at `start`; 0 if the segment ends before it."""
    place, size = place_and_size
    return int.from_bytes(segment[start + place:start + place + size], "little")


def put(segment, start, place_and_size, value):
    """Sets a field modulo its width; does nothing where the segment ends before it, so that
    several damages can be done in any order."""
    place, size = place_and_size
    if 0 <= start and start + place + size <= len(segment):
        value %= 1 << (8 * size)
        segment[start + place:start + place + size] = value.to_bytes(size, "little")


def seal(segment):
    """Makes the checksum right, whatever else is wrong; a file too short for one stays."""
    footer = len(segment) - FOOTER_SIZE
    if footer >= HEADER_SIZE:
        put(segment, footer, FOOTER_FIELDS["crc64"], asl.crc64(segment[:footer]))


class Places:
    """Where the structures of a whole segment stand."""

    def __init__(self, segment):
        def number(name):
            return get(segment, 0, HEADER_FIELDS[name])
        self.records = [number("records offset") + RECORD_SIZE * i
                        for i in range(number("record count"))]
        self.extents = [number("extents offset") + EXTENT_SIZE * i
                        for i in range(number("extent count"))]
        self.digests = number("digests offset")
        self.digests_end = self.digests + number("digests size")
        self.extents_start = number("extents offset")
        self.footer = len(segment) - FOOTER_SIZE
