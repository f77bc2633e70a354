"""The rules of docs/FORMAT.md and the services of docs/SERVICES.md in Python: a second opinion on
check, look up, write, tidy, the walk's step and the listing; and on the length of the tidy form,
which C asks for before it lends an output.

Written without a look at the crates, from what decided the rules (README.md, "What decides") and
in its order. Numbers are Python's whole numbers, so nothing here is modulo anything. Every public
function answers with the refusal's number (0 when there is none) and its place.
"""

import struct
from collections import namedtuple
from enum import IntEnum
from itertools import accumulate

# The file -----------------------------------------------------------------------------------

HEADER = struct.Struct("<8sHHI10QIBBHQ")
RECORD = struct.Struct("<IHHQQIIIBBHII")
EXTENT = struct.Struct("<QII")
FOOTER = struct.Struct("<3Q")

Header = namedtuple("Header", "magic version shard header_size snapshot_min snapshot_max"
                    " record_count records_offset bloom_offset bloom_size digests_offset"
                    " digests_size extents_offset extent_count domain visibility"
                    " federation_version reserved flags")
Record = namedtuple("Record", "hash_id digest_length reserved_6 digest_offset extents_offset"
                    " extent_count total domain visibility imported reserved_38 source flags")
Extent = namedtuple("Extent", "block offset length")
Footer = namedtuple("Footer", "crc64 seal_snapshot seal_time")

MAGIC = b"ASLIDX03"
VERSION = 3
GONE = 1
MOST_RECORDS = 65_536
LEAST_FILE, MOST_FILE = 136, 1_073_741_824
MOST_PAIRS, MOST_DIGEST = 16, 1_024
MOST_U32 = 4_294_967_295
ALL_ONES = (1 << 64) - 1

Layout = namedtuple("Layout", "bloom_offset records_offset digests_offset extents_offset"
                    " file_length")


def layout(bloom_size, record_count, digests_size, extent_count):
    """The one place of each section, as its sizes settle it."""
    records_offset = HEADER.size + bloom_size
    digests_offset = records_offset + RECORD.size * record_count
    extents_offset = digests_offset + digests_size
    file_length = extents_offset + EXTENT.size * extent_count + FOOTER.size
    return Layout(HEADER.size if bloom_size else 0, records_offset, digests_offset,
                  extents_offset, file_length)


def crc_table(polynomial):
    """The reflected checksum's change for each value of a byte."""
    reflected = int(f"{polynomial:064b}"[::-1], 2)
    table = []
    for byte in range(256):
        for _ in range(8):
            byte = (byte >> 1) ^ (reflected if byte & 1 else 0)
        table.append(byte)
    return table


CRC_TABLE = crc_table(0x42F0E1EBA9EA3693)


def crc64(data):
    register = ALL_ONES
    for byte in data:
        register = CRC_TABLE[(register ^ byte) & 0xFF] ^ (register >> 8)
    return register ^ ALL_ONES


# What comes back ----------------------------------------------------------------------------

class No(IntEnum):
    SIZE = 1
    MAGIC = 2
    VERSION = 3
    HEADER = 4
    CHECKSUM = 6
    RECORD = 7
    DIGEST = 8
    EXTENTS = 9
    TOTAL = 10
    VISIBILITY = 11
    DUPLICATE = 12
    ROOM = 13
    TABLE = 14
    LIST = 15
    LARGE = 16
    KEY = 17
    LAYOUT_BLOOM = 51
    LAYOUT_RECORDS = 52
    LAYOUT_DIGESTS = 53
    LAYOUT_EXTENTS = 54
    LAYOUT_LENGTH = 55


class Refusal(Exception):
    def __init__(self, number, place):
        super().__init__(f"refused {number} at {place}")
        self.number = int(number)
        self.place = place


def refuse_if(broken, number, place=0):
    if broken:
        raise Refusal(number, place)


# Rules that check, tidy and write share -------------------------------------------------------

def lengths_of(table):
    """The store's table, a flat list of pairs, as hash id -> digest length."""
    lengths = dict(zip(table[0::2], table[1::2]))
    refuse_if(len(table) % 2 != 0, No.TABLE)
    refuse_if(not 1 <= len(table) // 2 <= MOST_PAIRS, No.TABLE)
    refuse_if(len(lengths) != len(table) // 2, No.TABLE)
    refuse_if(any(hash_id > MOST_U32 for hash_id in lengths), No.TABLE)
    refuse_if(any(not 1 <= length <= MOST_DIGEST for length in lengths.values()), No.TABLE)
    return lengths


def passes_2_to_32(extent):
    """Whether an extent's numbers are too wide for their fields (possible in write's list only)
    or its end passes 2^32."""
    return (extent.offset > MOST_U32 or extent.length > MOST_U32
            or extent.offset + extent.length > 1 << 32)


class RunningSums:
    """Answers about any run of an extent list without walking it: records may share extents, so
    that their runs together can be thousands of times longer than the list."""

    def __init__(self, extents):
        self.lengths = list(accumulate((e.length for e in extents), initial=0))
        self.passing = list(accumulate((passes_2_to_32(e) for e in extents), initial=0))

    def total(self, first, count):
        return self.lengths[first + count] - self.lengths[first]

    def some_extent_passes(self, first, count):
        return self.passing[first + count] != self.passing[first]


def largest_visibility(items):
    return max((item.visibility for item in items), default=0)


def refuse_repeated_key(places, items):
    """Gives the place of the lowest item whose key stands earlier."""
    keys = set()
    for place, item in zip(places, items):
        key = (item.hash_id, item.digest)
        refuse_if(key in keys, No.DUPLICATE, place)
        keys.add(key)


# Check ----------------------------------------------------------------------------------------

# A record by its meaning; its extents are a run of a list that stands beside it.
Item = namedtuple("Item", "hash_id digest visibility imported source gone first_extent"
                  " extent_count total")
Segment = namedtuple("Segment", "header bloom records items extents footer")


def examine(lengths, segment):
    """The whole check: gives what the segment says, or raises the first refusal in the order."""
    header = examine_header(segment)
    records = [Record._make(fields) for fields in RECORD.iter_unpack(
        segment[header.records_offset:header.digests_offset])]
    extents = [Extent._make(fields) for fields in EXTENT.iter_unpack(
        segment[header.extents_offset:-FOOTER.size])]
    sums = RunningSums(extents)
    places = record_places(header)
    for place, record in zip(places, records):
        examine_record(place, record, header, lengths, sums)
    items = [item_of(record, header, segment) for record in records]
    refuse_if(header.visibility != largest_visibility(items), No.VISIBILITY)
    refuse_repeated_key(places, items)
    bloom = segment[HEADER.size:header.records_offset]
    return Segment(header, bloom, records, items, extents, footer_of(segment))


def footer_of(segment):
    return Footer._make(FOOTER.unpack_from(segment, len(segment) - FOOTER.size))


def record_places(header):
    """The byte of the file at which each record begins."""
    return range(header.records_offset, header.digests_offset, RECORD.size)


def examine_header(segment):
    """Refusals 1 to 4, 51 to 55, and 6."""
    refuse_if(not LEAST_FILE <= len(segment) <= MOST_FILE, No.SIZE)
    header = Header._make(HEADER.unpack_from(segment))
    refuse_if(header.magic != MAGIC, No.MAGIC)
    refuse_if(header.version != VERSION, No.VERSION)
    refuse_if(header.header_size != HEADER.size or header.federation_version != 0
              or header.reserved != 0 or header.flags != 0 or header.visibility > 1, No.HEADER)
    for broken, number, place in layout_rules(header, len(segment)):
        refuse_if(broken, number, place)
    refuse_if(footer_of(segment).crc64 != crc64(segment[:-FOOTER.size]), No.CHECKSUM)
    return header


def layout_rules(header, file_length):
    """51 to 55 in their order: whether the rule is broken, its number, and the byte of the header
    at which the rule's fields begin."""
    right = layout(header.bloom_size, header.record_count, header.digests_size,
                   header.extent_count)
    return [
        (header.bloom_offset != right.bloom_offset or header.bloom_size % 8 != 0,
         No.LAYOUT_BLOOM, 48),
        (header.record_count > MOST_RECORDS or header.records_offset != right.records_offset,
         No.LAYOUT_RECORDS, 32),
        (header.digests_offset != right.digests_offset or header.digests_size % 8 != 0,
         No.LAYOUT_DIGESTS, 64),
        (header.extents_offset != right.extents_offset, No.LAYOUT_EXTENTS, 80),
        (file_length != right.file_length, No.LAYOUT_LENGTH, 88),
    ]


def examine_record(place, record, header, lengths, sums):
    """Refusals 7 to 10 of one record."""
    refuse_if(record.reserved_6 != 0 or record.reserved_38 != 0 or record.flags > GONE
              or record.visibility > 1 or record.imported > 1
              or (record.imported == 0 and record.source != 0)
              or record.domain != header.domain, No.RECORD, place)
    refuse_if(record.digest_length != lengths.get(record.hash_id)
              or not digest_is_inside(record, header), No.DIGEST, place)
    if record.flags == GONE:
        refuse_if(record.extents_offset != 0 or record.extent_count != 0, No.EXTENTS, place)
        refuse_if(record.total != 0, No.TOTAL, place)
        return
    refuse_if(record.extent_count == 0
              or (record.extents_offset - header.extents_offset) % EXTENT.size != 0
              or not extents_are_inside(record, header), No.EXTENTS, place)
    first = first_extent(record, header)
    refuse_if(sums.some_extent_passes(first, record.extent_count)
              or sums.total(first, record.extent_count) != record.total, No.TOTAL, place)


def lies_inside(start, size, section_start, section_size):
    return section_start <= start and start + size <= section_start + section_size


def digest_is_inside(record, header):
    return lies_inside(record.digest_offset, record.digest_length,
                       header.digests_offset, header.digests_size)


def extents_are_inside(record, header):
    return lies_inside(record.extents_offset, EXTENT.size * record.extent_count,
                       header.extents_offset, EXTENT.size * header.extent_count)


def first_extent(record, header):
    return (record.extents_offset - header.extents_offset) // EXTENT.size


def item_of(record, header, segment):
    digest = segment[record.digest_offset:record.digest_offset + record.digest_length]
    gone = record.flags == GONE
    return Item(record.hash_id, bytes(digest), record.visibility, record.imported, record.source,
                gone, 0 if gone else first_extent(record, header), record.extent_count,
                record.total)


def check(table, segment):
    """Gives (number, place)."""
    try:
        examine(lengths_of(table), segment)
    except Refusal as refusal:
        return refusal.number, refusal.place
    return 0, 0


# Look up --------------------------------------------------------------------------------------

# They count from 1, so that 0, which no answer has, is not taken for a state.
ABSENT, STATE_GONE, PRESENT = 1, 2, 3

# `start` is the byte of the segment at which the extents stand, `count` their number. Whatever
# does not apply to the state is 0.
Values = namedtuple("Values", "state visibility domain imported source total start count")
ABSENT_VALUES = Values(ABSENT, 0, 0, 0, 0, 0, 0, 0)


def look_up(table, segment, hash_id, digest):
    """Gives (number, place, Values), or None for the last in a refusal."""
    try:
        lengths = lengths_of(table)
        refuse_if(lengths.get(hash_id) != len(digest), No.KEY)
        examined = examine(lengths, segment)
    except Refusal as refusal:
        return refusal.number, refusal.place, None
    for item in examined.items:
        if (item.hash_id, item.digest) == (hash_id, digest):
            return 0, 0, values_of(item, examined.header)
    return 0, 0, ABSENT_VALUES


def values_of(item, header):
    common = (item.visibility, header.domain, item.imported, item.source)
    if item.gone:
        return Values(STATE_GONE, *common, 0, 0, 0)
    start = header.extents_offset + EXTENT.size * item.first_extent
    return Values(PRESENT, *common, item.total, start, item.extent_count)


# The walk -------------------------------------------------------------------------------------

def step(table, segment, record):
    """The walk's step at that record: gives (number, place, Record), or None for the last in a
    refusal and past the last record, where the walk is done."""
    try:
        records = examine(lengths_of(table), segment).records
    except Refusal as refusal:
        return refusal.number, refusal.place, None
    return 0, 0, records[record] if record < len(records) else None


# The tidy form --------------------------------------------------------------------------------

Heading = namedtuple("Heading", "shard snapshot_min snapshot_max domain seal_snapshot seal_time")


def tidy_order(item):
    return item.hash_id, item.digest


def sum_of_extent_counts(items):
    return sum(item.extent_count for item in items)


def tidy_layout(bloom, items):
    """Where the sections of the tidy form stand; refuses with 16."""
    digests_size = sum(len(item.digest) for item in items)
    places = layout(len(bloom), len(items), digests_size + -digests_size % 8,
                    sum_of_extent_counts(items))
    refuse_if(places.file_length > MOST_FILE, No.LARGE)
    return places


def write_tidy_form(heading, bloom, items, extents, out):
    """Writes the one tidy form of the meaning and gives its length; refuses with 16 and 13."""
    places = tidy_layout(bloom, items)
    refuse_if(places.file_length > len(out), No.ROOM)
    items = sorted(items, key=tidy_order)
    digests = b"".join(item.digest for item in items)
    digests += bytes(-len(digests) % 8)
    header = HEADER.pack(
        MAGIC, VERSION, heading.shard, HEADER.size, heading.snapshot_min, heading.snapshot_max,
        len(items), places.records_offset, places.bloom_offset, len(bloom),
        places.digests_offset, len(digests), places.extents_offset, sum_of_extent_counts(items),
        heading.domain, largest_visibility(items), 0, 0, 0)
    packed_extents = b"".join(
        EXTENT.pack(*extent) for item in items
        for extent in extents[item.first_extent:item.first_extent + item.extent_count])
    body = (header + bloom + pack_tidy_records(items, heading.domain, places)
            + digests + packed_extents)
    footer = FOOTER.pack(crc64(body), heading.seal_snapshot, heading.seal_time)
    out[:places.file_length] = body + footer
    return places.file_length


def pack_tidy_records(items, domain, places):
    packed = []
    digest_offset, extents_offset = places.digests_offset, places.extents_offset
    for item in items:
        packed.append(RECORD.pack(
            item.hash_id, len(item.digest), 0, digest_offset,
            0 if item.gone else extents_offset, item.extent_count, item.total, domain,
            item.visibility, item.imported, 0, item.source, GONE if item.gone else 0))
        digest_offset += len(item.digest)
        extents_offset += EXTENT.size * item.extent_count
    return b"".join(packed)


def tidy(table, segment, out):
    """Gives (number, place, length); changes `out`, a bytearray, only if nothing is refused."""
    try:
        header, bloom, _, items, extents, footer = examine(lengths_of(table), segment)
        heading = Heading(header.shard, header.snapshot_min, header.snapshot_max, header.domain,
                          footer.seal_snapshot, footer.seal_time)
        return 0, 0, write_tidy_form(heading, bloom, items, extents, out)
    except Refusal as refusal:
        return refusal.number, refusal.place, 0


def tidy_length(table, segment):
    """Gives (number, place, length) as tidy does where there is room."""
    try:
        examined = examine(lengths_of(table), segment)
        return 0, 0, tidy_layout(examined.bloom, examined.items).file_length
    except Refusal as refusal:
        return refusal.number, refusal.place, 0


# Write ----------------------------------------------------------------------------------------

Entry = namedtuple("Entry", "hash_id digest_start digest_length visibility imported source gone"
                   " first_extent extent_count")


def finished(kind, numbers):
    """The items of a flat list; an unfinished last one is not read."""
    size = len(kind._fields)
    return [kind(*numbers[at:at + size]) for at in range(0, len(numbers) - size + 1, size)]


def passes_the_end(start, count, end):
    return start + count > end


def write(table, heading, bloom, entries, digests, extents, out):
    """Gives (number, place, length); changes `out`, a bytearray, only if nothing is refused.

    `table`, `entries` and `extents` are flat lists of numbers: two to a pair, nine to an entry
    in Entry's order, three to an extent in Extent's order.
    """
    try:
        lengths = lengths_of(table)
        refuse_if(len(entries) // len(Entry._fields) > MOST_RECORDS, No.LARGE)
        refuse_if(len(bloom) % 8 != 0, No.LAYOUT_BLOOM)
        entries, extents = finished(Entry, entries), finished(Extent, extents)
        sums = RunningSums(extents)
        for number, entry in enumerate(entries):
            examine_entry(number, entry, lengths, len(digests), len(extents), sums)
        items = [item_of_entry(entry, digests, sums) for entry in entries]
        refuse_repeated_key(range(len(items)), items)
        return 0, 0, write_tidy_form(Heading(*heading), bloom, items, extents, out)
    except Refusal as refusal:
        return refusal.number, refusal.place, 0


def examine_entry(number, entry, lengths, digests_end, extents_end, sums):
    """Refusals 7, 15, 8, 9 and 10 of one entry, in this order."""
    refuse_if(entry.visibility > 1 or entry.imported > 1 or entry.gone > 1
              or entry.source > MOST_U32 or (entry.imported == 0 and entry.source != 0),
              No.RECORD, number)
    refuse_if(passes_the_end(entry.digest_start, entry.digest_length, digests_end)
              or passes_the_end(entry.first_extent, entry.extent_count, extents_end),
              No.LIST, number)
    refuse_if(entry.digest_length != lengths.get(entry.hash_id), No.DIGEST, number)
    if entry.gone:
        refuse_if(entry.first_extent != 0 or entry.extent_count != 0, No.EXTENTS, number)
        return
    refuse_if(not 1 <= entry.extent_count <= MOST_U32, No.EXTENTS, number)
    refuse_if(sums.some_extent_passes(entry.first_extent, entry.extent_count)
              or sums.total(entry.first_extent, entry.extent_count) > MOST_U32,
              No.TOTAL, number)


def item_of_entry(entry, digests, sums):
    digest = digests[entry.digest_start:entry.digest_start + entry.digest_length]
    return Item(entry.hash_id, bytes(digest), entry.visibility, entry.imported, entry.source,
                entry.gone == 1, entry.first_extent, entry.extent_count,
                sums.total(entry.first_extent, entry.extent_count))


# The listing ----------------------------------------------------------------------------------

LISTING_TABLE = [1, 32, 7, 4]
MOST_LISTED = 65_536


def listing(data):
    """The listing program's whole output for `data` on its standard input."""
    if len(data) > MOST_LISTED:
        return "too long\n"
    try:
        examined = examine(lengths_of(LISTING_TABLE), data)
    except Refusal as refusal:
        return f"refused {refusal.number} at {refusal.place}\n"
    lines = [f"records {len(examined.items)}"]
    for number, item in enumerate(examined.items):
        lines.append(f"{number} {item.hash_id} {item.digest.hex()}"
                     f" {'gone' if item.gone else 'live'}"
                     f" {'published' if item.visibility else 'internal'}"
                     f" {item.source if item.imported else '-'}"
                     f" {item.total} {item.extent_count}")
    lines.append(f"extents {sum_of_extent_counts(examined.items)}")
    for number, item in enumerate(examined.items):
        for extent in range(item.extent_count):
            block, offset, length = examined.extents[item.first_extent + extent]
            lines.append(f"{number} {extent} {block} {offset} {length}")
    return "\n".join(lines) + "\n"
