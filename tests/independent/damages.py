"""What can be done to a whole segment: a readable list, each damage a function.

A damage changes the patient's bytes and gives a name saying what was done, or None where it does
not apply (no records, say). Places are those of the segment while it was whole, so that several
damages can be done one after another. Not every damage breaks a rule: each side of an edge is
tried, and asl.py says what comes of it.
"""

from fields import (EXTENT_FIELDS, EXTENT_SIZE, FOOTER_FIELDS, HEADER_FIELDS, HEADER_SIZE,
                    RECORD_FIELDS, RECORD_SIZE, Places, get, put, seal)


class Patient:
    def __init__(self, rng, table, segment):
        self.rng = rng
        self.table = table
        self.bytes = bytearray(segment)
        self.places = Places(segment)

    def some_record(self):
        """The number and the place of a record, or None."""
        if not self.places.records:
            return None
        number = self.rng.randrange(len(self.places.records))
        return number, self.places.records[number]

    def header(self, name):
        return get(self.bytes, 0, HEADER_FIELDS[name])

    def put_header(self, name, value):
        put(self.bytes, 0, HEADER_FIELDS[name], value)

    def record(self, start, name):
        return get(self.bytes, start, RECORD_FIELDS[name])

    def put_record(self, start, name, value):
        put(self.bytes, start, RECORD_FIELDS[name], value)


def edges(value, size):
    """What to try in a field of `size` bytes that now holds `value`: its neighbours and the
    edges of the numbers that the rules name."""
    width = 1 << (8 * size)
    near = [value + step for step in (-16, -8, -4, -1, 1, 4, 8, 16)]
    ends = [0, 1, 2, 3, 112, 136, 255, 256, 65_535, 65_536, 65_537, 2**31, 2**32 - 1, 2**32,
            2**60, 2**63, 2**64 - 112, width // 2 - 1, width // 2, width - 2, width - 1]
    wrapped = [value + 2**8, value + 2**16, value + 2**32]
    return sorted({new for new in near + ends + wrapped if 0 <= new < width} - {value})


def of_a_record(damage):
    """Makes a damage of one record, at its number and its first byte; it does not apply where there
    is none."""
    def chosen(patient):
        one = patient.some_record()
        return one and damage(patient, *one)
    return chosen


def field_at_edge(patient, fields, start, owner):
    name = patient.rng.choice(list(fields))
    old = get(patient.bytes, start, fields[name])
    new = patient.rng.choice(edges(old, fields[name][1]))
    put(patient.bytes, start, fields[name], new)
    return f"{owner} {name} {old} -> {new}"


# Single bytes and lengths ---------------------------------------------------------------------

def one_byte(patient):
    if not patient.bytes:
        return None
    place = patient.rng.randrange(len(patient.bytes))
    change = patient.rng.choice((1, 0x80, 0xFF, patient.rng.randint(1, 255)))
    patient.bytes[place] ^= change
    return f"byte {place} xor {change}"


def shorter(patient):
    cut = min(len(patient.bytes), patient.rng.choice((1, 8, 16, 24, patient.rng.randint(1, 300))))
    del patient.bytes[len(patient.bytes) - cut:]
    return f"{cut} bytes cut"


def longer(patient):
    more = patient.rng.choice((1, 8, 16, 24, patient.rng.randint(1, 100)))
    patient.bytes += patient.rng.randbytes(more)
    return f"{more} bytes more"


# Fields at their edges ------------------------------------------------------------------------

def header_field(patient):
    return field_at_edge(patient, HEADER_FIELDS, 0, "header")


@of_a_record
def record_field(patient, number, record):
    return field_at_edge(patient, RECORD_FIELDS, record, f"record {number}")


def extent_field(patient):
    if not patient.places.extents:
        return None
    number = patient.rng.randrange(len(patient.places.extents))
    return field_at_edge(patient, EXTENT_FIELDS, patient.places.extents[number],
                         f"extent {number}")


def footer_field(patient):
    return field_at_edge(patient, FOOTER_FIELDS, patient.places.footer, "footer")


# Layout ---------------------------------------------------------------------------------------

def put_layout_modulo(patient, bloom, records, digests, extents):
    """These sizes, with the offsets that they give modulo 2^64."""
    records_offset = HEADER_SIZE + bloom
    digests_offset = records_offset + RECORD_SIZE * records
    patient.put_header("bloom offset", HEADER_SIZE if bloom else 0)
    patient.put_header("bloom size", bloom)
    patient.put_header("records offset", records_offset)
    patient.put_header("record count", records)
    patient.put_header("digests offset", digests_offset)
    patient.put_header("digests size", digests)
    patient.put_header("extents offset", digests_offset + digests)
    patient.put_header("extent count", extents)


def sizes(patient):
    return [patient.header(name) for name in
            ("bloom size", "record count", "digests size", "extent count")]


def wrapping_counts(patient):
    """16 and 48 times 2^60 are multiples of 2^64: a program that wraps sees nothing."""
    bloom, records, digests, extents = sizes(patient)
    more = 2**60 * patient.rng.randint(1, 15)
    if patient.rng.random() < 0.5:
        put_layout_modulo(patient, bloom, records, digests, (extents + more) % 2**64)
    else:
        put_layout_modulo(patient, bloom, (records + more) % 2**64, digests, extents)
    return "a count that wraps to the right layout"


def wrapping_bloom(patient):
    """A great bloom: records at 0, or anywhere, and digests that come back to the right end."""
    bloom, records, digests, extents = sizes(patient)
    new = patient.rng.choice((2**64 - 112, 2**64 - 8, 2**63, 8 * patient.rng.randrange(2**61)))
    put_layout_modulo(patient, new, records, (digests + bloom - new) % 2**64, extents)
    return f"bloom size {new}, the rest fitting modulo 2^64"


LAYOUT_FIELDS = {name: HEADER_FIELDS[name] for name in (
    "bloom offset", "bloom size", "records offset", "record count", "digests offset",
    "digests size", "extents offset", "extent count")}


def layout_field(patient):
    return field_at_edge(patient, LAYOUT_FIELDS, 0, "header")


def rules_broken_together(patient):
    """Some of the layout's rules, each by a field that no rule before it looks at."""
    names = patient.rng.sample(("bloom offset", "records offset", "digests offset",
                                "extents offset", "extent count"), patient.rng.randint(2, 5))
    for name in names:
        patient.put_header(name, patient.header(name) + patient.rng.choice((-8, -1, 1, 8, 48)))
    return f"header {', '.join(names)} changed"


def section_resized(patient):
    """One size changed and every offset with it: what is wrong then is the file's length, or that
    a size is no multiple of 8."""
    new = sizes(patient)
    section = patient.rng.randrange(len(new))
    new[section] = max(new[section] + patient.rng.choice((-8, -1, 1, 4, 8, 16)), 0)
    put_layout_modulo(patient, *new)
    return f"sizes of the sections {new}"


def sections_moved(patient):
    """Another division of the same bytes that is as good a layout, if by multiples of 8."""
    bloom, records, digests, extents = sizes(patient)
    step = patient.rng.choice((8, 16, 48, 1, 4))
    if digests < step:
        return None
    put_layout_modulo(patient, bloom + step, records, digests - step, extents)
    return f"sections moved by {step}"


def sections_traded(patient):
    """The same length with one extent fewer and 16 digest bytes more, or the reverse."""
    bloom, records, digests, extents = sizes(patient)
    if extents and patient.rng.random() < 0.5:
        put_layout_modulo(patient, bloom, records, digests + 16, extents - 1)
        return "an extent counted as digest bytes"
    if digests >= 16:
        put_layout_modulo(patient, bloom, records, digests - 16, extents + 1)
        return "16 digest bytes counted as an extent"
    return None


# Records --------------------------------------------------------------------------------------

@of_a_record
def marks(patient, number, record):
    """Refusal 7's fields at values that are nearly right."""
    name, values = patient.rng.choice((
        ("visibility", (0, 1, 2)), ("imported", (0, 1, 2)), ("source", (0, 1, 2**32 - 1)),
        ("flags", (0, 1, 2, 3, 2**31)), ("reserved 6", (0, 1)), ("reserved 38", (0, 2**8)),
        ("domain", (patient.header("domain") ^ 1, patient.header("domain") ^ 2**31))))
    value = patient.rng.choice(values)
    patient.put_record(record, name, value)
    return f"record {number} {name} = {value}"


@of_a_record
def digest_at_section_edge(patient, number, record):
    """The digest ends at, or passes, the section's end; or starts at, or before, its start."""
    length = patient.record(record, "digest length")
    start, end = patient.places.digests, patient.places.digests_end
    place = patient.rng.choice((start, start - 1, end - length, end - length + 1, end - 1, end,
                                end + 1, 0, 2**64 - 1, 2**64 - length, 2**64 - length + 1))
    patient.put_record(record, "digest offset", place)
    return f"record {number} digest offset {place}, section {start} to {end}"


@of_a_record
def other_pair(patient, number, record):
    """The hash id of another pair, with its own length, the old one, or one next to it."""
    pair = 2 * patient.rng.randrange(len(patient.table) // 2)
    patient.put_record(record, "hash id", patient.table[pair])
    length = patient.table[pair + 1] + patient.rng.choice((0, 0, -1, 1))
    if patient.rng.random() < 0.7:
        patient.put_record(record, "digest length", length)
    return f"record {number} takes pair {pair // 2} of the table"


@of_a_record
def extents_at_section_edge(patient, number, record):
    count = patient.record(record, "extent count")
    start, end = patient.places.extents_start, patient.places.footer
    last = end - EXTENT_SIZE * count
    place = patient.rng.choice((start, start - 16, start + 8, last, last + 16, last - 16,
                                last + 8, end, end + 16, 0, 2**64 - 16 * count, 2**64 - 16))
    patient.put_record(record, "extents offset", place)
    return f"record {number} extents offset {place}, section {start} to {end}"


@of_a_record
def extent_count_at_edge(patient, number, record):
    count = patient.record(record, "extent count")
    there = len(patient.places.extents)
    new = patient.rng.choice((0, 1, count + 1, count - 1, there, there + 1, 2**28,
                              count + 2**28, 2**32 - 1))
    patient.put_record(record, "extent count", new)
    return f"record {number} extent count {count} -> {new}"


@of_a_record
def gone_turned(patient, number, record):
    """A live record marked gone, or a gone one live, with all or some of what belongs to it."""
    patient.put_record(record, "flags", patient.record(record, "flags") ^ 1)
    cleared = [name for name in ("extents offset", "extent count", "total")
               if patient.rng.random() < 0.6]
    for name in cleared:
        patient.put_record(record, name, 0)
    return f"record {number} gone mark turned, cleared {cleared}"


def extent_at_2_to_32(patient):
    """An extent that ends at 2^32, or passes it by one."""
    if not patient.places.extents:
        return None
    number = patient.rng.randrange(len(patient.places.extents))
    start = patient.places.extents[number]
    length = patient.rng.choice((0, 1, 2, 2**32 - 1, patient.rng.randint(1, 2**32 - 1)))
    offset = 2**32 - length + patient.rng.randint(0, 1)
    put(patient.bytes, start, EXTENT_FIELDS["offset"], offset)
    put(patient.bytes, start, EXTENT_FIELDS["length"], length)
    return f"extent {number} offset {offset} modulo 2^32, length {length}"


@of_a_record
def total_of_its_extents(patient, number, record):
    """A total made right, modulo 2^32, for whatever the record's extents now are; sometimes
    then one off."""
    first = patient.record(record, "extents offset")
    count = min(patient.record(record, "extent count"), len(patient.places.extents))
    total = sum(get(patient.bytes, first + EXTENT_SIZE * i, EXTENT_FIELDS["length"])
                for i in range(count))
    off = patient.rng.choice((0, 0, -1, 1))
    patient.put_record(record, "total", total + off)
    return f"record {number} total {total} {off:+d} modulo 2^32"


# The whole set --------------------------------------------------------------------------------

def header_visibility(patient):
    patient.put_header("visibility", patient.header("visibility") ^ 1)
    return "header visibility turned"


def same_key(patient):
    """One record takes the digest place of another, or of equal bytes elsewhere."""
    if len(patient.places.records) < 2:
        return None
    one, other = patient.rng.sample(range(len(patient.places.records)), 2)
    start, target = patient.places.records[one], patient.places.records[other]
    for name in ("hash id", "digest length", "digest offset"):
        patient.put_record(target, name, patient.record(start, name))
    return f"record {other} has the key of record {one}"


def equal_digest_bytes(patient):
    """The bytes of one digest copied over another's, at its own place."""
    if len(patient.places.records) < 2:
        return None
    one, other = patient.rng.sample(range(len(patient.places.records)), 2)
    start, target = patient.places.records[one], patient.places.records[other]
    source, place = patient.record(start, "digest offset"), patient.record(target, "digest offset")
    length = patient.record(start, "digest length")
    if max(source, place) + length > len(patient.bytes):
        return None
    patient.bytes[place:place + length] = patient.bytes[source:source + length]
    return f"digest bytes of record {one} copied over those of record {other}"


def record_twice(patient):
    if len(patient.places.records) < 2:
        return None
    one, other = patient.rng.sample(range(len(patient.places.records)), 2)
    start, target = patient.places.records[one], patient.places.records[other]
    if max(start, target) + RECORD_SIZE > len(patient.bytes):
        return None
    patient.bytes[target:target + RECORD_SIZE] = patient.bytes[start:start + RECORD_SIZE]
    return f"record {one} copied over record {other}"


DAMAGES = (
    one_byte, shorter, longer, header_field, record_field, extent_field, footer_field,
    wrapping_counts, wrapping_bloom, layout_field, rules_broken_together, section_resized,
    sections_moved, sections_traded,
    marks, digest_at_section_edge, other_pair, extents_at_section_edge, extent_count_at_edge,
    gone_turned, extent_at_2_to_32, total_of_its_extents,
    header_visibility, same_key, equal_digest_bytes, record_twice,
)

# Damages that leave header and length alone: several of these try the order and the place of
# refusals 7 to 12, which any fault before them would hide.
RECORD_DAMAGES = DAMAGES[DAMAGES.index(marks):]


def damage(rng, table, segment, how_many, damages, checksum_right):
    """The damaged bytes, and the name of what was done."""
    patient = Patient(rng, table, segment)
    done = []
    while len(done) < how_many:
        name = rng.choice(damages)(patient)
        if name:
            done.append(name)
        elif not patient.places.records:
            # Most damages need records; these always apply.
            done.append(rng.choice((header_field, footer_field))(patient))
    if checksum_right:
        seal(patient.bytes)
    done.append("checksum right" if checksum_right else "checksum left")
    return bytes(patient.bytes), "; ".join(done)
