"""The cases: first the systematic ones, then as many random ones as are asked for.

Every case comes from the random.Random that is handed in, so a seed settles them all.
"""

from collections import namedtuple
from itertools import cycle

import asl
import combined
import large
import small
from case import (FIELDS_SIZE, FOUND_SIZE, SEGMENT_KINDS, Case, numbers_as_bytes,
                  split_numbers)
from damages import DAMAGES, RECORD_DAMAGES, damage, edges
from fields import (EXTENT_FIELDS, FOOTER_FIELDS, HEADER_FIELDS, RECORD_FIELDS, Places, get, put,
                    seal)
from faults import spoil
from shapes import Lent, Meaning, any_meaning, broken_tables, lay_out, lend

# A whole segment with what questions about it need: the keys that stand in it and the length of
# its tidy form.
Subject = namedtuple("Subject", "name table segment keys tidy_length")


def subject_of(name, table, segment):
    examined = asl.examine(asl.lengths_of(table), segment)
    keys = [(item.hash_id, item.digest) for item in examined.items]
    tidy_length = asl.tidy_layout(examined.bloom, examined.items).file_length
    return Subject(name, table, segment, keys, tidy_length)


def small_subjects():
    return [subject_of(name, small.TABLE, make()) for name, make in small.SMALL_FILES.items()]


# Inputs besides the segment -------------------------------------------------------------------

def any_output(rng, needed):
    """An output of random bytes with a length around the needed one."""
    length = rng.choice((needed, needed, needed, needed - 1, needed + 1, needed + 100, 0,
                         rng.randint(0, needed)))
    return rng.randbytes(max(length, 0))


def any_bytes_for(rng, needed):
    """Bytes for look up's answer or a step's: mostly as many as it needs, sometimes a byte or a
    number fewer or more, or none."""
    size = rng.choices((needed, needed - 1, needed - 8, needed + 1, needed + 8, 0),
                       (78, 5, 3, 5, 5, 4))[0]
    return rng.randbytes(size)


def any_place(rng, subject):
    """A record's number: mostly of one that stands there, often the first or the last; sometimes
    past the last, a little or far, or right modulo a power of 2 only."""
    count = len(subject.keys)
    there = rng.choice((0, count - 1, rng.randrange(count))) if count else 0
    past = rng.choice((count, count + 1, 2**32, 2**64 - 1, there + 2**16, there + 2**32,
                       there + 2**63))
    return there if rng.random() < 0.7 else past


def neighbour(rng, digest):
    """The digest's neighbour in the order of bytes, or one that differs in a single bit."""
    changed = bytearray(digest)
    if rng.random() < 0.5:
        changed[rng.randrange(len(changed))] ^= 1 << rng.randrange(8)
        return bytes(changed)
    step = rng.choice((1, -1))
    number = (int.from_bytes(digest, "big") + step) % (1 << (8 * len(digest)))
    return number.to_bytes(len(digest), "big")


def any_key(rng, subject):
    """Mostly a key that stands there or its neighbour; sometimes one of a wrong length, or of a
    hash id that is unknown or right modulo 2^32 only."""
    pair = 2 * rng.randrange(len(subject.table) // 2)
    stranger = subject.table[pair], rng.randbytes(subject.table[pair + 1])
    hash_id, digest = rng.choice(subject.keys) if subject.keys else stranger
    choice = rng.random()
    if choice < 0.45:
        return hash_id, digest
    if choice < 0.7:
        return hash_id, neighbour(rng, digest)
    if choice < 0.8:
        return stranger
    if choice < 0.85:
        return subject.table[pair], digest
    if choice < 0.88:
        return (hash_id + rng.choice((1, 2**31, 2**32 - 1))) % 2**32, digest
    if choice < 0.92:
        return hash_id + 2**32 * rng.choice((1, 2**31, 2**32 - 1)), digest
    return hash_id, rng.choice((digest[:-1], digest + b"\0", b"", digest * 2, digest[:1]))


def ask(rng, kind, subject, segment, name, table=None):
    """A case of a service that is lent a segment."""
    case = Case(kind, f"{subject.name}: {name}", table=subject.table if table is None else table,
                segment=segment)
    if kind == "look up":
        case.hash_id, case.digest = any_key(rng, subject)
        case.found = any_bytes_for(rng, FOUND_SIZE)
    elif kind == "step":
        case.record, case.fields = any_place(rng, subject), any_bytes_for(rng, FIELDS_SIZE)
    elif kind == "tidy":
        case.out = any_output(rng, subject.tidy_length)
    return case


def flat(items):
    return [number for item in items for number in item]


def write_case(rng, lent, name, needed=None):
    case = Case("write", name, table=lent.table, heading=lent.heading, bloom=lent.bloom,
                entries=flat(lent.entries), digests=lent.digests, extents=flat(lent.extents))
    if needed is None:
        needed = needed_for(case)
    case.out = any_output(rng, needed)
    return case


def needed_for(case):
    """The result's length if the arguments are good, else some length; never a great one."""
    number, _, length = asl.write(case.table, case.heading, case.bloom, case.entries,
                                  case.digests, case.extents, bytearray(1 << 20))
    return length if number == 0 else 300


# Systematic cases over segments ---------------------------------------------------------------

def every_truncation(rng, subjects):
    for subject in subjects:
        for size in range(len(subject.segment)):
            for kind in SEGMENT_KINDS:
                yield ask(rng, kind, subject, subject.segment[:size], f"first {size} bytes")
        for kind in SEGMENT_KINDS:
            for more in (1, 8, 16):
                yield ask(rng, kind, subject, subject.segment + bytes(more), f"{more} more")


def changed_byte(rng, kinds, subject, place, value):
    """One byte at another value, the checksum left and made right."""
    segment = bytearray(subject.segment)
    name = f"byte {place} {segment[place]} -> {value}"
    segment[place] = value
    yield ask(rng, next(kinds), subject, bytes(segment), name + ", checksum left")
    seal(segment)
    yield ask(rng, next(kinds), subject, bytes(segment), name + ", checksum right")


def every_byte(rng, subjects):
    """Every single byte at several values, the checksum left and made right."""
    kinds = cycle(SEGMENT_KINDS)
    for subject in subjects:
        for place, old in enumerate(subject.segment):
            for value in sorted({0, 1, 2, 0x80, 0xFF, old ^ 1} - {old}):
                yield from changed_byte(rng, kinds, subject, place, value)


def structures(segment):
    """Every structure of a whole segment: its name, its place and its fields."""
    places = Places(segment)
    yield "header", 0, HEADER_FIELDS
    for number, place in enumerate(places.records):
        yield f"record {number}", place, RECORD_FIELDS
    for number, place in enumerate(places.extents):
        yield f"extent {number}", place, EXTENT_FIELDS
    yield "footer", places.footer, FOOTER_FIELDS


def every_field(rng, subjects):
    """Every field of every structure at its edges."""
    kinds = cycle(SEGMENT_KINDS)
    for subject in subjects:
        for owner, start, fields in structures(subject.segment):
            for field, place_and_size in fields.items():
                old = get(subject.segment, start, place_and_size)
                for new in edges(old, place_and_size[1]):
                    segment = bytearray(subject.segment)
                    put(segment, start, place_and_size, new)
                    if rng.random() < 0.9:
                        seal(segment)
                    name = f"{owner} {field} {old} -> {new}"
                    yield ask(rng, next(kinds), subject, bytes(segment), name)


def every_table(rng, subjects):
    """Every broken table to every service, over whole and refused segments and bad keys."""
    for subject in subjects:
        for name, table in broken_tables(rng, subject.table):
            for kind in SEGMENT_KINDS:
                yield ask(rng, kind, subject, subject.segment, name, table=table)
                yield ask(rng, kind, subject, subject.segment[:100], name + ", cut", table=table)


def every_table_size(rng, subject):
    """The table's bytes cut at every byte, and with up to 8 more, to every service."""
    whole = numbers_as_bytes(subject.table)
    for size in range(len(whole) + 9):
        name = f"table of {size} bytes"
        cases = [ask(rng, kind, subject, subject.segment, name) for kind in SEGMENT_KINDS]
        for case in [*cases, write_case(rng, small_lent(), name)]:
            case.table, case.table_rest = split_numbers((whole + bytes(8))[:size])
            yield case


def every_room(rng, subjects):
    for subject in subjects:
        for room in range(subject.tidy_length + 3):
            yield Case("tidy", f"{subject.name}: room {room} for {subject.tidy_length}",
                       table=subject.table, segment=subject.segment, out=rng.randbytes(room))


def every_found(rng, subjects):
    """Bytes for look up's answer of every size up to it and of some more, for keys that stand
    there and for one that does not."""
    for subject in subjects:
        for hash_id, digest in [*subject.keys, (7, small.KEY_7C)]:
            for size in [*range(FOUND_SIZE + 3), FOUND_SIZE + 8, 2 * FOUND_SIZE]:
                yield Case("look up", f"{subject.name}: {digest.hex()}, found of {size} bytes",
                           table=subject.table, segment=subject.segment, hash_id=hash_id,
                           digest=digest, found=rng.randbytes(size))


def every_step(rng, subjects):
    """A step at every record, past the last, and where a number that is cut would find one."""
    for subject in subjects:
        count = len(subject.keys)
        ends = [count + 1, 2**8, 2**16, 2**32 - 1, 2**32, 2**32 + 1, 2**48, 2**63, 2**64 - 1]
        for record in [*range(count + 1), *ends]:
            for size in (0, 1, 8, FIELDS_SIZE - 8, FIELDS_SIZE - 1, FIELDS_SIZE, FIELDS_SIZE + 1,
                         FIELDS_SIZE + 8, 2 * FIELDS_SIZE):
                yield Case("step", f"{subject.name}: record {record}, fields of {size} bytes",
                           table=subject.table, segment=subject.segment, record=record,
                           fields=rng.randbytes(size))


# Systematic cases over write's arguments ------------------------------------------------------

def small_lent():
    """The records of small.mixed() as write's arguments."""
    digests = bytes(range(32)) + small.KEY_7D
    entries = [[1, 0, 32, 0, 1, 8, 0, 1, 2], [7, 32, 4, 1, 1, 0, 1, 0, 0],
               [7, 4, 4, 0, 0, 0, 0, 0, 1], [7, 3, 4, 0, 0, 0, 0, 0, 3]]
    extents = [[1, 0, 0], [2, 4_294_967_295, 1], [3, 64, 3], [4, 4_294_967_295, 2]]
    return Lent(list(small.TABLE), small.HEADING, bytes(8), entries, digests, extents)


def every_number_lent(rng):
    """Every number of every entry and extent at its edges and too wide."""
    for which in ("entries", "extents"):
        for number, item in enumerate(getattr(small_lent(), which)):
            for field, old in enumerate(item):
                for new in edges(old, 8):
                    lent = small_lent()
                    getattr(lent, which)[number][field] = new
                    yield write_case(rng, lent, f"{which} {number}.{field} {old} -> {new}")


def wide_lengths(rng):
    """Digest lengths that are right modulo 2^16 only, with so many digest bytes lent that they
    do not pass the end."""
    for length in (4, 65_535, 65_536, 65_540, 70_000, 70_001):
        lent = small_lent()
        lent.digests += bytes(70_000 - len(lent.digests))
        lent.entries[1][1:3] = [0, length]
        yield write_case(rng, lent, f"digest length {length} of 70,000 lent bytes")


def every_ending(rng):
    """Lists with every unfinished last item, and shorter lists, and every bloom length."""
    whole = write_case(rng, small_lent(), "")
    for which in ("table", "entries", "extents", "digests", "bloom"):
        for size in range(len(getattr(whole, which)) + 1):
            case = write_case(rng, small_lent(), f"{which} cut to {size}")
            setattr(case, which, getattr(whole, which)[:size])
            yield case
    for more in range(1, 12):
        case = write_case(rng, small_lent(), f"{more} numbers of an entry more")
        case.entries = case.entries + [2**64 - 1] * more
        yield case


def every_room_for_write(rng):
    needed = needed_for(write_case(rng, small_lent(), ""))
    for room in range(needed + 3):
        case = write_case(rng, small_lent(), f"room {room} for {needed}")
        case.out = rng.randbytes(room)
        yield case


def every_table_for_write(rng):
    for name, table in broken_tables(rng, small.TABLE):
        for bloom in (b"", b"1"):
            lent = small_lent()
            lent.table, lent.bloom = table, bloom
            yield write_case(rng, lent, name)


# Systematic cases over a long segment ---------------------------------------------------------

def long_cases(rng):
    """The segment that is long enough for the fast engine's tables, whole, changed and written.
    These take eight bytes at a step, and every seventh byte is each of the eight in turn."""
    kinds = cycle(SEGMENT_KINDS)
    subject = subject_of("long", small.TABLE, small.long())
    for kind in SEGMENT_KINDS:
        yield ask(rng, kind, subject, subject.segment, "whole")
    footer = Places(subject.segment).footer
    checksum = range(footer, footer + FOOTER_FIELDS["crc64"][1])
    for place in [*range(0, footer, 7), *checksum]:
        yield from changed_byte(rng, kinds, subject, place, subject.segment[place] ^ 1)
    meaning = Meaning(small.TABLE, small.HEADING, small.LONG_BLOOM, small.long_records())
    for _ in range(10):
        yield write_case(rng, lend(rng, meaning), "long", needed=subject.tidy_length)


# The listing ----------------------------------------------------------------------------------

def listing_cases(rng, count):
    for subject in small_subjects():
        yield Case("list", subject.name, segment=subject.segment)
    for size in (0, 135, 65_535, 65_536, 65_537, 70_000):
        yield Case("list", f"{size} zeros", segment=bytes(size))
    for size in (65_528, 65_536, 65_544):
        yield Case("list", f"a whole segment of {size} bytes",
                   segment=small.in_order([], bloom=bytes(size - 136)))
    for _ in range(count):
        meaning = any_meaning(rng, table=small.TABLE)
        segment, name = lay_out(rng, meaning), "whole"
        if rng.random() < 0.5:
            segment, name = damage(rng, small.TABLE, segment, 1, DAMAGES, rng.random() < 0.9)
        yield Case("list", name, segment=segment)


# Random cases ---------------------------------------------------------------------------------

def other_table(rng, table):
    """A table that keeps its rule but may not be the segment's: a pair dropped, a length
    changed, the pairs in another order, or pairs added."""
    pairs = list(zip(table[0::2], table[1::2]))
    rng.shuffle(pairs)
    choice = rng.randrange(4)
    if choice == 0 and len(pairs) > 1:
        pairs.pop()
    elif choice == 1:
        hash_id, length = pairs[0]
        pairs[0] = hash_id, length % 1_024 + 1
    elif choice == 2 and len(pairs) < 16:
        known = {hash_id for hash_id, _ in pairs}
        pairs.append((next(i for i in range(17) if i not in known), rng.randint(1, 1_024)))
    return flat(pairs)


def any_segment_case(rng, subject):
    """A random question about the whole segment, or about a damaged one; seldom with a table
    whose bytes end inside a number."""
    kind = rng.choice(SEGMENT_KINDS)
    segment, name, table = subject.segment, "whole", subject.table
    if rng.random() < 0.75:
        damages = DAMAGES if rng.random() < 0.5 else RECORD_DAMAGES
        segment, name = damage(rng, subject.table, segment, rng.choice((1, 1, 2, 3, 5)), damages,
                               rng.random() < 0.9)
    if rng.random() < 0.03:
        broken, table = rng.choice(broken_tables(rng, subject.table))
        name += "; " + broken
    elif rng.random() < 0.05:
        table = other_table(rng, subject.table)
        name += "; other table"
    case = ask(rng, kind, subject, segment, name, table=table)
    if rng.random() < 0.01:
        case.table_rest = rng.randbytes(rng.randint(1, 7))
    return case


def any_unaligned_segment(rng, meaning):
    """A layout that is right but for a section's size that is no multiple of 8."""
    if rng.random() < 0.5:
        return lay_out(rng, meaning, padded=False), "digests size no multiple of 8"
    meaning = meaning._replace(bloom=rng.randbytes(rng.choice((1, 2, 4, 7, 12, 15))))
    return lay_out(rng, meaning), "bloom size no multiple of 8"


def random_cases(rng, count):
    """Groups of cases that share a meaning, so that making segments does not take all time."""
    done = 0
    while done < count:
        meaning = any_meaning(rng)
        subject = subject_of(f"{len(meaning.records)} records", meaning.table,
                             lay_out(rng, meaning))
        group = [any_segment_case(rng, subject) for _ in range(7)]
        if rng.random() < 0.1:
            segment, name = any_unaligned_segment(rng, meaning)
            group.append(ask(rng, rng.choice(SEGMENT_KINDS), subject, segment, name))
        for how_many in (0, 1, 1, 2, 4):
            lent = lend(rng, meaning)
            name = f"{len(meaning.records)} records: {spoil(rng, lent, how_many)}"
            group.append(write_case(rng, lent, name, needed=subject.tidy_length))
        yield from group[:count - done]
        done += len(group)


# All ------------------------------------------------------------------------------------------

def systematic_cases(rng):
    subjects = small_subjects()
    yield from every_truncation(rng, subjects)
    yield from every_byte(rng, subjects)
    yield from every_field(rng, subjects[1:])
    yield from every_table(rng, subjects)
    yield from every_table_size(rng, subjects[-1])
    yield from every_room(rng, subjects)
    yield from every_found(rng, subjects)
    yield from every_step(rng, subjects)
    yield from every_number_lent(rng)
    yield from wide_lengths(rng)
    yield from every_ending(rng)
    yield from every_room_for_write(rng)
    yield from every_table_for_write(rng)
    yield from long_cases(rng)
    yield from combined.combined_cases(rng)


def all_cases(rng, count):
    """Systematic cases, large ones, `count` random ones and some listings."""
    yield from systematic_cases(rng)
    yield from large.large_cases(rng)
    yield from random_cases(rng, count)
    yield from listing_cases(rng, max(count // 50, 20))
