"""Every two and every three of one fault for each refusal and each record: so that the order of
the refusals and their places are tried all over."""

from itertools import combinations, product

import small
from case import SEGMENT_KINDS, Case
from fields import HEADER_FIELDS, RECORD_FIELDS, Places, get, put, seal

RECORDS = 3
# For each of a record's refusals a field of its own, so that one fault leaves the others there.
RECORD_FAULTS = {7: ("reserved 38", 1), 8: ("digest length", 3), 9: ("extent count", 99),
                 10: ("total", 77)}
HEADER_FAULTS = {2: ("magic", 0), 3: ("version", 4), 4: ("flags", 1), 51: ("bloom offset", 0),
                 52: ("records offset", 112), 53: ("digests offset", 0),
                 54: ("extents offset", 0), 55: ("extent count", 0), 11: ("visibility", 0)}


def whole_segment():
    """With bloom bytes, so that the records do not begin where the header ends."""
    return small.in_order([small.live(small.KEY_7E, [(1, 2, 3)]),
                           small.gone(small.KEY_7C, visibility=1),
                           small.live(small.KEY_7D, [(4, 5, 6), (7, 8, 9)])], bloom=b"blooming")


# Faults are (name, function that changes a case); the segment is still a bytearray.

def header_fault(number):
    field, value = HEADER_FAULTS[number]
    return f"{number}", lambda case: put(case.segment, 0, HEADER_FIELDS[field], value)


def record_fault(number, record):
    field, value = RECORD_FAULTS[number]
    start = Places(whole_segment()).records[record]
    return f"{number} in record {record}", lambda case: put(case.segment, start,
                                                            RECORD_FIELDS[field], value)


def duplicate_fault(record):
    """The record points at the digest of the first one."""
    starts = Places(whole_segment()).records

    def change(case):
        offset = get(case.segment, starts[0], RECORD_FIELDS["digest offset"])
        put(case.segment, starts[record], RECORD_FIELDS["digest offset"], offset)
    return f"12 in record {record}", change


def less_room(case):
    """One byte less for the result, for look up's answer and for a step's."""
    case.out, case.found, case.fields = case.out[1:], case.found[1:], case.fields[1:]


def segment_faults():
    """All but 6, which is a checksum left wrong, and 1, which hides all others."""
    faults = [header_fault(number) for number in HEADER_FAULTS]
    faults += [record_fault(number, record) for number in RECORD_FAULTS
               for record in range(RECORDS)]
    faults += [duplicate_fault(record) for record in range(1, RECORDS)]
    return faults + [("13", less_room),
                     ("14", lambda case: setattr(case, "table", case.table[:-1])),
                     ("17", lambda case: setattr(case, "digest", case.digest[1:]))]


def groups(faults):
    for size in (1, 2, 3):
        for group in combinations(faults, size):
            yield ", ".join(name for name, _ in group), [change for _, change in group]


def segment_cases(rng):
    whole = whole_segment()
    for (name, changes), kind in product(groups(segment_faults()), SEGMENT_KINDS):
        sealed = rng.random() < 0.9
        case = Case(kind, f"faults {name}{'' if sealed else ', 6'}", table=small.TABLE,
                    segment=bytearray(whole), hash_id=7, digest=small.KEY_7D,
                    record=rng.randrange(RECORDS + 1), out=rng.randbytes(len(whole)))
        for change in changes:
            change(case)
        if sealed:
            seal(case.segment)
        case.segment = bytes(case.segment)
        yield case


# Write: three live entries, each with its own digest and its own extent.

WHOLE_ENTRIES = [7, 0, 4, 0, 0, 0, 0, 0, 1,
                 7, 4, 4, 1, 0, 0, 0, 1, 1,
                 7, 8, 4, 0, 1, 5, 0, 2, 1]
WHOLE_DIGESTS = small.KEY_7E + small.KEY_7C + small.KEY_7D
WHOLE_EXTENTS = [1, 2, 3, 4, 5, 6, 7, 8, 9]
WRITTEN_LENGTH = 136 + 3 * 48 + 16 + 3 * 16
# The number of an entry that each refusal's fault changes, and its new value.
ENTRY_FAULTS = {7: (3, 2), 15: (7, 3), 8: (0, 99), 9: (8, 0)}


def entry_fault(number, entry):
    field, value = ENTRY_FAULTS[number]

    def change(case):
        case.entries[9 * entry + field] = value
    return f"{number} in entry {entry}", change


def extent_fault(entry):
    def change(case):
        case.extents[3 * entry + 2] = 2**32
    return f"10 in entry {entry}", change


def repeated_key_fault(entry):
    def change(case):
        case.entries[9 * entry + 1] = 0
    return f"12 in entry {entry}", change


def write_faults():
    faults = [entry_fault(number, entry) for number in ENTRY_FAULTS for entry in range(RECORDS)]
    faults += [extent_fault(entry) for entry in range(RECORDS)]
    faults += [repeated_key_fault(entry) for entry in range(1, RECORDS)]
    return faults + [("51", lambda case: setattr(case, "bloom", b"bloom")),
                     ("13", less_room),
                     ("14", lambda case: setattr(case, "table", case.table[:-1]))]


def write_cases(rng):
    for name, changes in groups(write_faults()):
        case = Case("write", f"faults {name}", table=small.TABLE, heading=small.HEADING,
                    entries=list(WHOLE_ENTRIES), digests=WHOLE_DIGESTS,
                    extents=list(WHOLE_EXTENTS), out=rng.randbytes(WRITTEN_LENGTH))
        for change in changes:
            change(case)
        yield case


def combined_cases(rng):
    yield from segment_cases(rng)
    yield from write_cases(rng)
