"""A case: one question to one service with all its inputs; and an answer to it.

The services are asked as the raw C calls are (include/asl.h): asl.py answers, and on top of it
stand the rules of the C side alone: the table's bytes, and the bytes that look up and step leave
their values in.
"""

import struct
from collections import namedtuple
from dataclasses import dataclass, field

import asl

# What each service is lent, in the protocol's order: numbers, and slices of bytes. A service that
# leaves something leaves it in the last slice.
NUMBERS = {"check": (), "look up": ("hash_id",), "tidy": (), "write": ("heading",),
           "tidy length": (), "step": ("record",), "list": ()}
SLICES = {"check": ("table", "segment"), "look up": ("table", "segment", "digest", "found"),
          "tidy": ("table", "segment", "out"),
          "write": ("table", "bloom", "entries", "digests", "extents", "out"),
          "tidy length": ("table", "segment"), "step": ("table", "segment", "fields"),
          "list": ("segment",)}
KINDS = tuple(SLICES)
# The calls that are lent a segment.
SEGMENT_KINDS = ("check", "look up", "tidy", "tidy length", "step")
# Those of the slices that are lists of numbers, eight bytes each.
LISTS = ("table", "entries", "extents")

# What look up and step leave, in bytes: eight numbers and thirteen.
FOUND_SIZE, FIELDS_SIZE = 64, 104
# What a step answers: a record was left, or the walk is past the last one.
LEFT, DONE = 1, 2

# What C answers in one number; and `lent`, every slice as it stands after the call. The listing
# leaves its text in place of the segment.
Answer = namedtuple("Answer", "number which value lent")


@dataclass
class Case:
    kind: str
    name: str
    table: list = field(default_factory=list)
    table_rest: bytes = b""  # after the table's last whole number: bytes of an unfinished one
    segment: bytes = b""
    hash_id: int = 0
    digest: bytes = b""
    found: bytes = b"\x5a" * FOUND_SIZE
    record: int = 0
    fields: bytes = b"\x5a" * FIELDS_SIZE
    heading: tuple = (0, 0, 0, 0, 0, 0)
    bloom: bytes = b""
    entries: list = field(default_factory=list)
    digests: bytes = b""
    extents: list = field(default_factory=list)
    out: bytes = b""

    def size(self):
        """About how many bytes the case takes on its way to a driver."""
        return sum(len(getattr(self, name)) * (8 if name in LISTS else 1)
                   for name in SLICES[self.kind])


# Numbers as bytes -----------------------------------------------------------------------------

def numbers_as_bytes(numbers):
    return struct.pack(f"<{len(numbers)}Q", *numbers)


def numbers_from_bytes(data):
    return list(struct.unpack(f"<{len(data) // 8}Q", data))


def split_numbers(data):
    """The whole numbers at the beginning of the bytes, and the bytes after them."""
    whole = len(data) - len(data) % 8
    return numbers_from_bytes(data[:whole]), data[whole:]


def slice_of(case, name):
    """What is lent under that name, as bytes."""
    lent = getattr(case, name)
    data = numbers_as_bytes(lent) if name in LISTS else bytes(lent)
    return data + case.table_rest if name == "table" else data


def slices_of(case):
    return [slice_of(case, name) for name in SLICES[case.kind]]


# Answers --------------------------------------------------------------------------------------

def table_of(case):
    """The table's numbers; an empty list, which is refused as well, where its bytes are none."""
    return [] if case.table_rest else case.table


def answer_with(case, number, value, last):
    """An answer that leaves these bytes in the last slice, and every other slice as it was."""
    return Answer(int(number), 0, value, (*slices_of(case)[:-1], bytes(last)))


def answer_in_numbers(case, value, numbers, lent):
    """An answer that leaves these numbers at the front of the lent bytes; refused for room, last
    of all refusals, where they do not fit."""
    size = 8 * len(numbers)
    if len(lent) < size:
        return answer_with(case, asl.No.ROOM, 0, lent)
    return answer_with(case, 0, value, numbers_as_bytes(numbers) + lent[size:])


def check_answer(case):
    number, place = asl.check(table_of(case), case.segment)
    return answer_with(case, number, place, case.segment)


def look_up_answer(case):
    number, place, values = asl.look_up(table_of(case), case.segment, case.hash_id, case.digest)
    if number:
        return answer_with(case, number, place, case.found)
    return answer_in_numbers(case, values.state, values, case.found)


def tidy_answer(case):
    out = bytearray(case.out)
    number, place, length = asl.tidy(table_of(case), case.segment, out)
    return answer_with(case, number, place if number else length, out)


def write_answer(case):
    out = bytearray(case.out)
    number, place, length = asl.write(table_of(case), case.heading, case.bloom, case.entries,
                                      case.digests, case.extents, out)
    return answer_with(case, number, place if number else length, out)


def tidy_length_answer(case):
    number, place, length = asl.tidy_length(table_of(case), case.segment)
    return answer_with(case, number, place if number else length, case.segment)


def step_answer(case):
    number, place, record = asl.step(table_of(case), case.segment, case.record)
    if number:
        return answer_with(case, number, place, case.fields)
    if record is None:
        return answer_with(case, 0, DONE, case.fields)
    return answer_in_numbers(case, LEFT, record, case.fields)


def list_answer(case):
    return answer_with(case, 0, 0, asl.listing(case.segment).encode())


def answer_of(case):
    """What asl.py answers, as the raw C calls say it."""
    # Found by name at each call, so that wrong.py can put another in its place.
    return globals()[f"{case.kind.replace(' ', '_')}_answer"](case)
