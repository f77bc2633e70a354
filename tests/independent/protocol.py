"""The driver's protocol, as protocol.md says it: cases and answers as bytes."""

import struct

from case import (LISTS, NUMBERS, SLICES, Answer, Case, numbers_as_bytes, numbers_from_bytes,
                  slices_of, split_numbers)

KIND_NUMBERS = {"check": 1, "look up": 2, "tidy": 3, "write": 4, "tidy length": 5, "step": 6}
KIND_NAMES = {number: name for name, number in KIND_NUMBERS.items()}
HEADING_NUMBERS = 6


def field(data):
    return struct.pack("<Q", len(data)) + data


def numbers_of(case):
    """The numbers besides the slices; the heading is six of them."""
    for name in NUMBERS[case.kind]:
        value = getattr(case, name)
        yield from value if name == "heading" else [value]


def encode_case(case):
    return (bytes([KIND_NUMBERS[case.kind]]) + numbers_as_bytes(list(numbers_of(case)))
            + b"".join(field(data) for data in slices_of(case)))


def encode_answer(answer, by=0):
    bits = answer.number + (answer.which << 8) + (answer.value << 16)
    return (numbers_as_bytes([by, bits, len(answer.lent)])
            + b"".join(field(data) for data in answer.lent))


class Ended(Exception):
    """The stream ended inside, or before, what was to be read."""


class Reader:
    """Reads cases or answers from a stream of bytes."""

    def __init__(self, stream):
        self.stream = stream

    def exactly(self, size):
        data = self.stream.read(size)
        if len(data) != size:
            raise Ended
        return data

    def numbers(self, count):
        return numbers_from_bytes(self.exactly(8 * count))

    def field(self):
        return self.exactly(self.numbers(1)[0])

    def case(self):
        """The next case, or None at the stream's end."""
        kind = self.stream.read(1)
        if not kind:
            return None
        case = Case(KIND_NAMES[kind[0]], "")
        for name in NUMBERS[case.kind]:
            heading = name == "heading"
            numbers = self.numbers(HEADING_NUMBERS if heading else 1)
            setattr(case, name, tuple(numbers) if heading else numbers[0])
        for name in SLICES[case.kind]:
            data = self.field()
            if name == "table":
                case.table, case.table_rest = split_numbers(data)
            else:
                setattr(case, name, numbers_from_bytes(data) if name in LISTS else data)
        return case

    def answer(self):
        """The next answer; or a string, where an engine answers otherwise than the call without
        one."""
        by, bits, count = self.numbers(3)
        lent = tuple(self.field() for _ in range(count))
        answer = Answer(bits & 0xFF, bits >> 8 & 0xFF, bits >> 16, lent)
        if by == 0:
            return answer
        return (f"no one answer: engine {by - 1} gives number {answer.number}, which"
                f" {answer.which}, value {answer.value}; the call without an engine gives another"
                " answer or leaves other bytes")
