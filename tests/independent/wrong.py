"""Deliberately wrong programs, to show that the comparison notices them.

Each is asl.py, or case.py for the rules of the C side, with one function replaced: first those of
docs/SERVICES.md, "Wrong programs", then others. `PROGRAMS` maps a name to (the module,
the function's name, a maker that is given the right one and gives the wrong one).
"""

from unittest import mock

import asl
import case
from askers import ask_here
from fields import HEADER_FIELDS, RECORD_FIELDS, Places, get, put, seal


# The six of docs/SERVICES.md -----------------------------------------------------------------

def absent_when_damaged(look_up):
    def wrong(*arguments):
        number, place, values = look_up(*arguments)
        return (0, 0, asl.ABSENT_VALUES) if 7 <= number <= 12 else (number, place, values)
    return wrong


def offsets_wrap(layout):
    return lambda *sizes: asl.Layout(*(number % 2**64 for number in layout(*sizes)))


def digest_first_byte_only(_):
    return lambda record, header: asl.lies_inside(
        record.digest_offset, 1, header.digests_offset, header.digests_size)


def total_0_is_absent(look_up):
    def wrong(*arguments):
        number, place, values = look_up(*arguments)
        empty = number == 0 and values.state == asl.PRESENT and values.total == 0
        return number, place, asl.ABSENT_VALUES if empty else values
    return wrong


def gone_left_out_of_maximum(largest_visibility):
    return lambda items: largest_visibility([item for item in items if not item.gone])


def tidy_keeps_digest_places(tidy):
    """The records are sorted, but each keeps the digest offset it had."""
    def wrong(table, segment, out):
        number, place, length = tidy(table, segment, out)
        if number == 0:
            examined = asl.examine(asl.lengths_of(table), segment)
            starts = Places(segment).records
            old = [get(segment, start, RECORD_FIELDS["digest offset"]) for start in starts]
            tidied = sorted(zip(examined.items, old), key=lambda pair: asl.tidy_order(pair[0]))
            for start, (_, offset) in zip(Places(out[:length]).records, tidied):
                put(out, start, RECORD_FIELDS["digest offset"], offset)
        return number, place, length
    return wrong


# Others ---------------------------------------------------------------------------------------

def place_always_0(check):
    return lambda *arguments: (check(*arguments)[0], 0)


def duplicate_at_the_earlier(_):
    """Gives the place of the record whose key stands again, in place of where it stands again."""
    def wrong(places, items):
        keys = [(item.hash_id, item.digest) for item in items]
        for number, key in enumerate(keys):
            asl.refuse_if(key in keys[number + 1:], asl.No.DUPLICATE, places[number])
    return wrong


def duplicate_before_visibility(check):
    def wrong(table, segment):
        number, place = check(table, segment)
        if number == asl.No.VISIBILITY:
            turned = bytearray(segment)
            put(turned, 0, HEADER_FIELDS["visibility"],
                1 - get(segment, 0, HEADER_FIELDS["visibility"]))
            seal(turned)
            later = check(table, bytes(turned))
            return later if later[0] == asl.No.DUPLICATE else (number, place)
        return number, place
    return wrong


def segment_before_key(look_up):
    def wrong(table, segment, hash_id, digest):
        number, place = asl.check(table, segment)
        if number:
            return number, place, None
        return look_up(table, segment, hash_id, digest)
    return wrong


def room_before_large(tidy):
    def wrong(*arguments):
        number, place, length = tidy(*arguments)
        return asl.No.ROOM if number == asl.No.LARGE else number, place, length
    return wrong


def output_touched_when_refused(write):
    def wrong(*arguments):
        answer = write(*arguments)
        if answer[0] and arguments[-1]:
            arguments[-1][0] ^= 1
        return answer
    return wrong


def rest_of_output_cleared(write):
    def wrong(*arguments):
        number, place, length = write(*arguments)
        if number == 0:
            arguments[-1][length:] = bytes(len(arguments[-1]) - length)
        return number, place, length
    return wrong


def tidy_copies(tidy):
    def wrong(table, segment, out):
        number, place, length = tidy(table, segment, out)
        if number == 0 and len(segment) <= len(out):
            out[:len(segment)] = segment
            length = len(segment)
        return number, place, length
    return wrong


def order_of_signed_bytes(_):
    return lambda item: (item.hash_id, [(byte ^ 0x80) for byte in item.digest])


def lists_wrap(_):
    return lambda start, count, end: (start + count) % 2**64 > end


def unfinished_items_read(finished):
    def wrong(kind, numbers):
        missing = -len(numbers) % len(kind._fields)
        return finished(kind, numbers + [0] * missing)
    return wrong


def source_0_listed_as_none(listing):
    return lambda data: listing(data).replace(" 0 0 0\n", " - 0 0\n")


# The layout's rules, and places ---------------------------------------------------------------

# The refusals whose place is a record's byte; in write it is an entry's number.
OF_A_RECORD = (asl.No.RECORD, asl.No.DIGEST, asl.No.EXTENTS, asl.No.TOTAL, asl.No.DUPLICATE)


def later_rule_first(later):
    """Tries this rule of the layout before the one that stands before it."""
    def make(layout_rules):
        def wrong(header, file_length):
            rules = layout_rules(header, file_length)
            at = [number for _, number, _ in rules].index(later)
            rules[at - 1:at + 1] = rules[at], rules[at - 1]
            return rules
        return wrong
    return make


def layout_before_header(examine_header):
    def wrong(segment):
        try:
            return examine_header(segment)
        except asl.Refusal as refusal:
            if refusal.number == asl.No.HEADER:
                header = asl.Header._make(asl.HEADER.unpack_from(segment))
                for rule in asl.layout_rules(header, len(segment)):
                    asl.refuse_if(*rule)
            raise
    return wrong


def checksum_before_length(examine_header):
    def wrong(segment):
        try:
            return examine_header(segment)
        except asl.Refusal as refusal:
            right = asl.crc64(segment[:-asl.FOOTER.size])
            asl.refuse_if(refusal.number == asl.No.LAYOUT_LENGTH
                          and asl.footer_of(segment).crc64 != right, asl.No.CHECKSUM)
            raise
    return wrong


def one_number_for_the_layout(layout_rules):
    return lambda *arguments: [(broken, 5, 0) for broken, _, _ in layout_rules(*arguments)]


def digests_at_their_size(layout_rules):
    """Refuses 53 at digests size where that is no multiple of 8, in place of where its fields
    begin."""
    def wrong(header, file_length):
        at_size = header.digests_size % 8 != 0
        return [(broken, number, 72 if number == asl.No.LAYOUT_DIGESTS and at_size else place)
                for broken, number, place in layout_rules(header, file_length)]
    return wrong


def number_of_the_record(_):
    return lambda header: range(header.record_count)


def byte_of_the_section(_):
    """Counts a record's place from where the records begin."""
    return lambda header: range(0, asl.RECORD.size * header.record_count, asl.RECORD.size)


def byte_without_the_bloom(record_places):
    return lambda header: [place - header.bloom_size for place in record_places(header)]


def number_of_the_record_listed(listing):
    def wrong(data):
        text = listing(data)
        number, place = asl.check(asl.LISTING_TABLE, data)
        if text.startswith("refused") and number in OF_A_RECORD:
            return f"refused {number} at {Places(data).records.index(place)}\n"
        return text
    return wrong


def byte_of_the_entry(write):
    """Gives the byte at which an entry's record would begin, if it stood where the entry does."""
    def wrong(table, heading, bloom, *others):
        number, place, length = write(table, heading, bloom, *others)
        if number in (*OF_A_RECORD, asl.No.LIST):
            place = asl.HEADER.size + len(bloom) + asl.RECORD.size * place
        return number, place, length
    return wrong


def bloom_to_write_at_its_field(write):
    """Refuses 51 at the header's byte, though there is no header."""
    def wrong(*arguments):
        number, place, length = write(*arguments)
        return number, 48 if number == asl.No.LAYOUT_BLOOM else place, length
    return wrong


# States, steps and lengths --------------------------------------------------------------------

def state_0_for_absent(look_up):
    """A caller that has cleared its bytes before the call cannot tell this from no answer."""
    def wrong(*arguments):
        number, place, values = look_up(*arguments)
        absent = number == 0 and values.state == asl.ABSENT
        return number, place, values._replace(state=0) if absent else values
    return wrong


def room_before_segment(look_up_answer):
    def wrong(question):
        if len(question.found) < case.FOUND_SIZE:
            return case.answer_with(question, asl.No.ROOM, 0, question.found)
        return look_up_answer(question)
    return wrong


def bytes_after_the_numbers_cleared(answer_in_numbers):
    """Clears what is lent after the numbers."""
    def wrong(question, value, numbers, lent):
        return answer_in_numbers(question, value, numbers, lent[:8 * len(numbers)]
                                 + bytes(len(lent[8 * len(numbers):])))
    return wrong


def whole_numbers_are_enough(answer_in_numbers):
    """Answers in as many numbers as there is room for."""
    return lambda question, value, numbers, lent: answer_in_numbers(
        question, value, numbers[:len(lent) // 8], lent)


def segment_sorted_in_place(tidy_answer):
    """Tidies the lent segment on its way: nobody may see that, refused or not."""
    def wrong(question):
        answer = tidy_answer(question)
        table, segment, out = answer.lent
        if answer.number == 0:
            segment = (out[:answer.value] + segment[answer.value:])[:len(segment)]
        return answer._replace(lent=(table, segment, out))
    return wrong


def place_left_in_output(write_answer):
    """Leaves a refusal's place at the front of the output, as well as in its answer."""
    def wrong(question):
        answer = write_answer(question)
        if answer.number == 0:
            return answer
        place = case.numbers_as_bytes([answer.value])[:len(question.out)]
        out = place + question.out[len(place):]
        return answer._replace(lent=(*answer.lent[:-1], out))
    return wrong


def length_of_the_segment(tidy_length):
    def wrong(table, segment):
        number, place, _ = tidy_length(table, segment)
        return number, place, len(segment)
    return wrong


def shorter_length(tidy_length, excess):
    """Where a length is answered, it is less by what `excess` makes of the segment's items."""
    def wrong(table, segment):
        number, place, length = tidy_length(table, segment)
        if number == 0:
            length -= excess(asl.examine(asl.lengths_of(table), segment).items)
        return number, place, length
    return wrong


def length_counts_shared_extents_once(tidy_length):
    def shared(items):
        used = {extent for item in items for extent in range(
            item.first_extent, item.first_extent + item.extent_count)}
        return asl.EXTENT.size * (asl.sum_of_extent_counts(items) - len(used))
    return shorter_length(tidy_length, shared)


def length_without_padding(tidy_length):
    return shorter_length(tidy_length, lambda items: -sum(len(item.digest) for item in items) % 8)


def length_is_never_large(tidy_length):
    """Says how long the result would be, though tidy refuses it."""
    def wrong(table, segment):
        with mock.patch.object(asl, "MOST_FILE", 2**63):
            return tidy_length(table, segment)
    return wrong


def length_without_check(tidy_length):
    """Looks at no record by itself: gives a length for segments that tidy refuses."""
    def wrong(table, segment):
        with mock.patch.object(asl, "examine_record", lambda *_: None):
            return tidy_length(table, segment)
    return wrong


def step_gives_the_record_before(step):
    return lambda table, segment, record: step(table, segment, max(record - 1, 0))


def done_one_record_early(step):
    def wrong(table, segment, record):
        answer = step(table, segment, record)
        return answer if step(table, segment, record + 1)[2] else (*answer[:2], None)
    return wrong


def last_record_again(step):
    """Stays at the last record in place of saying done."""
    def wrong(table, segment, record):
        answer = step(table, segment, record)
        if answer[0] == 0 and answer[2] is None:
            records = asl.examine(asl.lengths_of(table), segment).records
            return (0, 0, records[-1]) if records else answer
        return answer
    return wrong


def step_cuts_the_number(step):
    return lambda table, segment, record: step(table, segment, record % 2**32)


def step_in_tidy_order(step):
    def wrong(table, segment, record):
        answer = step(table, segment, record)
        if answer[2] is None:
            return answer
        examined = asl.examine(asl.lengths_of(table), segment)
        pairs = sorted(zip(examined.items, examined.records),
                       key=lambda pair: asl.tidy_order(pair[0]))
        return 0, 0, pairs[record][1]
    return wrong


def step_stops_at_its_record(step):
    """Refuses only what it met on its way: a later record's refusal is not given."""
    def wrong(table, segment, record):
        number, place, given = step(table, segment, record)
        starts = Places(segment).records if asl.No.RECORD <= number <= asl.No.TOTAL else []
        if record < len(starts) and starts[record] < place:
            return 0, 0, asl.Record._make(asl.RECORD.unpack_from(segment, starts[record]))
        return number, place, given
    return wrong


def step_says_done_when_refused(step):
    """Says done past the last record of a segment that it refuses elsewhere."""
    def wrong(table, segment, record):
        number, place, given = step(table, segment, record)
        past = record >= get(segment, 0, HEADER_FIELDS["record count"])
        refused_behind_the_header = asl.No.RECORD <= number <= asl.No.DUPLICATE
        return (0, 0, None) if past and refused_behind_the_header else (number, place, given)
    return wrong


def room_needed_to_be_done(step_answer):
    def wrong(question):
        answer = step_answer(question)
        if answer[:3] == (0, 0, case.DONE) and len(question.fields) < case.FIELDS_SIZE:
            return case.answer_with(question, asl.No.ROOM, 0, question.fields)
        return answer
    return wrong


def fields_cleared_when_done(step_answer):
    def wrong(question):
        answer = step_answer(question)
        if answer[:3] == (0, 0, case.DONE):
            return case.answer_with(question, 0, case.DONE, bytes(len(question.fields)))
        return answer
    return wrong


PROGRAMS = {
    "absent when damaged": (asl, "look_up", absent_when_damaged),
    "offsets wrap": (asl, "layout", offsets_wrap),
    "digest first byte only": (asl, "digest_is_inside", digest_first_byte_only),
    "total 0 is absent": (asl, "look_up", total_0_is_absent),
    "gone left out of maximum": (asl, "largest_visibility", gone_left_out_of_maximum),
    "tidy keeps digest places": (asl, "tidy", tidy_keeps_digest_places),
    "place always 0": (asl, "check", place_always_0),
    "duplicate at the earlier": (asl, "refuse_repeated_key", duplicate_at_the_earlier),
    "duplicate before visibility": (asl, "check", duplicate_before_visibility),
    "segment before key": (asl, "look_up", segment_before_key),
    "room before large": (asl, "tidy", room_before_large),
    "output touched when refused": (asl, "write", output_touched_when_refused),
    "rest of output cleared": (asl, "write", rest_of_output_cleared),
    "tidy copies": (asl, "tidy", tidy_copies),
    "order of signed bytes": (asl, "tidy_order", order_of_signed_bytes),
    "lists wrap": (asl, "passes_the_end", lists_wrap),
    "unfinished items read": (asl, "finished", unfinished_items_read),
    "52 before 51": (asl, "layout_rules", later_rule_first(asl.No.LAYOUT_RECORDS)),
    "53 before 52": (asl, "layout_rules", later_rule_first(asl.No.LAYOUT_DIGESTS)),
    "54 before 53": (asl, "layout_rules", later_rule_first(asl.No.LAYOUT_EXTENTS)),
    "55 before 54": (asl, "layout_rules", later_rule_first(asl.No.LAYOUT_LENGTH)),
    "layout before header": (asl, "examine_header", layout_before_header),
    "checksum before length": (asl, "examine_header", checksum_before_length),
    "one number for the layout": (asl, "layout_rules", one_number_for_the_layout),
    "digests at their size": (asl, "layout_rules", digests_at_their_size),
    "number of the record": (asl, "record_places", number_of_the_record),
    "byte of the section": (asl, "record_places", byte_of_the_section),
    "byte without the bloom": (asl, "record_places", byte_without_the_bloom),
    "number of the record listed": (asl, "listing", number_of_the_record_listed),
    "byte of the entry": (asl, "write", byte_of_the_entry),
    "bloom to write at its field": (asl, "write", bloom_to_write_at_its_field),
    "state 0 for absent": (asl, "look_up", state_0_for_absent),
    "room before segment": (case, "look_up_answer", room_before_segment),
    "bytes after the numbers cleared": (case, "answer_in_numbers", bytes_after_the_numbers_cleared),
    "whole numbers are enough": (case, "answer_in_numbers", whole_numbers_are_enough),
    "segment sorted in place": (case, "tidy_answer", segment_sorted_in_place),
    "place left in output": (case, "write_answer", place_left_in_output),
    "length of the segment": (asl, "tidy_length", length_of_the_segment),
    "length counts shared extents once": (asl, "tidy_length", length_counts_shared_extents_once),
    "length without padding": (asl, "tidy_length", length_without_padding),
    "length is never large": (asl, "tidy_length", length_is_never_large),
    "length without check": (asl, "tidy_length", length_without_check),
    "step gives the record before": (asl, "step", step_gives_the_record_before),
    "done one record early": (asl, "step", done_one_record_early),
    "last record again": (asl, "step", last_record_again),
    "step cuts the number": (asl, "step", step_cuts_the_number),
    "step in tidy order": (asl, "step", step_in_tidy_order),
    "step stops at its record": (asl, "step", step_stops_at_its_record),
    "step says done when refused": (asl, "step", step_says_done_when_refused),
    "room needed to be done": (case, "step_answer", room_needed_to_be_done),
    "fields cleared when done": (case, "step_answer", fields_cleared_when_done),
    "source 0 listed as none": (asl, "listing", source_0_listed_as_none),
}


def asker(name):
    """An asker that answers as the wrong program does."""
    module, function, make = PROGRAMS[name]

    def ask(cases):
        with mock.patch.object(module, function, make(getattr(module, function))):
            return ask_here(cases)
    return ask
