"""Makes tests/fixtures/: a file for each way to earn each refusal, and some whole ones.

    fixtures.py            writes the fixtures and expected.txt
    fixtures.py --check    makes them again in memory, compares them with what stands there, and
                           asks asl.py for each expected answer

NN-name.asl is a segment under the table 1 -> 32, 7 -> 4; it is asked of check, of look up (hash
7, digest 0a0b0c0d), of tidy (65,536 bytes of room), of tidy length and of step (at record 0),
which all answer NN. NN-name.args is JSON and says its service and all its arguments; `table_rest`
are bytes after the table's last whole number, `found` and `fields` are how many bytes look up and
step are lent for their answers. The numbers and places below are written by hand: a segment's
place is a byte of it, write's is an entry's number.
"""

import json
import sys
from pathlib import Path

import small
from asl import No, listing
from case import SEGMENT_KINDS, Case, answer_of
from fields import (EXTENT_FIELDS, FOOTER_SIZE, HEADER_FIELDS, RECORD_FIELDS, Places, get, put,
                    seal)
from small import KEY_7C, KEY_7D, KEY_7E, gone, in_order, live
from shapes import pack, record_fields

FOLDER = Path(__file__).resolve().parent.parent / "fixtures"
SEGMENT_ROOM = 65_536


# Changing whole segments ----------------------------------------------------------------------

def with_header(segment, **changes):
    """The segment with header fields changed and the checksum made right."""
    changed = bytearray(segment)
    for name, value in changes.items():
        put(changed, 0, HEADER_FIELDS[name.replace("_", " ")], value)
    seal(changed)
    return bytes(changed)


def with_record(segment, number, **changes):
    changed = bytearray(segment)
    for name, value in changes.items():
        put(changed, Places(segment).records[number], RECORD_FIELDS[name.replace("_", " ")], value)
    seal(changed)
    return bytes(changed)


def with_extent(segment, number, **changes):
    changed = bytearray(segment)
    for name, value in changes.items():
        put(changed, Places(segment).extents[number], EXTENT_FIELDS[name], value)
    seal(changed)
    return bytes(changed)


def with_gap(segment, start):
    """The segment with 8 zeros put in at `start`, and every offset of what stands from there on
    made greater by 8."""
    changed = bytearray(segment[:start] + bytes(8) + segment[start:])

    def move(structure, field):
        offset = get(changed, structure, field)
        if offset >= start:
            put(changed, structure, field, offset + 8)
    for name in ("records offset", "digests offset", "extents offset"):
        move(0, HEADER_FIELDS[name])
    for record in Places(changed).records:
        for name in ("digest offset", "extents offset"):
            move(record, RECORD_FIELDS[name])
    seal(changed)
    return bytes(changed)


def with_bit_turned(segment, place):
    """The segment with the lowest bit of that byte turned, and the checksum left."""
    changed = bytearray(segment)
    changed[place] ^= 1
    return bytes(changed)


def with_wrong_checksum(segment):
    return with_bit_turned(segment, -FOOTER_SIZE)


def digests_not_by_8():
    """A segment that is right but for a digest section of 12 bytes."""
    record = record_fields(gone(KEY_7D), 0, 0)
    return pack(small.HEADING, [record], digests=KEY_7D + bytes(8))


# Case L: record 0 at 112 is live, its digest at 208, its extents at 216; record 1 at 160 is gone,
# its digest at 212. The digest section is 208 to 216, the extent section 216 to 232.
L = small.case_l()
BAD_CHECKSUM = with_wrong_checksum(L)
# 8 bytes of bloom, and four records: at 120, 168 (gone), 216 and 264.
MIXED = small.mixed()

# (name, segment, place), in the order in which check tries the refusals.
SEGMENTS = [
    ("00-empty", small.empty(), 0),
    ("00-one", small.one(), 0),
    ("00-case-l", L, 0),
    ("00-mixed", MIXED, 0),
    ("00-long", small.long(), 0),
    ("00-extent-ends-at-2-to-32", with_extent(
        with_record(small.one(), 0, total=1), 0, offset=2**32 - 1, length=1), 0),
    ("00-empty-export", in_order([live(KEY_7D, [(9, 64, 0)])]), 0),
    ("00-only-gone-is-published", in_order([live(KEY_7D, [(9, 64, 3)]),
                                            gone(KEY_7E, visibility=1)]), 0),
    ("00-imported-from-domain-0", in_order([live(KEY_7D, [(9, 64, 3)], imported=1)]), 0),
    # 1: shorter than 136 bytes.
    ("01-no-bytes", b"", 0),
    ("01-135-bytes", L[:135], 0),
    # 2: the magic of version 2.
    ("02-magic", with_header(L, magic=int.from_bytes(b"ASLIDX02", "little")), 0),
    # 3: version 2, and a version that is 3 in its low byte only.
    ("03-version-2", with_header(L, version=2), 0),
    ("03-version-259", with_header(L, version=259), 0),
    # 4: each of the header's fixed fields.
    ("04-header-size", with_header(L, header_size=120), 0),
    ("04-visibility-2", with_header(L, visibility=2), 0),
    ("04-federation-version", with_header(L, federation_version=1), 0),
    ("04-reserved", with_header(L, reserved=256), 0),
    ("04-flags", with_header(L, flags=2**63), 0),
    ("04-before-51", with_header(L, flags=1, bloom_offset=112), 0),
    # 51 to 55: each rule of the layout by each of its fields. A gap is a file that breaks that one
    # rule only, if each offset is tried against what the header says of the section before.
    ("51-bloom-offset-without-bloom", with_header(L, bloom_offset=112), 48),
    ("51-bloom-without-offset", with_header(in_order([], bloom=bytes(8)), bloom_offset=0), 48),
    ("51-bloom-offset", with_header(MIXED, bloom_offset=120), 48),
    ("51-bloom-size-0", with_header(MIXED, bloom_size=0), 48),
    ("51-bloom-not-by-8", in_order([], bloom=bytes(4)), 48),
    ("51-before-52", with_header(L, bloom_offset=112, records_offset=120), 48),
    ("51-before-52-to-55", with_header(L, bloom_offset=112, records_offset=120, digests_offset=200,
                                       extents_offset=224, extent_count=2), 48),
    # The bloom size that wraps puts the records at 0, modulo 2^64.
    ("52-bloom-size", with_header(MIXED, bloom_size=16), 32),
    ("52-bloom-size-wraps", with_header(
        L, bloom_offset=112, bloom_size=2**64 - 112, records_offset=0), 32),
    ("52-records-offset", with_header(L, records_offset=120), 32),
    ("52-gap-before-records", with_gap(L, 112), 32),
    ("52-record-count-65537", with_header(L, record_count=65_537), 32),
    ("52-record-count-wraps", with_header(L, record_count=2 + 2**60), 32),
    ("52-before-53", with_header(L, records_offset=120, digests_offset=200), 32),
    ("53-record-count", with_header(L, record_count=1), 64),
    ("53-digests-offset", with_header(L, digests_offset=200), 64),
    ("53-gap-before-digests", with_gap(L, 208), 64),
    ("53-digests-size", with_header(L, digests_size=12), 64),
    ("53-digests-not-by-8", digests_not_by_8(), 64),
    ("53-before-54", with_header(L, digests_offset=200, extents_offset=224), 64),
    # The digests size that wraps puts the extents at 8, and 14 of them end where the footer begins.
    ("54-digests-size", with_header(L, digests_size=0), 80),
    ("54-digests-size-wraps", with_header(
        L, digests_size=2**64 - 200, extents_offset=8, extent_count=14), 80),
    ("54-extents-offset", with_header(L, extents_offset=224), 80),
    ("54-gap-before-extents", with_gap(L, 216), 80),
    ("54-before-55", with_header(L, extents_offset=224, extent_count=2), 80),
    ("55-one-byte-less", L[:-1], 88),
    ("55-one-byte-more", L + b"\0", 88),
    ("55-136-bytes-of-more", L[:136], 88),
    ("55-gap-before-footer", with_gap(L, 232), 88),
    ("55-extent-count", with_header(L, extent_count=2), 88),
    ("55-extent-count-wraps", with_header(L, extent_count=1 + 2**60), 88),
    ("55-before-6", with_wrong_checksum(with_header(L, extent_count=2)), 88),
    # 6: a checksum that differs in one bit, and a changed byte under the old checksum: in a short
    # file, and in the digests of one that is long enough for the fast engine's tables.
    ("06-checksum", BAD_CHECKSUM, 0),
    ("06-padding-changed", with_bit_turned(small.one(), 167), 0),
    ("06-long", with_bit_turned(small.long(), 717), 0),
    # 7: each of a record's fixed fields, in record 1.
    ("07-reserved-6", with_record(L, 1, reserved_6=1), 160),
    ("07-reserved-38", with_record(L, 1, reserved_38=256), 160),
    ("07-flags", with_record(L, 1, flags=3), 160),
    ("07-visibility-2", with_record(L, 1, visibility=2), 160),
    ("07-imported-2", with_record(L, 1, imported=2), 160),
    ("07-source-not-imported", with_record(L, 1, source=8), 160),
    ("07-domain", with_record(L, 1, domain=6), 160),
    ("07-record-after-bloom", with_record(MIXED, 1, flags=3), 168),
    # 8: a hash id that the table lacks, a length that is not its own, and a digest that starts
    # inside the section and ends outside.
    ("08-unknown-hash-id", with_record(L, 1, hash_id=8), 160),
    ("08-wrong-length", with_record(L, 0, digest_length=5), 112),
    ("08-passes-the-end", with_record(L, 1, digest_offset=213), 160),
    ("08-before-the-start", with_record(L, 1, digest_offset=207), 160),
    ("08-offset-wraps", with_record(L, 1, digest_offset=2**64 - 2), 160),
    ("08-digest-after-bloom", with_record(MIXED, 3, hash_id=8), 264),
    # 9: a gone record with extents, a live one without, and extents that are misplaced.
    ("09-gone-with-offset", with_record(L, 1, extents_offset=216), 160),
    ("09-gone-with-count", with_record(L, 1, extent_count=1), 160),
    ("09-live-with-none", with_record(L, 0, extent_count=0, total=0), 112),
    ("09-not-by-16", with_record(MIXED, 3, extents_offset=360, extent_count=1), 264),
    ("09-passes-the-end", with_record(L, 0, extent_count=2), 112),
    ("09-before-the-start", with_record(L, 0, extents_offset=200), 112),
    ("09-extents-after-bloom", with_record(MIXED, 2, extent_count=0), 216),
    # 10: an extent that passes 2^32, a sum that differs, a sum that is right modulo 2^32 only,
    # and a gone record with a total. In the last of case L, record 1's bad flag comes too late.
    ("10-extent-passes", with_extent(
        with_record(small.one(), 0, total=2), 0, offset=2**32 - 1, length=2), 112),
    ("10-sum-differs", with_record(L, 0, total=4), 112),
    ("10-sum-passes", with_record(in_order(
        [live(KEY_7D, [(9, 0, 2**31), (9, 0, 2**31)])]), 0, total=0), 112),
    ("10-gone-with-total", with_record(L, 1, total=3), 160),
    ("10-before-7-of-the-next", with_record(with_record(L, 0, total=4), 1, flags=3), 112),
    ("10-total-after-bloom", with_record(MIXED, 3, total=5), 264),
    # 11: a maximum over no records, one too small, and one that leaves the gone record out.
    ("11-over-no-records", with_header(small.empty(), visibility=1), 0),
    ("11-too-small", with_header(L, visibility=0), 0),
    ("11-gone-left-out", with_header(in_order([live(KEY_7D, [(9, 64, 3)]),
                                               gone(KEY_7E, visibility=1)]), visibility=0), 0),
    # 12: the key of record 0 again, by other bytes; two repeated keys, the lower one given; and the
    # key of record 1 again in record 3, after 24 bytes of bloom: they begin at 184 and 280.
    ("12-duplicate", in_order([gone(KEY_7D), gone(KEY_7E), gone(KEY_7D)]), 208),
    ("12-lowest", in_order([gone(KEY_7D), gone(KEY_7E), gone(KEY_7E), gone(KEY_7D)]), 208),
    ("12-shared-digest", with_record(L, 1, digest_offset=208), 160),
    ("12-duplicate-after-bloom", in_order(
        [gone(KEY_7C), gone(KEY_7D), gone(KEY_7E), gone(KEY_7D)], bloom=bytes(24)), 280),
]


# Arguments ------------------------------------------------------------------------------------

def segment_arguments(service, segment=L, table=((1, 32), (7, 4)), **others):
    return {"service": service, "table": table, "segment": segment.hex(), **others}


def look_up_arguments(hash_id, digest, found=64, **others):
    return segment_arguments("look up", hash_id=hash_id, digest=digest.hex(), found=found, **others)


def step_arguments(record, fields=104, **others):
    return segment_arguments("step", record=record, fields=fields, **others)


LIVE_ENTRY = [7, 0, 4, 1, 0, 0, 0, 0, 1]
GONE_ENTRY = [7, 4, 4, 0, 0, 0, 1, 0, 0]


def write_arguments(**changes):
    """Case L as write's arguments: 256 bytes of result."""
    return {"service": "write", "table": [[1, 32], [7, 4]], "heading": list(small.HEADING),
            "bloom": "", "entries": [LIVE_ENTRY, GONE_ENTRY],
            "digests": (KEY_7D + KEY_7E).hex(), "extents": [[9, 64, 3]], "room": 256, **changes}


def second_entry(bloom="", extents=((9, 64, 3),), **changes):
    """Case L as write's arguments with the gone entry changed."""
    names = ("hash_id", "digest_start", "digest_length", "visibility", "imported", "source",
             "gone", "first_extent", "extent_count")
    entry = list(GONE_ENTRY)
    for name, value in changes.items():
        entry[names.index(name)] = value
    return write_arguments(entries=[LIVE_ENTRY, entry], bloom=bloom,
                           extents=[list(extent) for extent in extents])


def one_entry(extent):
    return write_arguments(entries=[LIVE_ENTRY], extents=[list(extent)])


# (name, arguments, place)
ARGUMENTS = [
    ("00-write-case-l", write_arguments(), 0),
    ("00-write-unfinished-entry", write_arguments(entries=[LIVE_ENTRY, GONE_ENTRY, [7, 0]]), 0),
    ("00-look-up-absent", look_up_arguments(7, KEY_7C), 0),
    # The last record, and past it, where no bytes are needed; at 2^32 a cut number is the first's.
    ("00-step-last", step_arguments(1), 0),
    ("00-step-done", step_arguments(2, fields=0), 0),
    ("00-step-done-at-2-to-32", step_arguments(2**32, fields=0), 0),
    ("00-step-done-at-the-most", step_arguments(2**64 - 1, fields=0), 0),
    # 51: bloom bytes that are no multiple of 8; before any entry.
    ("51-write-bloom", write_arguments(bloom="00" * 12), 0),
    ("51-write-before-7", second_entry(bloom="00" * 12, visibility=2), 0),
    # 6: too few bytes for look up's or step's answer come after the segment; and a step past the
    # last record of a bad segment is not done.
    ("06-look-up-before-found", look_up_arguments(7, KEY_7D, found=0, segment=BAD_CHECKSUM), 0),
    ("06-step-before-fields", step_arguments(0, fields=0, segment=BAD_CHECKSUM), 0),
    ("06-step-before-done", step_arguments(2, segment=BAD_CHECKSUM), 0),
    # 7: marks and visibility above 1, too wide a source, a source without the mark.
    ("07-write-visibility", second_entry(visibility=2), 1),
    ("07-write-imported", second_entry(imported=256), 1),
    ("07-write-gone", second_entry(gone=2), 1),
    ("07-write-source-too-wide", second_entry(imported=1, source=2**32), 1),
    ("07-write-source-not-imported", second_entry(source=8), 1),
    ("07-write-after-bloom", second_entry(bloom="00" * 24, visibility=2), 1),
    # 8: unknown or too wide a hash id, a length that is not its own.
    ("08-write-unknown-hash-id", second_entry(hash_id=8), 1),
    ("08-write-hash-id-too-wide", second_entry(hash_id=7 + 2**32), 1),
    ("08-write-length", second_entry(digest_length=3), 1),
    # 9: gone with extents, live with none.
    ("09-write-gone-with-first", second_entry(first_extent=1), 1),
    ("09-write-gone-with-count", second_entry(extent_count=1), 1),
    ("09-write-live-with-none", second_entry(gone=0), 1),
    # 10: an extent that passes 2^32, one too wide though it does not; a sum that does not fit, of
    # the first entry's extent and another.
    ("10-write-extent-passes", one_entry((9, 2**32 - 1, 2)), 0),
    ("10-write-offset-too-wide", one_entry((9, 2**32, 0)), 0),
    ("10-write-sum", second_entry(gone=0, extent_count=2,
                                  extents=((9, 0, 2**31), (9, 0, 2**31))), 1),
    # 12: the first entry's key again; and the second one's in the fourth, after bloom bytes.
    ("12-write-duplicate", second_entry(digest_start=0), 1),
    ("12-write-after-bloom", write_arguments(
        entries=[[7, start, 4, 0, 0, 0, 1, 0, 0] for start in (0, 4, 1, 4)], bloom="00" * 24), 3),
    # 13: one byte short.
    ("13-tidy-room", segment_arguments("tidy", room=255), 0),
    ("13-write-room", write_arguments(room=255), 0),
    ("13-look-up-found", look_up_arguments(7, KEY_7D, found=63), 0),
    ("13-look-up-found-absent", look_up_arguments(7, KEY_7C, found=63), 0),
    ("13-step-fields", step_arguments(0, fields=103), 0),
    ("13-step-fields-last", step_arguments(1, fields=0), 0),
    # 14: each rule of the table; in look up it comes before the unknown key.
    ("14-check-empty", segment_arguments("check", table=[]), 0),
    ("14-check-unfinished", segment_arguments("check", table=[[1, 32], [7, 4], [8]]), 0),
    ("14-check-inside-a-number", segment_arguments("check", table=[[1, 32], [7]],
                                                   table_rest="04000000000000"), 0),
    ("14-check-17-pairs", segment_arguments("check", table=[[i, 4] for i in range(17)]), 0),
    ("14-check-length-0", segment_arguments("check", table=[[1, 0], [7, 4]]), 0),
    ("14-check-length-1025", segment_arguments("check", table=[[1, 1_025], [7, 4]]), 0),
    ("14-check-twice", segment_arguments("check", table=[[7, 4], [7, 4]]), 0),
    ("14-check-hash-id-too-wide", segment_arguments("check", table=[[7, 4], [2**32, 4]]), 0),
    ("14-look-up", look_up_arguments(9, b"", table=[]), 0),
    ("14-tidy", segment_arguments("tidy", table=[], room=256), 0),
    ("14-write", write_arguments(table=[]), 0),
    ("14-tidy-length", segment_arguments("tidy length", table=[]), 0),
    ("14-step", step_arguments(2, fields=0, table=[]), 0),
    # 15: a digest or a run of extents that passes the end of its list, once by wrapping, once
    # because the last extent is unfinished.
    ("15-write-digest", second_entry(digest_start=5), 1),
    ("15-write-digest-wraps", second_entry(digest_start=2**64 - 2), 1),
    ("15-write-extents", second_entry(gone=0, extent_count=2), 1),
    ("15-write-gone-too", second_entry(first_extent=2), 1),
    ("15-write-unfinished-extent", write_arguments(extents=[[9, 64]]), 0),
    # 16: one entry too many, though each of them is bad; and the bloom bytes with them.
    ("16-write-65537-entries", write_arguments(
        entries=[[7, 9, 9, 9, 9, 9, 9, 9, 9]], entries_times=65_537), 0),
    ("16-write-before-51", write_arguments(
        entries=[[7, 9, 9, 9, 9, 9, 9, 9, 9]], entries_times=65_537, bloom="00" * 12), 0),
    # 17: a hash id that the table lacks or that is right modulo 2^32 only, a length that is not its
    # own; before the segment.
    ("17-look-up-unknown-hash-id", look_up_arguments(8, KEY_7D), 0),
    ("17-look-up-hash-id-too-wide", look_up_arguments(7 + 2**32, KEY_7D), 0),
    ("17-look-up-length", look_up_arguments(7, KEY_7D[:3]), 0),
    ("17-look-up-before-the-segment", look_up_arguments(7, b"", segment=b""), 0),
]


# From fixtures to cases -----------------------------------------------------------------------

def flat(lists):
    return [number for numbers in lists for number in numbers]


def case_of_arguments(name, arguments):
    case = Case(arguments["service"], name, table=flat(arguments["table"]),
                table_rest=bytes.fromhex(arguments.get("table_rest", "")),
                out=bytes(arguments.get("room", 0)))
    if case.kind == "write":
        case.heading = tuple(arguments["heading"])
        case.bloom = bytes.fromhex(arguments["bloom"])
        case.entries = flat(arguments["entries"]) * arguments.get("entries_times", 1)
        case.digests = bytes.fromhex(arguments["digests"])
        case.extents = flat(arguments["extents"])
        return case
    case.segment = bytes.fromhex(arguments["segment"])
    if case.kind == "look up":
        case.hash_id = arguments["hash_id"]
        case.digest = bytes.fromhex(arguments["digest"])
        case.found = bytes(arguments["found"])
    elif case.kind == "step":
        case.record = arguments["record"]
        case.fields = bytes(arguments["fields"])
    return case


def cases_of_segment(name, segment):
    for kind in SEGMENT_KINDS:
        yield Case(kind, name, table=small.TABLE, segment=segment, hash_id=7, digest=KEY_7D,
                   out=bytes(SEGMENT_ROOM))


def expectations():
    """(file, case, number, place) of every fixture."""
    for name, segment, place in SEGMENTS:
        for case in cases_of_segment(f"fixture {name}", segment):
            yield f"{name}.asl", case, int(name[:2]), place
    for name, arguments, place in ARGUMENTS:
        case = case_of_arguments(f"fixture {name}", arguments)
        yield f"{name}.args", case, int(name[:2]), place


def cases():
    """The cases of every fixture; the listing is asked for each segment too."""
    listed = [Case("list", f"fixture {name}", segment=segment) for name, segment, _ in SEGMENTS]
    return [case for _, case, _, _ in expectations()] + listed


# Files ----------------------------------------------------------------------------------------

def written_arguments(arguments):
    """JSON with one argument to a line."""
    lines = [f"  {json.dumps(name)}: {json.dumps(value)}" for name, value in arguments.items()]
    return ("{\n" + ",\n".join(lines) + "\n}\n").encode()


def files():
    """Every file of the folder: its name and its bytes."""
    made = {f"{name}.asl": segment for name, segment, _ in SEGMENTS}
    made |= {f"{name}.args": written_arguments(arguments) for name, arguments, _ in ARGUMENTS}
    lines = ["# file, service, number, place; made by tests/independent/fixtures.py"]
    lines += [f"{file} {case.kind.replace(' ', '-')} {number} {place}"
              for file, case, number, place in expectations()]
    made["expected.txt"] = ("\n".join(lines) + "\n").encode()
    return made


def check():
    """Every problem with what stands in the folder or with asl.py's answers, and how much was
    tried."""
    problems, tried = [], 0
    made = files()
    there = {path.name for path in FOLDER.iterdir() if path.suffix in (".asl", ".args", ".txt")}
    problems += [f"{name} is not made by fixtures.py" for name in sorted(there - set(made))]
    for name, content in made.items():
        tried += 1
        if name not in there or (FOLDER / name).read_bytes() != content:
            problems.append(f"{name} is missing or differs from what fixtures.py makes")
    for file, case, number, place in expectations():
        tried += 1
        answer = answer_of(case)
        if answer.number != number or (number and answer.value != place):
            problems.append(f"{file}: {case.kind} answers {answer.number} at {answer.value}, "
                            f"not {number} at {place}")
    for name, segment, place in SEGMENTS:
        tried += 1
        number, listed = int(name[:2]), listing(segment)
        if not listed.startswith(f"refused {number} at {place}\n" if number else "records "):
            problems.append(f"{name}: the listing is {listed!r}")
    for number in (0, *No):
        tried += 1
        if not any(name.startswith(f"{number:02}-") for name in made):
            problems.append(f"no fixture for {number}")
    return problems, tried


def main(argv):
    if argv == ["--check"]:
        problems, tried = check()
        for problem in problems:
            print(problem)
        print(f"{tried - len(problems)} passed, {len(problems)} failed")
        return 1 if problems else 0
    FOLDER.mkdir(exist_ok=True)
    for name, content in files().items():
        (FOLDER / name).write_bytes(content)
    return 0


if __name__ == "__main__":
    sys.exit(main(sys.argv[1:]))
