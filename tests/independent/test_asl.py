"""asl.py against docs/SERVICES.md, "Cases", and its checksum against liblzma's."""

import lzma
import random
import unittest

import asl
import large
import small
import testing
from fields import FOOTER_SIZE, HEADER_FIELDS, Places, get
from fixtures import with_extent, with_header, with_record

CASE_L_LISTING = """\
records 2
0 7 0a0b0c0d live published - 3 1
1 7 0a0b0c0e gone internal - 0 0
extents 1
0 0 9 64 3
"""


def xz_crc64(data):
    """The CRC-64 that liblzma puts into an .xz file: the 8 bytes before the index."""
    packed = lzma.compress(data, format=lzma.FORMAT_XZ, check=lzma.CHECK_CRC64)
    index_size = 4 * (int.from_bytes(packed[-8:-4], "little") + 1)
    index = len(packed) - 12 - index_size
    return int.from_bytes(packed[index - 8:index], "little")


def header(segment, name):
    return get(segment, 0, HEADER_FIELDS[name])


def check(segment):
    return asl.check(small.TABLE, segment)


def write(entries, digests, extents, room=1_000):
    out = bytearray(room)
    number, place, length = asl.write(small.TABLE, small.HEADING, b"", entries, digests, extents,
                                      out)
    return (number, place), bytes(out[:length])


class Checksum(unittest.TestCase):
    def test_published_vectors(self):
        self.assertEqual(asl.crc64(b"123456789"), 0x995DC9BBDF1939FA)
        self.assertEqual(asl.crc64(b""), 0)

    def test_against_liblzma(self):
        rng = random.Random(1)
        for size in (1, 2, 7, 8, 9, 255, 256, 257, 5_000):
            data = rng.randbytes(size)
            self.assertEqual(asl.crc64(data), xz_crc64(data))


class PaperCases(unittest.TestCase):
    def test_no_records(self):
        (number, place), segment = write([], b"", [])
        self.assertEqual((number, place, len(segment)), (0, 0, 136))
        self.assertEqual(segment, small.empty())
        self.assertEqual(header(segment, "bloom offset"), 0)
        for name in ("records offset", "digests offset", "extents offset"):
            self.assertEqual(header(segment, name), 112)
        self.assertEqual(check(segment), (0, 0))
        for hash_id, length in ((1, 32), (7, 4)):
            self.assertEqual(asl.look_up(small.TABLE, segment, hash_id, bytes(length)),
                             (0, 0, (1, 0, 0, 0, 0, 0, 0, 0)))

    def test_too_short(self):
        self.assertEqual(check(b""), (1, 0))
        self.assertEqual(check(bytes(135)), (1, 0))

    def test_one_digest_and_one_extent(self):
        answer, segment = write([7, 0, 4, 0, 0, 0, 0, 0, 1], small.KEY_7D, [9, 64, 3])
        self.assertEqual(answer, (0, 0))
        self.assertEqual(segment, small.one())
        self.assertEqual(header(segment, "digests offset"), 160)
        self.assertEqual(header(segment, "digests size"), 8)
        self.assertEqual(header(segment, "extents offset"), 168)
        self.assertEqual(len(segment), 208)
        self.assertEqual(segment[160:168], small.KEY_7D + bytes(4))

    def test_case_l(self):
        answer, segment = write([7, 4, 4, 0, 0, 0, 1, 0, 0, 7, 0, 4, 1, 0, 0, 0, 0, 1],
                                small.KEY_7D + small.KEY_7E, [9, 64, 3])
        self.assertEqual(answer, (0, 0))
        self.assertEqual(segment, small.case_l())
        self.assertEqual([header(segment, name) for name in
                          ("records offset", "digests offset", "extents offset")],
                         [112, 208, 216])
        self.assertEqual(len(segment), 256)
        self.assertEqual(asl.listing(segment), CASE_L_LISTING)

    def test_bloom_size_wraps(self):
        segment = with_header(small.case_l(), bloom_offset=112, bloom_size=2**64 - 112,
                              records_offset=0)
        self.assertEqual(check(segment), (52, 32))

    def test_extent_at_2_to_32(self):
        for length, answer in ((1, (0, 0)), (2, (10, 112))):
            segment = with_record(small.one(), 0, total=length)
            segment = with_extent(segment, 0, offset=4_294_967_295, length=length)
            self.assertEqual(check(segment), answer)

    def test_empty_export_is_present(self):
        segment = small.in_order([small.live(small.KEY_7D, [(9, 64, 0)])])
        self.assertEqual(asl.look_up(small.TABLE, segment, 7, small.KEY_7D),
                         (0, 0, (3, 0, 5, 0, 0, 0, 168, 1)))

    def test_live_with_no_extents(self):
        segment = with_record(small.one(), 0, extent_count=0, total=0)
        self.assertEqual(check(segment), (9, 112))

    def test_visibility_over_no_records(self):
        self.assertEqual(check(with_header(small.empty(), visibility=1)), (11, 0))

    def test_only_a_gone_record_is_published(self):
        answer, segment = write([7, 0, 4, 1, 0, 0, 1, 0, 0], small.KEY_7D, [])
        self.assertEqual(answer, (0, 0))
        self.assertEqual(header(segment, "visibility"), 1)
        self.assertEqual(check(segment), (0, 0))

    def test_every_beginning_of_case_l(self):
        segment = small.case_l()
        for size in range(len(segment)):
            self.assertEqual(check(segment[:size]), (55, 88) if size >= 136 else (1, 0))
        self.assertEqual(check(segment + b"\0"), (55, 88))

    def test_65536_and_65537_entries(self):
        for count, number in ((65_536, 0), (65_537, 16)):
            answer, segment = write(large.gone_entries(range(count)), large.distinct_digests(count), [],
                                    room=4_000_000)
            self.assertEqual(answer, (number, 0))
            self.assertEqual(len(segment), 0 if number else 136 + 52 * 65_536)

    def test_bad_total_before_bad_flag_of_the_next(self):
        segment = with_record(with_record(small.case_l(), 0, total=4), 1, flags=2)
        self.assertEqual(check(segment), (10, 112))


class Walk(unittest.TestCase):
    """Case L's records, field by field as docs/FORMAT.md prints them."""

    def step(self, record, segment=small.case_l()):
        return asl.step(small.TABLE, segment, record)

    def test_live(self):
        self.assertEqual(self.step(0), (0, 0, (7, 4, 0, 208, 216, 1, 3, 5, 1, 0, 0, 0, 0)))

    def test_gone(self):
        self.assertEqual(self.step(1), (0, 0, (7, 4, 0, 212, 0, 0, 0, 5, 0, 0, 0, 0, 1)))

    def test_done(self):
        for record in (2, 3, 2**16, 2**32, 2**64 - 1):
            self.assertEqual(self.step(record), (0, 0, None))
        self.assertEqual(self.step(0, small.empty()), (0, 0, None))

    def test_in_the_order_of_the_file(self):
        first = [self.step(record, small.mixed())[2].digest_offset for record in range(4)]
        self.assertEqual(first, [313, 345, 317, 316])

    def test_refused_wherever_the_damage_is(self):
        damaged = with_record(small.case_l(), 1, flags=2)
        for record in (0, 1, 2):
            self.assertEqual(self.step(record, damaged), (7, 160, None))


class TidyAndListing(unittest.TestCase):
    def test_mixed_by_hand(self):
        """The tidy form of the mixed sample, each part written down by hand."""
        out = bytearray(b"\xaa" * 600)
        number, place, length = asl.tidy(small.TABLE, small.mixed(), out)
        # 4 records; 32 + 3 * 4 digest bytes, padded to 48; 2 + 1 + 3 extents.
        self.assertEqual((number, place, length), (0, 0, 112 + 8 + 4 * 48 + 48 + 6 * 16 + 24))
        self.assertEqual(asl.tidy_length(small.TABLE, small.mixed()), (0, 0, length))
        self.assertEqual(out[length:], b"\xaa" * (600 - length))
        digests = bytes(range(32)) + bytes(range(3, 7)) + bytes(range(4, 8)) + small.KEY_7D
        self.assertEqual(out[312:360], digests + bytes(4))
        extents = [(2, 2**32 - 1, 1), (3, 64, 3), (1, 0, 0), (2, 2**32 - 1, 1), (3, 64, 3),
                   (1, 0, 0)]
        self.assertEqual(list(asl.EXTENT.iter_unpack(out[360:length - FOOTER_SIZE])), extents)
        records = [asl.Record._make(asl.RECORD.unpack_from(out, start))
                   for start in Places(out[:length]).records]
        self.assertEqual([record.digest_offset for record in records], [312, 344, 348, 352])
        self.assertEqual([record.extents_offset for record in records], [360, 392, 440, 0])

    def test_length_at_the_limit(self):
        for bloom_size, answer in ((8, (0, 0, 1_073_741_824)), (16, (16, 0, 0))):
            segment = large.sharing_segment(bloom_size)
            self.assertEqual(asl.tidy_length(small.TABLE, segment), answer)

    def test_listing_of_nothing(self):
        self.assertEqual(asl.listing(small.empty()), "records 0\nextents 0\n")

    def test_listing_refused(self):
        self.assertEqual(asl.listing(small.case_l()[:-1]), "refused 55 at 88\n")

    def test_listing_too_long(self):
        self.assertEqual(asl.listing(bytes(65_537)), "too long\n")
        self.assertEqual(asl.listing(bytes(65_536)), "refused 2 at 0\n")


if __name__ == "__main__":
    testing.main()
