"""driver.c over bench/plain/plain.c answers as asl.py does; and the comparison notices, through
driver.c, C programs that are wrong in ways that only C has.

A wrong program is plain.c, its own headers in their places, with some text replaced; so this needs a
C compiler for this machine.
"""

import random
import re
import subprocess
import tempfile
import unittest
from pathlib import Path

import fixtures
import testing
from askers import Driver
from case import answer_of
from cases import long_cases, random_cases, systematic_cases
from compare import Tally

SEED = 20_241
ROOT = Path(__file__).resolve().parent.parent.parent


def whole(name):
    """A file of bench/plain with the headers of that folder in their places."""
    text = (ROOT / "bench/plain" / name).read_text()
    return re.sub(r'#include "((?:bytes|items)\.h)"\n', lambda found: whole(found.group(1)), text)


PLAIN = whole("plain.c")

KEY_TESTED = "if (!allows(&t, hash_id, digest_size)) return refusal(ASL_REFUSED_KEY, 0);"
FOUND_TESTED = "if (found_size < sizeof numbers) return refusal(ASL_REFUSED_ROOM, 0);"
FIELDS_TESTED = "if (fields_size < sizeof numbers) return refusal(ASL_REFUSED_ROOM, 0);"
DONE_TESTED = "if (record >= s.record_count) return answered(ASL_STEP_DONE);"
CHECKSUM = "return crc64_on(engine == ASL_ENGINE_PLAIN ? 1 : 8, before, bytes, size);"
STEP_CALLED = "NAME(step_by)(UNCHOSEN, table, table_size, segment, segment_size, record,"
RESULT_PUT = "put_segment(out, engine, h, items, count, &p);"
TABLE_READ = "t->pairs = 0;\n"
LAID_OUT = "if (!asl_ok(laid_out)) return laid_out;"
REFUSED = "return (asl_answer){number | place << 16};"

# What stands once in it, and what stands in its place.
WRONG = {
    "found is cleared before the check": (
        KEY_TESTED, "if (found_size) found[0] = 0;\n    " + KEY_TESTED),
    "the whole of found is cleared": (
        "put_numbers(found, numbers, 8);",
        "memset(found, 0, found_size);\n    put_numbers(found, numbers, 8);"),
    "63 bytes of found are enough": (
        FOUND_TESTED,
        "if (found_size == 63) return answered(ASL_STATE_ABSENT);\n    " + FOUND_TESTED),
    "the length is told when there is no room": (
        "if (p.length > out_size) return refusal(ASL_REFUSED_ROOM, 0);",
        "if (p.length > out_size) return refusal(ASL_REFUSED_ROOM, p.length);"),
    "the hash id is cut": (KEY_TESTED, KEY_TESTED.replace("hash_id", "(uint32_t)hash_id")),
    "an unfinished number of the table is not read": (
        TABLE_READ, TABLE_READ + "    size -= size % 8;\n"),
    "check answers a value": (
        "static asl_answer accepted(void) { return answered(0); }",
        "static asl_answer accepted(void) { return answered(1); }"),
    "the place runs into which": (REFUSED, REFUSED.replace("16", "8")),
    "which is set beside a place": (REFUSED, REFUSED.replace("place", "(place > 0) << 8 | place")),
    "done needs room": (
        DONE_TESTED,
        "if (fields_size < 104) return refusal(ASL_REFUSED_ROOM, 0);\n    " + DONE_TESTED),
    "the record's number is cut": (
        DONE_TESTED, DONE_TESTED.replace("record >=", "(record = (uint32_t)record) >=")),
    "fields are cleared before their room is known": (
        FIELDS_TESTED, "memset(fields, 0, fields_size);\n    " + FIELDS_TESTED),
    "twelve of the fields are left": (
        "put_numbers(fields, numbers, 13);", "put_numbers(fields, numbers, 12);"),
    "tidy changes the lent segment": (
        "const uint8_t *footer = segment + segment_size - FOOTER;",
        "const uint8_t *footer = segment + segment_size - FOOTER;\n"
        "    ((uint8_t *)segment)[H_SHARD] ^= 1;"),
    "the plain engine differs on long inputs": (
        CHECKSUM, "before ^= engine == ASL_ENGINE_PLAIN && size > 1000;\n    " + CHECKSUM),
    "the fast engine does not look at the last eight bytes": (
        CHECKSUM, "if (engine == ASL_ENGINE_FAST && size > 300) size -= 8;\n    " + CHECKSUM),
    "the step without an engine gives the next record": (
        STEP_CALLED, STEP_CALLED.replace("record,", "record + 1,")),
    "the plain engine writes a byte beyond the result": (
        RESULT_PUT, RESULT_PUT + "\n    if (engine == ASL_ENGINE_PLAIN && out_size > p.length)"
                                 " out[p.length] ^= 1;"),
    "the plain engine changes the lent segment": (
        LAID_OUT, LAID_OUT + "\n    if (engine == ASL_ENGINE_PLAIN)"
                             " ((uint8_t *)bytes)[H_SHARD] ^= 1;"),
}
# The library's fast engine uses its tables from some such length on.
WRONG_ON_LONG = (
    CHECKSUM, "before ^= engine == ASL_ENGINE_FAST && size >= 1000;\n    " + CHECKSUM)
READS_TOO_FAR = (LAID_OUT, "if (!asl_ok(laid_out) || bytes[size] == 1) return laid_out;")


def for_the_driver(cases):
    return [case for case in cases if case.kind != "list"]


def some_cases():
    rng = random.Random(SEED)
    return for_the_driver(fixtures.cases() + list(systematic_cases(rng))[::13]
                          + list(random_cases(rng, 800)))


CASES = some_cases()
EXPECTED = [answer_of(case) for case in CASES]


def replaced(old, new):
    assert PLAIN.count(old) == 1, old
    return PLAIN.replace(old, new)


def tally_of(source, cases=CASES, expected=EXPECTED):
    """What the comparison says of driver.c over this source."""
    with tempfile.TemporaryDirectory() as folder:
        program = Path(folder, "driver")
        Path(folder, "plain.c").write_text(source)
        subprocess.run(["gcc", "-O1", "-o", program, f"-I{ROOT}/include", f"-I{ROOT}/tests/c",
                        ROOT / "tests/independent/driver.c", Path(folder, "plain.c")], check=True)
        driver, tally = Driver([program]), Tally(quiet=True)
        tally.compare(cases, expected, driver(cases))
        tally.end(driver)
    return tally


class RightProgram(unittest.TestCase):
    def test_plain(self):
        self.assertEqual(tally_of(PLAIN).failed, 0)


class WrongPrograms(unittest.TestCase):
    """One test for each program is added below."""

    def test_reads_too_far(self):
        """The memory lent ends at a wall, so it is ended and answers nothing."""
        self.assertGreater(tally_of(replaced(*READS_TOO_FAR)).failed, 0)

    def test_fast_engine_wrong_on_long_inputs(self):
        """The fixtures notice it by themselves, and so do the systematic cases over a long one."""
        for cases in (fixtures.cases(), long_cases(random.Random(SEED))):
            cases = for_the_driver(cases)
            expected = [answer_of(case) for case in cases]
            self.assertGreater(tally_of(replaced(*WRONG_ON_LONG), cases, expected).failed, 0)


def noticed(name):
    def test(self):
        tally = tally_of(replaced(*WRONG[name]))
        self.assertGreater(tally.failed, 0, f"{name}: not noticed in {len(CASES)} cases")
        self.assertGreater(tally.passed, tally.failed, f"{name}: not so wrong as this")
    return test


for program_name in WRONG:
    setattr(WrongPrograms, "test_" + program_name.replace(" ", "_"), noticed(program_name))


if __name__ == "__main__":
    testing.main()
