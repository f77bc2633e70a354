"""The comparison notices wrong programs, wrong properties, broken drivers and missing numbers;
and has nothing to say against the right one."""

import io
import random
import re
import struct
import sys
import unittest
from contextlib import redirect_stdout
from pathlib import Path

import fixtures
import large
import testing
import wrong
from askers import Driver, ask_here
from case import DONE, Answer, answer_of
from cases import listing_cases, random_cases, systematic_cases
from compare import MOST_SHOWN, POSSIBLE, Tally
from properties import property_problems
from protocol import Reader, encode_answer, encode_case
from shapes import any_meaning

SEED = 20_240
HERE = Path(__file__).resolve().parent
ASL_DRIVER = [sys.executable, str(HERE / "asl_driver.py")]


def some_cases():
    """Enough to show each wrong program: every seventh systematic case and some of the rest."""
    rng = random.Random(SEED)
    return (fixtures.cases() + list(systematic_cases(rng))[::7] + list(random_cases(rng, 1_200))
            + list(listing_cases(rng, 20)) + list(large.size_cases(rng)))


CASES = some_cases()
EXPECTED = [answer_of(case) for case in CASES]
DRIVER_CASES = [case for case in CASES if case.kind != "list" and case.size() < 10_000][::10]


def tally_of(ask, cases=CASES, expected=EXPECTED):
    tally = Tally(quiet=True)
    tally.compare(cases, expected, ask(cases))
    return tally


def driver_tally(command, cases=DRIVER_CASES):
    driver = Driver(command)
    tally = tally_of(driver, cases, [answer_of(case) for case in cases])
    tally.end(driver)
    return tally


def python_command(script):
    return [sys.executable, "-c", f"import sys; sys.path.insert(0, {str(HERE)!r}); {script}"]


def small_property_problems(ask):
    """The properties over meanings of few records, since these tests are many."""
    rng = random.Random(SEED)
    meanings = [any_meaning(rng, record_count=count % 8) for count in range(40)]
    return property_problems(rng, ask, meanings)


class WrongPrograms(unittest.TestCase):
    """One test for each program is added below."""


def noticed(name):
    def test(self):
        tally = tally_of(wrong.asker(name))
        self.assertGreater(tally.failed, 0, f"{name}: not noticed in {len(CASES)} cases")
        self.assertGreater(tally.passed, tally.failed, f"{name}: not so wrong as this")
    return test


for program in wrong.PROGRAMS:
    setattr(WrongPrograms, "test_" + program.replace(" ", "_"), noticed(program))


class RightProgram(unittest.TestCase):
    def test_itself(self):
        self.assertEqual(tally_of(ask_here).failed, 0)

    def test_through_a_driver(self):
        tally = driver_tally(ASL_DRIVER)
        self.assertEqual((tally.passed, tally.failed), (len(DRIVER_CASES) + 1, 0))

    def test_properties(self):
        tried = small_property_problems(ask_here)
        self.assertGreater(len(tried), 500)
        self.assertEqual([problem for _, problem in tried if problem], [])


class BrokenProperties(unittest.TestCase):
    """The properties notice these with no help from asl.py's answers."""

    def test_each(self):
        for name in ("tidy copies", "tidy keeps digest places", "total 0 is absent",
                     "gone left out of maximum", "state 0 for absent", "length of the segment",
                     "length counts shared extents once", "length without padding",
                     "step gives the record before", "done one record early",
                     "last record again"):
            with self.subTest(name):
                tried = small_property_problems(wrong.asker(name))
                self.assertTrue([problem for _, problem in tried if problem])


class BrokenDrivers(unittest.TestCase):
    def test_one_that_ends_at_once(self):
        tally = driver_tally([sys.executable, "-c", "raise SystemExit(3)"])
        self.assertEqual((tally.passed, tally.failed), (1, len(DRIVER_CASES)))

    def test_one_that_says_too_much(self):
        script = "import asl_driver, sys; asl_driver.main(); sys.stdout.buffer.write(b'!')"
        tally = driver_tally(python_command(script))
        self.assertEqual((tally.passed, tally.failed), (len(DRIVER_CASES), 1))

    def test_one_whose_engines_differ(self):
        """A case has failed in which they do, though the answer that is told is right."""
        script = ("import asl_driver; right = asl_driver.encode_answer;"
                  "asl_driver.encode_answer = lambda answer: right(answer, by=answer.number == 6);"
                  "asl_driver.main()")
        tally = driver_tally(python_command(script))
        failing = [case for case in DRIVER_CASES if answer_of(case).number == 6]
        self.assertGreater(len(failing), 0)
        self.assertEqual((tally.passed, tally.failed),
                         (len(DRIVER_CASES) + 1 - len(failing), len(failing)))

    def test_one_that_ends_amid_its_answers(self):
        """The case at which it ended fails, and those after it are asked again."""
        script = ("import asl_driver, sys; right = asl_driver.answer_of;"
                  "asl_driver.answer_of = lambda case: "
                  "sys.exit(1) if case.bloom == b'odd' else right(case); asl_driver.main()")
        command = python_command(script)
        deadly = fixtures.case_of_arguments("deadly", fixtures.write_arguments())
        deadly.bloom = b"odd"
        cases = DRIVER_CASES[:10] + [deadly] + DRIVER_CASES[10:20]
        tally = driver_tally(command, cases)
        self.assertEqual((tally.passed, tally.failed), (21, 1))


class Possible(unittest.TestCase):
    def test_as_the_tests_in_c_have_it(self):
        """tests/c/given.h says by itself which numbers each call can give, 0 besides."""
        given = (HERE.parent / "c/given.h").read_text()
        rows = re.findall(r"\[([A-Z_]+)\] = \{([0-9, ]+)\}", given)
        self.assertEqual({service.lower().replace("_", " "): sorted([0, *map(int, row.split(","))])
                          for service, row in rows},
                         {kind: sorted(numbers) for kind, numbers in POSSIBLE.items()})


class Counting(unittest.TestCase):
    def test_a_number_never_expected(self):
        tally = Tally(quiet=True)
        few = [case for case, answer in zip(CASES, EXPECTED) if answer.number != 12]
        tally.compare(few, [answer_of(case) for case in few], ask_here(few))
        self.assertEqual(tally.failed, 0)
        tally.require_all()
        self.assertEqual(tally.failed, 6)  # one for each service

    def test_a_value_never_expected(self):
        tally = Tally(quiet=True)
        few = [(case, answer) for case, answer in zip(CASES, EXPECTED)
               if not (case.kind == "step" and answer[:3] == (0, 0, DONE))]
        tally.compare(*zip(*few), [answer for _, answer in few])
        tally.require_all()
        self.assertEqual(tally.failed, 1)

    def test_differences_are_shown(self):
        shown = io.StringIO()
        with redirect_stdout(shown):
            Tally().compare(CASES, EXPECTED, ["nothing"] * len(CASES))
        self.assertEqual(shown.getvalue().count("DIFFERENCE"), MOST_SHOWN)
        self.assertIn(CASES[0].name, shown.getvalue())


class Protocol(unittest.TestCase):
    def test_cases_come_back(self):
        sent = b"".join(encode_case(case) for case in DRIVER_CASES)
        reader = Reader(io.BytesIO(sent))
        for case in DRIVER_CASES:
            self.assertEqual(encode_case(reader.case()), encode_case(case))
        self.assertIsNone(reader.case())

    def test_answers_come_back(self):
        for answer in (Answer(10, 2, 2**48 - 1, (b"table", b"", b"out")),
                       Answer(255, 255, 0, ()), Answer(0, 0, 1, (b"",))):
            self.assertEqual(Reader(io.BytesIO(encode_answer(answer))).answer(), answer)

    def test_all_bits_are_told(self):
        bits = 2**64 - 1 - 2**60 - 2**20 - 2**9 - 2
        answer = Reader(io.BytesIO(struct.pack("<3Q", 0, bits, 0))).answer()
        self.assertEqual(encode_answer(answer), struct.pack("<3Q", 0, bits, 0))

    def test_an_engine_that_differs_is_no_answer(self):
        told = encode_answer(EXPECTED[0], by=2) + encode_answer(EXPECTED[0])
        reader = Reader(io.BytesIO(told))
        self.assertIn("engine 1", reader.answer())
        self.assertEqual(reader.answer(), EXPECTED[0])


if __name__ == "__main__":
    testing.main()
