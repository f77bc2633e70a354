"""Compares a program's answers with asl.py's, case by case: number, which, value and every byte
of every slice that was lent. A driver makes each call by both engines and without one, and a case
in which these differ has failed.

    compare.py [--cases N] [--seed S] [--listing COMMAND] DRIVER-COMMAND...
    compare.py [--cases N] [--seed S] --self
    compare.py [--cases N] [--seed S] --wrong NAME

N is the number of random cases; they come besides the systematic ones. --self asks asl.py in
place of a driver, --wrong a program of wrong.py, to show that the comparison can fail.
"""

import argparse
import random
import shlex
import sys
import time
from collections import Counter

import fixtures
import wrong
from askers import Driver, ask_here, batches
from asl import ABSENT, PRESENT, STATE_GONE
from case import DONE, KINDS, LEFT, LISTS, NUMBERS, SLICES, Answer, answer_of, slices_of
from cases import all_cases
from properties import property_problems
from shapes import any_meaning

# Which numbers each service can give, and which values in an answer, where these are few; all of
# them have to be met in a run.
OF_CHECK = [0, 1, 2, 3, 4, 51, 52, 53, 54, 55, 6, 7, 8, 9, 10, 11, 12, 14]
POSSIBLE = {
    "check": OF_CHECK,
    "look up": [*OF_CHECK, 13, 17],
    "tidy": [*OF_CHECK, 13, 16],
    "write": [0, 51, 7, 8, 9, 10, 12, 13, 14, 15, 16],
    "tidy length": [*OF_CHECK, 16],
    "step": [*OF_CHECK, 13],
}
POSSIBLE_VALUES = {"look up": (ABSENT, STATE_GONE, PRESENT), "step": (LEFT, DONE)}
MOST_SHOWN = 5
SHORT = 600


# Showing a difference -------------------------------------------------------------------------

def shown_bytes(data):
    return f"{len(data)} bytes: {data.hex() if len(data) <= SHORT else '(long)'}"


def shown_numbers(numbers):
    return " ".join(map(str, numbers)) if len(numbers) <= SHORT else f"{len(numbers)} numbers"


def shown_inputs(case):
    for name in NUMBERS[case.kind]:
        yield name, str(getattr(case, name))
    for name in SLICES[case.kind]:
        lent = getattr(case, name)
        yield name, shown_numbers(lent) if name in LISTS else shown_bytes(lent)
    if case.table_rest:
        yield "the table's last bytes", case.table_rest.hex()


def shown_answer(answer, case):
    if not isinstance(answer, Answer):
        return answer
    if case.kind == "list":
        return answer.lent[0][:SHORT].decode(errors="replace")
    verdict = f"refused {answer.number}" if answer.number else "answered"
    return f"{verdict}, which {answer.which}, value {answer.value}"


def shown_changes(expected, answer, case):
    """The slices that are not as they are expected, and where they differ first."""
    if len(answer.lent) != len(expected.lent):
        yield f"{len(answer.lent)} slices, not {len(expected.lent)}"
    before = slices_of(case)
    for name, was, right, there in zip(SLICES[case.kind], before, expected.lent, answer.lent):
        if there != right:
            first = next((i for i, (one, other) in enumerate(zip(there, right)) if one != other),
                         "its end")
            right_is = "unchanged" if right == was else shown_bytes(right)
            there_is = "unchanged" if there == was else shown_bytes(there)
            yield f"{name} differs first at {first}: {there_is}, not {right_is}"


def show(case, expected, answer):
    print(f"DIFFERENCE: {case.kind}, {case.name}")
    for name, text in shown_inputs(case):
        print(f"    {name}: {text}")
    print(f"    asl.py: {shown_answer(expected, case)}")
    print(f"    answer: {shown_answer(answer, case)}")
    if isinstance(answer, Answer):
        for text in shown_changes(expected, answer, case):
            print(f"    {text}")


# Counting -------------------------------------------------------------------------------------

class Tally:
    def __init__(self, quiet=False):
        self.quiet = quiet
        self.passed = 0
        self.failed = 0
        self.expected = Counter()
        self.expected_values = Counter()

    def note(self, good, explain):
        """Counts one comparison; the first few bad ones are explained."""
        if good:
            self.passed += 1
            return
        self.failed += 1
        if self.failed <= MOST_SHOWN and not self.quiet:
            explain()

    def compare(self, cases, expected, answers):
        for case, right, answer in zip(cases, expected, answers, strict=True):
            self.expected[case.kind, right.number] += 1
            if right.number == 0 and case.kind in POSSIBLE_VALUES:
                self.expected_values[case.kind, right.value] += 1
            self.note(answer == right, lambda: show(case, right, answer))

    def end(self, driver):
        problem = driver.problem_at_the_end()
        self.note(problem is None, lambda: print(f"AT THE END: {problem}"))

    def require_all(self):
        """Notes every number and every value that was never expected."""
        for possible, expected, what in ((POSSIBLE, self.expected, "number"),
                                         (POSSIBLE_VALUES, self.expected_values, "value")):
            for kind, numbers in possible.items():
                for number in numbers:
                    self.note(expected[kind, number] > 0, lambda: print(
                        f"NEVER EXPECTED: {what} {number} from {kind}"))

    def print_counts(self):
        for kind in KINDS:
            numbers = {number: count for (owner, number), count in sorted(self.expected.items())
                       if owner == kind}
            by_number = " ".join(f"{number}:{count}" for number, count in numbers.items())
            print(f"{kind}: {sum(numbers.values())} cases, by number {by_number}")


# The run --------------------------------------------------------------------------------------

def compare_all(ask, seed, count, with_listing, tally):
    rng = random.Random(seed)
    cases = (case for source in (fixtures.cases(), all_cases(rng, count))
             for case in source if with_listing or case.kind != "list")
    for batch in batches(cases):
        tally.compare(batch, [answer_of(case) for case in batch], ask(batch))
    tally.require_all()
    meanings = [any_meaning(rng) for _ in range(max(count // 40, 20))]
    tried = property_problems(rng, ask, meanings)
    for meaning, problem in tried:
        tally.note(problem is None, lambda: print(f"PROPERTY BROKEN: {problem}; {meaning}"))
    return len(tried)


def parse(argv):
    parser = argparse.ArgumentParser(description=__doc__,
                                     formatter_class=argparse.RawDescriptionHelpFormatter)
    parser.add_argument("--cases", type=int, default=10_000)
    parser.add_argument("--seed", type=int, default=None)
    parser.add_argument("--listing", default=None)
    parser.add_argument("--self", dest="itself", action="store_true")
    parser.add_argument("--wrong", choices=sorted(wrong.PROGRAMS))
    parser.add_argument("command", nargs=argparse.REMAINDER)
    args = parser.parse_args(argv)
    if bool(args.command) + args.itself + bool(args.wrong) != 1:
        parser.error("give a driver command, or --self, or --wrong NAME")
    return args


def main(argv):
    args = parse(argv)
    seed = random.SystemRandom().randrange(2**32) if args.seed is None else args.seed
    print(f"seed {seed}", flush=True)
    driver = Driver(args.command, shlex.split(args.listing) if args.listing else None)
    ask = driver if args.command else wrong.asker(args.wrong) if args.wrong else ask_here
    with_listing = not args.command or args.listing is not None
    if not with_listing:
        print("no listing program was given: the listing is not compared")
    tally, began = Tally(), time.monotonic()
    tried = compare_all(ask, seed, args.cases, with_listing, tally)
    tally.end(driver)
    tally.print_counts()
    seconds = time.monotonic() - began
    print(f"properties: {tried} tried; {seconds:.1f} s,"
          f" {(tally.passed + tally.failed) / seconds:.0f} comparisons a second")
    print(f"{tally.passed} passed, {tally.failed} failed")
    return 1 if tally.failed else 0


if __name__ == "__main__":
    sys.exit(main(sys.argv[1:]))
