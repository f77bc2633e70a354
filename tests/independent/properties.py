"""What holds of every accepted segment, asked of the program itself and compared with the
meaning the segment was made from, not with asl.py: its tidy form is accepted and as long as was
said before, tidying that again changes nothing, two shuffles and write have one tidy form, every
key is found with all that belongs to it, its neighbours are absent, and the walk gives each record
once and then is done.
"""

from collections import namedtuple

from asl import ABSENT_VALUES, PRESENT, STATE_GONE
from case import DONE, FIELDS_SIZE, FOUND_SIZE, LEFT, Answer, Case, numbers_from_bytes
from cases import subject_of, write_case
from shapes import lay_out, lend, pack_extents

Trial = namedtuple("Trial", "meaning segment tidied")


def problem_in(answer, expected_value=None):
    """Why an accepted segment's answer is wrong, or None; without an expected value any is
    right."""
    if not isinstance(answer, Answer):
        return answer
    if answer.number != 0:
        return f"refused {answer.number} at {answer.value}"
    if expected_value is not None and answer.value != expected_value:
        return f"value {answer.value}, not {expected_value}"
    return None


def numbers_left(answer, size):
    """The numbers at the front of what was lent last."""
    return tuple(numbers_from_bytes(answer.lent[-1][:size]))


# First round: the tidy form -------------------------------------------------------------------

def tidy_questions(rng, meaning):
    """Two shuffles to tidy and the same records to write, each with room to spare."""
    shuffles = [lay_out(rng, meaning), lay_out(rng, meaning)]
    room = subject_of("", meaning.table, shuffles[0]).tidy_length + 16
    questions = [Case("tidy", "a shuffle", table=meaning.table, segment=segment, out=bytes(room))
                 for segment in shuffles]
    question = write_case(rng, lend(rng, meaning), "the records", needed=room)
    question.out = bytes(room)
    return questions + [question]


def tidy_forms(answers):
    """The problem, or None, and the tidy form that all three answers give."""
    for answer in answers:
        problem = problem_in(answer)
        if problem:
            return problem, None
    forms = {answer.lent[-1][:answer.value] for answer in answers}
    if len(forms) != 1:
        return f"{len(forms)} tidy forms of one meaning", None
    return None, forms.pop()


# Second round: the tidy form again, its length, every key and the walk --------------------------

def neighbours(meaning):
    """Keys next to those that stand there, and the same digests under other hash ids."""
    keys = {(record.hash_id, record.digest) for record in meaning.records}
    pairs = list(zip(meaning.table[0::2], meaning.table[1::2]))
    for hash_id, digest in sorted(keys):
        size = len(digest)
        for step in (1, -1):
            number = (int.from_bytes(digest, "big") + step) % (1 << (8 * size))
            if (hash_id, number.to_bytes(size, "big")) not in keys:
                yield hash_id, number.to_bytes(size, "big")
        for other, length in pairs:
            if length == size and (other, digest) not in keys:
                yield other, digest


def key_questions(trial):
    """(question, expected values; the start of the extents is None, as it may be any)."""
    meaning = trial.meaning
    for segment in (trial.segment, trial.tidied):
        for record in meaning.records:
            common = (record.visibility, meaning.heading.domain, record.imported, record.source)
            total = sum(length for _, _, length in record.extents)
            expected = ((STATE_GONE, *common, 0, 0, 0) if record.gone else
                        (PRESENT, *common, total, None, len(record.extents)))
            yield Case("look up", "every key", table=meaning.table, segment=segment,
                       hash_id=record.hash_id, digest=record.digest), expected, record
    for hash_id, digest in neighbours(meaning):
        yield Case("look up", "a neighbour", table=meaning.table, segment=trial.segment,
                   hash_id=hash_id, digest=digest), ABSENT_VALUES, None


def problem_in_look_up(question, answer, expected, record):
    problem = problem_in(answer, expected[0])
    if problem:
        return problem
    values = numbers_left(answer, FOUND_SIZE)
    start = values[6] if expected[0] == PRESENT else 0
    right = (*expected[:6], start, expected[7])
    if values != right:
        return f"values {values}, not {right}"
    if record and not extents_stand_at(question.segment, start, record):
        return f"other extents than the record's at {start}"
    return None


def extents_stand_at(segment, start, record):
    extents = pack_extents(record.extents)
    return segment[start:start + len(extents)] == extents


def walk_questions(trial):
    """A step at each record, and one more."""
    return [Case("step", "the walk", table=trial.meaning.table, segment=trial.segment,
                 record=record) for record in range(len(trial.meaning.records) + 1)]


def walk_problems(trial, answers):
    """A problem or None for each step. A record that was given is not looked for again."""
    waiting = {(record.hash_id, record.digest): record for record in trial.meaning.records}
    problems = []
    for answer in answers[:-1]:
        problem = problem_in(answer, LEFT)
        problems.append(problem or problem_in_step(trial, waiting, answer))
    return problems + [problem_in(answers[-1], DONE)]


def problem_in_step(trial, waiting, answer):
    """What a step left, field by field, beside the one record still waiting that has its key."""
    hash_id, size, reserved, place, start, *rest = numbers_left(answer, FIELDS_SIZE)
    record = waiting.pop((hash_id, trial.segment[place:place + size]), None)
    if record is None:
        return "a key that is none of the records', or was given before"
    total = sum(length for _, _, length in record.extents)
    right = [len(record.extents), total, trial.meaning.heading.domain, record.visibility,
             record.imported, 0, record.source, int(record.gone)]
    if rest != right or reserved != 0 or (record.gone and start != 0):
        return f"fields {(reserved, start, *rest)} of a record whose last are {right}"
    if not extents_stand_at(trial.segment, start, record):
        return f"other extents than the record's at {start}"
    return None


def trial_problems(trial, ask):
    """A list with the problem, or None, of each question of the second round."""
    table, tidied = trial.meaning.table, trial.tidied
    looked_up = list(key_questions(trial))
    walk = walk_questions(trial)
    first = [Case("check", "the tidy form", table=table, segment=tidied),
             Case("tidy", "the tidy form", table=table, segment=tidied, out=bytes(len(tidied))),
             Case("tidy length", "its length", table=table, segment=trial.segment)]
    answers = iter(ask(first + walk + [question for question, _, _ in looked_up]))
    checked, again, said = next(answers), next(answers), next(answers)
    problems = [problem_in(checked, 0), problem_in(again, len(tidied)),
                problem_in(said, len(tidied))]
    if not problems[1] and again.lent[-1] != tidied:
        problems[1] = "tidying again changes the tidy form"
    problems += walk_problems(trial, [next(answers) for _ in walk])
    for question, expected, record in looked_up:
        problems.append(problem_in_look_up(question, next(answers), expected, record))
    return problems


def property_problems(rng, ask, meanings):
    """A list of (meaning, problem or None), one for each thing that was tried."""
    questions = [tidy_questions(rng, meaning) for meaning in meanings]
    answers = iter(ask([question for three in questions for question in three]))
    tried = []
    for meaning, three in zip(meanings, questions):
        problem, form = tidy_forms([next(answers) for _ in three])
        tried.append((meaning, problem))
        if form is not None:
            trial = Trial(meaning, three[0].segment, form)
            tried += [(meaning, problem) for problem in trial_problems(trial, ask)]
    return tried
