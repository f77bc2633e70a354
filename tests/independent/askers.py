"""Ways to get answers: from asl.py here, from a driver program, from a listing program.

An asker takes a list of cases and gives a list of answers. In the place of an answer that never
came, or that is not the same by every engine, stands a string that says why.
"""

import subprocess
import threading

from case import Answer, answer_of
from protocol import Ended, Reader, encode_case

BATCH_CASES, BATCH_BYTES = 500, 16_000_000
# A hung driver fails the run; a slow one has this long for a batch.
BATCH_SECONDS = 600
# Each case that ends the driver costs a new start, so a hopeless driver is given up early.
MOST_ENDINGS = 5


def ask_here(cases):
    """Asks asl.py, or whatever stands patched in its place."""
    answers = []
    for case in cases:
        try:
            answers.append(answer_of(case))
        except Exception as problem:  # a wrong program may do anything
            answers.append(f"no answer: {problem!r}")
    return answers


def batches(cases):
    """The cases in order, in lists that are neither long nor great."""
    batch, size = [], 0
    for case in cases:
        batch.append(case)
        size += case.size()
        if len(batch) >= BATCH_CASES or size >= BATCH_BYTES:
            yield batch
            batch, size = [], 0
    if batch:
        yield batch


class Deadline:
    """Kills a process that takes too long inside of a `with`."""

    def __init__(self, process):
        self.process = process
        self.passed = False
        self.timer = threading.Timer(BATCH_SECONDS, self.pass_)

    def pass_(self):
        self.passed = True
        self.process.kill()

    def __enter__(self):
        self.timer.start()
        return self

    def __exit__(self, *_):
        self.timer.cancel()


def send(stream, data):
    """Sends cases to a driver, which may end at any of them."""
    try:
        stream.write(data)
        stream.flush()
    except OSError:
        pass


def close(stream):
    try:
        stream.close()
    except OSError:  # what could not be sent any more
        pass


class Driver:
    """A driver command, started once for all its cases, and a listing command or None."""

    def __init__(self, command, listing=None):
        self.command = command
        self.listing = listing
        self.process = None
        self.endings = 0

    def __call__(self, cases):
        listed = [case for case in cases if case.kind == "list"]
        asked = [case for case in cases if case.kind != "list"]
        listings = iter([self.list(case) for case in listed])
        answers = iter(self.ask(asked))
        return [next(listings if case.kind == "list" else answers) for case in cases]

    def ask(self, cases):
        answers = []
        for batch in batches(cases):
            answered = self.ask_batch(batch)
            while len(answered) < len(batch):
                answered += self.ask_batch(batch[len(answered):])
            answers += answered
        return answers

    def ask_batch(self, batch):
        """The answers to the first cases, at least one: the one at which the driver ended has a
        string for an answer, and the cases after it are still to be asked."""
        if self.endings >= MOST_ENDINGS:
            return ["no answer: the driver was given up"] * len(batch)
        if self.process is None:
            self.process = subprocess.Popen(self.command, stdin=subprocess.PIPE,
                                            stdout=subprocess.PIPE)
        sent = b"".join(encode_case(case) for case in batch)
        sender = threading.Thread(target=send, args=(self.process.stdin, sent))
        sender.start()
        reader, answers = Reader(self.process.stdout), []
        with Deadline(self.process) as deadline:
            try:
                for _ in batch:
                    answers.append(reader.answer())
            except Ended:
                pass
            sender.join()
        if len(answers) < len(batch):
            self.endings = MOST_ENDINGS if deadline.passed else self.endings + 1
            status, _ = self.end()
            answers.append(f"no answer: the driver ended with status {status}")
        return answers

    def end(self):
        """Ends the driver; gives its status and what it said after its answers."""
        process, self.process = self.process, None
        with Deadline(process), process:
            close(process.stdin)
            rest = process.stdout.read()
            return process.wait(), rest

    def problem_at_the_end(self):
        """Ends the driver; gives what is wrong with how it ended, or None."""
        status, rest = self.end() if self.process else (0, b"")
        if status == 0 and not rest:
            return None
        return f"the driver ended with status {status}, {len(rest)} bytes after its answers"

    def list(self, case):
        try:
            done = subprocess.run(self.listing, input=case.segment, stdout=subprocess.PIPE,
                                  timeout=BATCH_SECONDS, check=False)
        except subprocess.TimeoutExpired:
            return "no answer: the listing program took too long"
        return Answer(0, 0, 0, (done.stdout,))
