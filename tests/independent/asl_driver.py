"""A driver over asl.py, so that the comparison through a real process can be tested."""

import sys

from case import answer_of
from protocol import Reader, encode_answer


def main():
    reader = Reader(sys.stdin.buffer)
    while (case := reader.case()) is not None:
        sys.stdout.buffer.write(encode_answer(answer_of(case)))
        sys.stdout.buffer.flush()


if __name__ == "__main__":
    main()
