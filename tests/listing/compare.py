"""Runs the listing program (its command is the arguments) and compares what it writes, byte for byte, with the samples'
listings, with the independent listing (tests/independent/asl.py), and with what docs/SERVICES.md says at the limits."""

import os
import pathlib
import random
import subprocess
import sys
import time

root = pathlib.Path(__file__).resolve().parents[2]
sys.path.insert(0, str(root / "tests" / "independent"))
sys.dont_write_bytecode = True

import asl  # noqa: E402
import large  # noqa: E402
import shapes  # noqa: E402
import small  # noqa: E402

LISTED = 65_536
SHARERS, SHARED = 628, 2_046
SEED = 65_536


def listed(command, data, chunk=None):
    """What the program writes of this input, given at once or some bytes at a time."""
    program = subprocess.Popen(command, stdin=subprocess.PIPE, stdout=subprocess.PIPE)
    if chunk is None:
        return program.communicate(data)[0]
    for start in range(0, len(data), chunk):
        program.stdin.write(data[start:start + chunk])
        program.stdin.flush()
    return program.communicate()[0]


def sharing():
    """As long as may be listed, with the most lines: every record has every extent."""
    extent = shapes.pack_extent((2**64 - 1, 2**32 - 1, 1))
    record = {"hash id": 7, "digest length": 4, "extents offset": 0, "extent count": SHARED,
              "total": SHARED, "visibility": 1, "imported": 1, "source": 0}
    records = [record | {"digest offset": 4 * i} for i in range(SHARERS)]
    segment = shapes.pack(small.HEADING, records, large.distinct_digests(SHARERS), extent * SHARED,
                          bytes(8))
    assert len(segment) == LISTED
    return segment


def cases():
    for sample in sorted((root / "samples").glob("*.asl")):
        yield sample.name, sample.read_bytes(), None, sample.with_suffix(".txt").read_bytes()
    for name, data in (("nothing", b""), ("65,536 zeros", bytes(LISTED)), ("65,537 zeros", bytes(LISTED + 1)),
                       ("a longer one", bytes(3 * LISTED))):
        yield name, data, None, asl.listing(data).encode()
    one = (root / "samples" / "case-l.asl").read_bytes()
    yield "case L byte by byte", one, 1, asl.listing(one).encode()
    yield "65,537 zeros in pieces", bytes(LISTED + 1), 1_000, b"too long\n"
    most = sharing()
    yield "the most lines", most, None, asl.listing(most).encode()
    yield "the most lines and one byte more", most + b"\0", None, b"too long\n"
    rng = random.Random(SEED)
    for number in range(60):
        segment = shapes.lay_out(rng, shapes.any_meaning(rng, asl.LISTING_TABLE))
        yield f"segment {number} of seed {SEED}", segment, None, asl.listing(segment).encode()


def says_of_a_folder(command):
    """What the program writes where its input cannot be read: nothing, and one line on standard error."""
    folder = os.open(root, os.O_RDONLY)
    program = subprocess.run(command, stdin=folder, capture_output=True)
    os.close(folder)
    return program.stdout == b"" and program.stderr == b"standard input: Is a directory\n"


def main(command):
    good = says_of_a_folder(command)
    passed, failed = int(good), int(not good)
    for name, data, chunk, expected in cases():
        began = time.monotonic()
        written = listed(command, data, chunk)
        took = time.monotonic() - began
        if written == expected:
            passed += 1
        else:
            failed += 1
            print(f"{name}: {len(written)} bytes are written where {len(expected)} are expected")
        if name == "the most lines":
            lines = written.split(b"\n")
            counts = [lines[0].decode(), lines[SHARERS + 1].decode()]
            print(f"{name}: {len(data)} bytes, {counts[0]}, {counts[1]}, {len(written)} bytes written in {took:.1f} s")
            good = counts == [f"records {SHARERS}", f"extents {SHARERS * SHARED}"]
            passed, failed = passed + good, failed + (not good)
    print(f"{passed} passed, {failed} failed")
    return failed != 0


if __name__ == "__main__":
    sys.exit(main(sys.argv[1:]))
