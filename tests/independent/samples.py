"""Makes samples/: small segments under the listing's table (1 -> 32, 7 -> 4), each with the
listing program's whole output beside it.

    samples.py            writes the samples
    samples.py --check    makes them again in memory and compares them with what stands there
"""

import sys
from pathlib import Path

import asl
import small
from fixtures import with_header, with_record

FOLDER = Path(__file__).resolve().parent.parent.parent / "samples"


def tidied(segment):
    out = bytearray(65_536)
    length = asl.tidy(small.TABLE, segment, out)[2]
    return bytes(out[:length])


def long_digests():
    """Two 32-byte digests, published and internal, one imported."""
    return small.in_order([
        small.live(bytes(range(32)), [(1, 0, 4_294_967_295)], hash_id=1, visibility=1),
        small.live(b"\xff" * 32, [(18_446_744_073_709_551_615, 4_294_967_295, 1)], hash_id=1,
                   imported=1, source=4_294_967_295)])


CASE_L = small.case_l(small.PRINTED_HEADING)
SAMPLES = {
    # As docs/FORMAT.md prints it, byte for byte (test_format.py).
    "case-l": CASE_L,
    "empty": small.empty(),
    "one": small.one(),
    "long-digests": long_digests(),
    # Out of order, with shared digest bytes and extents; and its tidy form.
    "mixed": small.mixed(),
    "mixed-tidy": tidied(small.mixed()),
    "refused-short": CASE_L[:100],
    "refused-magic": with_header(CASE_L, magic=0),
    "refused-cut": CASE_L[:-1],
    # Its digests offset is 200; the digests begin at 208.
    "refused-offset": with_header(CASE_L, digests_offset=200),
    "refused-checksum": CASE_L[:-1 - 16] + b"\xff" + CASE_L[-16:],
    # Record 1's flags are 3, under the old checksum.
    "refused-damaged": CASE_L[:204] + b"\3" + CASE_L[205:],
    "refused-total": with_record(small.mixed(), 3, total=5),
    "refused-duplicate": small.in_order([small.gone(small.KEY_7D), small.gone(small.KEY_7D)]),
}


def files():
    made = {}
    for name, segment in SAMPLES.items():
        made[f"{name}.asl"] = segment
        made[f"{name}.txt"] = asl.listing(segment).encode()
    return made


def main(argv):
    if argv != ["--check"]:
        FOLDER.mkdir(exist_ok=True)
        for name, content in files().items():
            (FOLDER / name).write_bytes(content)
        return 0
    passed = failed = 0
    for name, content in files().items():
        path = FOLDER / name
        if path.exists() and path.read_bytes() == content:
            passed += 1
        else:
            print(f"{name} is missing or differs from what samples.py makes")
            failed += 1
    print(f"{passed} passed, {failed} failed")
    return 1 if failed else 0


if __name__ == "__main__":
    sys.exit(main(sys.argv[1:]))
