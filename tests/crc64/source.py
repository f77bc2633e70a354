"""What the fast engine's sources say, read as text: the length from which it uses its tables, and the tables' numbers.

    source.py     prints that length
"""

import pathlib
import re

ROOT = pathlib.Path(__file__).resolve().parents[2]
ENGINE = ROOT / "crates/crc64_fast/src/lib.rt"
TABLES = ROOT / "crates/crc64_table/src/lib.rt"


def pays():
    """The length in bytes from which the fast engine uses its tables."""
    found = re.findall(r"^(?:pub )?const PAYS: usize = ([0-9_]+);", ENGINE.read_text(), re.MULTILINE)
    if len(found) != 1:
        raise ValueError(f"{ENGINE}: `const PAYS: usize = N;` stands there {len(found)} times, and not once")
    return int(found[0])


def numbers(text):
    """The numbers of the tables, from the text of their source."""
    found = re.findall(r"^(?:pub )?const TABLE: \[u64; 2048\] = \[(.*?)\];", text, re.MULTILINE | re.DOTALL)
    if len(found) != 1:
        raise ValueError(f"`const TABLE: [u64; 2048] = [ .. ];` stands there {len(found)} times, and not once")
    words = re.sub(r"//.*", "", found[0]).replace(",", " ").split()
    return [int(word, 16) for word in words]


if __name__ == "__main__":
    print(pays())
