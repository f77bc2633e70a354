"""What docs/FORMAT.md prints for a tester: case L's bytes are the sample's, its checksum program
answers the published value, its command finds the damaged record behind refusal 6, its other
commands show the fields that each refusal is about, and the bad files that it shows are refused as
it says. Its sums are right. The other pages, and asl.h, say the same places of 51 to 55."""

import math
import re
import subprocess
import tempfile
import unittest
from pathlib import Path

import asl
import fixtures
import samples
import small
import testing

ROOT = Path(__file__).resolve().parent.parent.parent
PAGE = (ROOT / "docs/FORMAT.md").read_text()
FIXTURES = {name: segment for name, segment, _ in fixtures.SEGMENTS}


def blocks(fence):
    """The blocks of the page with that fence."""
    return re.findall(rf"^```{fence}\n(.*?)^```$", PAGE, re.DOTALL | re.MULTILINE)


MEND, NUMBER, VISIBILITIES, KEYS, EXTENTS = blocks("sh")


def commands():
    """The commands of the page's last section, by the number of the refusal."""
    section = PAGE[PAGE.index("## Which bytes to look at"):]
    found, number = {}, None
    for named, command in re.findall(r"^\| (?:([0-9]+) )?\| `(.*?)` \|", section, re.MULTILINE):
        number = named or number
        found.setdefault(number, []).append(command)
    return found


def run_in(folder, command):
    """What a command prints there."""
    return subprocess.run(["bash", "-c", command], cwd=folder, check=True,
                          stdout=subprocess.PIPE).stdout


def printed_bytes():
    """The bytes of the page's dump: two times eight to a line, after the line's number."""
    eight = r"((?:[0-9a-f]{2} ){7}[0-9a-f]{2})"
    lines = re.findall(rf"^ *([0-9]+) ([0-9a-f]{{2}})  {eight}  {eight}  ", PAGE, re.MULTILINE)
    for line, (decimal, hexadecimal, _, _) in enumerate(lines):
        assert int(decimal) == int(hexadecimal, 16) == 16 * line, decimal
    return bytes.fromhex("".join(first + second for _, _, first, second in lines))


class Printed(unittest.TestCase):
    def test_case_l_is_the_sample(self):
        self.assertEqual(printed_bytes(), (samples.FOLDER / "case-l.asl").read_bytes())

    def test_sums(self):
        sums = re.findall(r"((?:[0-9]+ [+×] )+[0-9]+) += ([0-9]+)", PAGE)
        self.assertGreater(len(sums), 0)
        for terms, result in sums:
            products = [math.prod(map(int, term.split(" × "))) for term in terms.split(" + ")]
            self.assertEqual(sum(products), int(result), terms)


# The bad files that the page shows: refusal, place, and what is typed and printed.
WORKED = re.findall(r"^\*\*([0-9]+) at ([0-9]+)\.\*\*[^`]*^```console\n(.*?)^```$", PAGE,
                    re.DOTALL | re.MULTILINE)
# And the one that the loop over the keys is shown by: refusal, place, file, and what is printed.
LOOPED = re.findall(r"^\*\*([0-9]+) at ([0-9]+)\.\*\* With `P=\2` the loop prints this of `([^`]*)`"
                    r"[^`]*^```text\n(.*?)^```$", PAGE, re.DOTALL | re.MULTILINE)


class Worked(unittest.TestCase):
    def assert_refused(self, file, number, place):
        self.assertEqual(asl.listing((ROOT / file).read_bytes()), f"refused {number} at {place}\n")

    def test_all_are_found(self):
        self.assertEqual([number for number, *_ in WORKED + LOOPED],
                         re.findall(r"^\*\*([0-9]+) at ", PAGE, re.MULTILINE))
        self.assertEqual([number for number, *_ in WORKED + LOOPED],
                         ["51", "52", "53", "54", "55", "7", "12"])
        self.assertEqual([block for *_, block in WORKED], blocks("console"))
        self.assertEqual([block for *_, block in LOOPED], blocks("text"))

    def test_each_is_refused_as_it_says_and_shown_by_its_command(self):
        for number, place, block in WORKED:
            typed = re.findall(r"^\$ (.*)$", block, re.MULTILINE)
            file, = {command.split()[-1] for command in typed}
            self.assert_refused(file, number, place)
            self.assertEqual("; ".join(typed).replace(file, "FILE"),
                             commands()[number][0].replace("$P", place))
            self.assertEqual("".join(f"$ {command}\n{run_in(ROOT, command).decode()}"
                                     for command in typed), block)

    def test_the_loop_prints_of_its_file_what_it_says(self):
        for number, place, file, block in LOOPED:
            self.assert_refused(file, number, place)
            self.assertEqual(run_in(ROOT, f"P={place}\n{KEYS.replace('FILE', file)}").decode(),
                             block)


# How the places of 51 to 55 are said: "51 at 48", "(51) at 48", "51 bloom, at 48; in write at 0"
# and the like; in asl.h "48, bloom offset, for 51"; in docs/SERVICES.md in a row of a table.
PLACE_SAID = (
    r"\b(?P<number>5[1-5])\)?(?: \(?[a-z]+\)?)?,? at (?P<place>[0-9]+)",
    r"\b(?P<number>5[1-5]) [a-z]+, at [0-9]+; in write at (?P<place>[0-9]+)",
    r"\b(?P<number>5[1-5]) is the rule on [^,.]*, and (?P<place>[0-9]+) the byte of the header",
    r"\b(?P<place>[0-9]+), [a-z ]+, for (?P<number>5[1-5])\b",
    r"\b(?P<place>[0-9]+) for every other refusal, so for write's (?P<number>5[1-5]) too",
    r"\| (?P<number>5[1-5]) \| [a-z]+ \| [^|]* \| (?P<place>[0-9]+)\b",
    r"\| (?P<number>5[1-5]) \| [a-z]+ \| [^|]* \| [0-9]+; write: (?P<place>[0-9]+) \|",
)
LAYOUT_PLACES = {(number, place) for number, place, _ in WORKED if number.startswith("5")}
WITH_WRITE = LAYOUT_PLACES | {("51", "0")}


class PlacesOfTheLayout(unittest.TestCase):
    """Every page that says them says these, and all of them."""

    def said(self, page):
        text = re.sub(r"\s+(?:\* +)?", " ", (ROOT / page).read_text())
        return {(found["number"], found["place"])
                for form in PLACE_SAID for found in re.finditer(form, text)}

    def test_format(self):
        self.assertEqual(self.said("docs/FORMAT.md"), LAYOUT_PLACES)

    def test_with_write(self):
        for page in ("docs/SERVICES.md", "docs/C.md", "docs/PROMISES.md", "include/asl.h"):
            self.assertEqual(self.said(page), WITH_WRITE, page)


class Commands(unittest.TestCase):
    """A folder to run the page's commands in."""

    def setUp(self):
        folder = tempfile.TemporaryDirectory()
        self.addCleanup(folder.cleanup)
        self.folder = Path(folder.name)

    def run_here(self, command):
        return run_in(self.folder, command)


class Checksums(Commands):
    def setUp(self):
        super().setUp()
        (self.folder / "crc.c").write_text(*blocks("c"))
        self.run_here("cc -o crc crc.c")

    def mended(self, segment):
        """The copy that the page's command makes."""
        (self.folder / "FILE").write_bytes(segment)
        self.run_here(MEND)
        return (self.folder / "COPY").read_bytes()

    def test_checksum_program(self):
        self.assertEqual(self.run_here("printf 123456789 | ./crc"), b"995dc9bbdf1939fa\n")

    def test_damaged_record_is_found(self):
        damaged = samples.SAMPLES["refused-damaged"]
        self.assertEqual(asl.listing(damaged), "refused 6 at 0\n")
        copy = self.mended(damaged)
        self.assertEqual(asl.listing(copy), "refused 7 at 160\n")
        self.assertEqual((copy[:232], copy[240:]), (damaged[:232], damaged[240:]))

    def test_every_checksum_is_mended(self):
        for segment in samples.SAMPLES.values():
            if len(segment) >= asl.LEAST_FILE:
                copy = self.mended(segment)
                self.assertEqual(asl.footer_of(copy).crc64, asl.crc64(segment[:-24]))
                self.assertEqual(len(copy), len(segment))


# What the commands show of case L, and of its record 0: of each refusal the numbers, without those
# that a line begins with.
SHOWN = {
    "1": "256",
    "2": "A S L I D X 0 3",
    "3": "3",
    "4": "112" " 1 0 0 0 0 0 0 0 0 0 0 0",
    "51": "0 0",
    "52": "2 112" " 0",
    "53": "208 8" " 2 112",
    "54": "216" " 208 8",
    "55": "1" " 216" " 256",
    "6": "db302f5699e0aec5",
    "7": "7 0 0 0 4 0 0 0 208 0 0 0 0 0 0 0 216 0 0 0 0 0 0 0 1 0 0 0 3 0 0 0"
         " 5 0 0 0 1 0 0 0 0 0 0 0 0 0 0 0" " 5 5",
    "8": "7 4" " 208 208 8",
    "9": "216 1" " 0 216 1",
    "10": "3 0" " 9 0 64 3",
    "11": "1",
    "12": "7 0a 0b 0c 0d",
}


class Fields(Commands):
    def setUp(self):
        super().setUp()
        (self.folder / "FILE").write_bytes((samples.FOLDER / "case-l.asl").read_bytes())

    def shown(self, command):
        """What a command prints, without the place that a line of od begins with, and wc's name."""
        lines = [line.split() for line in self.run_here(command).decode().splitlines()]
        return [word for line in lines for word in (line[:1] if line[-1] == "FILE" else line[1:])]

    def test_each_refusal_has_its_fields(self):
        found = {number: " ".join(word for command in listed
                                  for word in self.shown(f"P=112\n{command}"))
                 for number, listed in commands().items()}
        self.assertEqual(found, SHOWN)


# Files, and of each record the byte at which it begins, its visibility, its key and how many
# extents it has. Three of the files have bloom bytes, so their records begin after 112; in the last
# one so many that the number of a record is another one if it is counted from 112.
LONG_BLOOM = small.in_order([small.gone(small.KEY_7D), small.gone(small.KEY_7E, visibility=1)],
                            bloom=bytes(56))
RECORDS = [
    (samples.SAMPLES["case-l"], [(112, 1, "7 0a 0b 0c 0d", 1), (160, 0, "7 0a 0b 0c 0e", 0)]),
    (samples.SAMPLES["refused-duplicate"],
     [(112, 0, "7 0a 0b 0c 0d", 0), (160, 0, "7 0a 0b 0c 0d", 0)]),
    (FIXTURES["00-mixed"],
     [(120, 0, "1 " + bytes(range(32)).hex(" "), 2), (168, 1, "7 0a 0b 0c 0d", 0),
      (216, 0, "7 04 05 06 07", 1), (264, 0, "7 03 04 05 06", 3)]),
    (FIXTURES["12-duplicate-after-bloom"],
     [(136, 0, "7 0a 0b 0c 0c", 0), (184, 0, "7 0a 0b 0c 0d", 0), (232, 0, "7 0a 0b 0c 0e", 0),
      (280, 0, "7 0a 0b 0c 0d", 0)]),
    (LONG_BLOOM, [(168, 0, "7 0a 0b 0c 0d", 0), (216, 1, "7 0a 0b 0c 0e", 0)]),
]


class Records(Commands):
    """The commands that go by records offset, over these files."""

    def each(self):
        """The records of each file, which stands in the folder as FILE meanwhile."""
        for segment, records in RECORDS:
            (self.folder / "FILE").write_bytes(segment)
            yield records

    def printed(self, command):
        return self.run_here(command).decode().splitlines()

    def test_number_of_a_record(self):
        self.assertEqual(NUMBER.count("P=160;"), 1)
        for records in self.each():
            for number, (start, *_) in enumerate(records):
                self.assertEqual(self.printed(NUMBER.replace("P=160;", f"P={start};")),
                                 [str(number)])

    def test_visibilities(self):
        for records in self.each():
            self.assertEqual(self.printed(VISIBILITIES), [
                f"{start:07} {visibility}" for start, visibility, _, _ in records])

    def test_keys(self):
        for records in self.each():
            for number, (place, *_) in enumerate(records):
                self.assertEqual(self.printed(f"P={place}\n{KEYS}"), [
                    f"{start} {key}" for start, _, key, _ in records[:number + 1]])

    def test_extents_when_tidy(self):
        for records in self.each():
            self.assertEqual(self.printed(EXTENTS), [str(sum(count for *_, count in records))])


if __name__ == "__main__":
    testing.main()
