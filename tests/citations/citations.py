"""Holds the citations of all files to the pages that they name. A citation is

  docs/FORMAT.md, "A record"       a page and its headings, one or more: "A" and "B", or from "A" to "B". The page may be
                                   README.md too, and its name may be broken from the heading by a comment's line end.
  [the file](FORMAT.md#a-record)   in a page: a link to a file, to a heading of it, or to one of the page's own

The headings stand on the page, and what a link leads to is there. The paper that decided the rules is no part of the
repository, so no file cites it by its number but the two that say what it is and what it left open.

At the end a wrong citation of each kind is tried, and has to be noticed.
"""

import collections
import pathlib
import re
import sys

root = pathlib.Path(__file__).resolve().parents[2]

MAY_NAME_THE_PAPER = {"README.md", "docs/DECISIONS.md"}
NOT_OURS = {".git", "target"}
MADE = re.compile(r"crates/\w+/out")
# A change that was set aside, as a patch: the lines that differ, which are no text of ours until it is applied.
SET_ASIDE = {"docs/unfinished.patch", "docs/design-left.patch"}

GAP = r"(?:\s+(?:(?://|--|#|\*)\s+)?)"  # between two words of a comment or a page
QUOTED = r"\"[^\"]+\"|'[^']+'"
CITED = re.compile(rf"\b(README\.md|docs/\w+\.md),{GAP}(?:from )?((?:{QUOTED})(?:(?:,|,? and|{GAP}to){GAP}(?:{QUOTED}))*)")
LINK = re.compile(r"\[[^\]]+\]\(([^()#\s]*)(?:#([^()\s]+))?\)")
PAPER = re.compile(rf"\b[Dd]ocuments?{GAP}0\d+")

Case = collections.namedtuple("Case", "path line text wrong")  # wrong says why, or is None


def files_below(folder):
    """Every file of the repository below a folder, none of what is made: target/ and crates/NAME/out/."""
    for path in folder.iterdir():
        name = path.relative_to(root).as_posix()
        if name in NOT_OURS or MADE.fullmatch(name):
            continue
        if path.is_file():
            yield path
        elif path.is_dir():
            yield from files_below(path)


def texts():
    """The text of every file of the repository, by its path, but of this one, which has wrong citations."""
    found = {}
    for path in sorted({*files_below(root)} - {pathlib.Path(__file__).resolve()}):
        name = path.relative_to(root).as_posix()
        if name in SET_ASIDE:
            continue
        try:
            found[name] = path.read_text(encoding="utf-8")
        except UnicodeDecodeError:
            pass  # a segment
    return found


def headings(page):
    """The headings of a page, without those that stand in a block of code."""
    outside = re.sub(r"^```.*?^```$", "", page, flags=re.DOTALL | re.MULTILINE)
    return re.findall(r"^#+ (.*)$", outside, re.MULTILINE)


def anchor(heading):
    """The end of a link to a heading: its letters, digits and hyphens, small, with a hyphen for each space."""
    return re.sub(r"[^\w -]", "", heading).lower().replace(" ", "-")


def cited(path, text, files):
    for match in CITED.finditer(text):
        page = match[1]
        for quoted in re.findall(QUOTED, match[2]):
            heading = re.sub(GAP, " ", quoted[1:-1])
            wrong = "no such page" if page not in files else "no such heading" if heading not in headings(files[page]) else None
            yield match.start(), f"{page}, {heading}", wrong


def linked(path, text, files):
    for match in LINK.finditer(text) if path.endswith(".md") else ():
        target, part = match.groups()
        if target.startswith(("http:", "https:")):
            continue
        to = (root / path).parent.joinpath(target).resolve() if target else root / path
        name = to.relative_to(root).as_posix() if to.is_relative_to(root) else ""
        wrong = None
        if name not in files and not (name and to.exists()):
            wrong = "no such file"
        elif part and part not in map(anchor, headings(files.get(name, ""))):
            wrong = "no such heading"
        yield match.start(), match[0], wrong


def papers(path, text, _):
    for match in PAPER.finditer(text) if path not in MAY_NAME_THE_PAPER else ():
        yield match.start(), re.sub(GAP, " ", match[0]), "the paper is not here: cite docs/FORMAT.md or docs/SERVICES.md"


def cases(files):
    for path, text in files.items():
        for finder in (cited, linked, papers):
            for start, words, wrong in finder(path, text, files):
                yield Case(path, text.count("\n", 0, start) + 1, words, wrong)


# What is put behind a file, and has to be noticed there: a wrong citation of each kind.
PAGE, SOURCE = "docs/SERVICES.md", "crates/segment/specs/Check.antt"
WRONG = [
    (SOURCE, '-- docs/SERVICES.md, "The order of nothing"'),
    (SOURCE, '-- docs/SERVICES.md,\n-- "The order of nothing"'),
    (SOURCE, '-- docs/SERVICES.md, "Refusals" and "The order\n-- of nothing"'),
    (SOURCE, '-- docs/FORMAT.md, from "A record" to "A nothing"'),
    (SOURCE, '-- docs/NOTHING.md, "Refusals"'),
    (SOURCE, "-- document 01 says so"),
    (SOURCE, "-- so says Document\n-- 01"),
    (PAGE, "[nothing](FORMAT.md#nothing)"),
    (PAGE, "[nothing](#nothing)"),
    (PAGE, "[nothing](NOTHING.md)"),
]


def main():
    files = texts()
    found = list(cases(files))
    wrong = [case for case in found if case.wrong]
    for case in wrong:
        print(f"{case.path}:{case.line}: {case.text}: {case.wrong}")
    passed, failed = len(found) - len(wrong), len(wrong)
    for path, line in WRONG:
        spoilt = {**files, path: files[path] + line + "\n"}
        if sum(1 for case in cases(spoilt) if case.wrong) > len(wrong):
            passed += 1
        else:
            failed += 1
            print(f"a wrong citation is not noticed: {line}")
    print(f"{passed} passed, {failed} failed")
    return failed != 0


if __name__ == "__main__":
    sys.exit(main())
