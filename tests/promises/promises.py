"""Holds docs/PROMISES.md to the repository: what the page names in backticks is there. Such a name is

  a path        below the root, below crates/, or below a crate that the section's heading or the row names; a file's name
                alone may stand anywhere below crates/ or tests/. `*` stands for any.
  an edit       CRATE/LABEL, or a label alone. A word in a column of edits is a label, a function of tests/c or a crate.
  a fixture     of tests/fixtures, without its suffix. `51-..` are all of one number, and (9) after it says how many;
                `-count` is the end of one.
  a function    CRATE::NAME, or TYPE::NAME, which may be a constant
  `..-book`     the end of some definition's name

and otherwise an expression: its first word is defined in crates/ or in tests/c, and each further one of three letters or
more stands in some source there. `NAME` in `FILE`, or of `FILE`, is defined in that file, or in that folder.

At the end one name of each kind is spoilt, one after the other, and the page has to fail for it.
"""

import collections
import fnmatch
import functools
import pathlib
import re
import sys

root = pathlib.Path(__file__).resolve().parents[2]
PAGE = "docs/PROMISES.md"

TEXT = {
    "too long",           # what the listing prints
    "NN-..",              # how the names of fixtures begin
    "answer result ≡ x_of ..",  # the form of a promise
    "requires",           # a word of Rattle
}

WORD = r"(?:[^\W\d]|◌)[\w·'◌-]*"  # an operator has ◌ where its arguments stand
QUOTED = r"`[^`]+`"
LIST = rf"{QUOTED}(?:(?:, and |, | and ){QUOTED})*"
NAMED_IN = re.compile(rf"({LIST}) (?:in|of) (?=({LIST}))")
PATH = r"[\w.*/+-]*(?:/[\w.*+-]*|\w\.(?:antt|rt|c|h|py|md|txt))"
EDITS = ("Edits", "Edit or test", "Wrong promises")

DEFINES = {
    ".antt": [rf"^\s*(?:(?:pub|abbrev|unfoldable) +)*({WORD})\s*:\s", rf"^\s*(?:pub +)?(?:record|data|ruleset) +({WORD})"],
    ".rt": [r"\b(?:fn|struct|enum|const|trait)\s+(\w+)", r"^\s+([A-Z]\w*)(?:\(.*\))?(?: \{)?,?$", r"^\s+(?:pub\s+)?(\w+):\s"],
    ".c": [r"^\w[\w\s*]*\b(\w+)\("],
}
KINDS = {"/specs/": "definition", "/proofs/": "theorem", "/src/": "function", "tests/c/": "test function"}

# Where a name of each kind is spoilt: behind its first word, before its suffix, at its end.
SPOILT = {
    "definition": r"(?=[^\w-]|$)",
    "theorem": r"(?=[^\w-]|$)",
    "function": r"(?=[^\w-]|$)",
    "function of a crate": r"(?=\(|$)",
    "test function": r"$",
    "file": r"(?=\.\w+$)",
    "edit": r"$",
    "fixture": r"$",
    "end": r"$",
}

Name = collections.namedtuple("Name", "line start text crates tried after")
Problem = collections.namedtuple("Problem", "line text why")


def below(folder):
    """Every path below a folder, but for what is made there: crates/NAME/out."""
    for path in folder.iterdir():
        if path.name != "out" or path.parent.parent != root / "crates":
            yield path
            if path.is_dir():
                yield from below(path)


class Repository:
    def __init__(self):
        folders = ("bench", "crates", "docs", "include", "samples", "tests")
        paths = [*root.iterdir(), *(path for folder in folders for path in below(root / folder))]
        self.tree = {path.relative_to(root).as_posix() for path in paths}
        self.crates = set(self.parts(r"crates/(\w+)/src"))
        self.edits = set(self.parts(r"crates/(\w+)/must-fail/(\w+)\.edit"))
        self.labels = {label for _, label in self.edits}
        self.fixtures = set(self.parts(r"tests/fixtures/(\d[\w-]*)\.\w+"))
        self.words = set()
        self.defined = collections.defaultdict(set)  # a name, and the files that define it
        for path in self.parts(r"(crates/.*\.(?:antt|rt)|tests/(?!promises/).*\.(?:c|h|py))"):
            self.read(path, (root / path).read_text())

    def parts(self, pattern):
        """What the pattern's groups are in each path that it fits."""
        found = (re.fullmatch(pattern, path) for path in self.tree)
        return [match[1] if match.re.groups == 1 else match.groups() for match in found if match]

    def read(self, path, text):
        self.words.update(re.findall(WORD, text), re.findall(r"\w+", text))
        stem, dot, suffix = path.rpartition("/")[2].rpartition(".")
        if suffix == "antt":
            self.defined[stem].add(path)
        if suffix != "c" or path.startswith("tests/c/"):
            for pattern in DEFINES.get(dot + suffix, ()):
                for name in re.findall(pattern, text, re.MULTILINE):
                    self.defined[name].add(path)

    def places(self, word):
        return self.defined.get(word, set())

    def kind(self, word):
        return next((kind for part, kind in KINDS.items() if any(part in path for path in self.places(word))), "definition")

    @functools.cache
    def paths(self, text, crates):
        """The paths that a name can mean where these crates are named beside it."""
        name = text.rstrip("/")
        wanted = [name, f"crates/{name}"] + [f"crates/{crate}/{name}" for crate in crates or self.crates]
        if "/" not in text:
            wanted += [f"crates/*/{name}", f"tests/*/{name}"]
        return {path for want in wanted for path in (fnmatch.filter(self.tree, want) if "*" in want else {want} & self.tree)}

    def judge(self, name):
        """What kind of name it is; and what was looked for and is not there, or None."""
        text = name.text
        if text in TEXT:
            return "text", None
        if re.fullmatch(rf"(?:\w+::)?\w+::{WORD}(\(.*\))?", text):
            return "function of a crate", self.function(*re.match(r"(?:\w+::)?(\w+)::(\w+)", text).groups())
        if re.fullmatch(r"\d\d-[\w-]*(\.\.)?", text):
            return "fixture", self.fixture(text, name.after)
        if re.fullmatch(r"-[\w-]+", text):
            return "end", None if any(fixture.endswith(text) for fixture in self.fixtures) else "no fixture's name ends so"
        if re.fullmatch(r"\.\.-[\w-]+", text):
            return "end", None if any(word.endswith(text[2:]) for word in self.defined) else "no definition's name ends so"
        if tuple(text.split("/")) in self.edits or text in self.labels:
            return "edit", None
        if re.fullmatch(PATH, text):
            return "file", None if self.paths(text, name.crates) else "no such file, folder or edit"
        if text in self.crates:
            return "crate", None
        if name.tried and re.fullmatch(r"\w+", text):
            known = any(path.startswith("tests/c/") for path in self.places(text))
            return "test function", None if known else "no such edit, function of tests/c, or crate"
        return self.expression(text)

    @functools.cache
    def function(self, owner, name):
        text = "\n".join((root / path).read_text() for path in self.tree
                         if re.fullmatch(rf"crates/{owner if owner in self.crates else '.*'}/src/.*\.rt", path))
        if owner not in self.crates:
            # its own methods, or those of a trait that it has
            heads = rf"^impl(?:<[^>]*>)? (?:\w+(?:<[^>]*>)? for )?{owner}(?:<[^>]*>)? \{{$.*?^\}}$"
            text = "".join(re.findall(heads, text, re.MULTILINE | re.DOTALL))
        return None if re.search(rf"\b(fn|const) {name}\b", text) else f"no fn {name} in {owner}"

    def fixture(self, text, after):
        if not text.endswith(".."):
            return None if text in self.fixtures else "no such fixture"
        count = sum(fixture.startswith(text[:-2]) for fixture in self.fixtures)
        said = re.match(r" \((\d+)\)", after)
        return None if count == (int(said[1]) if said else count or -1) else f"there are {count} such fixtures"

    def expression(self, text):
        first, *others = re.findall(rf"\.?{WORD}", text) or [text]
        if not self.places(first):
            return "definition", f"no definition of {first} in crates or tests/c"
        for word in others:
            if len(word) > 2 and word not in self.words and not (word[0] == "." and self.places(word[1:])):
                return self.kind(first), f"{word} stands in no source"
        return self.kind(first), None

    def crates_in(self, text):
        """The crates that a line names: `crates/NAME`, `NAME/..` or `NAME`."""
        return [word for word in re.findall(r"`(?:crates/)?(\w+)(?:/[^`]*)?`", text) if word in self.crates]


def names(repository, lines):
    heading, columns = [], []
    for number, line in enumerate(lines, 1):
        if line.startswith("## "):
            heading = repository.crates_in(line)
        columns = [] if not line.startswith("|") else columns or line.split("|")
        crates = tuple(heading + (repository.crates_in(line) if columns else []))
        for match in re.finditer(QUOTED, line):
            before = re.sub(QUOTED, "", line[:match.start()]).split("|")
            column = columns[len(before) - 1].strip() if len(before) <= len(columns) else ""
            tried = column.startswith(EDITS) or "tried by " in before[-1].lower()
            yield Name(number, match.start() + 1, match[0][1:-1], crates, tried, line[match.end():])


def misplaced(repository, lines):
    """What the page says to be defined in a file, or of a file, and is defined elsewhere."""
    crates = {(name.line, name.start): name.crates for name in names(repository, lines)}
    for number, line in enumerate(lines, 1):
        for match in NAMED_IN.finditer(line):
            files = set()
            for quoted in re.finditer(QUOTED, match[2]):
                if not re.fullmatch(PATH, quoted[0][1:-1]):
                    break
                files |= repository.paths(quoted[0][1:-1], crates[number, match.start(2) + quoted.start() + 1])
            for text in re.findall(r"`([^`]+)`", match[1]) if files else ():
                places = set() if re.fullmatch(PATH, text) else repository.places(re.match(rf"{WORD}|", text)[0])
                if places and not any(place == file or place.startswith(file + "/") for place in places for file in files):
                    yield Problem(number, text, f"defined not in {match[2]}, but in {', '.join(sorted(places))}")


def problems(repository, lines):
    for number, line in enumerate(lines, 1):
        if line.count("`") % 2:
            yield Problem(number, line[:40], "the line has a backtick without another")
    for name in names(repository, lines):
        why = repository.judge(name)[1]
        if why:
            yield Problem(name.line, name.text, why)
    yield from misplaced(repository, lines)


def replaced(lines, number, start, old, new):
    line = lines[number - 1]
    return lines[:number - 1] + [line[:start] + new + line[start + len(old):]] + lines[number:]


def spoilt(repository, lines):
    """For each kind of name, the page with the first such name spoilt: the kind, the line, the name that has to fail there,
    and the page. Two more are about what stands beside a name: how many fixtures, and in which file."""
    first = {}
    for name in names(repository, lines):
        kind, why = repository.judge(name)
        if why is None and re.search(SPOILT.get(kind, "(?!)"), name.text) and not name.text.endswith(".."):
            text = re.sub(SPOILT[kind], "nowhere", name.text, count=1)
            first.setdefault(kind, (name.line, text, name.start, name.text, text))
        if why is None and re.match(r" \(\d", name.after):
            first.setdefault("count", (name.line, name.text, name.start + len(name.text), "` (", "` (1"))
    for number, line in enumerate(lines, 1):
        for match in NAMED_IN.finditer(line):
            if re.fullmatch(PATH, match[2].split("`")[1]):
                first.setdefault("place", (number, match[1].split("`")[-2], match.start(2), match[2], "`README.md`"))
    for kind in [*SPOILT, "count", "place"]:
        line, text, *change = first.get(kind, (0, "none on the page"))
        yield kind, line, text, replaced(lines, line, *change) if change else lines


def main():
    repository = Repository()
    lines = (root / PAGE).read_text().splitlines()
    found = sorted(problems(repository, lines))
    for problem in found:
        print(f"{PAGE}:{problem.line}: `{problem.text}`: {problem.why}")
    passed, failed = sum(1 for _ in names(repository, lines)) - len(found), len(found)
    for kind, line, text, page in spoilt(repository, lines):
        if any((problem.line, problem.text) == (line, text) for problem in problems(repository, page)):
            passed += 1
        else:
            failed += 1
            print(f"{PAGE}:{line}: `{text}`: a wrong {kind} is not noticed")
    print(f"{passed} passed, {failed} failed")
    return failed != 0


if __name__ == "__main__":
    sys.exit(main())
