#!/usr/bin/env python3
"""usage: requirements.py

Holds the identifiers of docs/REQUIREMENTS.md against what cites them. An identifier is given by a row of one of its tables, once and with what is required. Each is
cited in a definition, a contract, a proof, an edit, docs/PROMISES.md, docs/DIFFERENCES.md or docs/DECISIONS.md; and each that is cited anywhere is given. A demand
without its letter (as of DEM-3) cites the whole demand, and counts for none of its sentences. No file names what lies outside of the repository (LEFTOVERS).
Documents are wrapped at 100 columns, but for tables and code.
First each test is tried on a small repository in which something is wrong, and must find it. Writes a line for what is wrong, and last 'N passed, M failed'.
"""
import os
import re
import sys

ROOT = os.path.dirname(os.path.dirname(os.path.abspath(__file__)))
GIVEN = "docs/REQUIREMENTS.md"
SECTIONS = "DEM|EVT|UPD|PRV|LEA|PKT|FOL|LNK|PRG|REF|EDG|MIS|TST|SHP|FRM"
# of a later request: S and its number
IDENTIFIER = re.compile(r"\b(?:%s|S\d+)-\d+[a-z]?\b" % SECTIONS)
ROW = re.compile(r"^\| ((?:%s|S\d+)-\d+[a-z]?) \|(.*)\|$" % SECTIONS, re.M)
# where a citation counts
KEEPS = re.compile(r"crates/\w+/(specs|src|proofs|must-fail)/|tests/edits/|docs/(PROMISES|DIFFERENCES|DECISIONS)\.md$")
LEFTOVERS = re.compile(r"[Dd]ocument[ ]0\d|[Ss]ection[ ]6\b|[Tt]he[ ]scope\b|[Tt]he[ ]papers?\b|\b0[12]'s\b")
DOCUMENTS = re.compile(r"README\.md$|docs/[\w/-]+\.md$|rust/([\w-]+/)?README\.md$")
COLUMNS = 100


def repository():
    """The text of each file that is text, by its path."""
    found = {}
    for folder, folders, names in os.walk(ROOT):
        folders[:] = [name for name in folders if name not in (".git", "target", "out")]
        for name in names:
            path = os.path.join(folder, name)
            try:
                with open(path, encoding="utf-8") as f:
                    found[os.path.relpath(path, ROOT)] = f.read()
            except UnicodeDecodeError:
                pass
    return found


def given(files):
    """What is wrong with each row that gives an identifier: it comes twice, or nothing is required."""
    seen = set()
    for name, said in ROW.findall(files[GIVEN]):
        wrong = "twice" if name in seen else "" if said.strip() else "with nothing required"
        seen.add(name)
        yield "%s: %s is given %s" % (GIVEN, name, wrong) if wrong else ""


def uncited(files):
    """Of each identifier that is given: whether something that keeps it cites it."""
    cited = {name for path, text in files.items() if KEEPS.match(path) for name in IDENTIFIER.findall(text)}
    for name in sorted({name for name, _ in ROW.findall(files[GIVEN])}):
        yield "" if name in cited else "%s is cited nowhere" % name


def unknown(files):
    """Of each identifier in each file: whether it is given; a demand by one of its letters too."""
    names = {name for name, _ in ROW.findall(files[GIVEN])}
    names |= {name[:-1] for name in names if name[-1].isalpha()}
    for path, text in sorted(files.items()):
        for name in sorted(set(IDENTIFIER.findall(text))):
            yield "" if name in names else "%s: %s is not in %s" % (path, name, GIVEN)


def leftovers(files):
    """Of each file: the first place that names what lies outside."""
    for path, text in sorted(files.items()):
        m = LEFTOVERS.search(text)
        yield "%s:%d: %s" % (path, text.count("\n", 0, m.start()) + 1, m.group(0)) if m else ""


def too_long(text):
    """The first line over the columns, or 0; tables and code are left out."""
    fenced = code = False
    before = ""
    for number, line in enumerate(text.split("\n"), 1):
        fence = line.startswith("```")
        fenced = fenced != fence
        code = line.startswith("    ") and (code or not before)
        before = line.strip()
        if len(line) > COLUMNS and not (fenced or code or line.startswith("|")):
            return number
    return 0


def columns(files):
    """Of each document: whether it is wrapped."""
    for path, text in sorted(files.items()):
        if DOCUMENTS.match(path):
            number = too_long(text)
            yield "%s:%d: over %d columns" % (path, number, COLUMNS) if number else ""


TESTS = (given, uncited, unknown, leftovers, columns)

# A small repository that is right, and changes after which something is wrong: a file, its text, and what is found. Identifiers and leftovers are put together here, so
# that they are none of this file.
RIGHT = {
    GIVEN: "| %s | one thing |\n| %s | another |\n" % ("FOL" "-1", "DEM" "-1a"),
    "crates/a/specs/A.antt": "-- %s: so\n" % ("FOL" "-1"),
    "crates/a/must-fail/wrong.edit": "# %s, as all of %s\n" % ("DEM" "-1a", "DEM" "-1"),
    "docs/STATE.md": "```\n%s\n```\n\n    %s\n\n| %s |\n%s\n" % ("x" * 101, "x" * 101, "x" * 101, "x" * 100),
    "README.md": "x" * 100,
}
PLANTED = (
    (GIVEN, RIGHT[GIVEN] + "| %s | once more |\n" % ("FOL" "-1"), "is given twice"),
    (GIVEN, RIGHT[GIVEN].replace("another", ""), "is given with nothing required"),
    (GIVEN, RIGHT[GIVEN] + "| %s | a third |\n" % ("FOL" "-2"), "FOL" "-2 is cited nowhere"),
    ("crates/a/specs/A.antt", "", "FOL" "-1 is cited nowhere"),
    ("crates/a/must-fail/wrong.edit", "# %s\n" % ("DEM" "-1"), "DEM" "-1a is cited nowhere"),
    ("rust/a/src/lib.rs", "// %s\n" % ("FOL" "-3"), "FOL" "-3 is not in"),
    ("rust/a/src/lib.rs", "// %s\n" % ("FOL" "-1a"), "FOL" "-1a is not in"),
    ("docs/GUIDE.md", "as %s\n" % ("S2" "-1"), "S2" "-1 is not in"),
    ("tests/a.sh", "# from document" " 01 alone\n", "document" " 01"),
    ("crates/a/proofs/A.antt", "-- the" " scope has it\n", "the" " scope"),
    ("rust/a/README.md", "design, section" " 6\n", "section" " 6"),
    ("docs/GUIDE.md", "one\n" + "x " * 51, "over 100 columns"),
    ("docs/GUIDE.md", "10. one\n    %s\n" % ("x " * 51), "over 100 columns"),
    ("rust/a/README.md", "```\n```\n" + "x" * 101, "over 100 columns"),
    ("README.md", "x" * 101, "over 100 columns"),
)


def wrong(files):
    return [found for test in TESTS for found in test(files)]


def planted():
    """Nothing is found in the small repository, and each change of it is."""
    yield "planted: %s" % [found for found in wrong(RIGHT) if found] if any(wrong(RIGHT)) else ""
    for path, text, expected in PLANTED:
        found = [line for line in wrong({**RIGHT, path: text}) if line]
        yield "" if len(found) == 1 and expected in found[0] else "planted: '%s' in %s: %s" % (expected, path, found)


def main():
    if sys.argv[1:]:
        sys.exit("usage: requirements.py")
    found = list(planted()) + wrong(repository())
    for line in found:
        if line:
            print(line)
    failed = sum(1 for line in found if line)
    print("%d passed, %d failed" % (len(found) - failed, failed))
    sys.exit(1 if failed else 0)


main()
