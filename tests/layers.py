#!/usr/bin/env python3
"""usage: layers.py [--write]

Holds the picture under "## Layers" in README.md against crates.txt: each room of crates.txt, the last first, with its crates and the rooms that these name
directly. A crate that names one of a later room, or of its own room further down, fails, and so does an edit (crates/*/must-fail, tests/edits) that names a
crate which the edited one does not list. With --write the picture is put into README.md. The last line is 'N passed, M failed'.
"""
import glob
import os
import re
import sys
import textwrap

ROOT = os.path.dirname(os.path.dirname(os.path.abspath(__file__)))
PLACE = re.compile(r"(## Layers\n\n```\n)(.*?)(```\n)", re.S)
KIT = {"check", "io", "os", "libc", "bytes"}


def rooms():
    """The rooms in the order of crates.txt: name, and each crate with what it names."""
    found = []
    for line in open(os.path.join(ROOT, "crates.txt"), encoding="utf-8"):
        head = re.match(r"# == (\w+)", line)
        if head:
            found.append((head.group(1), []))
        elif ":" in line and not line.startswith("#"):
            name, names = line.split(":")
            found[-1][1].append((name.split()[0], [one for one in names.split() if one not in KIT]))
    return found


def picture(found):
    """A room a paragraph: its crates, and the rooms below that they name."""
    room = {crate: name for name, crates in found for crate, _ in crates}
    order = [name for name, _ in found]
    text = []
    for name, crates in reversed(found):
        on = {room[one] for _, names in crates for one in names} - {name}
        lines = textwrap.wrap(", ".join(crate for crate, _ in crates), 86)
        lines += textwrap.wrap("on " + ", ".join(sorted(on, key=order.index, reverse=True)), 86) if on else []
        text += ["%-12s%s" % (name, lines[0])] + [" " * 12 + line for line in lines[1:]]
    return "\n".join(text) + "\n"


def edits(found):
    """Of each edit: the crates that its new lines name and its crate does not list."""
    listed = {crate: set(names) | {crate} for _, crates in found for crate, names in crates}
    paths = glob.glob(os.path.join(ROOT, "crates", "*", "must-fail", "*.edit")) + glob.glob(os.path.join(ROOT, "tests", "edits", "*", "*.edit"))
    for path in sorted(paths):
        short = os.path.relpath(path, ROOT)
        crate = short.split(os.sep)[1 if short.startswith("crates") else 2]
        with open(path, encoding="utf-8") as f:
            new = "".join(line for line in f if line.startswith("new:"))
        named = set(re.findall(r"(?<![\w:.])([a-z_]+)::", new)) | set(re.findall(r"Rattle\.([a-z_]+)\.", new))
        yield ["%s names %s, which %s does not list" % (short, one, crate) for one in sorted(named & set(listed) - listed[crate])]


def main():
    found = rooms()
    wrong, before = [], set()
    for _, crates in found:
        for crate, names in crates:
            wrong += ["crates.txt: %s stands before %s, which it names" % (crate, one) for one in names if one not in before]
            before.add(crate)
    tried = list(edits(found))
    wrong += [line for lines in tried for line in lines]
    path = os.path.join(ROOT, "README.md")
    with open(path, encoding="utf-8") as f:
        readme = f.read()
    place = PLACE.search(readme)
    if not place:
        wrong.append("README.md has no picture under ## Layers")
    elif place.group(2) != picture(found):
        if "--write" in sys.argv[1:]:
            with open(path, "w", encoding="utf-8") as f:
                f.write(readme[:place.start(2)] + picture(found) + readme[place.end(2):])
        else:
            wrong.append("README.md's picture is not that of crates.txt: tests/layers.py --write")
    for line in wrong:
        print(line)
    print("%d passed, %d failed" % (len(before) + len(tried) + 1 - len(wrong), len(wrong)))
    return 1 if wrong else 0


sys.exit(main())
