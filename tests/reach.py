#!/usr/bin/env python3
"""usage: reach.py [FILE [NAME]]

What a reader has to read to believe the record NAME of FILE (Promise of crates/promise/specs/Promise.antt): every definition that it cites, and those cite, in
this repository. Writes the files by crate, with their lines and how many of these are of definitions that are cited; then which files are the machine's, which the claim must not cite; and the sums, which the reading order of README.md has. Its last line is 'N passed, M failed'.
A file is the machine's if its crate's name says such a room (MACHINE). A type that is declared in code (`specs.declared`) is counted with the source that declares it.
"""
import os
import re
import sys

ROOT = os.path.dirname(os.path.dirname(os.path.abspath(__file__)))
# Rooms that hold how the machine does it: states, phases, steps, images, the calls on them, the ring of the follower, and the proofs about these.
MACHINE = re.compile(r"(machine|desk|bytes|abi|promise)_|power_policy$")
USE = re.compile(r"^use Rattle\.(\w+)\.specs\.([\w.]+?)(?:\.\{([^}]*)\}| as (\w+))?$")
CRATES = set(os.listdir(os.path.join(ROOT, "crates")))
HEAD = re.compile(r"^(?:abbrev |unfoldable )?(?:pub )?(?:record |data )?(?:infix.* )?([^\s:()]+)\s.*(?::|where)")
WORD = re.compile(r"[^\s(){}\[\];,.:«»]+")


def source(crate, name):
    """The file of a module of definitions, or the source that declares a type."""
    if not name.startswith("declared."):
        return os.path.join("crates", crate, "specs", name.replace(".", "/") + ".antt")
    parts = name.split(".")[1:-1]
    folder = os.path.join("crates", crate, "src")
    for last in range(len(parts), 0, -1):
        for path in (os.path.join(folder, *parts[:last]) + ".rt", os.path.join(folder, *parts[:last], "mod.rt")):
            if os.path.exists(os.path.join(ROOT, path)):
                return path
    return os.path.join(folder, "lib.rt")


class Module:
    """A file of definitions: what it uses, and the text of each definition, with the comment above it."""

    def __init__(self, path):
        with open(os.path.join(ROOT, path), encoding="utf-8") as f:
            lines = f.read().split("\n")
        self.lines = len(lines) - 1
        self.names, self.whole, self.blocks, self.inner = {}, {}, {}, {}
        above, block, inside = [], None, None
        for line in lines:
            use = USE.match(line)
            if use and use.group(1) in CRATES:
                crate, name, names, alias = use.groups()
                place = source(crate, name)
                if alias:
                    self.whole[alias] = place
                for one in (names or name.split(".")[-1]).split(","):
                    parts = one.strip().split(" as ")
                    self.names[parts[-1].strip()] = (place, parts[0].strip())
            elif line.startswith("--"):
                block, above = None, above + [line]
            elif line and not line[0].isspace() and not line.startswith(("use ", "infix", "unfolding")):
                head = re.match(r"^(?:abbrev |unfoldable )?(?:pub )?(?:record |data |module )?([^\s:()]+)", line).group(1)
                inside = None
                if head not in self.blocks:
                    self.blocks[head] = []
                block = self.blocks[head]
                block += above + [line]
                above = []
            elif line.strip():
                # a record or data type within a module of parameters, and the constructors of a data type
                nested = re.match(r"^  (?:abbrev )?pub (?:record |data )?([^\s:()]+)", line)
                made = re.match(r"^\s+((?:[^\s:()]+ )+): ", line)
                for name in ([nested.group(1)] if nested else []) + (made.group(1).split() if made else []):
                    if block is not None:
                        self.inner.setdefault(name, block)
                if block is not None:
                    block.append(line)
            else:
                above = [] if block is None else above

    def find(self, name):
        return self.blocks.get(name) or self.inner.get(name)


def reached(start, name):
    """The files, each with the lines of what is cited in it."""
    modules, seen, todo, lines = {}, set(), [(start, name)], {}
    while todo:
        path, name = todo.pop()
        lines.setdefault(path, {})
        if not path.endswith(".antt"):
            continue
        if path not in modules:
            modules[path] = Module(path)
        module = modules[path]
        block = module.find(name)
        if block is None or (path, id(block)) in seen:
            continue
        seen.add((path, id(block)))
        for line in block:
            lines[path][id(block)] = len(block)
            text = re.sub(r"(^|\s)-- .*", "", line)
            for alias, place in module.whole.items():
                todo += [(place, word) for word in re.findall(r"\b%s\.([^\s(){}\[\];,.:]+)" % re.escape(alias), text)]
            words = set(WORD.findall(text)) | {w for w in module.names if "◌" in w and all(part in text for part in w.split("◌") if part)}
            for word in words:
                if word in module.names:
                    todo.append(module.names[word])
                elif module.find(word) is not None:
                    todo.append((path, word))
    return {path: sum(found.values()) for path, found in lines.items()}, modules


def table(cited):
    """The rows of README.md's reading order: that each says how many lines are cited, and that all together name every file."""
    wrong, named = [], set()
    with open(os.path.join(ROOT, "README.md"), encoding="utf-8") as f:
        rows = [line.strip(" |\n").split(" | ") for line in f if line.startswith("| ") and " crates/" in line and line.rstrip()[-3].isdigit()]
    for what, where, lines in rows:
        files = set()
        for folder, first, more in re.findall(r"(crates/\w+/specs)(?:/(\w+\.antt)|: )?((?:,? ?\w+\.antt)*)", where):
            names = re.findall(r"\w+\.antt", first + " " + more)
            files |= {path for path in cited if os.path.dirname(path) == folder and (not names or os.path.basename(path) in names)}
        named |= files
        if sum(cited[path] for path in files) != int(lines):
            wrong.append("README.md says %s lines of '%s', which are %d" % (lines, what, sum(cited[path] for path in files)))
    wrong += ["README.md's reading order leaves %s out" % path for path in sorted(set(cited) - named)]
    return len(rows), wrong


def main():
    start = sys.argv[1] if len(sys.argv) > 1 else "crates/promise/specs/Promise.antt"
    cited = {}
    modules = {}
    for name in sys.argv[2:] or ["Promise", "Meaning"]:
        found, more = reached(start, name)
        modules.update(more)
        for path, count in found.items():
            cited[path] = max(cited.get(path, 0), count)
    specs = sorted(path for path in cited if path.endswith(".antt"))
    for path in specs:
        print("%5d lines, %4d of what is cited: %s" % (modules[path].lines, cited[path], path))
    crates = {path.split("/")[1] for path in cited}
    machine = sorted(path for path in cited if MACHINE.match(path.split("/")[1]))
    for path in machine:
        print("the machine's: %s" % path)
    print("%d files of definitions, %d lines, %d of them of definitions that are cited; %d crates; the machine's: %d" % (
        len(specs), sum(modules[path].lines for path in specs), sum(cited[path] for path in specs), len(crates), len(machine)))
    rows, wrong = table({path: cited[path] for path in specs}) if len(sys.argv) == 1 else (0, [])
    for line in wrong:
        print(line)
    print("%d passed, %d failed" % (len(cited) + rows - len(machine) - len(wrong), len(machine) + len(wrong)))
    return 1 if machine or wrong else 0


sys.exit(main())
