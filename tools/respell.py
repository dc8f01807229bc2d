#!/usr/bin/env python3
"""Brings this repository's own definitions and lemmas to the spelling of Rattle's library, after the kit's port.py has been over it.

usage: tools/respell.py [--dry] FOLDER          the crates of FOLDER (specs/, proofs/, and what contracts cite of them in src/)
       tools/respell.py --pages FOLDER FILE..   pages and scripts, which name what the crates of FOLDER declared before they were respelled

A function, a lemma, a field and a constructor of antt are in snake case, a function into `Type` is in upper camel case, a prime is `'`; a dash stays beside a
type. A lemma that would have a function's name gets `_lem`. What Rust or Rattle named, as a function of src/ and its proof's goals, keeps its name. Paths of the
library's core become std's, and a type that was copied derives Copy. Where names fall together it prints them, and changes nothing.
"""

import os
import re
import sys

MARKS = r"(?:(?:abbrev|unfoldable|pub|pattern) )*"
DECL = re.compile(r"^(" + MARKS + r")(data |record )?([^\s:(){}\[\]=,;]+)([^:=]*?)? ?:(?:\s|$)")
FIELD = re.compile(r"^  +" + MARKS + r"([A-Za-z][\w'′-]*(?: [A-Za-z][\w'′-]*)*) :(?:\s|$)")
TOKEN = re.compile(r"(?<![\w'′·-])[A-Za-zα-ω][\w'′]*(?:-[\w'′+*≡<≤]+)*(?![\w'′·])")


def files(root):
    for folder, dirs, names in os.walk(os.path.join(root, "crates")):
        dirs[:] = sorted(d for d in dirs if d not in ("out", ".git"))
        for name in sorted(names):
            if name.endswith((".antt", ".rt")):
                yield os.path.join(folder, name)


def by_hand(path):
    """A file of definitions or lemmas, and no proof of a function, whose names Rattle makes."""
    parts = path.split(os.sep)
    at = len(parts) - 1 - parts[::-1].index("crates")
    return path.endswith(".antt") and len(parts) == at + 4


def snake(word):
    if word == "mW":
        return "mw_at"
    if not word or not word[0].islower() or not re.search(r"[A-Z]", word):
        return word
    word = re.sub(r"([a-z0-9])([A-Z]+)(?=[A-Z][a-z])", lambda m: m.group(1) + "_" + m.group(2).lower() + "_", word)
    return re.sub(r"([a-z0-9_])([A-Z]+)", lambda m: (m.group(1) if m.group(1) == "_" else m.group(1) + "_") + m.group(2).lower(), word).replace("__", "_")


def upper(word):
    return word[0].upper() + word[1:]


def module_of(path):
    """The path of a file of specs/ or proofs/ in `use` lines."""
    parts = path[: -len(".antt")].split(os.sep)
    at = len(parts) - 1 - parts[::-1].index("crates")
    return "Rattle." + ".".join(parts[at + 1 :])


def signatures(text):
    """(name, whether it is a data type or a record, its signature, its fields or constructors) of each declaration."""
    lines = text.split("\n")
    i = 0
    while i < len(lines):
        m = DECL.match(lines[i])
        if not m or lines[i].startswith(("--", "use ", "mod ", "pub mod ", "pub use ", "unfolding", "module ")):
            i += 1
            continue
        j, rest = i + 1, [lines[i]]
        while j < len(lines) and (lines[j].startswith(" ") or (m.group(2) and lines[j].startswith("--"))):
            rest.append(lines[j])
            j += 1
        fields = []
        if m.group(2):
            for line in rest[1:]:
                f = FIELD.match(line)
                if f:
                    fields += f.group(1).split()
        yield m.group(3), bool(m.group(2)), " ".join(x.strip() for x in rest), fields
        i = j


def plan(root):
    declared, heads, types, plain, typed = set(), set(), set(), set(), {}
    for path in files(root):
        if not by_hand(path):
            continue
        with open(path, encoding="utf-8") as f:
            text = f.read()
        # fields and constructors, and what stands in a module with parameters
        for line in text.split("\n"):
            m = FIELD.match(line)
            if m and line.startswith("  ") and not line.startswith("   "):
                declared.update(m.group(1).split())
        for name, data, sig, fields in signatures(text):
            declared.add(name)
            declared.update(fields)
            heads.add(name)
            if data or re.search(r"(→|:) Type( \d)?$", sig):
                types.add(name)
                typed.setdefault(name, set()).add(module_of(path))
            else:
                plain.add(name)
    names = {}
    for name in declared:
        new = name.replace("′", "'")
        if "-" in new:
            parts = [snake(p) for p in new.split("-")]
            new = parts[0]
            for before, part in zip(parts, parts[1:]):
                new += ("-" if before[:1].isupper() or part[:1].isupper() else "_") + part
        elif name in types - plain and new[0].islower():
            new = upper(new)
        else:
            new = snake(new)
        if new != name:
            names[name] = new
    return heads, names, {n: typed[n] for n in types & plain if n[0].islower()}


def apart(heads, names):
    """Of declarations, but for fields and constructors, which are named by their record or type. Where a lemma would have a function's name it gets `_lem`. Gives the groups of names that still would be one."""
    groups = {}
    for name in heads:
        groups.setdefault(names.get(name, name), set()).add(name)
    left = {}
    for new, old in groups.items():
        if len(old) == 1:
            continue
        camel = [n for n in old if "-" not in n and n != new]
        rest = sorted(old - set(camel))
        lemma = rest if camel else [n for n in rest if n != new]
        if len(camel) < 2 and len(lemma) == 1 and new + "_lem" not in groups:
            names[lemma[0]] = new + "_lem"
        else:
            left[new] = old
    return left


def respelled(text, names, rt):
    def one(m):
        return names.get(m.group(0), m.group(0))

    out = []
    for line in text.split("\n"):
        comment = re.match(r"^\s*(--|//)", line)
        if comment:
            line = re.sub(r"`[^`]*`", lambda m: TOKEN.sub(one, m.group(0)), line)
            line = TOKEN.sub(lambda m: m.group(0) if "-" in m.group(0) or m.group(0) == "mW" else one(m), line)
        elif rt and '"' in line:
            parts = re.split(r'("(?:[^"\\]|\\.)*")', line)
            line = "".join(p if p.startswith('"') else TOKEN.sub(one, p) for p in parts)
        else:
            line = TOKEN.sub(one, line)
        out.append(line)
    return "\n".join(out)


def from_elsewhere(text, own):
    """The names that a file imports from the library."""
    found = set()
    for module, items in re.findall(r"(?m)^(?:ghost )?use ([^\s{};]+)\.\{([^}]*)\}", text):
        part = module.split(".")
        if part[0] != "Rattle" or part[1] not in own:
            found.update(i.split(" as ")[0].strip() for i in items.split(","))
    return found


def pages(root, paths):
    """In a page a name with a dash is respelled in code alone, since words have dashes too."""
    heads, names, _ = plan(root)
    apart(heads, names)

    def one(m):
        return names.get(m.group(0), m.group(0))

    for path in paths:
        with open(path, encoding="utf-8") as f:
            text = f.read()
        new = re.sub(r"`[^`\n]+`", lambda m: TOKEN.sub(one, m.group(0)), text) if path.endswith(".md") else text
        new = TOKEN.sub(lambda m: m.group(0) if "-" in m.group(0) or m.group(0) == "mW" else one(m), new)
        if new != text:
            with open(path, "w", encoding="utf-8") as f:
                f.write(new)


def main():
    if "--pages" in sys.argv:
        root, *paths = [a for a in sys.argv[1:] if not a.startswith("-")]
        return pages(root, paths)
    dry = "--dry" in sys.argv
    root = [a for a in sys.argv[1:] if not a.startswith("-")][0]
    heads, names, both = plan(root)
    same = apart(heads, names)
    for new, old in sorted(same.items()):
        print("together:", new, "from", ", ".join(sorted(old)))
    if dry:
        for name in sorted(names):
            print(name, "->", names[name])
        return 0
    if same:
        return 1
    crates = set(os.listdir(os.path.join(root, "crates")))
    for path in files(root):
        with open(path, encoding="utf-8") as f:
            text = f.read()
        others = from_elsewhere(text, crates)
        own = {n: new for n, new in names.items() if n not in others}
        for name, modules in both.items():
            if any(m == module_of(path) or re.search(r"(?m)^(?:ghost )?use " + re.escape(m) + r"\.\{[^}]*(?<![\w'-])" + name + r"(?![\w'-])", text) for m in modules):
                own[name] = upper(name)
        new = respelled(text, own, path.endswith(".rt"))
        new = re.sub(r"Rattle\.core\.(specs|proofs)\.", r"Rattle.std.\1.", new)
        if path.endswith(".rt"):
            new = re.sub(r"(?m)^(\s*)#\[derive\(Drop\)\]$", r"\1#[derive(Clone, Copy)]", new)
        if new != text:
            with open(path, "w", encoding="utf-8") as f:
                f.write(new)
    return 0


if __name__ == "__main__":
    sys.exit(main())
