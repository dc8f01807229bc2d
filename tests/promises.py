#!/usr/bin/env python3
"""usage: promises.py [--write]

Holds docs/PROMISES.md and docs/FUNCTIONS.md against the sources. Of a crate with a table of functions in docs/FUNCTIONS.md: each row's function is there and as
public as the row says, each function but a #[test] has its row, the wrong answers that the row names are those of the edits that break the function, in their order and words, and
what is counted above the table is what the table has. Of both: every name in the columns of definitions, functions, laws and theorems is declared somewhere, every
file named there is there, every edit in a column of edits is there, and every table has its head.
Of the edits: each line '# breaks: FUNCTION' names a function of the crate, the line after it says in words what the wrong answer is, and what is replaced for it follows; and what an edit replaces stands
once in its file.
Writes a line for what is wrong, and last 'N passed, M failed'; a row, a name, a count or an edit's function is one test.
With --write the tables of docs/FUNCTIONS.md are first written: a row for each function of src/, with its wrong answers from the edits, if each says its own; a
row that was there keeps its definitions, a new one has those that the contract cites.
"""
import os
import re
import sys

ROOT = os.path.dirname(os.path.dirname(os.path.abspath(__file__)))
PROMISES = os.path.join(ROOT, "docs", "PROMISES.md")
FUNCTIONS = os.path.join(ROOT, "docs", "FUNCTIONS.md")

# The columns that name what is declared.
NAMING = ("definition", "function", "law", "theorem or contract")
# Names of the language and of its library, and words that are no name.
LIBRARY = {"get_or", "max", "cond", "take", "drop", "◌&&◌", "&", "&mut", "<<", "rust/model", "ptr", "eq"}


def files(folder, ending):
    for at, _, names in sorted(os.walk(os.path.join(ROOT, folder))):
        for name in sorted(names) if "out" not in at.split(os.sep) else ():
            if name.endswith(ending):
                yield os.path.join(at, name)


def text(path):
    with open(path, encoding="utf-8") as f:
        return f.read()


def camel(name):
    """A type's name as the check names an impl by it: u8 is U8, `Option<X>` is OptionX."""
    return "".join(word[0].upper() + word[1:] for word in re.findall(r"\w+", name) if word != "dyn")


def owner(line):
    """What the functions of an `impl` or a `trait` stand under, as the check names it: of `impl From<X> for u8`, U8FromX."""
    m = re.match(r"(?:pub )?(?:impl|trait)(?:<.*?>)? (?:([\w:]+)(?:<(.*?)>)? for )?(\w+)(?:<.*>)?(?:[:\s].*)?\{?$", line)
    if not m:
        return None
    of, argument, name = m.groups()
    return camel(name) + of.split("::")[-1] + camel(argument or "") if of else name


def cited(clauses):
    """The definitions that a contract cites, as a row of docs/FUNCTIONS.md names them."""
    found = []
    # (also behind an equation's `ok_or` or `cond`, and what a writer's clause says that it wrote)
    for right in re.findall(r"(?:\S+ ≡ \(?(?:ok_or \(+|cond \(+)?(?:option_map )?|Wrote \()([a-z_][\w]*)", clauses):
        if right not in found and right not in ("record", "ok_or", "cond", "sets", "length", "ltb", "eqb", "number", "b"):
            found.append(right)
    return ", ".join("`%s`" % name for name in found) or "the value, in the contract"


def functions(crate):
    """Of each function of a crate, by its path and in the order of the files: how public it is, and the definitions that its contract cites. A derived one counts if an
    edit breaks it."""
    found, broken = {}, {name for _, _, name, _, _ in breaks(crate)}
    source = os.path.join(ROOT, "crates", crate, "src")
    for path in files(os.path.join("crates", crate, "src"), ".rt"):
        module = os.path.relpath(path, source)[:-3].split(os.sep)
        module = [] if module in (["lib"], ["main"]) else module
        around, in_trait, gives, place = [], False, "", module
        lines = text(path).split("\n")
        for k, line in enumerate(lines):
            if re.match(r"(pub )?(impl|trait)\b", line):
                head = line
                while "{" not in head and k + 1 < len(lines):
                    k += 1
                    head += " " + lines[k].strip()
                around, in_trait, gives = [owner(head[: head.index("{")].rstrip())], " for " in head, ""
                place = module
                if not in_trait and not re.search(r"(struct|enum|trait) %s\b" % around[0], text(path)):
                    # (a type of another module: its functions stand where it does)
                    of = re.search(r"^use crate::((?:\w+::)*)(?:\{[^}]*\b)?%s\b" % around[0], text(path), re.M)
                    place = of.group(1).split("::")[:-1] if of else module
            elif line.startswith("}"):
                around, in_trait, gives, place = [], False, "", module
            elif line.startswith("    ghost ") and around:
                gives = line
            derives = re.match(r"#\[derive\((.*)\)\]", lines[k - 1]) if k else None
            type_of = re.match(r"(?:pub )?(?:struct|enum) (\w+)", line)
            for of, method in (("PartialEq", "eq"), ("Default", "default")) if derives and type_of else ():
                name = "::".join(module + [type_of.group(1) + of, method])
                if of in derives.group(1).split(", ") and name in broken:
                    found[name] = ("", "the fields', by the derive")
            m = re.match(r' *(pub |pub\(crate\) )?(?:unsafe )?(?:extern "C" )?(?:const )?fn (\w+)(?:<.*?>)?\(', line)
            if m and not m.group(1) and lines[k - 1] == "#[test]":
                continue
            if m and not re.search(r"\)[^{]*;$", line):
                public = {None: "private", "pub ": "", "pub(crate) ": "in the crate"}[m.group(1)]
                j, clauses = k, ""
                while j < len(lines) and not re.search(r"(?<!ensures )\{$|^ *\{|;$", lines[j]):
                    clauses += lines[j] + "\n"
                    j += 1
                if j < len(lines) and lines[j].endswith(";"):  # a trait only declares it
                    continue
                clauses = "\n".join(c for c in clauses.split("\n") if re.match(r" *(ensures|requires)", c))
                found["::".join(place + around + [m.group(2)])] = ("" if in_trait else public, cited(clauses or gives))
    return found


def breaks(crate):
    """The functions that the edits of a crate break: path of the edit, line, function, and the two lines after it. By the number of the edit."""
    paths = [path for folder in (os.path.join("crates", crate, "must-fail"), os.path.join("tests", "edits", crate)) for path in files(folder, ".edit")]
    for path in sorted(paths, key=lambda path: (len(os.path.basename(path)), os.path.basename(path))):
        lines = text(path).split("\n") + ["", ""]
        for k, line in enumerate(lines):
            if line.startswith("# breaks: "):
                yield path, k + 1, line[len("# breaks: ") :], lines[k + 1], lines[k + 2]


def answers(crate):
    """The column of wrong answers, by function: each in the words of its edit, with the edit's number."""
    found = {}
    for path, _, name, said, _ in breaks(crate):
        m = re.search(r"wrong_(\d+)\.edit$", path)
        if m:
            found.setdefault(name, []).append("%s (%s)" % (said[2:], m.group(1)))
    return {name: "; ".join(said) for name, said in found.items()}


def declared():
    """Every name that a specification, proof or source declares."""
    found = set(os.listdir(os.path.join(ROOT, "crates")))
    for path in files("crates", ".antt"):
        found |= set(re.findall(r"^ *(?:(?:abbrev|unfoldable) )?(?:pub )?(?:(?:record|data) )?([^\s(){}:]+)(?= [^=]*:)", text(path), re.M))
        found |= set(re.findall(r"^ *(?:pub )?(?:record|data) (\S+)", text(path), re.M))
    for path in files("crates", ".rt"):
        found |= set(re.findall(r"(?:fn|struct|enum|mod) (\w+)", text(path)))
        found |= set(re.findall(r"^ +(?:pub )?(\w+)[(,:]", text(path), re.M))
    for crate in os.listdir(os.path.join(ROOT, "crates")):
        found |= {part for path in functions(crate) for part in path.split("::")}
    return found


def cells(line):
    return [cell.strip() for cell in line.strip().strip("|").split("|")]


def tables(lines):
    """Each table: the section that it is in, the name alone on a line before it, its head, and its rows with their line numbers. A row without a head is
    a table of no head."""
    section = alone = ""
    i = 0
    while i < len(lines):
        line = lines[i]
        if line.startswith("## "):
            section, alone = line[3:].strip(), ""
        elif re.fullmatch(r"`\w+`", line):
            alone = line.strip("`")
        elif line.startswith("|"):
            end = i
            while end < len(lines) and lines[end].startswith("|"):
                end += 1
            headed = end > i + 1 and lines[i + 1].startswith("|---")
            start = i + 2 if headed else i
            yield section, alone, cells(line) if headed else [], [(k + 1, cells(lines[k])) for k in range(start, end)]
            i = end
            continue
        i += 1


def function(alone, cell, there):
    """The function that a row is about, and how public the row says it is."""
    m = re.fullmatch(r"`([\w:]+)`(?: \((private|in the crate)\))?", cell)
    return (m.group(1) if m.group(1) in there else alone + "::" + m.group(1), m.group(2) or "") if m else (None, "")


def of_functions(section, head):
    return bool(head) and head[0] == "function" and os.path.isdir(os.path.join(ROOT, "crates", section))


def of_module(crate, path):
    """The module of a function whose table it stands in: the first, if it is one; else none."""
    first = path.split("::")[0]
    source = os.path.join(ROOT, "crates", crate, "src", first)
    return first if first not in ("main", "lib") and (os.path.exists(source + ".rt") or os.path.isdir(source)) else ""


def row(alone, name, there, said, kept):
    """The row of a function: the definitions are those of its row before, if it had one."""
    public, cites = there[name]
    shown = name[len(alone) + 2 :] if alone else name
    return "| `%s`%s | %s | %s |" % (shown, " (%s)" % public if public else "", kept.get(name, cites), said.get(name, ""))


def write():
    """Writes the tables of functions: a row for each function, in the order of the files, with its wrong answers; and the counts above them."""
    head, *sections = text(FUNCTIONS).split("\n## ")
    for at, section in enumerate(sections):
        crate = section.split("\n")[0].strip()
        if not os.path.isdir(os.path.join(ROOT, "crates", crate)) or "| function |" not in section:
            continue
        there, said, kept = functions(crate), answers(crate), {}
        for _, alone, titles, body in tables(("## " + section).split("\n")):
            if titles and titles[0] == "function":
                for _, cell in body:
                    name, _ = function(alone, cell[0], there)
                    if cell[1] != "the value, in the contract":
                        kept[name] = cell[1]
        title = next(line for line in section.split("\n") if line.startswith("| function |"))
        by_module = any(alone for _, alone, titles, _ in tables(("## " + section).split("\n")) if titles and titles[0] == "function")
        wanted = {}
        for name in there:
            wanted.setdefault(of_module(crate, name) if by_module else "", []).append(name)
        lines, out, k, alone = section.split("\n"), [], 0, ""
        while k < len(lines):
            if re.fullmatch(r"`\w+`", lines[k]) and k + 2 < len(lines) and lines[k + 2].startswith("| function |"):
                alone = lines[k].strip("`")
                if alone not in wanted:
                    k += 2
                    while k < len(lines) and lines[k].startswith("|"):
                        k += 1
                    k += 1
                    continue
            if lines[k].startswith("| function |"):
                if alone in wanted:
                    out += lines[k : k + 2] + [row(alone, name, there, said, kept) for name in wanted.pop(alone)]
                elif out and not out[-1]:
                    out.pop()
                while k < len(lines) and lines[k].startswith("|"):
                    k += 1
                continue
            out.append(lines[k])
            k += 1
        while out and not out[-1]:
            out.pop()
        for alone, names in wanted.items():
            out += [""] + (["`%s`" % alone, ""] if alone else []) + [title, "|---|---|---|"] + [row(alone, name, there, said, kept) for name in names]
        section = "\n".join(out + [""])
        wrongs = sum(len(re.findall(r"\(\d\)", one)) for one in said.values())
        section = re.sub(r"\b\d+(\s+functions)", lambda m: str(len(there)) + m.group(1), section)
        section = re.sub(r"\b\d+(\s+wrong\s+answers)", lambda m: str(wrongs) + m.group(1), section)
        sections[at] = section
    with open(FUNCTIONS, "w", encoding="utf-8") as f:
        f.write("\n## ".join([head] + sections).rstrip("\n") + "\n")


def edits():
    """What is wrong with the lines that name a broken function."""
    for crate in sorted(os.listdir(os.path.join(ROOT, "crates"))):
        there = functions(crate)
        for path, number, name, said, then in breaks(crate):
            at = "%s:%d: " % (os.path.relpath(path, ROOT), number)
            if name not in there:
                yield at + "there is no function %s in %s" % (name, crate)
            elif not re.match(r"# (?!breaks: |theorem: )[^|]+$", said):
                yield at + "the wrong answer of %s is not said" % name
            else:
                yield "" if then.startswith(("old: ", "# breaks: ")) else at + "nothing is replaced for %s" % name


def replaced():
    """Of each edit: that every text which it replaces stands once in its file, after the replacements before it."""
    for folder in sorted(os.listdir(os.path.join(ROOT, "crates"))):
        crate = os.path.join(ROOT, "crates", folder)
        for path in [path for place in (os.path.join("crates", folder, "must-fail"), os.path.join("tests", "edits", folder)) for path in files(place, ".edit")]:
            now, name, old, found = {}, "", "", ""
            for line in text(path).split("\n"):
                if line.startswith("file: "):
                    name = line[6:]
                    if not os.path.exists(os.path.join(crate, name)):
                        found = "%s: there is no %s in %s" % (os.path.relpath(path, ROOT), name, folder)
                        break
                    now.setdefault(name, text(os.path.join(crate, name)))
                elif line.startswith("old: "):
                    old = line[5:]
                elif line.startswith("new:"):
                    if now[name].count(old) != 1:
                        found = "%s: %d times in %s: %s" % (os.path.relpath(path, ROOT), now[name].count(old), name, old[:80])
                        break
                    now[name] = now[name].replace(old, line[4:].removeprefix(" "))
            yield found


def edit_there(crate, name):
    """Whether a crate has this edit, by its number or by its name."""
    file = "wrong_%s.edit" % name if name.isdigit() else name + ".edit"
    return any(os.path.exists(os.path.join(ROOT, folder, file)) for folder in (os.path.join("crates", crate, "must-fail"), os.path.join("tests", "edits", crate)))


def named_edits(cell):
    """The edits of a cell, 'CRATE EDIT, EDIT; CRATE EDIT': those that are not there."""
    for group in cell.split("; "):
        crate, _, names = group.partition(" ")
        for name in names.split(", "):
            yield "" if edit_there(crate, name) else "there is no edit %s %s" % (crate, name)


def named(cell, names, antt):
    """What a cell of definitions, functions, laws or theorems names: a name that is declared nowhere, a file that is not there."""
    for name in {n for q in re.findall(r"`([^`]+)`", cell) for n in re.split(r"::|[\s,.()]+", q) if n and not n.isdigit()}:
        yield "" if name in names | LIBRARY else "%s is declared nowhere" % name
    for name in re.findall(r"\b\w+\.antt\b", cell):
        yield "" if name in antt else "there is no %s" % name


def columns(at, head, body, names, antt):
    """What is wrong with the names, files and edits in the columns of a table."""
    for number, row in body:
        cell = dict(zip(head, row))
        found = ["" if len(row) == len(head) else "%d columns under %d" % (len(row), len(head))]
        found += [one for title in NAMING if title in cell for one in named(cell[title], names, antt)]
        found += named_edits(cell["edit"]) if cell.get("edit") else []
        yield from (at % number + one if one else "" for one in found)


def rows(at, section, alone, body):
    """Of each row of a table of functions its function, the row, and what is wrong with it."""
    there, said = functions(section), answers(section)
    for number, row in body:
        name, public = function(alone, row[0], there)
        if name not in there:
            yield None, row, [at % number + "there is no function %s in %s" % (row[0], section)]
            continue
        found = ["" if there[name][0] == public else at % number + "%s is %s" % (name, there[name][0] or "public")]
        found.append("" if row[2] == said.get(name, "") else at % number + "the wrong answers of %s are, by the edits: %s" % (name, said.get(name, "none")))
        yield name, row, found


def counts(section, found):
    """Of the functions of a crate: those without a row, and counts that are not those of the table."""
    for name in sorted(set(functions(section)) - {name for name, _ in found}):
        yield "%s: %s has no row" % (section, name)
    body = text(FUNCTIONS).split("\n## %s\n" % section)[1].split("\n## ")[0]
    wrongs = sum(len(re.findall(r"\(\d\)", row[2])) for _, row in found)
    for word, count in (("functions", len(found)), ("wrong answers", wrongs)):
        for said in re.findall(r"\b(\d+)\s+%s" % word.replace(" ", r"\s+"), body):
            yield "" if int(said) == count else "%s: %s %s are said, %d are in the table" % (section, said, word, count)


def document(doc, names, antt, by_crate):
    """What is wrong in a document; its rows of functions are added to those of their crate."""
    at = os.path.relpath(doc, ROOT) + ":%d: "
    for section, alone, head, body in tables(text(doc).split("\n")):
        if not head:
            yield at % body[0][0] + "rows without a head"
            continue
        yield from columns(at, head, body, names, antt)
        if doc == FUNCTIONS and of_functions(section, head):
            for name, row, found in rows(at, section, alone, body):
                yield from found
                if name:
                    by_crate.setdefault(section, []).append((name, row))


def wrong():
    """What each test finds: a line, or nothing."""
    yield from edits()
    yield from replaced()
    names = declared()
    antt = {os.path.basename(path) for path in files("crates", ".antt")}
    by_crate = {}
    for doc in (PROMISES, FUNCTIONS):
        yield from document(doc, names, antt, by_crate)
    for section, found in by_crate.items():
        yield from counts(section, found)


def main():
    if sys.argv[1:] not in ([], ["--write"]):
        sys.exit("usage: promises.py [--write]")
    if sys.argv[1:] and not any(edits()):
        write()
    found = list(wrong())
    for line in found:
        if line:
            print(line)
    failed = sum(1 for line in found if line)
    print("%d passed, %d failed" % (len(found) - failed, failed))
    sys.exit(1 if failed else 0)


if __name__ == "__main__":
    main()
