#!/usr/bin/env python3
"""usage: landing.py OLD NEW [--all]

What a landing changed, from one commit to another, as the skeleton of its note docs/landings/S-NN.md. By crate and file: definitions (each name of specs/*.antt, and each
type that the code declares), promises (each function of src/ with its signature, `requires` and `ensures`), proofs (each public name of proofs/*.antt with its statement) and
must-fail edits, by what they replace. Each is new, changed, moved, gone, or stayed as it was. Texts are compared without comments and layout, definitions also without `pub`, and
`use` lines do not count. Moved is the same text in another file or crate, under the same name, or, if it is no short one and no other has it, under another. Changed is another
text under the same name in the same file, or if it is the only one of its name, elsewhere. A text that stayed may cite a name that has changed.
What stayed is counted by crate; with --all it is named. Reads both commits by `git ls-tree` and `git show`, and nothing of the work tree.
"""
import difflib
import os
import re
import subprocess
import sys

ROOT = os.path.dirname(os.path.dirname(os.path.abspath(__file__)))
READ = re.compile(r"crates/\w+/(?:specs/.*\.antt|proofs/\w+\.antt|src/.*\.rt|must-fail/.*\.edit)$|tests/edits/\w+/.*\.edit$")
# A declaration of antt: what stands before the name, and the name.
DECLARES = re.compile(r"((?:(?:abbrev|unfoldable|pub|record|data) )+)([^\s(){}:]+)|()([^\s(){}:]+) :(?: |$)")
FUNCTION = re.compile(r' *(?:pub |pub\(crate\) )?(?:extern "C" )?fn (\w+)(?:<[^>]*>)?\(')


def git(*words):
    return subprocess.run(["git", "-C", ROOT, *words], check=True, stdout=subprocess.PIPE).stdout.decode("utf-8")


def crate(path):
    return path.split("/")[1 if path.startswith("crates/") else 2]


def plain(text):
    """A text without comments and layout."""
    return " ".join(re.sub(r"(^|\s)(--|//)( .*)?$", "", text, flags=re.M).split())


def blocks(lines):
    """The declarations of an antt file: what stands before the name, the name, the lines up to the first clause, and all lines. What stands in a `module _ .. where` has that
    line before its own."""
    found, head, i = [], False, 0
    while i < len(lines):
        line, i = lines[i], i + 1
        if line.startswith("module "):
            top = [line]
            while not top[-1].endswith(" where"):
                top.append(lines[i])
                i += 1
            inner = []
            while i < len(lines) and (not lines[i] or lines[i][0] == " "):
                inner.append(lines[i])
                i += 1
            deep = min((len(one) - len(one.lstrip()) for one in inner if one), default=0)
            found += [(how, name, top + first, top + whole) for how, name, first, whole in blocks([one[deep:] for one in inner])]
            head = False
        elif line and not line.startswith(("--", "use ", "pub use ", "pub mod ")):
            m = DECLARES.match(line)
            if m:
                found.append((m.group(1) or "", m.group(2) or m.group(4), [], []))
                head = True
            elif line[0] != " ":
                head = False
            if found:
                if head:
                    found[-1][2].append(line)
                found[-1][3].append(line)
    return found


def declared(path, text):
    """What a file declares: kind, name and text of each."""
    if path.endswith(".edit"):
        named = sorted(re.findall(r"^# (?:breaks|theorem): .*", text, re.M))
        yield "edit", os.path.basename(path)[: -len(".edit")], "\n".join(named + re.findall(r"^(?:file|old|new):.*", text, re.M))
    elif path.endswith(".antt"):
        specs = path.split("/")[2] == "specs"
        for how, name, first, whole in blocks(text.split("\n")):
            defines = how.replace("pub ", "") != ""
            if specs and defines or "pub " in how:
                said = plain("\n".join(whole if defines else first))
                yield ("definition", name, re.sub(r"\bpub ", "", said)) if specs and defines else ("proof", name, said)
    else:
        around, at = "", 0
        for line in text.split("\n"):
            m = re.match(r"impl (\w+) \{", line)
            if m or line.startswith("}"):
                around = m.group(1) + "::" if m else ""
            m = FUNCTION.match(line)
            if m:
                yield "promise", around + m.group(1), plain(text[at : text.index("{\n", at)])
            m = re.match(r"pub (?:struct|enum) (\w+)", line)
            if m:
                yield "definition", m.group(1), plain(line if line.endswith(("}", ";")) else text[at : text.index("\n}", at)])
            at += len(line) + 1


def read(commit, known):
    """What a commit declares, by kind: the text of each path and name; and its crates, in the order of crates.txt."""
    found, crates = {"definition": {}, "promise": {}, "proof": {}, "edit": {}}, []
    for entry in git("ls-tree", "-r", "-z", commit).split("\0")[:-1]:
        what, path = entry.split("\t")
        blob = what.split()[2]
        if path == "crates.txt":
            crates = re.findall(r"^(\w+)[^:#\n]*:", git("show", blob), re.M)
        if READ.match(path):
            if (blob, path) not in known:
                known[blob, path] = list(declared(path, git("show", blob)))
            for kind, name, text in known[blob, path]:
                at = os.path.dirname(path) if kind == "edit" else path
                while (at, name) in found[kind]:
                    name += "'"
                found[kind][at, name] = text
    return found, crates


def unnamed(key, text):
    """A text with its own name left out, if there is enough of it to be known by."""
    last = key[1].split("::")[-1]
    return re.sub(r"(?<![^\s(){};,.])%s(?![^\s(){};,.])" % re.escape(last), "_", text) if len(text) > 60 else None


def compare(old, new):
    """What is new, changed (from, to), moved (from, to), gone and the same."""
    same = {key: text for key, text in new.items() if old.get(key) == text}
    left, right = ({key: text for key, text in side.items() if key not in same} for side in (old, new))

    def pairs(by, alone=False, like=0.0):
        """Takes out what agrees; with `alone` only where one on either side does, with `like` only where so much of the text is the same."""
        sides = []
        for side in (left, right):
            sides.append({})
            for key, text in side.items():
                sides[-1].setdefault(by(key, text), []).append(key)
        for what, to in sides[1].items():
            of = sides[0].get(what, [])
            if what is not None and not (alone and (len(of), len(to)) != (1, 1)):
                for a, b in zip(of, to):
                    if not like or difflib.SequenceMatcher(None, left[a].split(), right[b].split()).ratio() >= like:
                        del left[a], right[b]
                        yield a, b

    moved = list(pairs(lambda key, text: (key[1], text)))
    changed = list(pairs(lambda key, text: key))
    moved += pairs(unnamed, alone=True)
    changed += pairs(lambda key, text: (crate(key[0]), key[1]), alone=True)
    changed += pairs(lambda key, text: key[1], alone=True, like=0.5)
    return list(right), changed, moved, list(left), same


def place(path):
    """A file or folder, its crate first."""
    return "`%s` %s" % (crate(path), path.split("/", 2)[2]) if path.startswith("crates/") else path


def write(found, crates, every):
    """Writes the lists of a heading."""
    rank = {name: k for k, name in enumerate(crates)}

    def lists(word, keys):
        """The names of each place; a place is where it is, and where it was."""
        groups = {}
        for was, now in keys:
            name = "`%s`" % now[1] + ("" if was[1] == now[1] else " (was `%s`)" % was[1])
            groups.setdefault((now[0],) if was[0] == now[0] else (now[0], was[0]), []).append(name)
        print("\n%s (%d)%s" % (word, len(keys), ":\n" if keys else ""))
        for paths in sorted(groups, key=lambda paths: [(rank.get(crate(path), len(rank)), path) for path in paths]):
            print("- %s: %s" % (", from ".join(place(path) for path in paths), ", ".join(groups[paths])))

    new, changed, moved, gone, same = found
    lists("new", [(key, key) for key in new])
    lists("changed", changed)
    lists("moved", moved)
    lists("gone", [(key, key) for key in gone])
    if every:
        lists("stayed", [(key, key) for key in same])
    else:
        of = [crate(path) for path, _ in same]
        by = sorted(set(of), key=lambda name: (rank.get(name, len(rank)), name))
        print("\nstayed (%d): %s" % (len(same), ", ".join("`%s` %d" % (name, of.count(name)) for name in by)))


def main():
    words = [word for word in sys.argv[1:] if word != "--all"]
    if len(words) != 2 or any(word.startswith("-") for word in words):
        sys.exit("usage: landing.py OLD NEW [--all]")
    try:
        commits = [git("rev-parse", "--short", "--verify", word + "^{commit}").strip() for word in words]
    except subprocess.CalledProcessError:
        sys.exit(2)
    known = {}
    (old, before), (new, now) = (read(commit, known) for commit in commits)
    order = now + [name for name in before if name not in now]
    print("# S-NN: %s to %s" % tuple(commits))
    for title, kind in (("Definitions", "definition"), ("Promises", "promise"), ("Proofs", "proof")):
        print("\n## %s" % title)
        write(compare(old[kind], new[kind]), order, "--all" in sys.argv)
    print("\n## Check\n")
    for word, names in (("new", [name for name in now if name not in before]), ("gone", [name for name in before if name not in now])):
        print("- crates, %s (%d)%s" % (word, len(names), ": " + ", ".join("`%s`" % name for name in names) if names else ""))
    print("- times: tests/check-times.sh %s\n\nMust-fail edits:" % commits[1])
    write(compare(old["edit"], new["edit"]), order, "--all" in sys.argv)


main()
