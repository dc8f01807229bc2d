#!/usr/bin/env python3
"""usage: second-programs.py [--seed N] [--minutes M] [--each K] [--jobs J] [CRATE..]

How strong are the contracts? Makes small changes of meaning in crates/*/src, has the prover judge each, and lists those that are still proved: a
second program that meets the contracts. Not a part of the gate.

A change is one of: a comparison turned or moved by one, a condition negated, a constant off by one, a flag or an enum's case exchanged for its
neighbour, an operator exchanged, operands or arguments exchanged, two arms of a match exchanged, a field taken from its neighbour, a statement or a
call left out. Changes that do not compile are left out, and of those that are still proved the ones that compile to the same code (Code/Mir.antt of
`rt check --generated DIR --start FUNCTION`).

A function is proved from its own code and from the contracts of what it calls, so the changes of different functions are judged in one run (`rt check`),
at most one in a function. By what the run says of a change's function F it is
  proved     `fn CRATE::F: proved`
  a fact     refused by a fact: a goal of F's own is open (`fn CRATE::F: no proof: expected answers ..; `search` did not prove ..`), or an answer or invariant
             of proofs/F is refused for another reason than a name
  the fit    refused by the fit: proofs/F names what is no longer there, or lacks what is now asked
  undecided  neither: a callee is not proved, say. It is tried again alone, and listed as undecided if that does not help.
A program that is still proved is run on its input, and refused if it writes something else than its file stdout, or by its own test (tests/CRATE.sh); so are,
of a library that reads or writes (its code names std::io), the programs that stand on it.

tests/second-programs.equal names the changes that leave the behaviour the same, a line each: FUNCTION | OLD | NEW | why. Any other change that is still
proved makes the exit status 1. All is drawn from the seed: the same options and crates give the same changes, unless time runs out.
"""
import argparse
import concurrent.futures
import os
import queue
import random
import re
import shutil
import signal
import subprocess
import sys
import tempfile
import time

from promises import owner

ROOT = os.path.dirname(os.path.dirname(os.path.abspath(__file__)))
WORD = r"[A-Za-z_][A-Za-z0-9_]*"


class Function:
    """A function's name as the prover prints it, its file and the lines of its body (from, to), the braces' lines included."""

    def __init__(self, crate, name, file, first, last):
        self.crate, self.name, self.file, self.first, self.last = crate, name, file, first, last
        self.path = crate + "::" + name


class Change:
    """Lines of a function replaced by others."""

    def __init__(self, function, line, old, new, what):
        self.function, self.line, self.old, self.new, self.what = function, line, old, new, what
        self.verdict = None

    def key(self):
        return (self.function.path, " ".join(self.old.split()), " ".join(self.new.split()))

    def __str__(self):
        return "%s | %s | %s" % self.key()


def module_of(file):
    parts = file[: -len(".rt")].split("/")
    return [] if parts in (["lib"], ["main"]) else parts


def functions(crate, root):
    """The functions of a crate with a body of their own."""
    found = []
    src = os.path.join(root, "crates", crate, "src")
    for folder, _, names in sorted(os.walk(src)):
        for name in sorted(names):
            if not name.endswith(".rt"):
                continue
            file = os.path.relpath(os.path.join(folder, name), src)
            lines = open(os.path.join(folder, name), encoding="utf-8").read().split("\n")
            inside = None
            i = 0
            while i < len(lines):
                if re.match(r"(pub )?(impl|trait)\b", lines[i]):
                    head = lines[i]
                    while "{" not in head:
                        i += 1
                        head += " " + lines[i].strip()
                    inside = owner(head[: head.index("{")].rstrip())
                if lines[i] == "}":
                    inside = None
                m = re.match(r'( *)(pub(\(crate\))? )?(extern "C" )?(const )?fn (%s)(?:<[^(]*>)?\(' % WORD, lines[i])
                if m and (m.group(2) or lines[i - 1] != "#[test]"):  # (a test has no contract)
                    indent = m.group(1)
                    start = i
                    while not (lines[start] == indent + "{" or lines[start].endswith((" {", ";"))):
                        start += 1
                    if lines[start].endswith(";"):
                        i = start + 1
                        continue
                    end = start
                    while lines[end] != indent + "}":
                        end += 1
                    path = module_of(file) + ([inside] if inside and indent else []) + [m.group(6)]
                    found.append(Function(crate, "::".join(path), file, start, end))
                    i = end
                i += 1
    return found


def neighbours(root):
    """For each field its neighbours in the structs that have it, and for each case of an enum its neighbour."""
    fields, cases = {}, {}
    for folder, folders, names in os.walk(os.path.join(root, "crates")):
        folders[:] = [name for name in folders if name != "out"]
        for name in sorted(names):
            if not name.endswith(".rt"):
                continue
            text = re.sub(r"//[^\n]*", "", open(os.path.join(folder, name), encoding="utf-8").read())
            for m in re.finditer(r"struct %s \{([^}]*)\}" % WORD, text):
                own = re.findall(r"(?:pub )?(%s):" % WORD, m.group(1))
                for a, b in zip(own, own[1:] + own[:1]):
                    if a != b:
                        fields.setdefault(a, []).append(b)
            for m in re.finditer(r"enum (%s) \{([^}]*)\}" % WORD, text):
                own = re.findall(r"^\s*(%s)" % WORD, m.group(2), re.M)
                for a, b in zip(own, own[1:] + own[:1]):
                    if a != b:
                        cases.setdefault((m.group(1), a), []).append(b)
    return fields, cases


def balanced(text, at):
    """The index after the bracket that closes the one at `at`, or None."""
    depth = 0
    for i in range(at, len(text)):
        if text[i] in "([{":
            depth += 1
        elif text[i] in ")]}":
            depth -= 1
            if depth == 0:
                return i + 1
    return None


def arguments(text):
    """Splits a list of arguments at its commas."""
    parts, depth, start = [], 0, 0
    for i, c in enumerate(text):
        if c in "([{":
            depth += 1
        elif c in ")]}":
            depth -= 1
        elif c == "," and depth == 0:
            parts.append(text[start:i])
            start = i + 1
    parts.append(text[start:])
    return parts


COMPARED = {"<": ["<=", ">="], "<=": ["<", ">"], ">": [">=", "<="], ">=": [">", "<"], "==": ["!="], "!=": ["=="]}
EXCHANGED = {
    "+": ["-"], "-": ["+"], "*": ["+"], "/": ["*"], "%": ["/"], "<<": [">>"], ">>": ["<<"], "&": ["|"], "|": ["&"], "^": ["|"],
    "&&": ["||"], "||": ["&&"], "+=": ["-="], "-=": ["+="],
}


def line_changes(code, fields, cases):
    """(new text, what) for one line of code without its comment."""
    for m in re.finditer(r" (<=|>=|==|!=|<|>) ", code):
        for new in COMPARED[m.group(1)]:
            yield code[: m.start(1)] + new + code[m.end(1) :], "comparison"
    for m in re.finditer(r" (<<|>>|&&|\|\||\+=|-=|[-+*/%&|^]) ", code):
        for new in EXCHANGED[m.group(1)]:
            yield code[: m.start(1)] + new + code[m.end(1) :], "operator"
    for m in re.finditer(r"(%s(?:\.%s)*|\d+) (-|/|%%|<<|>>|<=|<) (%s(?:\.%s)*|\d+)(?![\w.(])" % (WORD, WORD, WORD, WORD), code):
        yield code[: m.start()] + "%s %s %s" % (m.group(3), m.group(2), m.group(1)) + code[m.end() :], "operands"
    for m in re.finditer(r"(?<![\w.])(\d+)(u8|u16|u32|u64|usize|i64)?(?![\w.])", code):
        n = int(m.group(1))
        for new in [n + 1] + ([n - 1] if n else []):
            yield code[: m.start(1)] + str(new) + code[m.end(1) :], "constant"
    for m in re.finditer(r"\b(true|false)\b", code):
        yield code[: m.start()] + ("false" if m.group() == "true" else "true") + code[m.end() :], "flag"
    m = re.match(r"( *(?:\} else )?(?:if|while) )(.*)( \{)$", code)
    if m:
        yield m.group(1) + "!(" + m.group(2) + ")" + m.group(3), "condition"
    for m in re.finditer(r"(?<![\w)])!(?=[\w(])", code):
        yield code[: m.start()] + code[m.end() :], "condition"
    for m in re.finditer(r"\b(%s)::(%s)\b" % (WORD, WORD), code):
        for new in cases.get((m.group(1), m.group(2)), []):
            yield code[: m.start(2)] + new + code[m.end(2) :], "case"
    for m in re.finditer(r"\.(%s)\b(?!\()" % WORD, code):
        for new in fields.get(m.group(1), []):
            yield code[: m.start(1)] + new + code[m.end(1) :], "field"
    for m in re.finditer(r"\b%s\(" % WORD, code):
        end = balanced(code, m.end() - 1)
        if end:
            own = arguments(code[m.end() : end - 1])
            for i in range(len(own) - 1):
                new = own[:i] + [" " + own[i + 1].strip(), " " + own[i].strip()] + own[i + 2 :]
                yield code[: m.end()] + ",".join(new).strip() + code[end - 1 :], "arguments"
            if len(own) == 1 and own[0].strip():
                yield code[: m.start()] + own[0] + code[end:], "call"
    for m in re.finditer(r"\.%s\(" % WORD, code):
        end = balanced(code, m.end() - 1)
        if end and m.start() and re.match(r"[\w)\]]", code[m.start() - 1]):
            yield code[: m.start()] + code[end:], "call"
    if re.match(r" *(\*?%s(\.%s|\[[^=]*\])* (=|\+=|-=) |%s(::%s)*\().*;$" % (WORD, WORD, WORD, WORD), code):
        yield re.match(r" *", code).group() + "{}", "statement"
    if re.match(r" *return .*;$", code) or re.match(r" *return;$", code):
        yield re.match(r" *", code).group() + "{}", "statement"


def block_changes(lines):
    """(first, last, new lines, what): neighbouring arms or fields of one block with their right sides exchanged."""
    sides = []
    i = 0
    while i < len(lines):
        m = re.match(r"( *)(.* => )(.*)$", lines[i]) or re.match(r"( *)(%s: )(.*)$" % WORD, lines[i])
        if m:
            end = i
            if m.group(3).endswith("{") or m.group(3).endswith("("):
                while not re.match(m.group(1) + r"[})]", lines[end]):
                    end += 1
            sides.append((m.group(1), m.group(2), i, end, m.group(3)))
        i += 1
    for a in sides:
        for b in sides:
            if a[0] == b[0] and (a[1].endswith("=> ")) == (b[1].endswith("=> ")) and b[2] == a[3] + 1:
                left, right = lines[a[2] : a[3] + 1], lines[b[2] : b[3] + 1]
                new = [b[0] + a[1] + b[4]] + right[1:] + [a[0] + b[1] + a[4]] + left[1:]
                if new != left + right:
                    yield a[2], b[3], new, "arms" if a[1].endswith("=> ") else "fields"


def changes(function, lines, fields, cases):
    """Every change of one function, each once."""
    seen = set()
    body = lines[function.first : function.last + 1]
    for at in range(function.first + 1, function.last):
        code = lines[at]
        if code.strip().startswith("//") or not code.strip():
            continue
        if "//" in code and '"' not in code:
            code = code.split("//")[0].rstrip()
        for new, what in line_changes(code, fields, cases):
            if new != lines[at] and (at, new) not in seen:
                seen.add((at, new))
                yield Change(function, at, lines[at], new, what)
    for first, last, new, what in block_changes(body):
        old = body[first : last + 1]
        yield Change(function, function.first + first, "\n".join(old), "\n".join(new), what)


class Place:
    """A copy of the repository, in which one crate at a time is changed. `rt` begins there with what it kept in other copies on this machine."""

    def __init__(self, folder):
        self.folder = folder
        os.makedirs(folder)
        for name in ("crates.txt", "HANDLES"):
            if os.path.exists(os.path.join(ROOT, name)):
                shutil.copy(os.path.join(ROOT, name), folder)
        shutil.copytree(os.path.join(ROOT, "crates"), os.path.join(folder, "crates"), ignore=shutil.ignore_patterns("must-fail", "out"))
        shutil.copytree(os.path.join(ROOT, "tests"), os.path.join(folder, "tests"))
        os.makedirs(os.path.join(folder, "target"))
        for name in ("rust", "examples", os.path.join("target", "rust")):
            os.symlink(os.path.join(ROOT, name), os.path.join(folder, name))

    def run(self, words, seconds=1200, crate=None, given=None):
        """The status of a command, in the crate's folder if there is one, and its output, with `given` on standard input that of the program alone; no status
        if it does not end in time, and then it is ended with all that it started."""
        folder = os.path.join(self.folder, "crates", crate) if crate else self.folder
        with subprocess.Popen(words, cwd=folder, stdin=subprocess.DEVNULL if given is None else subprocess.PIPE, stdout=subprocess.PIPE,
                              stderr=subprocess.STDOUT if given is None else subprocess.DEVNULL, start_new_session=True) as child:
            try:
                said, _ = child.communicate(given, timeout=seconds)
                return child.returncode, said.decode("utf-8", "replace") if given is None else said
            except subprocess.TimeoutExpired:
                os.killpg(child.pid, signal.SIGKILL)
                return None, ""

    def source(self, crate, file):
        return os.path.join(self.folder, "crates", crate, "src", file)

    def write(self, crate, batch):
        """Writes the crate's sources with these changes."""
        src = os.path.join(self.folder, "crates", crate, "src")
        shutil.rmtree(src)
        shutil.copytree(os.path.join(ROOT, "crates", crate, "src"), src)
        for file in {c.function.file for c in batch}:
            lines = open(self.source(crate, file), encoding="utf-8").read().split("\n")
            for c in batch:
                if c.function.file == file:
                    assert lines[c.line : c.line + c.old.count("\n") + 1] == c.old.split("\n"), c
                    new = c.new.split("\n")
                    lines[c.line : c.line + len(new)] = new
            open(self.source(crate, file), "w", encoding="utf-8").write("\n".join(lines))

    def code(self, function, batch):
        """The code of a function, as the prover has it, or None."""
        self.write(function.crate, batch)
        with tempfile.TemporaryDirectory() as folder:
            self.run(["rt", "check", "--generated", folder, "--start", function.name], crate=function.crate)
            path = os.path.join(folder, "Rattle-%s-proofs" % function.crate, *function.name.split("::"), "Code", "Mir.antt")
            return open(path, encoding="utf-8").read() if os.path.exists(path) else None


# What the prover says of a name that is not there.
NAME_GONE = re.compile(r"has no field|has no `|is not in scope|can be named from here")


def judge(place, crate, batch):
    """Sets each change's verdict: fact, fit, proved, none (it does not compile) or None."""
    while batch:
        place.write(crate, batch)
        status, said = place.run(["rt", "check", "--jobs", "1"], crate=crate)
        if status is None:
            return
        errors = re.findall(r"^(?:\./)?src/(\S+?):(\d+):\d+: error\[", said, re.M)
        if not errors:
            break
        bad = [c for c in batch if any(c.function.file == file and c.function.first < int(line) <= c.function.last + 1 for file, line in errors)]
        if not bad and len(batch) > 1:
            for c in batch:
                judge(place, crate, [c])
            return
        for c in bad or batch:
            c.verdict = "none"
        batch = [c for c in batch if c.verdict != "none"]
    lines = said.split("\n") if batch else []
    for c in batch:
        path = re.compile(r"\./proofs/%s/\w+\.antt:\d+:\d+: error: `" % c.function.name.replace("::", "/"))
        own = [l for l in lines if path.match(l) and "was not admitted" not in l and "was rejected" not in l]
        of = [l for l in lines if l.startswith("fn %s: " % c.function.path)]
        if "fn %s: proved" % c.function.path in of:
            c.verdict = "proved"
        elif any(not NAME_GONE.search(e) for e in own) or any("did not prove" in l for l in of):
            c.verdict = "fact"
        elif own or any("no proof" in l and "it calls" not in l for l in of):
            c.verdict = "fit"


def listed():
    """The crates of crates.txt, with the libraries that each names."""
    with open(os.path.join(ROOT, "crates.txt"), encoding="utf-8") as f:
        return {line.split(":")[0].split()[0]: line.split(":")[1].split() for line in f if ":" in line and not line.startswith("#")}


def is_program(crate):
    return os.path.exists(os.path.join(ROOT, "crates", crate, "src", "main.rt"))


def programs(crate):
    """The programs that a change of a crate is run by: itself, or those that stand on a library that reads or writes."""
    if is_program(crate):
        return [crate]
    system = any("std::io" in open(os.path.join(folder, name), encoding="utf-8").read()
                 for folder, _, names in os.walk(os.path.join(ROOT, "crates", crate, "src")) for name in names)
    return [other for other, names in listed().items() if is_program(other) and crate in names] if system else []


def runs(place, crate, batch):
    """Whether the programs with these changes write what their files stdout have, run without their proof where the toolchain can, else with it; and pass their
    own tests, tests/PROGRAM.sh, where they have one. One that does not end within ten minutes, its proof included, does not."""
    place.write(crate, batch)
    return all(run_one(place, program, batch) for program in programs(crate))


def run_one(place, program, batch):
    test = os.path.join("tests", program + ".sh")
    if os.path.exists(os.path.join(ROOT, test)):
        return place.run(["sh", "tests/built.sh", program], 600)[0] == 0 and place.run([test], 300)[0] == 0
    given, wanted = (open(os.path.join(ROOT, "crates", program, name), "rb").read() for name in ("stdin", "stdout"))
    written = place.run(["rt", "try"], 300, program, given)
    if written != (0, wanted) and not batch:
        place.tries = False
    if not place.tries:
        written = place.run(["rt", "run"], 600, program, given)
    return written == (0, wanted)


def one_crate(place, crate, options, until, known, out):
    run = bool(programs(crate))
    place.write(crate, [])
    status, said = place.run(["rt", "check"], crate=crate)
    if status != 0:
        sys.exit("second-programs: %s is not proved as it stands\n%s" % (crate, said[-2000:]))
    place.tries = True
    if run and not runs(place, crate, []):
        sys.exit("second-programs: %s does not run as it stands" % crate)
    fields, cases = neighbours(ROOT)
    texts = {}
    every = []
    for f in functions(crate, ROOT):
        if f.file not in texts:
            texts[f.file] = open(os.path.join(ROOT, "crates", crate, "src", f.file), encoding="utf-8").read().split("\n")
        own = list(changes(f, texts[f.file], fields, cases))
        random.Random("%s %s" % (options.seed, f.path)).shuffle(own)
        every += own
    rest, done, tried, code = {}, {}, [], {}
    for c in every:
        rest.setdefault(c.function.path, []).append(c)

    def left(path):
        """How many of a function's changes are still to be tried."""
        return min(len(rest[path]), options.each - done.get(path, 0)) if options.each else len(rest[path])

    def same(c):
        """Whether a change compiles to the code that its function has."""
        if c.function not in code:
            code[c.function] = place.code(c.function, [])
        return code[c.function] is not None and code[c.function] == place.code(c.function, [c])

    while time.time() <= until:
        batch = [rest[path].pop(0) for path in rest if left(path)]
        if not batch:
            break
        judge(place, crate, batch)
        for c in batch:
            if c.verdict is None:
                judge(place, crate, [c])
            if c.verdict == "proved" and c.key() not in known:
                if same(c):
                    c.verdict = "same"
                elif run and not runs(place, crate, [c]):
                    c.verdict = "run"
        for c in batch:
            if c.verdict not in ("none", "same"):
                tried.append(c)
                done[c.function.path] = done.get(c.function.path, 0) + 1
        print("   %s: %d of %d" % (crate, len(tried), len(tried) + sum(left(path) for path in rest)), file=sys.stderr, flush=True)
    place.write(crate, [])
    possible = len(tried) + sum(left(path) for path in rest)
    count = {v: sum(1 for c in tried if c.verdict == v) for v in ("fact", "fit", "run", "proved", None)}
    equal = [c for c in tried if c.verdict == "proved" and c.key() in known]
    free = [c for c in tried if c.verdict == "proved" and c.key() not in known]
    text = ["%s: %d possible, %d tried, %d refused by a fact, %d by the fit, %d by running, %d equal in behaviour, %d still proved, %d undecided" % (
        crate, possible, len(tried), count["fact"], count["fit"], count["run"], len(equal), len(free), count[None])]
    text += ["   still proved (%s): %s" % (c.what, c) for c in free]
    text += ["   undecided (%s): %s" % (c.what, c) for c in tried if c.verdict is None]
    print("\n".join(text), flush=True)
    out.append((crate, possible, len(tried), count["fact"], count["fit"], count["run"], len(equal), len(free), count[None]))


def main():
    parser = argparse.ArgumentParser(usage=__doc__)
    parser.add_argument("--seed", type=int, default=1)
    parser.add_argument("--minutes", type=float, default=60)
    parser.add_argument("--each", type=int, default=0)
    parser.add_argument("--jobs", type=int, default=2)
    parser.add_argument("crates", nargs="*")
    options = parser.parse_args()
    crates = options.crates or list(listed())
    known = set()
    path = os.path.join(ROOT, "tests", "second-programs.equal")
    if os.path.exists(path):
        for line in open(path, encoding="utf-8"):
            if line.strip() and not line.startswith("#"):
                known.add(tuple(p.strip() for p in line.split(" | ")[:3]))
    until = time.time() + 60 * options.minutes
    work = tempfile.mkdtemp()
    out = []
    try:
        free = queue.Queue()
        for k in range(options.jobs):
            free.put(Place(os.path.join(work, str(k))))

        def task(crate):
            place = free.get()
            try:
                one_crate(place, crate, options, until, known, out)
            finally:
                free.put(place)

        with concurrent.futures.ThreadPoolExecutor(options.jobs) as pool:
            for done in [pool.submit(task, c) for c in crates if functions(c, ROOT)]:
                done.result()
    finally:
        shutil.rmtree(work)
    sums = [sum(row[k] for row in out) for k in range(1, 9)]
    print("all: %d possible, %d tried, %d refused by a fact, %d by the fit, %d by running, %d equal in behaviour, %d still proved, %d undecided" % tuple(sums))
    sys.exit(1 if sums[6] or sums[7] else 0)


main()
