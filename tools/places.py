#!/usr/bin/env python3
"""Counts the places that today's Rattle writes in another form (docs/DESIGN-PASS.md): of src/ for the points 1 to 7, of proofs/ for 8.

Usage: tools/places.py [COMMIT] [--list] [--page]     the work tree without a commit

--list names each place. --page writes the tables of docs/DESIGN-PASS.md anew, for the commit in its first line and the work tree; each
place that is found now needs a line in tools/places-now.txt that says why it stays:

    rule | places, with * where several are meant | rule, speed, proof, plainer, none or todo | why

`N read` is a place of point N that was found by reading. Exit 1, with a list, where a place has no line or a line serves none.
The rules go by form alone and leave nothing out for its name, its length or its crate, so some of what they find is no place (a method
that is named `byte`, two short functions that are alike by chance): docs/DESIGN-PASS.md names these. What stands in an impl of a trait
is today's form and is not counted under 4, nor a `match` in a TryFrom under 7.
"""
import collections
import fnmatch
import itertools
import re
import sys

sys.dont_write_bytecode = True
from changes import PAGE, ROOT, antt, blocks, close, functions, split, statement, texts

NOW = ROOT / "tools/places-now.txt"
NUMBER = r"(?:u8|u16|u32|u64|usize)"
KIND = r"(?:kind|op|letter|answer|present|presence|detail)"
PLACE = r"(?:at|place|k|i|from|to|by|full|have|count|ports|end|len)"
TITLES = {  # in the order of the page
    "1 enum": "enums with a case of Option or Result (None, Some, Ok, Err, Refused)",
    "1 flag": "structs of a flag and a value",
    "1 refusal": "numbers for refusals, and functions that answer one",
    "1 kind": "functions that take the number of a kind or an answer",
    "1 zero": "comparisons of a number with the 0 that stands for none",
    "2 function": "groups of functions that are alike but for names, types and numbers",
    "2 type": "groups of structs that are alike but for names and types",
    "3 while": "loops by `while` or `loop`",
    "3 for": "loops by `for` over numbers that the body uses",
    "3 unrolled": "functions with three lines or more that call or index and are alike but for numbers",
    "4 hand": "equality, order, defaults and conversions by hand, by the functions' names",
    "4 trait": "impls of what a derive may give (Default, PartialEq, Ord, Clone ..)",
    "4 text": "functions that write fixed text",
    "5 fact": "facts that three functions of a crate or more require, or have as a premise",
    "5 pair": "two parameters that travel together in four functions of a crate or more",
    "5 triple": "three parameters that travel together in three functions of a crate or more",
    "6 struct": "structs of an array or a slice and a number, or of numbered fields",
    "6 function": "functions that take an array or a slice and a place or a count in it",
    "7 match": "`match` with a number, a byte or a bool in an arm",
    "7 kind": "comparisons with the number or the letter of a kind",
    "7 next": "functions that answer what to do next, or switch on it",
    "7 call": "functions that take or hold `dyn` or a function pointer",
    "8 answer": "answers of the proofs",
    "8 twin": "groups of lemmas that say the same word for word, in other files",
}


def shape(f):
    """The words and signs of a function, with types, other names, numbers and strings replaced."""
    kept = "let mut if else match for in while return fn self Self as Some None Ok Err true false".split()
    out = []
    for w in re.findall(r"b?\"[^\"]*\"|b?'[^'\w]*\w?'|\w+|[^\w\s]", re.sub(r"\b(?:\w+::)+", "", f"{f.params} {f.result} {f.body}")):
        kind = "N" if w[0].isdigit() else "T" if w[0].isupper() else "x"
        out.append("S" if w[-1] in "\"'" else w if w in kept or not re.match(r"\w", w) or re.fullmatch(NUMBER, w) else kind)
    return " ".join(out)


def arms(body):
    """Each `match` of a body: what it looks at, and its patterns."""
    for m in re.finditer(r"\bmatch ([^{;]*?) \{", body):
        inside, depth, pattern, found = body[m.end():close(body, m.end() - 1)], 0, "", []
        for i, c in enumerate(inside):
            depth += (c in "({[") - (c in ")}]")
            if depth == 0 and inside.startswith("=>", i):
                found.append(pattern.strip())
            pattern = "" if depth == 0 and (c in ",}" or inside.startswith("=>", i - 1)) else pattern + c
        yield m.group(1), found


def alike(lines):
    """Whether three lines that call or index are alike but for numbers."""
    said = collections.Counter(re.sub(r"\b\d+\b|\b[a-z]+\d\b|(?<=let )\w+|\b[a-z](?=,)", "N", l.strip()) for l in lines)
    return any(n > 2 and "N" in l and re.search(r"[(\[]", l) and not l.startswith(("return", "Some(", "Err(")) for l, n in said.items())


def places(commit):
    files, found = texts(commit), collections.OrderedDict((k, []) for k in TITLES)
    groups = {k: collections.defaultdict(list) for k in ("2 function", "2 type", "5 fact", "5 pair", "5 triple", "8 twin")}
    add = lambda rule, where: found[rule].append(where)

    for name, text in files.items():
        line = lambda at: text.count("\n", 0, at) + 1
        if name.endswith(".antt"):
            for n, before, heads, lines in antt(text):
                if name.endswith("/Answers.antt"):
                    add("8 answer", f"{name} {n}")
                elif "/proofs/" in name and not re.search("abbrev|record|data", before):
                    groups["8 twin"][re.sub(r"(^| )(pub )?%s :" % re.escape(n), " :", statement(n, before, heads, lines))].append(f"{name} {n}")
            continue
        traits = [(a, b, head) for a, b, head in blocks(text, "impl") if " for " in head]

        for m in re.finditer(r"\b(enum|struct) (\w+)(?:<[^>]*>)? \{", text):
            parts = [re.sub(r"^(#\[\w+\] ?)*(pub(\(crate\))? )?", "", p) for p in split(text[m.end():close(text, m.end() - 1)])]
            where = f"{name}:{line(m.start())} {m.group(2)}"
            if m.group(1) == "enum":
                if any(re.match(r"(None|Some|Ok|Err|Refused)\b", p) for p in parts):
                    add("1 enum", where)
                continue
            if len(parts) > 1 and any(re.match(r"\w+: bool$|(ok|found|go|on|present|presence):", p) for p in parts):
                add("1 flag", where)
            kinds = collections.Counter(re.sub(r"\d+:|^(first|second|third|fourth):", "N:", p) for p in parts)
            if any("[" in p for p in parts) and any(re.search(": %s$" % NUMBER, p) for p in parts) or any(n > 1 and "N:" in p for p, n in kinds.items()):
                add("6 struct", where)
            groups["2 type"][", ".join(re.sub(r"\b[A-Z]\w*", "T", p) for p in parts)].append(where)

        for m in re.finditer(r"Refused\(\d+\)|Err\(\d+\)|\brefused\(\d+\)|return (2\d|3[0-4]);|^    (2\d|3[0-4])\n\}", text, re.M):
            add("1 refusal", f"{name}:{line(m.start())}")
        for a, b, head in traits:
            if re.search(r"\b(Default|PartialEq|Eq|PartialOrd|Ord|Clone|Copy|Debug|Display) for", head):
                add("4 trait", f"{name}:{line(a)} {head}")

        for f in functions(name, text):
            where, trait = f"{name}:{f.line} {f.name}", next((h for a, b, h in traits if line(a) <= f.line <= line(b)), "")
            value = [p for p in f.params if not re.search(r"&(?!self)", p)]
            if f.result == "u8" and "refus" in f.name:
                add("1 refusal", where)
            if any(re.fullmatch(r"(mut )?%s: %s" % (KIND, NUMBER), p) for p in f.params):
                add("1 kind", where)
            if re.search(r"\b(number|answer|presen\w+|first|differ)\w*(\([^()]*\))? *[!=]= *0\b", f.body):
                add("1 zero", where)
            if f.body:
                groups["2 function"][shape(f)].append(where)
            for m in re.finditer(r"\b(?:while|loop|for ([a-z]\w*) in [^\[{]*\.\.)[^{]*\{", f.body):
                if not m.group(1) or re.search(r"\b%s\b" % m.group(1), f.body[m.end():close(f.body, m.end() - 1)]):
                    add("3 for" if m.group(1) else "3 while", f"{where}: {m.group(0).rstrip(' {')}")
            if alike(f.body.split("\n")):
                add("3 unrolled", where)
            names = r"same(_\w+)?|cmp(_\w+)?|default|(from|to|as|of)(_\w+)?|number|bytes?|data|error|greater|expected|actual|(\w+_)?(is_)?(zeros?|empty)"
            if f.body and not trait and (re.fullmatch(names, f.name) or re.fullmatch(r"\w+_(byte|number|from|of|in)|no_\w+", f.name) and len(value) == len(f.params) == 1):
                add("4 hand", where)
            if not trait and re.search(r"b\"|b'(?!.'\s*(=>|\)))", re.sub(r"[!=]= b'.'", "", f.body)):
                add("4 text", where)
            for clause in f.clauses:
                said = re.sub(r"^\w+ \w* ?\{ ?| ?\}$", "", clause)
                for part in said.split(" × ") if clause.startswith("requires") else [p for p in said.split(" → ")[:-1] if re.search(r"[≡≤<]|^\(*[A-Z]", p)]:
                    fact = re.sub(r"\b\d+\b", "N", re.sub(r"\b[a-z]\w*\.(now|old|new)\b", "it", part.strip(" ()")))
                    if where not in groups["5 fact"][f.file.split("/")[1], fact]:
                        groups["5 fact"][f.file.split("/")[1], fact].append(where)
            typed = sorted({re.sub(r"^mut ", "", p) for p in f.params if ":" in p})
            for rule, n in (("5 pair", 2), ("5 triple", 3)):
                for some in itertools.combinations(typed, n):
                    groups[rule][(f.file.split("/")[1],) + some].append(where)
            if any(re.search(r": .*\[", p) for p in f.params) and any(re.fullmatch(r"(mut )?(%s: %s|n: usize)" % (PLACE, NUMBER), p) for p in f.params):
                add("6 function", where)
            for what, patterns in arms(f.body):
                if "TryFrom" not in trait and any(re.match(r"\(?\s*(\d|b'|true\b|false\b)", p) for p in patterns):
                    add("7 match", f"{where}: match {what}")
            if re.search(r"\b(kind|op|letter) *([!=]=|<=?|>=?) *(\d|b')", f.body):
                add("7 kind", where)
            if re.search(r"\b(Go|Next)\b", f.result) or re.search(r"\bmatch (go|next)\b|\bNext::\w+(\([^)]*\))? =>", f.body):
                add("7 next", where)
            if re.search(r"\bdyn\b|: &?fn\(", " ".join(f.params) + f.result):
                add("7 call", where)

    listed = set()
    for rule, least in (("2 function", 2), ("2 type", 2), ("5 fact", 3), ("5 triple", 3), ("5 pair", 4), ("8 twin", 2)):
        for key, l in sorted(groups[rule].items(), key=lambda kv: -len(kv[1])):
            wide = len({w.split(" ")[0] for w in l}) > 1 if rule == "8 twin" else rule[0] != "5" or tuple(l) not in listed
            if len(l) >= least and wide and not (rule == "2 type" and not key):
                listed.add(tuple(l))
                add(rule, (f"{key[0]}: {', '.join(key[1:])}: " if rule[0] == "5" else "") + " | ".join(l))
    return found


REASONS = {"rule": "the C interface or a rule of the project", "speed": "tried: misses a bar of speed", "proof": "tried: the proof did not close",
           "plainer": "the new form is no plainer", "none": "no place: the rule finds it by its form alone", "todo": "still to do"}


def short(where):
    """A place as tools/places-now.txt and the page name it: without line numbers."""
    return re.sub(r"crates/(\w+)/(?:src/)?", r"\1/", re.sub(r":\d+(?= |$)", "", where)).replace(" | ", " and ")


def kept(found):
    """Each line of tools/places-now.txt with the places that it serves, and what is wrong with the file."""
    rows, wrong = [], []
    for n, line in enumerate(NOW.read_text().split("\n"), 1):
        if line.strip() and not line.startswith("#"):
            parts = line.split(" | ")
            if len(parts) != 4 or parts[0] not in TITLES and not re.fullmatch("[1-8] read", parts[0]) or parts[2] not in REASONS:
                wrong.append(f"line {n} is none of rule | places | reason | why: {line}")
                continue
            rows.append((n, *parts, []))
    for rule, l in found.items():
        for where in map(short, l) if rule != "8 answer" else ():
            fits = lambda p: any(fnmatch.fnmatchcase(w, p.replace("[", "[[]")) for w in [where] + where.split(" and "))
            row = next((r for r in rows if r[1] == rule and any(map(fits, r[2].split(", ")))), None)
            if row:
                row[5].append(where)
            else:
                wrong.append(f"no line: {rule} | {where} | ")
    for n, rule, places, reason, why, served in rows:
        if rule.endswith("read"):
            served += places.split(", ")
            missing = [p for p in served if not list(ROOT.glob("crates/%s/*/%s" % tuple(p.split(" ")[0].split("/", 1))))]
            wrong += [f"line {n} names a file that does not exist: {p}" for p in missing]
        elif not served:
            wrong.append(f"line {n} serves nothing: {rule} | {places}")
    return rows, wrong


def tables(then, now):
    rows, wrong = kept(now)
    counts = ["| Point | What is counted | Then | Now |", "|---|---|---|---|"]
    counts += [f"| {k.split()[0]} | {title} | {len(then[k])} | {len(now[k])} |" for k, title in TITLES.items()]
    sums = ["| Point | Found | Found now | Changed | No place | Kept with a reason | Still to do |", "|---|---|---|---|---|---|---|"]
    for point in "12345678":
        of = lambda found: sum(len(l) for k, l in found.items() if k[0] == point and k != "8 answer")
        by = {r: sum(len(row[5]) for row in rows if row[1][0] == point and row[3] == r) for r in REASONS}
        read = sum(len(row[5]) for row in rows if row[1] == f"{point} read")
        why = ", ".join(f"{by[r]} {r}" for r in ("rule", "speed", "proof", "plainer") if by[r])
        stay = sum(by.values()) - by["none"] - by["todo"]
        sums.append(f"| {point} | {of(then) + read} | {of(now) + read} | {of(then) - of(now)} | {by['none']} | {stay}{f' ({why})' if why else ''} | {by['todo']} |")
    cell = lambda served: "; ".join(f"`{w}`" for w in served)
    stays = ["| Point | Place | Reason | Why it stays |", "|---|---|---|---|"]
    stays += [f"| {rule[0]} | {cell(served)} | {REASONS[reason]} | {why} |" for _, rule, _, reason, why, served in rows if served and reason != "none"]
    nones = ["| Point | Found | Why it is no place |", "|---|---|---|"]
    nones += [f"| {rule[0]} | {cell(served)} | {why} |" for _, rule, _, reason, why, served in rows if served and reason == "none"]
    return (counts, sums, stays, nones), wrong


def main():
    named = [a for a in sys.argv[1:] if not a.startswith("--")]
    if "--page" not in sys.argv:
        for rule, l in places(named[0] if named else None).items():
            print(f"{rule[0]}  {len(l):4}  {TITLES[rule]}")
            for where in l if "--list" in sys.argv else ():
                print("           ", where)
        return
    page = PAGE.read_text()
    made, wrong = tables(places(page.split("\n")[0]), places(None))
    for table in made:
        page = re.sub(re.escape(table[0]) + r"\n(\|.*\n)*", lambda m: "\n".join(table) + "\n", page, count=1)
    PAGE.write_text(page)
    for w in wrong:
        print(w, file=sys.stderr)
    sys.exit(1 if wrong else 0)


if __name__ == "__main__":
    main()
