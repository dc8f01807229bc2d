#!/usr/bin/env python3
"""Lists what changed of types, signatures, clauses, definitions and theorems between a commit and the work tree (docs/DESIGN-PASS.md).

Usage: tools/changes.py [COMMIT] [--all] [--page]     without COMMIT, the one in the first line of docs/DESIGN-PASS.md

--page writes the lists into docs/DESIGN-PASS.md, from the heading "### Public types" to its end. Without --all, what changed in the
spelling of a type alone is counted and not listed: a row of RULES is a type or variant of the older code and the library's in its place.

What is gone needs a line in tools/changes-now.txt that says where it stands now:

    crate | kind | name | where it stands now

A kind is one of type, function, private, ghost, definition, theorem, lemma, edit. The name of a public thing is written out; that of a private
function, of a lemma that is not public or of an edit (its wrong meaning) may be a pattern (`lib take_*`, `*`), and the first line that fits
serves it. The line of a thing that is there and changed stands beside its row. What stands in backticks on the right must exist in the work
tree: `NAME`, `file NAME` or `crate file NAME`, where a NAME is that of a function (`Type::function`), a type, an impl (`From<u8> for Error`), a
definition or lemma, or `Record.field`; or the path of a file. What went elsewhere with its name and text, or an edit with its words, needs no line.
Exit 1, with a list, where a line is missing, serves nothing or names what does not exist.
"""
import collections
import fnmatch
import io
import pathlib
import re
import subprocess
import sys
import tarfile

ROOT = pathlib.Path(__file__).resolve().parent.parent
PAGE = ROOT / "docs/DESIGN-PASS.md"
NOW = ROOT / "tools/changes-now.txt"

OPTION = """ConsumerPowerCapability ProviderPowerCapability PsuType ConsumerFlags ProviderFlags DisconnectReason DisconnectFlags
PsuState Mismatch AvailableConsumer Config Order Display Picture""".split()
READ = {
    "ReadCharger": "State", "ReadInternalState": "InternalState", "ReadPsu": "State", "ReadPsuState": "PsuState",
    "ReadDisplay": "Display", "ReadPowerState": "PowerState", "ReadState": "InternalState", "ReadRegistration": "Registration",
    "ReadKind": "StateKind", "ReadStage": "Stage", "ReadPhase": "Phase", "ReadService": "Service", "ReadSlot": "EventPacket",
    "ReadMinimum": "Option ℕ", "ReadOptionConsumer": "Option AvailableConsumer", "ReadDisconnected": "Option Disconnected",
    "ReadUnconstrained": "Option UnconstrainedState", "ReadNotice": "Event", "ReadNotices": "Notices",
    "ReadConsumer": "Option ConsumerPowerCapability", "ReadProvider": "Option ProviderPowerCapability",
}
RULES = [("Option" + x, "Option " + x) for x in OPTION]
RULES += [("OptionMilliwatts", "Option ℕ"), ("OptionNumber", "Option ℕ"), ("OptionResult", "Option (Result Unit Error)"),
          ("UnconstrainedNotice", "Option UnconstrainedState"), ("DisconnectedNotice", "Option Disconnected"),
          ("ReadPacket", "Result Packet ℕ"), ("Written", "Result ℕ ℕ"), ("SentPacket", "Result EventPacket ℕ"),
          ("SentPicture", "Result Picture ℕ"), ("Started", "Result Service ℕ"), ("Step", "Result Step ℕ")]
RULES += [(a, "Option " + (b if " " not in b else f"({b})")) for a, b in READ.items()]
OKS = {"ReadPacket": "Packet", "Written": "Length", "SentPacket": "Packet", "SentPicture": "Picture", "Started": "Service"}
PAIRS = {"(": ")", "{": "}", "[": "]"}


# Reading files

SOURCE = r"crates/\w+/(src/.*\.rt|(specs|proofs)/.*\.antt)"
EDITS = r"(?:crates/(\w+)/must-fail|tests/edits/(\w+))/(.*\.edit)"


def texts(commit, wanted=SOURCE):
    """Each .rt of src/ and each .antt of specs/ and proofs/ by its path, without comments, or each .edit."""
    if commit:
        tar = subprocess.run(["git", "archive", commit, "crates", "tests/edits"], cwd=ROOT, check=True, capture_output=True).stdout
        with tarfile.open(fileobj=io.BytesIO(tar)) as t:
            found = {m.name: t.extractfile(m).read().decode() for m in t if re.fullmatch(wanted, m.name)}
    else:
        paths = ((str(p.relative_to(ROOT)), p) for d in ("crates", "tests/edits") for p in ROOT.glob(d + "/**/*.*"))
        found = {n: p.read_text() for n, p in paths if re.fullmatch(wanted, n)}
    if wanted == EDITS:
        return found
    return {n: re.sub(r"//[^\n]*" if n.endswith(".rt") else r"(?m)^\s*--[^\n]*$", "", found[n]) for n in sorted(found)}


def squeeze(text):
    return re.sub(r"\s+", " ", text).strip()


def close(text, at):
    """The place of the bracket that closes the one at `at`."""
    depth = 0
    for i in range(at, len(text)):
        depth += (text[i] == text[at]) - (text[i] == PAIRS[text[at]])
        if depth == 0:
            return i
    return len(text)


def split(text):
    """The parts between the commas that stand in no bracket."""
    out, depth, start = [], 0, 0
    for i, c in enumerate(text + ","):
        depth += (c in "([{<") - (c in ")]}") - (c == ">" and text[i - 1:i] not in ("-", "="))
        if c == "," and depth == 0:
            out.append(squeeze(text[start:i]))
            start = i + 1
    return [p for p in out if p]


Function = collections.namedtuple("Function", "file line name around public params result head clauses body")


def blocks(text, what):
    """Each `impl`, `trait` .. of a file: where it begins and ends, and its head."""
    for m in re.finditer(r"(?m)^((?:pub(?:\(crate\))? )?(?:%s)\b[^{;]*)\{" % what, text):
        yield m.start(), close(text, m.end() - 1), squeeze(m.group(1))


def functions(name, text):
    around = list(blocks(text, "impl|trait"))
    for m in re.finditer(r"(?m)^ *((?:pub(?:\(crate\))? )?(?:extern \"C\" )?)fn (\w+)[^(\n]*\(", text):
        inside = next((h for a, b, h in around if a < m.start() < b), "")
        end = close(text, m.end() - 1)
        r = re.match(r"\s*(?:->\s*(.*?))?\s*(?=\n\s*(?:requires|ensures)\b|\n?\s*\{|;\n)", text[end + 1:], re.S)
        at, clauses = end + 1 + r.end(), []
        while c := re.match(r"\s*(?:requires|ensures) *\w* *\{", text[at:]):
            stop = close(text, at + c.end() - 1) + 1
            clauses.append(squeeze(text[at:stop]))
            at = stop
        b = re.match(r"\s*\{", text[at:])
        body = text[at + b.end():close(text, at + b.end() - 1)] if b else ""
        public = "pub " in m.group(1) or " for " in inside or inside.startswith("pub trait")
        inside = re.sub(r"^(pub )?(impl|trait)(<(?:[^<>]|<[^<>]*>)*>)? ", "", inside)
        inside = re.sub(r":.*| where .*", "", inside) if " for " not in inside and "::" not in inside else inside
        yield Function(name, text.count("\n", 0, m.start(2)) + 1, m.group(2), inside and inside + "::", public,
                       split(text[m.end():end]), squeeze(r.group(1) or ""), squeeze(text[m.start(2):end + 1 + r.end()]), clauses, body)


def types(text):
    """Each public struct, enum, trait and constant: its name, its text, what it derives."""
    for m in re.finditer(r"(?m)((?:^#\[[^\n]*\]\n)*)^pub (struct|enum|trait|union|const|static|type) (\w+)((?:[^{;]|;(?!\n))*)([{;])", text):
        said = m.group(2) + " " + m.group(3) + m.group(4)
        if m.group(5) == "{":
            inside = text[m.end():close(text, m.end() - 1)]
            if m.group(2) == "trait":
                inside = "; ".join(re.findall(r"(?m)^ *((?:fn|const) [^\n;{]*)", inside))
            said += "{" + re.sub(r"(?m)^ *ghost [^\n]*|#\[default\]", "", inside) + "}"
        yield m.group(3), squeeze(said), set(re.findall(r"\w+", " ".join(re.findall(r"derive\(([^)]*)\)", m.group(1)))))


def ghosts(text):
    around = ""
    for m in re.finditer(r"(?m)^((?:pub(?:\(crate\))? )?(?:impl|trait|struct|enum)[^\n{]*)|^    ghost (\w+[^\n]*)", text):
        if m.group(1):
            around = squeeze(m.group(1))
        else:
            yield around + " ghost " + re.match(r"(?:invariant )?\w+", m.group(2)).group(0), squeeze(m.group(2))


DECLARED = re.compile(r" *((?:(?:abbrev|unfoldable|pub) )*)(?:(record|data) ([^\s(){}:]+)|([^\s(){}:]+)(?: [^:=(){}]*)? :(?= |$))")


def antt(text):
    """Each declaration: its name, what stands before the name (abbrev, pub, record, data), the module's heads around it and its lines."""
    heads, open_head, found = [], None, None
    for line in text.split("\n"):
        if not line.strip():
            continue
        depth = len(line) - len(line.lstrip())
        while heads and depth < heads[-1][0]:
            heads.pop()
        level = heads[-1][0] if heads else 0
        if open_head is not None or (depth == level and line.lstrip().startswith("module ")):
            if found:
                yield found
            found, open_head = None, (open_head or "") + " " + line.strip()
            if open_head.endswith(" where"):
                heads.append((level + 2, re.sub(r"^ module _ | where$", "", open_head)))
                open_head = None
            continue
        m = DECLARED.match(line)
        if depth == level and (m or re.match(r"\s*(pub )?(use|mutual)\b", line)):
            name = m and (m.group(3) or m.group(4))
            if not (found and m and name == found[0] and not m.group(1).strip()):
                if found:
                    yield found
                found = (name, m.group(1) + (m.group(2) or ""), "".join(h for _, h in heads), [line]) if m else None
                continue
        if found:
            found[3].append(line)
    if found:
        yield found


def statement(name, before, heads, lines):
    """What a theorem says: its module's hypotheses and its text, to the clause that proves it. A type or an abbreviation is said whole."""
    said = []
    for line in lines:
        if said and not re.search("abbrev|record|data", before) and re.match(r"\s*(%s(?=\s|$)|unfolding\b|termination\b)" % re.escape(name), line):
            break
        said.append(line)
    return squeeze(heads + " " + re.sub(r"^\s*", "", "\n".join(said)))


KINDS = {"type": "Public types", "function": "Public functions", "private": "Private functions that are gone", "ghost": "Ghost members",
         "definition": "Definitions", "theorem": "Theorems", "lemma": "Lemmas that are gone", "edit": "Must-fail edits"}


def read(commit):
    kinds = {k: {} for k in KINDS}
    derived, index = {}, collections.defaultdict(list)
    for name, text in texts(commit).items():
        crate, where = name.split("/")[1], name.split("/", 2)[2]
        stem = pathlib.Path(name).stem
        if name.endswith(".rt"):
            file = where[4:-3]
            for f in functions(name, text):
                kind = "function" if f.public and stem != "main" else "private"
                kinds[kind][crate, f"{file} {f.around}{f.name}"] = " ".join([re.sub(r"^fn ", "", f.head)] + sorted(f.clauses))
                for n in {f.around + f.name, re.sub(r"<[^>]*>(?=::)", "", f.around) + f.name}:
                    index[crate, n].append((stem, f.head))
            for n, said, derives in types(text):
                kinds["type"][crate, f"{file} {n}"] = said
                derived[crate, f"{file} {n}"] = derives
            for m in re.finditer(r"(?m)^(?:pub(?:\(crate\))? )?(?:struct|enum|trait|const) (\w+)", text):
                index[crate, m.group(1)].append((stem, text))
            for _, _, head in blocks(text, "impl"):
                index[crate, re.sub(r"^impl(<.*?>)? ", "", head)].append((stem, ""))
            for path, said in ghosts(text):
                kinds["ghost"][crate, f"{file} {path}"] = said
        else:
            for n, before, heads, lines in antt(text):
                index[crate, n].append((stem, "\n".join(lines)))
                if where.startswith("specs/"):
                    kinds["definition"][crate, n] = (kinds["definition"].get((crate, n), "") + " " + squeeze("\n".join(lines))).strip()
                elif re.fullmatch(r"proofs/\w+\.antt", where):
                    kind = "theorem" if "pub " in before else "lemma"
                    kinds[kind].setdefault((crate, f"{stem} {n}"), statement(n, before, heads, lines))
    for name, text in sorted(texts(commit, EDITS).items()):
        crate = name.split("/")[1 if name.startswith("crates/") else 2]
        for pair in re.split(r"(?m)^# breaks: ", text)[1:]:
            fn, rest = pair.split("\n", 1)
            key = crate, squeeze(re.match(r"((?:#.*\n)*)", rest).group(1).replace("#", ""))
            kinds["edit"].setdefault(key, []).append(re.sub(r"crates/\w+/|tests/edits/\w+/", "", name) + ": " + fn)
    kinds["edit"] = {k: "; ".join(v) for k, v in kinds["edit"].items()}
    return kinds, derived, index


# Comparing

def plain(text):
    """The text without the brackets that group nothing: around one word, or around an application that stands between operators."""
    words = re.findall(r"[(){},;]|[^\s(){},;]+", text)

    def group(i, closing):
        out = []
        while i < len(words) and words[i] != closing:
            if words[i] == "(":
                inside, i = group(i + 1, ")")
                out.append(inside)
            else:
                out.append(words[i])
                i += 1
        return out, i + 1

    def sign(q, clause=False):
        return q is None or isinstance(q, str) and (clause and q == words[0] or re.fullmatch(r"[^\w.']+|where", q))

    def said(parts):
        out = []
        for i, p in enumerate(parts):
            if isinstance(p, str):
                out.append(p)
                continue
            free = sign(([None] + parts)[i]) and sign((parts + [None])[i + 1], True)
            bare = len(p) == 1 or free and not any(sign(q) for q in p)
            out.append(said(p) if bare else "(" + said(p) + ")")
        return " ".join(out)
    return said(group(0, None)[0])


def spelled(text, new, code=False):
    """The text with the library's types in place of the older ones, without the brackets that group nothing. A number of code is a u32."""
    text = re.sub(r"\bpsu::", "", re.sub(r"^(abbrev |unfoldable |pub )*", "", text)).replace("{0}", "")
    text = re.sub(r"\b(Option|Result)<", r"\1 <", text)
    while re.search(r"(Option|Result) <[^<>]*>", text):
        text = re.sub(r"(Option|Result) <([^<>]*)>", lambda m: "(" + m.group(1) + " " + " ".join(f"({p})" for p in split(m.group(2).replace("()", "Unit"))) + ")", text)
    if not new:
        one = r"((?: (?:[\w.]+|\([^()]*\))){%d})"
        text = re.sub(r"\bStep\.Order" + one % 1, r"(Ok (Step.Order\1))", text)
        text = re.sub(r"\bStep\.Closed" + one % 2, r"(Ok (Step.Closed\1))", text)
        for name, to in RULES:
            if name.startswith("Option") or name in ("UnconstrainedNotice", "DisconnectedNotice"):
                text = re.sub(r"\b%s\.(None|Some)\b" % name, r"\1", text)
            elif name in OKS:
                text = re.sub(r"\b%s\.%s\b" % (name, OKS[name]), "Ok", text)
                text = re.sub(r"\b%s\.Refused\b" % name, "Err", text)
            else:
                text = re.sub(r"\b%s\.Refused\b" % name, "Err" if name == "Step" else "None", text)
                text = re.sub(r"\b%s\.Read\b" % name, "Some", text)
            text = re.sub(r"(?<![\w.])%s\b(?![.\w])" % name, f"({to.replace('ℕ', 'u32') if code else to})", text)
        text = re.sub(r"\bResult\.Ok\b", "(Ok tt)", text)
        text = re.sub(r"\bResult\.Err\b", "Err", text)
        text = re.sub(r"\bnone\b", "None", text)
        text = re.sub(r"\bsome\b", "Some", text)
        text = re.sub(r"(?<![\w.])Result\b(?!\.| \(?(?:Packet|EventPacket|Picture|Service|Step|ℕ|Unit))", "(Result Unit Error)", text)
    return plain(text)


# Where it stands now

class Now:
    def __init__(self, index):
        self.index, self.rows, self.wrong = index, [], []
        self.crates = {c for c, _ in index}
        for n, line in enumerate(NOW.read_text().split("\n"), 1) if NOW.exists() else []:
            if line.strip() and not line.startswith("#"):
                parts = [p.strip() for p in line.split(" | ", 3)]
                if len(parts) == 4 and parts[1] in KINDS and (parts[1] in ("private", "lemma", "edit") or "*" not in parts[2]):
                    self.rows.append((n, *parts, []))
                else:
                    self.wrong.append(f"line {n} is none of crate | kind | name | where, or a pattern of public things: {line}")

    def of(self, kind, crate, name):
        for row in self.rows:
            if row[1] == crate and row[2] == kind and fnmatch.fnmatchcase(name, row[3].replace("[", "[[]")):
                row[5].append(name)
                return row[4]
        self.wrong.append(f"no line: {crate} | {kind} | {name} | ")
        return ""

    def note(self, kind, crate, name):
        """What a line says beside a row of something that changed; most need none."""
        for row in self.rows:
            if row[1:4] == (crate, kind, name):
                row[5].append(name)
                return "; " + row[4]
        return ""

    def exists(self, crate, text):
        if "/" in text or text.endswith(".antt"):
            return (ROOT / text).exists() or (ROOT / "crates" / crate / text).exists()
        words = text.split(" ")
        if words[0] in self.crates and len(words) > 1:
            crate, words = words[0], words[1:]
        for files, name in ((None, " ".join(words)), (words[0], " ".join(words[1:]))):
            name, _, field = name.partition(".")
            for stem, said in self.index.get((crate, name), ()):
                if (files is None or stem == files) and (not field or re.search(r"\b%s\b" % re.escape(field), said)):
                    return True
        return False

    def check(self):
        for n, crate, kind, name, where, served in self.rows:
            if not served:
                self.wrong.append(f"line {n} serves nothing: {crate} | {kind} | {name}")
            for text in re.findall(r"`([^`]*)`", where):
                if not self.exists(crate, text):
                    self.wrong.append(f"line {n} names what does not exist: {crate} | {kind} | {name} | {text}")
            if not re.search(r"\w", where):
                self.wrong.append(f"line {n} says nothing: {crate} | {kind} | {name}")
        return self.wrong


def cell(text):
    return "`" + text.replace("|", "\\|") + "`" if text else ""


def table(head, rows):
    return ["| " + " | ".join(head) + " |", "|" + "---|" * len(head)] + ["| " + " | ".join(r) + " |" for r in rows] + [""] if rows else []


def listed(kind, old, new, lost, now, everything):
    """What the page says of a kind of things, as lines."""
    key = lambda k: [k[0], cell(k[1])]
    said_now = lambda k, v: "`%s %s`" % k if kind != "edit" else "%s (%s)" % (k[0], v)
    public = {**new[kind], **(new["function"] if kind == "private" else new["theorem"] if kind == "lemma" else {})}
    gone, rows, alike = [], [], 0
    for k, said in old[kind].items():
        if k not in public:
            same = [said_now(j, v) for j, v in new[kind].items() if (j[1] == k[1] if kind == "edit" else
                    j[1].split()[-1] == k[1].split()[-1] and spelled(said, False) == spelled(v, True))]
            gone.append((k, said, "as it was: " + ", ".join(same) if same else now.of(kind, *k)))
        elif kind == "edit":
            files, files_now = (re.findall(r"\w+\.edit", s) for s in (said, new[kind][k]))
            if len(files_now) < len(files) or set(files) - set(files_now):
                also = [said_now(j, v) for j, v in new[kind].items() if j[1] == k[1] and j not in old[kind]]
                rows.append(key(k) + [cell(said), "; ".join([cell(new[kind][k])] + also) + now.note(kind, *k)])
        elif kind not in ("private", "lemma") and (public[k] != said or k in lost):
            if spelled(said, False, kind in ("type", "function")) == spelled(public[k], True) and k not in lost and not everything:
                alike += 1
            else:
                rows.append(key(k) + [cell(said), cell(public[k]) + (f"; derives no {lost[k]}" if k in lost else "") + now.note(kind, *k)])
    come = [key(k) + [cell(v)] for k, v in new[kind].items() if k not in old[kind]]
    out = [f"### {KINDS[kind]}", ""]
    if kind in ("private", "lemma"):
        groups = collections.defaultdict(list)
        for k, _, where in gone:
            groups[k[0], where].append(cell(k[1]))
        out += [f"{len(gone)} of {len(old[kind])} are gone by name.", ""]
        return out + table(["crate", "gone", "where it stands now"], [[c, ", ".join(names), where] for (c, where), names in groups.items()])
    if kind == "edit":
        out += [f"{len(old[kind])} wrong meanings before, {len(new[kind])} now. Of {len(rows)} the pairs are fewer or in another file:", ""]
    else:
        out += [f"{len(old[kind])} before, {len(new[kind])} now; {alike} in the spelling of a type alone, {len(rows)} listed,", f"{len(gone)} gone, {len(come)} new.", ""]
    out += table(["crate", "name", "before", "now"], rows)
    if gone:
        out += ["Gone:", ""] + table(["crate", "name", "before", "where it stands now"], [key(k) + [cell(said), where] for k, said, where in gone])
    if come and kind != "edit":
        out += ["New:", ""] + table(["crate", "name", "now"], come)
    return out


def main():
    named = [a for a in sys.argv[1:] if not a.startswith("--")]
    (old, had, _), (new, has, index) = read(named[0] if named else PAGE.read_text().split("\n")[0]), read(None)
    lost = {k: ", ".join(sorted(d - has[k])) for k, d in had.items() if k in has and d - has[k]}
    now = Now(index)
    out = "\n".join(line for kind in KINDS for line in listed(kind, old, new, lost, now, "--all" in sys.argv)).rstrip() + "\n"
    if "--page" in sys.argv:
        page = PAGE.read_text()
        PAGE.write_text(page[:page.index("### " + KINDS["type"])] + out)
    else:
        print(out)
    wrong = now.check()
    for w in wrong:
        print(w, file=sys.stderr)
    sys.exit(1 if wrong else 0)


if __name__ == "__main__":
    main()
