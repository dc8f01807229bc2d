#!/usr/bin/env python3
"""usage: contracts.py

Asks of every public function of a library that its contract fixes what it gives: no `requires`; an `ensures` that says what the result equals, if it
has a result, or what each of its fields equals; and for every slice or array that it is lent by `&mut`, one that says what the bytes at exit equal. An equality
counts only where it stands by itself or beside others: not behind a hypothesis, nor as one of two cases, nor under "there is", and not where its right
side speaks of the result or of bytes at exit. Of an impl of a trait: that a ghost member says what the value equals. Of a crate that reads or writes (its code names std::io) what the system gave is free, so that there an
equality counts under "there is" too; a reader or writer that it is lent, of a type parameter, is the system's. Whether what they equal is the right thing is for a reader of the definitions. Programs are left out: they have no
public function.
Then contracts that leave something open are tried, and each must be found: some small ones, and each function's own with a hypothesis put before every clause.
Writes a line for each that is not as it should be, and last 'N passed, M failed'.
"""
import os
import re
import sys

ROOT = os.path.dirname(os.path.dirname(os.path.abspath(__file__)))
HEAD = re.compile(r'^( *)pub (?:extern "C" )?fn (\w+)(?:<([^>]*)>)?\(', re.M)


def contracts(text):
    """The name, arguments, result and clauses of each public function."""
    for m in HEAD.finditer(text):
        head = re.sub(r"\n *//[^\n]*", "", text[m.end() : text.index("{\n", m.end())]).rstrip()
        signature, clauses = re.match(r"(.*?)((?:\n *(?:ensures|requires) [^\n]*)*)$", head, re.S).groups()
        arguments, result = re.match(r"(.*)\)(?: -> (.*))?$", signature, re.S).groups()
        if result == "Self":
            result = re.findall(r"^impl(?:<[^>]*>)? (\w+)", text[: m.start()], re.M)[-1]
        for parameter in re.findall(r"(\w+):", m.group(3) or ""):
            arguments = re.sub(r"\w+: &mut %s\b,?" % parameter, "", arguments)
        yield m.group(2), arguments, result, clauses


def structs(text):
    """The fields of each public struct, by its name."""
    found = {name: set(re.findall(r"^ *pub (\w+):", body, re.M)) for name, body in re.findall(r"^pub struct (\w+) \{\n(.*?)^\}", text, re.M | re.S)}
    found.update({name: set(map(str, range(body.count("pub ")))) for name, body in re.findall(r"^pub struct (\w+)\((.*)\);", text, re.M)})
    return found


def split(text, sign):
    """The parts of a text between those signs that stand in no parentheses."""
    result, depth = [""], 0
    for c in text:
        depth += (c == "(") - (c == ")")
        if c == sign and depth == 0:
            result.append("")
        else:
            result[-1] += c
    return [part.strip() for part in result]


def bare(text):
    """The text without parentheses around the whole of it."""
    text = text.strip()
    if text.startswith("(") and text.endswith(")") and all(text[:i].count("(") > text[:i].count(")") for i in range(1, len(text))):
        return bare(text[1:-1])
    return text


# Functions of a result that no two results share: `numbered`, as no two conditions have one number (power_policy_interface proofs/Numbered.antt), and `stepped_by`,
# which keeps step, number and service (machine_service proofs/Results.antt). `turned_back_by` leaves out what an accepted call gives, so that it fixes a result only where that is (), or where
# another clause says what it is.
WHOLE = re.compile(r"(?:numbered|stepped_by self) result$")
TOLD = re.compile(r"IfOk result \(λ (\w+)\. (?:(?:(?!\b\1\b)[^{}])+ ≡ Some \1(\.\d)?|\1(\.\d)? ≡ (?:(?!\b\1\b)[^{}])+)\) \}")


def told(result, clauses):
    """Whether the clauses say what an accepted call gives: as a whole, or each of a pair."""
    fixed = {m.group(2) or m.group(3) or "" for m in TOLD.finditer(clauses)}
    return result == "Result<(), Refusal>" or "" in fixed or result.startswith("Result<(") and {".0", ".1"} <= fixed


def equalities(text, system):
    """The left and right sides of what a clause says to be equal, whatever else holds; of a crate that calls the system, of something that it gave."""
    text = bare(text)
    if len(split(text, "→")) > 1 or len(split(text, "⊎")) > 1:
        return
    parts = split(text, "×")
    if len(parts) > 1:
        if system or not any(len(split(bare(part), ":")) > 1 for part in parts):
            for part in parts:
                yield from equalities(part, system)
        return
    sides = split(text, "≡")
    if len(sides) == 2:
        yield bare(sides[0]), sides[1]


def fixed(clauses, system):
    """What the clauses fix: `result`, `result.FIELD` for a field of it, `NAME.new` for what is lent."""
    found = set()
    for said in re.findall(r"ensures (?:\w+ )?\{ (.*) \}$", clauses, re.M):
        for left, right in equalities(said, system):
            if not re.search(r"(?<![\w«.])result(?![\w»])|\.new\b", right):
                left = left.replace("«", "").replace("»", "")
                found.add("result" if WHOLE.match(left) or left == "result.now" else left)
    return found


def faults(arguments, result, clauses, fields, system=False):
    """What the contract leaves open."""
    found = fixed(clauses, system)
    if "requires" in clauses:
        yield "has a requires"
    if "ensures" not in clauses:
        yield "has no ensures"
    if "turned_back_by result" in found and told(result.strip(), clauses):
        found.add("result")
    if result and "result" not in found:
        of = fields.get(result.strip())
        if not of or any("result.%s" % field not in found for field in of):
            yield "does not say what the result equals"
    for name in re.findall(r"(\w+): &(?:'\w+ )?mut ", arguments):
        if "%s.new" % name not in found:
            yield "does not say what %s is at exit" % name
    if re.search(r"&(?:'\w+ )?mut self\b", arguments) and "self.new" not in found:
        yield "does not say what self is at exit"


def impls(text):
    """Of each impl of a trait that is written out: its head, and the text of its ghost members."""
    for m in re.finditer(r"^impl\b([^{]* for [^{]*)\{\n(.*?)^\}", text, re.M | re.S):
        if re.search(r"\bfn \w+", m.group(2)):
            yield m.group(1).strip(), re.findall(r"^    ghost \w+ = \{ (.*) \};$", m.group(2), re.M)


def own_traits():
    """The traits that the crates declare: the contracts of their functions stand there, and an impl only says what the words in them mean."""
    return {name for _, path in sources() for name in re.findall(r"^pub trait (\w+)", open(path, encoding="utf-8").read(), re.M)}


def declared(text):
    """The name, arguments, result and clauses of each function that a public trait declares."""
    for body in re.findall(r"^pub trait [^{]*\{\n(.*?)^\}", text, re.M | re.S):
        for name, arguments, result, clauses in re.findall(r"^    fn (\w+)(?:<[^>]*>)?\((.*?)\)(?: -> ([^\n;]*))?((?:\n *(?:ensures|requires) [^\n]*)*);?$", body, re.M | re.S):
            yield name, arguments, result, clauses.rstrip(";")


def gives(member):
    """Whether a ghost member, λ arguments value. said, fixes the value."""
    m = re.match(r"λ (?:\S+ )*([^\s.]+)\. (.*)$", member)
    return bool(m) and any(
        left in (m.group(1), "numbered " + m.group(1)) and not re.search(r"(?<![\w«.])%s(?![\w»])" % re.escape(m.group(1)), right)
        for left, right in equalities(m.group(2), False))


STRUCT = "pub struct Two {\n    pub low: u8,\n    pub high: u8,\n}\n\n"

# A small function's head, and what of it is left open; nothing of the first ones.
PLANTED = [
    ("pub fn f(n: u8) -> u8\n    ensures { result ≡ twice n }\n", ""),
    ("pub fn f(n: u8) -> Two\n    ensures { (result.low ≡ n) × (result.high ≡ twice n) }\n", ""),
    ("pub fn f(n: u8) -> Two\n    ensures low { result.low ≡ n }\n    ensures high { result.high ≡ n }\n", ""),
    ("pub fn f(n: u8) -> u8\n    ensures { (result ≡ twice n) × (n < 4 → result < 8) }\n", ""),
    ("pub fn f(n: u8) -> u8\n    ensures { result ≡ once (λ (g : ℕ → ℕ). g n) }\n", ""),
    ("pub fn f(out: &mut [u8], n: u8)\n    ensures { out.new ≡ sets out.old 0 n }\n", ""),
    ("pub fn f(n: u8) -> u8\n", "has no ensures"),
    ("pub fn f(n: u8) -> u8\n    requires { n < 4 }\n    ensures { result ≡ twice n }\n", "has a requires"),
    ("pub fn f(n: u8) -> u8\n    ensures { result < 8 }\n", "the result"),
    ("pub fn f(n: u8) -> u8\n    ensures { n < 4 → result ≡ twice n }\n", "the result"),
    ("pub fn f(n: u8) -> u8\n    ensures { (n < 4 → result ≡ twice n) }\n", "the result"),
    ("pub fn f(n: u8) -> u8\n    ensures { (result < 8) × (n < 4 → result ≡ twice n) }\n", "the result"),
    ("pub fn f(n: u8) -> u8\n    ensures { n < 4 → (result ≡ twice n) × (result < 8) }\n", "the result"),
    ("pub fn f(n: u8) -> u8\n    ensures { (h : n < 4) → result ≡ twice n }\n", "the result"),
    ("pub fn f(n: u8) -> u8\n    ensures { result ≡ twice n → n < 4 }\n", "the result"),
    ("pub fn f(n: u8) -> u8\n    ensures { (result ≡ twice n) ⊎ (result ≡ 0) }\n", "the result"),
    ("pub fn f(n: u8) -> u8\n    ensures { (m : ℕ) × (result ≡ twice m) }\n", "the result"),
    ("pub fn f(n: u8) -> u8\n    ensures { result ≡ result }\n", "the result"),
    ("pub fn f(n: u8) -> u8\n    ensures { half result ≡ n }\n", "the result"),
    ("pub fn f(n: u8) -> Two\n    ensures { result.low ≡ n }\n", "the result"),
    ("pub fn f(n: u8) -> Two\n    ensures { (result.low ≡ n) × (n < 4 → result.high ≡ n) }\n", "the result"),
    ("pub fn f(out: &mut [u8], n: u8) -> u8\n    ensures { result ≡ twice n }\n", "out is at exit"),
    ("pub fn f(out: &mut [u8], n: u8)\n    ensures { (n < 4 → out.new ≡ twice n) }\n", "out is at exit"),
    ("pub fn f(out: &mut [u8], n: u8)\n    ensures { out.new ≡ out.new }\n", "out is at exit"),
    ("pub fn f(a: &mut [u8], b: &mut [u8])\n    ensures { a.new ≡ b.old }\n", "b is at exit"),
    ("pub fn f(n: u8) -> u8\n    ensures { numbered result ≡ twice n }\n", ""),
    ("pub fn f(n: u8) -> u8\n    ensures { numbered result ≡ numbered result }\n", "the result"),
    ("pub fn f(n: u8) -> Result<(), Refusal>\n    ensures { turned_back_by result ≡ twice n }\n", ""),
    ("pub fn f(n: u8) -> Result<u8, Refusal>\n    ensures { turned_back_by result ≡ twice n }\n", "the result"),
    ("pub fn f(n: u8) -> Result<u8, Refusal>\n    ensures a { turned_back_by result ≡ twice n }\n    ensures b { IfOk result (λ o. m ≡ Some o) }\n", ""),
    ("pub fn f(n: u8) -> Result<u8, Refusal>\n    ensures a { turned_back_by result ≡ twice n }\n    ensures b { IfOk result (λ o. o ≡ twice (n + 1)) }\n", ""),
    ("pub fn f(n: u8) -> Result<u8, Refusal>\n    ensures a { turned_back_by result ≡ twice n }\n    ensures b { IfOk result (λ o. o ≡ twice o) }\n", "the result"),
    ("pub fn f(n: u8) -> Result<(u8, u8), Refusal>\n    ensures a { turned_back_by result ≡ n }\n    ensures b { IfOk result (λ o. n ≡ Some o.0) }\n    ensures c { IfOk result (λ o. o.1 ≡ n) }\n", ""),
    ("pub fn f(n: u8) -> Result<(u8, u8), Refusal>\n    ensures a { turned_back_by result ≡ n }\n    ensures b { IfOk result (λ o. n ≡ Some o.0) }\n", "the result"),
    ("pub fn f(&mut self)\n    ensures { self.new ≡ twice self.old }\n", ""),
    ("pub fn f(&mut self) -> u8\n    ensures { result ≡ self.old }\n", "self is at exit"),
]

# Impls of a trait, and whether what they give is fixed.
PLANTED_IMPL = [
    ("    ghost from_gives = { λ a b. b ≡ twice a };\n\n    fn from(a: u8) -> B {\n    }\n", True),
    ("    ghost from_gives = { λ a b. (b ≡ twice a) × (b < 8) };\n\n    fn from(a: u8) -> B {\n    }\n", True),
    ("    ghost from_gives = { λ a b. a < 4 → b ≡ twice a };\n\n    fn from(a: u8) -> B {\n    }\n", False),
    ("    ghost from_gives = { λ a b. b ≡ b };\n\n    fn from(a: u8) -> B {\n    }\n", False),
    ("    ghost from_gives = { λ a b. a ≡ twice b };\n\n    fn from(a: u8) -> B {\n    }\n", False),
    ("    fn from(a: u8) -> B {\n    }\n", False),
]


# The same of a crate that calls the system.
PLANTED_SYSTEM = [
    ("pub fn f(n: u8) -> u8\n    ensures { ((w : Seen) × (result ≡ after n w)) }\n", ""),
    ("pub fn f<R: Read>(n: u8, from: &mut R) -> u8\n    ensures value { (w : Seen) × (result ≡ after n w) }\n    // all\n    ensures read { Reads from.new }\n", ""),
    ("pub fn f<R: Read>(n: u8, from: &mut R, out: &mut [u8]) -> u8\n    ensures { (w : Seen) × (result ≡ after n w) }\n", "out is at exit"),
    ("pub fn f<R: Read>(n: u8, from: &mut R) -> u8\n    ensures { result < 8 }\n", "the result"),
    ("pub fn f(n: u8) -> u8\n    ensures { ((w : Seen) × (n < 4 → result ≡ after n w)) }\n", "the result"),
    ("pub fn f(n: u8) -> u8\n    ensures { ((w : Seen) × (w.bytes ≡ n)) }\n", "the result"),
]


def planted():
    """What is wrong with the small ones: a good one refused, or one that leaves something open accepted."""
    for system, head, open_ in [(False, *one) for one in PLANTED] + [(True, *one) for one in PLANTED_SYSTEM]:
        text = STRUCT + head + "{\n}\n"
        ((_, arguments, result, clauses),) = contracts(text)
        found = list(faults(arguments, result, clauses, structs(text), system))
        right = len(found) > 0 and open_ in found[0] if open_ else not found
        yield "" if right else "planted: %r: %s" % (head, found)
    for body, right in PLANTED_IMPL:
        ((_, members),) = impls("impl From<u8> for B {\n" + body + "}\n")
        yield "" if any(map(gives, members)) == right else "planted: %r" % body
    for clause, right in (("ensures { result ≡ of self }", True), ("ensures { result < 8 }", False), ("requires { 0 < 1 }\n        ensures { result ≡ of self }", False)):
        ((_, arguments, result, clauses),) = declared("pub trait T: Copy {\n    fn f(self) -> u8\n        %s;\n}\n" % clause)
        yield "" if (not list(faults(arguments, result, clauses, {}))) == right else "planted in a trait: %s" % clause


def sources():
    """The files of the crates' code, each crate's src/."""
    for crate in sorted(os.listdir(os.path.join(ROOT, "crates"))):
        for folder, _, names in sorted(os.walk(os.path.join(ROOT, "crates", crate, "src"))):
            yield from ((crate, os.path.join(folder, name)) for name in sorted(names) if name.endswith(".rt"))


def of_system():
    """The crates that read or write."""
    return {crate for crate, path in sources() if "std::io" in open(path, encoding="utf-8").read()}


def main():
    passed = failed = 0
    calling, own = of_system(), own_traits()
    for wrong in planted():
        if wrong:
            print(wrong)
        failed += bool(wrong)
        passed += not wrong
    for crate, path in sources():
        if os.path.exists(os.path.join(os.path.dirname(path), "main.rt")):
            continue
        text = open(path, encoding="utf-8").read()
        system = crate in calling
        for function, arguments, result, clauses in contracts(text):
            found = list(faults(arguments, result, clauses, structs(text), system))
            under = re.sub(r"(ensures (?:\w+ )?\{ )", r"\g<1>0 < 1 → ", clauses)
            if (result or "&mut " in arguments) and not list(faults(arguments, result, under, structs(text), system)):
                found.append("is accepted with a hypothesis before every clause")
            for fault in found:
                print("%s: %s %s" % (os.path.relpath(path, ROOT), function, fault))
            failed += bool(found)
            passed += not found
        for function, arguments, result, clauses in declared(text):
            found = list(faults(arguments, result, clauses, structs(text), system))
            for fault in found:
                print("%s: %s of a trait %s" % (os.path.relpath(path, ROOT), function, fault))
            failed += bool(found)
            passed += not found
        for head, members in impls(text):
            if any(map(gives, members)) or re.match(r"\w+", head).group(0) in own:
                passed += 1
            else:
                failed += 1
                print("%s: impl %s does not say what it gives" % (os.path.relpath(path, ROOT), head))
    print("%d passed, %d failed" % (passed, failed))
    sys.exit(1 if failed else 0)


main()
