#!/usr/bin/env python3
"""usage: declarations.py [RATTLE_SOURCE]

Compares the C functions as they are written in four places: the Rattle source that exports them (crates/power_policy/src/lib.rt), the C header,
the Rust crate's declarations, and the safe functions around these with what they hand on. Names, order, names and types of the arguments and the
result's type must be equal. docs/STATE.md must name the same functions; header and Rust crate must have the same lengths, refusals and words for
refusals, and one version; the lengths and limits of Rattle (crates/power_policy_interface/src/limits.rt) must be those of the definitions (specs/Limits.antt
beside it) and, where the header has them, its. Both configurations must be the same in header, Rust crate and Rattle (crates/power_policy_service/src/config.rt), and the
header's configuration must have the fields that a start takes, and hand them on in order. The milliseconds of a wait must be the same in header, Rust
crate, the definition (crates/abstract_calls/specs/Numbers.antt) and the Rattle that an order's number is made by (crates/bytes_calls/src/numbers.rt).
Every function of the header must have a comment of its own.
Then each text is changed in several ways, and each change must be found. Its last line is 'N passed, M failed'.
"""

import pathlib
import re
import sys

ROOT = pathlib.Path(__file__).resolve().parent.parent
PREFIX = "power_policy_"


class Unreadable(Exception):
    pass


def without_comments(text):
    text = re.sub(r"/\*.*?\*/", " ", text, flags=re.S)
    return re.sub(r"//[^\n]*", " ", text)


def split(arguments):
    return [" ".join(one.split()) for one in arguments.split(",") if one.strip()]


def rust_like(arguments):
    """Arguments as `name: type`, the way of Rattle and of Rust."""
    types = {"&mut [u8]": "mutable bytes", "&[u8]": "bytes", "u32": "u32", "u64": "u64"}
    result = []
    for one in split(arguments):
        match = re.fullmatch(r"(\w+) ?: ?(.+)", one)
        if not match:
            raise Unreadable(f"argument {one!r}")
        name, kind = match.groups()
        kind = re.sub(r"\s*([\[\]])\s*", r"\1", kind).replace("mut[", "mut [")
        if kind not in types:
            raise Unreadable(f"type {kind!r}")
        result.append((name, types[kind]))
    return result


def joined(pairs):
    """A pointer and the length after it as one argument."""
    result = []
    rest = list(pairs)
    while rest:
        name, kind = rest.pop(0)
        if kind in ("mutable pointer", "pointer"):
            if not rest or rest.pop(0) != (name + "_len", "length"):
                raise Unreadable(f"no length after {name}")
            kind = "mutable bytes" if kind == "mutable pointer" else "bytes"
        elif kind == "length":
            raise Unreadable(f"length {name} without its pointer")
        result.append((name, kind))
    return result


def once(found):
    """A table by name, in which no name stands twice."""
    table = {}
    for name, *rest in found:
        if name in table:
            raise Unreadable(f"{name} twice")
        table[name] = rest
    return table


def rattle(text):
    text = without_comments(text)
    pattern = r'#\[(?:unsafe\()?no_mangle\)?\]\s*pub\s+extern\s+"C"\s+fn\s+(\w+)\s*\(([^)]*)\)\s*->\s*(\w+)'
    found = [(name, result, rust_like(arguments)) for name, arguments, result in re.findall(pattern, text)]
    if len(found) != text.count("no_mangle") or len(found) != len(re.findall(r'\bextern\s+"C"\s+fn\b', text)):
        raise Unreadable("an exported function that cannot be read")
    return once(found)


def end_of_block(text, place):
    """The place behind the block that opens at a place."""
    depth = 0
    for at in range(place, len(text)):
        depth += {"{": 1, "}": -1}.get(text[at], 0)
        if depth == 0:
            return at + 1
    raise Unreadable("a block without its end")


def without_inline(text):
    """The text without its inline functions."""
    rest = text.split("static inline")
    return rest[0] + "".join(one[end_of_block(one, one.index("{")) :] for one in rest[1:])


def header(text):
    text = without_inline(without_comments(text))
    text = "\n".join(line for line in text.split("\n") if not line.lstrip().startswith("#"))
    types = {
        "uint8_t *": "mutable pointer",
        "const uint8_t *": "pointer",
        "size_t": "length",
        "uint32_t": "u32",
        "uint64_t": "u64",
    }
    found = []
    for result, name, arguments in re.findall(r"(\w+)\s+(\w+)\s*\(([^)]*)\)\s*;", text):
        pairs = []
        for one in split(arguments):
            match = re.fullmatch(r"(.*?)(\w+)", one)
            kind = " ".join(match.group(1).split()) if match else ""
            if kind not in types:
                raise Unreadable(f"argument {one!r} of {name}")
            pairs.append((match.group(2), types[kind]))
        found.append((name, {"uint64_t": "u64"}.get(result, result), joined(pairs)))
    return once(found)


def rust_raw(text):
    text = without_comments(text)
    block = re.search(r'unsafe extern "C" \{(.*?)\n    \}', text, flags=re.S)
    if not block:
        raise Unreadable("no extern block")
    types = {"*mut u8": "mutable pointer", "*const u8": "pointer", "usize": "length", "u32": "u32", "u64": "u64"}
    found = []
    for name, arguments, result in re.findall(r"pub fn (\w+)\s*\(([^)]*)\)\s*->\s*(\w+)\s*;", block.group(1)):
        pairs = []
        for one in split(arguments):
            argument, kind = (part.strip() for part in one.split(":", 1))
            if kind not in types:
                raise Unreadable(f"type {kind!r} of {name}")
            pairs.append((argument, types[kind]))
        found.append((name, result, joined(pairs)))
    if len(found) != len(re.findall(r"\bfn\b", block.group(1))):
        raise Unreadable("a declaration that cannot be read")
    return once(found)


def rust_safe(text):
    """The safe functions, each of which hands its arguments on in the order of the C function."""
    text = without_comments(text)
    text = text[text.index("\n}\n") :]
    found = []
    pattern = r"pub fn (\w+)\s*\(([^)]*)\)\s*->\s*(\w+)\s*\{\s*unsafe\s*\{\s*raw::(\w+)\((.*?)\)\s*\}\s*\}"
    for name, arguments, result, called, handed in re.findall(pattern, text, flags=re.S):
        pairs = rust_like(arguments)
        wanted = []
        for argument, kind in pairs:
            if kind == "mutable bytes":
                wanted += [f"{argument}.as_mut_ptr()", f"{argument}.len()"]
            elif kind == "bytes":
                wanted += [f"{argument}.as_ptr()", f"{argument}.len()"]
            else:
                wanted.append(argument)
        if called != PREFIX + name or split(handed) != wanted:
            raise Unreadable(f"{name} hands on {split(handed)} to {called}")
        found.append((called, result, pairs))
    if len(found) != len(re.findall(r"\bfn\b", text)):
        raise Unreadable("a safe function that cannot be read")
    return once(found)


def state(text):
    """The names in the last table of docs/STATE.md."""
    return sorted(re.findall(r"^\| `(" + PREFIX + r"\w+)` \|", text, flags=re.M))


def uncommented(text):
    """The header's functions that have no comment directly before them."""
    found = re.findall(r"(.*)\n(?:static inline|uint64_t) [^(\n]*?(\w+)\(", text)
    return [name for before, name in found if not before.rstrip().endswith("*/")] if found else ["nothing"]


def versions(texts):
    """The version in the header, by its number, and in the Rust crate."""
    named = re.findall(r'^#define POWER_POLICY_VERSION "([\d.]+)"$', texts["header"], flags=re.M)
    number = [int(value) for value in re.findall(r"^#define POWER_POLICY_VERSION_NUMBER (\d+)$", texts["header"], flags=re.M)]
    by_number = [f"{one // 10000}.{one // 100 % 100}.{one % 100}" for one in number]
    return {
        "the header": named,
        "the header's number": by_number,
        "the Rust crate": re.findall(r'^version = "([\d.]+)"$', texts["cargo"], flags=re.M),
    }


def words(texts):
    """The words of each refusal, in the header and in the Rust crate."""
    in_header = re.findall(r'case POWER_POLICY_REFUSED_(\w+):\s*return "([^"]*)";', texts["header"])
    in_rust = re.findall(r'Self::(\w+) => (?:\{\s*)?"([^"]*)"', re.search(r"fn text\(.*?\n    \}\n", texts["reply"], flags=re.S).group(0))
    return dict(in_header), {upper(name): text for name, text in in_rust}


def upper(name):
    """A name of Rust as the header writes it."""
    return re.sub(r"(?<!^)([A-Z])", r"_\1", name).upper()


def macro(text, name):
    """The figures of a configuration in the header, which may be another's."""
    value = re.search(rf"^#define POWER_POLICY_CONFIG_{name} (.*)$", without_comments(text), flags=re.M)
    if not value:
        raise Unreadable(f"no configuration {name}")
    other = re.fullmatch(r"POWER_POLICY_CONFIG_(\w+)", value.group(1).strip())
    return macro(text, other.group(1)) if other else [int(one) for one in re.findall(r"\d+", value.group(1))]


def made(text, name):
    """The figures of a configuration that a function of Rattle or of Rust gives, which may start from another's."""
    body = re.search(rf"fn {name}\(\) -> Self\b.*?\n    \}}\n", without_comments(text), flags=re.S)
    if not body:
        raise Unreadable(f"no configuration {name}")
    body = body.group(0)
    figures = made(text, "rust_default") if "::rust_default()" in body else [None] * 7
    capability = r": PowerCapability \{\s*voltage_mv: (\d+),\s*current_ma: (\d+),"
    for pattern, places in (
        (r"limited_power_threshold_mw: (\d+)", slice(0, 1)),
        ("provider_unlimited" + capability, slice(1, 3)),
        ("provider_limited" + capability, slice(3, 5)),
    ):
        match = re.search(pattern, body)
        if match:
            figures[places] = [int(one) for one in match.groups()]
    minimum = re.search(r"min_consumer_threshold_mw: (?:None|Some\((\d+)\))", body)
    if minimum:
        figures[5:] = [1, int(minimum.group(1))] if minimum.group(1) else [0, 0]
    return figures


def configurations(texts):
    """Both configurations by name, in each place."""
    names = (("DEFAULT", "default"), ("RUST_DEFAULT", "rust_default"))
    return {
        "the header": {name: macro(texts["header"], written) for written, name in names},
        "the Rust crate": {name: made(texts["config"], name) for _, name in names},
        "the Rattle source": {name: made(texts["rattle config"], name) for _, name in names},
    }


def handed_on(text):
    """Whether the header's configuration has the figures that a start takes, and its start hands them on in order."""
    text = without_comments(text)
    struct = re.search(r"typedef struct power_policy_config \{(.*?)\}", text, flags=re.S)
    call = re.search(r"power_policy_start_with\([^)]*\)\s*\{\s*return power_policy_start\((.*?)\);", text, flags=re.S)
    if not struct or not call:
        raise Unreadable("no start from a configuration")
    fields = re.findall(r"uint64_t (\w+);", struct.group(1))
    arguments = [name for name, _ in header(text)[PREFIX + "start"][1]]
    lent = ["image", "image_len", "ports", "chargers"]
    wanted = lent + ["config->" + name for name in fields]
    return arguments[3:] == fields and split(call.group(1)) == wanted


def numbers(texts):
    """Lengths and refusals, in the header and in the Rust crate."""
    in_header, in_rust = {}, {}
    plain = without_comments(texts["header"])
    names = {"IMAGE": "SERVICE_IMAGE", "PORTS": "MAX_PORTS", "CHARGERS": "MAX_CHARGERS", "WAIT_MS": "WAIT_MILLIS"}
    for name, value in re.findall(r"#define POWER_POLICY_(\w+) (\d+)", plain):
        if name not in ("FLAG_UNCONSTRAINED", "VERSION_NUMBER"):
            in_header[names.get(name, name)] = int(value)
    for name, value in re.findall(r"POWER_POLICY_REFUSED_(\w+) = (\d+)", plain):
        in_header["refusal " + name] = int(value)
    for file in ("crate", "record"):
        for name, value in re.findall(r"pub const (\w+): \w+ = (\d+);", texts[file]):
            in_rust[name] = int(value)
    refusals = re.search(r"pub enum Refusal \{(.*?)\n\}", without_comments(texts["reply"]), flags=re.S)
    for name, value in re.findall(r"(\w+) = (\d+),", refusals.group(1) if refusals else ""):
        in_rust["refusal " + upper(name)] = int(value)
    return in_header, in_rust


# in code, and in the definitions
LIMITS = {
    "LARGEST": "largest", "MAX_PORTS": "max_ports", "MAX_CHARGERS": "max_chargers", "MAX_ORDERS": "max_orders", "MAX_NOTICES": "max_notices", "WINDOW": "window",
    "PSU_RECORD": "psu_length", "CHARGER_RECORD": "charger_length", "SERVICE_IMAGE": "service_length", "FOLLOWER_IMAGE": "follower_length", "BUFFER": "buffer_length",
    "PAGE": "page_length",
}


def limits(texts):
    """What differs in the lengths and limits, as lines."""
    code = {name: int(value) for name, value in re.findall(r"^pub const (\w+): \w+ = (\d+);$", without_comments(texts["limits"]), flags=re.M)}
    defined = {name: int(value) for name, value in re.findall(r"^(\w+) = (\d+)$", texts["defined limits"], flags=re.M)}
    found = []
    if defined != {LIMITS.get(name, name): value for name, value in code.items()} or set(code) != set(LIMITS):
        found.append(f"lengths and limits: the definitions {defined}, the code {code}")
    in_header = {name: value for name, value in numbers(texts)[0].items() if name in code}
    if len(in_header) != 8 or any(code[name] != value for name, value in in_header.items()):
        found.append(f"lengths and limits: the header {in_header}, the code {code}")
    return found


def waits(texts):
    """The milliseconds of a wait, in each place as often as they are written there."""
    places = (
        ("the header", without_comments(texts["header"]), r"^#define POWER_POLICY_WAIT_MS (\d+)\s*$"),
        ("the Rust crate", without_comments(texts["crate"]), r"^pub const WAIT_MILLIS: u64 = (\d+);"),
        ("the definition", texts["definition"], r"^\s*wait_ms\s*=\s*(\d+)\s*$"),
        ("the Rattle const", without_comments(texts["numbers"]), r"^\s*(?:pub\s+)?const\s+WAIT_MS\s*:\s*u16\s*=\s*(\d+)\s*;"),
    )
    return {place: [int(value) for value in re.findall(pattern, text, flags=re.M)] for place, text, pattern in places}


def differing(texts):
    """What differs in versions, words, configurations and comments, as lines."""
    found = []
    version = versions(texts)
    if any(len(values) != 1 or values != version["the header"] for values in version.values()):
        found.append(f"version: {version}")
    in_header, in_rust = words(texts)
    if in_header != in_rust or len(in_header) != 15:
        found.append(f"refusals in words: the header {in_header}, the Rust crate {in_rust}")
    try:
        configured = configurations(texts)
        if any(None in figures for figures in configured["the Rattle source"].values()):
            found.append(f"configurations without all figures: {configured}")
        if any(values != configured["the header"] for values in configured.values()):
            found.append(f"configurations: {configured}")
        if not handed_on(texts["header"]):
            found.append("the header's start from a configuration hands on other figures")
    except Unreadable as error:
        found.append(str(error))
    if uncommented(texts["header"]):
        found.append(f"no comment before {uncommented(texts['header'])}")
    return found


def differences(texts):
    """What differs between the places, as lines."""
    lists = {}
    for place, read, text in (
        ("the Rattle source", rattle, "rattle"),
        ("the header", header, "header"),
        ("the Rust declarations", rust_raw, "ffi"),
        ("the safe functions", rust_safe, "ffi"),
    ):
        try:
            lists[place] = read(texts[text])
        except (Unreadable, ValueError) as error:
            return [f"{place}: {error}"]
    found = []
    first = lists["the header"]
    if not first:
        found.append("the header declares nothing")
    for place, others in lists.items():
        for name in sorted(set(first) | set(others)):
            if first.get(name) != others.get(name):
                found.append(f"{name}: the header {first.get(name)}, {place} {others.get(name)}")
    if state(texts["state"]) != sorted(first):
        found.append(f"docs/STATE.md has {state(texts['state'])}, the header {sorted(first)}")
    in_header, in_rust = numbers(texts)
    if in_header != in_rust or len(in_header) != 24:
        found.append(f"numbers: the header {in_header}, the Rust crate {in_rust}")
    found += differing(texts) + limits(texts)
    millis = waits(texts)
    if any(len(values) != 1 or values != millis["the header"] for values in millis.values()):
        found.append(f"milliseconds of a wait: {millis}")
    return found


def changes(texts):
    """Copies of the texts with one thing changed, each of which must be found."""

    def change(place, old, new, count=1):
        if old not in texts[place]:
            yield f"{place}: nothing like {old!r} to change", texts
            return
        other = dict(texts)
        other[place] = texts[place].replace(old, new, count)
        yield f"{place}: {old!r} made {new!r}", other

    for place in ("rattle", "header", "ffi"):
        yield from change(place, "power_policy_follower_shown", "power_policy_follower_show")
        yield from change(place, "power_policy_follower_write_page", "power_policy_follower_page")
        yield from change(place, "unlimited_mv", "unlimited_mw")
        yield from change(place, "detail", "reason")
        for one, other in (("unlimited_mv", "limited_mv"), ("kind", "device"), ("ports", "chargers")):
            swapped = dict(texts)
            word = rf"\b({one}|{other})\b"
            names = {one: other, other: one}
            swapped[place] = re.sub(word, lambda match: names[match.group(1)], texts[place])
            yield f"{place}: {one} and {other} swapped", swapped
    for place, old, new in (
        ("rattle", "threshold_mw: u64", "threshold_mw: u32"),
        ("rattle", "answer: u32", "answer: u64"),
        ("rattle", "packet: &[u8]", "packet: &mut [u8]"),
        ("rattle", "-> u64", "-> u32"),
        ("rattle", "#[unsafe(no_mangle)]", ""),
        ("header", "uint64_t threshold_mw", "uint32_t threshold_mw"),
        ("header", "const uint8_t *packet", "uint8_t *packet"),
        ("header", "size_t buffer_len", "uint32_t buffer_len"),
        ("header", "uint64_t power_policy_order(", "uint32_t power_policy_order("),
        ("header", "POWER_POLICY_IMAGE 67", "POWER_POLICY_IMAGE 66"),
        ("header", "POWER_POLICY_PAGE 246", "POWER_POLICY_PAGE 245"),
        ("crate", "PAGE: usize = 246", "PAGE: usize = 247"),
        ("header", "POWER_POLICY_REFUSED_BUFFER = 29", "POWER_POLICY_REFUSED_BUFFER = 28"),
        ("header", "POWER_POLICY_REFUSED_PAGE = 34", "POWER_POLICY_REFUSED_PAGE = 35"),
        ("reply", "    Page = 34", "    Page = 29"),
        ("limits", "SERVICE_IMAGE: usize = 67", "SERVICE_IMAGE: usize = 68"),
        ("limits", "MAX_ORDERS: u8 = 35", "MAX_ORDER: u8 = 35"),
        ("limits", "PAGE: usize = 246", "PAGE: usize = 245"),
        ("defined limits", "window = 8", "window = 9"),
        ("defined limits", "page_length = 246", "page_length = 247"),
        ("defined limits", "follower_length = 241", "followersLength = 241"),
        ("ffi", "threshold_mw: u64", "threshold_mw: u32"),
        ("ffi", "packet: *const u8", "packet: *mut u8"),
        ("ffi", "            kind,\n            device,\n", "            device,\n            kind,\n"),
        ("ffi", "write_page(\n            image.as_ptr(),\n", "write_page(\n            buffer.as_ptr(),\n"),
        ("state", "| `power_policy_order` |", "| `power_policy_orders` |"),
        ("state", "| `power_policy_follower_write_page` |", "| `power_policy_follower_page` |"),
        ("header", "POWER_POLICY_WAIT_MS 800", "POWER_POLICY_WAIT_MS 801"),
        ("crate", "WAIT_MILLIS: u64 = 800", "WAIT_MILLIS: u64 = 8000"),
        ("definition", "wait_ms = 800", "wait_ms = 80"),
        ("definition", "wait_ms = 800", "waitsMs = 800"),
        ("definition", "wait_ms = 800", "wait_ms = 800\nwait_ms = 800"),
        ("header", 'POWER_POLICY_VERSION "0.', 'POWER_POLICY_VERSION "9.'),
        ("header", "POWER_POLICY_VERSION_NUMBER ", "POWER_POLICY_VERSION_NUMBER 9"),
        ("cargo", '\nversion = "0.', '\nversion = "9.'),
        ("header", '"an event is open"', '"no event is open"'),
        ("reply", '"an event is open"', '"no event is open"'),
        ("header", '"a buffer under 246 bytes for a page"', '"a buffer under 246 bytes"'),
        ("reply", '"a buffer under 246 bytes for a page"', '"a buffer under 245 bytes for a page"'),
        ("header", "case POWER_POLICY_REFUSED_OPEN:", "case POWER_POLICY_REFUSED_NO_ORDER:"),
        ("reply", "Self::Open =>", "Self::NoOrder =>"),
        ("header", "RUST_DEFAULT {15000, 5000, 3000,", "RUST_DEFAULT {15000, 3000, 5000,"),
        ("header", "CONFIG_DEFAULT POWER_POLICY_CONFIG_RUST_DEFAULT", "CONFIG_DEFAULT {15000, 5000, 3000, 5000, 1500, 1, 7500}"),
        ("config", "current_ma: 1500", "current_ma: 1501"),
        ("config", "min_consumer_threshold_mw: None", "min_consumer_threshold_mw: Some(0)"),
        ("config", "        Self::rust_default()", "        Self { min_consumer_threshold_mw: Some(7500), ..Self::rust_default() }"),
        ("rattle config", "limited_power_threshold_mw: 15000", "limited_power_threshold_mw: 15001"),
        ("rattle config", "min_consumer_threshold_mw: None,\n        }", "min_consumer_threshold_mw: Some(7500),\n        }"),
        ("header", "    uint64_t limited_mv; ", "    uint64_t limit_mv; "),
        ("header", "config->limited_mv, config->limited_ma", "config->limited_ma, config->limited_mv"),
        ("header", "config->minimum_present, config->minimum_mw", "config->minimum_present, config->threshold_mw"),
        ("header", "/** The port of the consumer shown. */\n", ""),
        ("header", "/** The tracked ports shown, none if lost. Tracked, or refused: 21. */\n", "\n"),
        ("numbers", "WAIT_MS: u16 = 800", "WAIT_MS: u16 = 799"),
        ("numbers", "WAIT_MS: u16 = 800", "WAIT_MS: u8 = 800"),
        ("numbers", "const WAIT_MS: u16 = 800", "// const WAIT_MS: u16 = 800"),
    ):
        yield from change(place, old, new)
    for what, old, new in (
        ("a wait of 801 milliseconds", " 800", " 801"),
        ("an image of 68 bytes", r"(IMAGE(?:: usize =)?) 67", r"\1 68"),
        ("a page of 245 bytes", r"(PAGE(?:: usize =)?) 246", r"\1 245"),
    ):
        both = dict(texts)
        for place in ("header", "crate"):
            both[place] = re.sub(old, new, texts[place])
        yield f"header and crate: {what}", both


def main():
    source = pathlib.Path(sys.argv[1]) if len(sys.argv) > 1 else ROOT / "crates/power_policy/src/lib.rt"
    files = {
        "rattle": source,
        "header": ROOT / "include/power_policy.h",
        "ffi": ROOT / "rust/power_policy/src/ffi.rs",
        "crate": ROOT / "rust/power_policy/src/lib.rs",
        "cargo": ROOT / "rust/power_policy/Cargo.toml",
        "config": ROOT / "rust/power_policy/src/config.rs",
        "rattle config": ROOT / "crates/power_policy_service/src/config.rt",
        "record": ROOT / "rust/power_policy/src/record.rs",
        "reply": ROOT / "rust/power_policy/src/reply.rs",
        "state": ROOT / "docs/STATE.md",
        "definition": ROOT / "crates/abstract_calls/specs/Numbers.antt",
        "limits": ROOT / "crates/power_policy_interface/src/limits.rt",
        "defined limits": ROOT / "crates/power_policy_interface/specs/Limits.antt",
        "numbers": ROOT / "crates/bytes_calls/src/numbers.rt",
    }
    missing = [str(path) for path in files.values() if not path.is_file()]
    if missing:
        print("not there: " + ", ".join(missing))
        print("0 passed, 1 failed")
        return 1
    texts = {name: path.read_text() for name, path in files.items()}
    passed = failed = 0
    found = differences(texts)
    for line in found:
        print("DIFFERS: " + line)
    if found:
        failed += 1
    else:
        passed += 1
        print(f"ok: {len(header(texts['header']))} functions are the same in all places")
        tried = 0
        for what, changed in changes(texts):
            if differences(changed):
                tried += 1
            else:
                failed += 1
                print("NOT FOUND: " + what)
        passed += tried
        print(f"ok: {tried} changes are found")
    print(f"{passed} passed, {failed} failed")
    return 0 if failed == 0 else 1


if __name__ == "__main__":
    sys.exit(main())
