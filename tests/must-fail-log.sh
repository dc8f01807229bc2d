#!/bin/sh
# usage: must-fail-log.sh [EDIT..]
#
# A must-fail edit may change several functions at once, each named by a line '# breaks: FUNCTION'. The prover refusing the
# crate, which `rt ci` asks for, shows that one of them is refused; this asks that each is refused by itself: a goal of its own
# is no longer proved. That a proof file no longer fits the code (a name or a field that is not there) does not count, and
# neither does a callee that is not proved: where the prover leaves a function for its callees, the function's own pairs, which
# stand after its line '# breaks:', are tried alone (there it may also fall with a lemma that its answers cite). A crate of
# theorems has no function: its edits name a theorem by a line '# theorem: NAME', whose own proof must fail.
# rt keeps nothing of what the prover says of an edit, so each is checked here, on a copy of the crates and over what `rt check`
# has proved before. With EDITs, as tests/edits/wire/wrong_2.edit, these; else those of crates/*/must-fail.
# Writes a line for each function that is not refused and, last, 'N passed, M failed'. What the prover said is left in
# target/must-fail/CRATE.EDIT.log.
set -u
cd "$(dirname "$0")/.." || exit 2
. tests/lib.sh
[ $# -gt 0 ] || set -- crates/*/must-fail/*.edit
mkdir -p target/must-fail

# Crates side by side, as many as there are processors, each on a copy of its own.
crate_of() { sed -E 's#^(crates|tests/edits)/([^/]*)/.*#\2#'; }
if [ -z "${ONE_CRATE:-}" ]; then
    printf '%s\n' "$@" >"$work/edits"
    export work
    # shellcheck disable=SC2016 # the inner shell expands these
    crate_of <"$work/edits" | sort | uniq -c | sort -rn | awk '{ print $2 }' | xargs -P "$(nproc)" -I '{}' sh -c '
        ONE_CRATE=yes tests/must-fail-log.sh $(grep -E "^(crates|tests/edits)/{}/" "$work/edits") >"$work/{}.said" 2>&1'
    for said in "$work"/*.said; do
        grep -v -E '^[0-9]+ passed, [0-9]+ failed$' "$said"
        line=$(tail -n 1 "$said" | sed -nE 's/^([0-9]+) passed, ([0-9]+) failed$/\1 \2/p')
        [ -n "$line" ] || line="0 1"
        passed=$((passed + ${line% *}))
        failed=$((failed + ${line#* }))
    done
    finish
fi
tar -c --exclude='crates/*/out' --exclude='crates/*/must-fail' crates crates.txt | tar -x -C "$work"

# Applies an edit to the copy, or only what breaks a function; or undoes it. Writes why if it cannot.
edited() { # EDIT CRATE (apply|undo) [FUNCTION]
    python3 - "$work" "$@" <<'END'
import shutil
import sys

work, edit, crate, what, *only = sys.argv[1:]
texts, path, old, broken = {}, "", "", []
with open(edit, encoding="utf-8") as lines:
    last = ""
    for line in lines.read().split("\n"):
        if line.startswith("file: "):
            path, broken = f"crates/{crate}/{line[len('file: '):].strip()}", []
        elif line.startswith("# breaks: "):
            # (one change may break several functions, each named before it)
            broken = [*(broken if last == "#" else []), line[len("# breaks: "):].strip()]
        elif line.startswith("old: "):
            old = line[len("old: "):]
        elif line.startswith("new:") and (not only or not broken or only[0] in broken):
            if path not in texts:
                with open(path, encoding="utf-8") as text:
                    texts[path] = text.read()
            if texts[path].count(old) != 1:
                sys.exit(f"an old text stands in {path} {texts[path].count(old)} times: {old}")
            texts[path] = texts[path].replace(old, line[len("new:"):].removeprefix(" "))
        last = line[:1]
for path, text in texts.items():
    if what == "undo":
        shutil.copyfile(path, f"{work}/{path}")
    else:
        with open(f"{work}/{path}", "w", encoding="utf-8") as to:
            to.write(text)
END
}

# The errors that are not of a proof file that no longer fits, or of what stands on another error.
own_errors() { # LOG WHERE
    grep -F "$2" "$1" | grep ': error: `' | grep -v -e 'was not admitted' -e 'was rejected' -e 'not in scope' -e 'has no field' -e 'has no `'
}

# Whether a goal of the function's own is not proved: one that the prover was left to find, or one that proofs/FUNCTION/Answers.antt answers.
function_fails() { # LOG CRATE FUNCTION
    said=$(grep "^fn $2::$3: " "$1" | grep -v ': proved$')
    [ -n "$said" ] || return 1
    echo "$said" | grep -q "\` did not prove \`" && return 0
    # (the prover's notes on a function stand before its line)
    awk -v own="fn $2::$3: " '
        index($0, own) == 1 { found = held }
        /^[a-z]+ [^ ]*: / { held = 0 }
        /^note: src\/[^ ]*: it is not proved that / { held = 1 }
        END { exit !found }' "$1" && return 0
    own_errors "$1" "proofs/$(echo "$3" | sed 's/::/\//g')/Answers.antt:" >"$work/own"
    [ -s "$work/own" ]
}

# Of a function that was tried alone: whether it falls with a lemma of proofs/ that its answers cite, and every name is there.
lemma_fails() { # LOG CRATE FUNCTION
    grep -q "^fn $2::$3: not proved$" "$1" &&
        grep -F "proofs/$(echo "$3" | sed 's/::/\//g')/Answers.antt:" "$1" | grep -q 'was not admitted' &&
        ! grep -q -e 'not in scope' -e 'has no field' -e 'has no `' "$1"
}

# What the prover says of the copy.
checked() { # CRATE LOG
    (cd "$work/crates/$1" && rt check) 2>&1 | grep -v '^so far: ' >"$2"
}

for edit in "$@"; do
    [ -f "$edit" ] || continue
    name=$(basename "$edit" .edit)
    crate=$(echo "$edit" | sed 's/^\(crates\|tests\/edits\)\/\([^/]*\)\/.*/\2/')
    label="$crate/$name"
    log=$PWD/target/must-fail/$crate.$name.log
    functions=$(sed -n 's/^# breaks: //p' "$edit")
    theorems=$(sed -n 's/^# theorem: //p' "$edit")
    if [ -z "$functions$theorems" ]; then
        fail "must-fail $label: it names no function and no theorem"
        continue
    fi
    if ! edited "$edit" "$crate" apply; then
        fail "must-fail $label: it cannot be applied"
        continue
    fi
    checked "$crate" "$log"
    edited "$edit" "$crate" undo
    if grep -q ': error\[' "$log"; then
        fail "must-fail $label: it does not reach the prover: $(grep -m 1 ': error\[' "$log")"
        continue
    fi
    for theorem in $theorems; do
        own_errors "$log" ": error: \`$theorem\`" >"$work/own"
        if [ -s "$work/own" ]; then
            passed=$((passed + 1))
        else
            fail "must-fail $label: the proof of $theorem does not fail by itself"
        fi
    done
    for function in $functions; do
        if ! function_fails "$log" "$crate" "$function"; then
            alone=$PWD/target/must-fail/$crate.$name.$(echo "$function" | sed 's/::/./g').log
            edited "$edit" "$crate" apply "$function" && checked "$crate" "$alone"
            edited "$edit" "$crate" undo
            if ! function_fails "$alone" "$crate" "$function" && ! lemma_fails "$alone" "$crate" "$function"; then
                fail "must-fail $label: no goal of $function fails"
                continue
            fi
        fi
        passed=$((passed + 1))
    done
done
finish
