#!/bin/sh
# usage: snippets.sh
#
# Takes the snippets in C and in Rust out of README.md, "Call it from C and from Rust", puts each into its frame (tests/snippets), compiles it against
# libpower_policy.a and runs it. The archive is in target/staticlib or where POWER_POLICY_LIB says; POWER_POLICY_LDLIBS has what else C is to be linked
# with. Needs a C compiler (CC, by default cc) and cargo. Its last line is 'N passed, M failed'.
set -u
cd "$(dirname "$0")/.." || exit 2
. tests/lib.sh
cc=${CC:-cc}

# The lines of that part of README.md between a fence with this language and the next fence.
snippet() { # LANGUAGE
    awk -v fence="\`\`\`$1" '/^## / { part = $0 == "## Call it from C and from Rust" } $0 == "```" { inside = 0 } inside { print }
        part && $0 == fence { inside = 1 }' README.md
}

# The frame with the snippet in its place. A snippet that is not there, or two, would not do.
framed() { # LANGUAGE FRAME
    snippet "$1" >"$work/snippet"
    [ -s "$work/snippet" ] && awk -v file="$work/snippet" '$0 == "README" { while ((getline line < file) > 0) print line; put = 1; next } { print }
        END { exit !put }' "$2"
}

in_c() {
    # shellcheck disable=SC2086 # the libraries are words
    framed c tests/snippets/frame.c >"$work/snippet.c" &&
        "$cc" -std=c99 -Wall -Wextra -Wpedantic -Wconversion -Wsign-conversion -Werror -Iinclude "$work/snippet.c" "$lib/libpower_policy.a" \
            ${POWER_POLICY_LDLIBS:-} -o "$work/snippet-c" &&
        "$work/snippet-c"
}

in_rust() {
    framed rust tests/snippets/frame.rs >"$work/rust/src/main.rs" &&
        (cd "$work/rust" && RUSTFLAGS='-D warnings' POWER_POLICY_LIB=$lib CARGO_TARGET_DIR=$work/rust/target cargo --offline run --quiet) >"$work/printed" &&
        printf 'Done after 5 orders\nthe desk shows port 0\n' | diff - "$work/printed"
}

mkdir -p "$work/rust/src"
cat >"$work/rust/Cargo.toml" <<END
[package]
name = "snippet"
version = "0.1.0"
edition = "2024"

[dependencies]
power_policy = { path = "$PWD/rust/power_policy" }
END

test_that "the archive is there" test -f "$lib/libpower_policy.a"
test_that "README's snippet in C is compiled, closes its event and leaves at a refusal" in_c
test_that "README's snippet in Rust is compiled and runs its event" in_rust

finish
