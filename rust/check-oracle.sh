#!/bin/sh
# usage: check-oracle.sh
#
# Checks the overlay and the oracle. The original sources are found as build-overlay.sh finds them; where they are not there it says so and
# ends with status 1, since nothing is checked.
set -eu

here=$(cd "$(dirname "$0")" && pwd)
root=$(dirname "$here")
src=${POWER_POLICY_RUST:-$root/../shared/docs/src}
CARGO_TARGET_DIR=$root/target/rust
export CARGO_TARGET_DIR
if [ ! -d "$src" ]; then
    echo "the original Rust is not at $src (POWER_POLICY_RUST names another folder): nothing is checked" >&2
    exit 1
fi
work=$(mktemp -d)
trap 'rm -rf "$work"' EXIT

fail() {
    echo "check-oracle: $*" >&2
    exit 1
}

# Refuses what it should, with a message and without leaving anything.
refused() { # what is wrong, SRC, OUT
    if "$here/build-overlay.sh" "$2" "$3" 2>"$work/message"; then
        fail "build-overlay.sh accepts $1"
    fi
    grep -q '^build-overlay: ' "$work/message" || fail "no message for $1"
}
refused "a missing SRC" "$work/none" "$work/out"
mkdir "$work/empty" "$work/foreign"
refused "an empty SRC" "$work/empty" "$work/out"
refused "a folder of another's as OUT" "$src" "$work/foreign"
mkdir "$work/more"
cp -R "$src/." "$work/more"
chmod -R u+w "$work/more"
: >"$work/more/power-policy-service/src/lib.rs"
refused "an original that has a stand-in" "$work/more" "$work/out"
[ ! -e "$work/out" ] || fail "a refused overlay was left"

# Every original is in the overlay unchanged.
same() {
    found=0
    for file in $(cd "$src" && find . -name '*.rs'); do
        cmp "$src/$file" "$work/out/$file" || fail "$file differs in the overlay"
        found=$((found + 1))
    done
    [ "$found" -eq 13 ] || fail "$found original files instead of 13"
}
"$here/build-overlay.sh" "$src" "$work/out"
same
# A second time: what was changed, lost or added is put right, with a new time; the rest is left.
config=power-policy-service/src/service/config.rs
mod=power-policy-service/src/service/mod.rs
chmod u+w "$work/out/$config"
echo '// changed' >>"$work/out/$config"
touch -t 200001010000 "$work/out/$config" "$work/out/$mod"
rm -f "$work/out/power-policy-interface/src/psu/mod.rs"
: >"$work/out/power-policy-service/src/added.rs"
touch "$work/before"
"$here/build-overlay.sh" "$src" "$work/out"
same
[ ! -e "$work/out/power-policy-service/src/added.rs" ] || fail "an added file was left"
[ ! "$work/before" -nt "$work/out/$config" ] || fail "a file that differed has an old time"
[ "$work/before" -nt "$work/out/$mod" ] || fail "a file that did not differ has a new time"

"$here/build-overlay.sh"
manifest=$here/Cargo.toml
cargo test --offline --locked --release --quiet --manifest-path "$manifest" -p oracle

cargo build --offline --locked --release --quiet --manifest-path "$manifest" -p oracle
oracle=$CARGO_TARGET_DIR/release/oracle
for what in interface records; do
    for kind in sample full; do
        "$oracle" "$what" "$kind" >"$work/$kind"
        size=$(wc -c <"$work/$kind")
        [ "$size" -gt 0 ] && [ $((size % 49)) -eq 0 ] || fail "$what $kind: $size bytes"
        echo "$what $kind: $((size / 49)) vectors"
    done
done
for what in sample-stream "stream 1 2000" exhaustive; do
    # The same twice.
    # shellcheck disable=SC2086 # the arguments are words
    "$oracle" service $what >"$work/stream"
    "$oracle" service $what | cmp - "$work/stream" || fail "service $what differs"
    [ "$(head -c 1 "$work/stream")" = S ] || fail "service $what does not begin with a start"
    echo "service $what: $(wc -c <"$work/stream") bytes"
done
"$oracle" service demo
if "$oracle" nothing 2>/dev/null; then
    fail "the oracle accepts an unknown subcommand"
fi
echo "check-oracle: all is well"
