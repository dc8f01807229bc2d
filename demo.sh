#!/bin/sh
# usage: demo.sh [--packets] [SEED]
#
# Shows a console's day, the bad link to its desk, and the desk beside it (rust/demo); SEED, a number, is the link's. With --packets it writes
# what the link handed over instead, as `follow` reads it. Proves the library and writes the archive first if it is not in target/staticlib;
# POWER_POLICY_LIB names another folder that has it. Needs cargo and cc, and rt for the archive.
# Standard output has the day alone. Standard error tells what is done before it; what the prover says goes to target/demo.log.
set -eu
cd "$(dirname "$0")"
lib=${POWER_POLICY_LIB:-target/staticlib}
case $lib in /*) ;; *) lib=$PWD/$lib ;; esac
log=target/demo.log

say() { echo "demo.sh: $*" >&2; }
stop() {
    say "$*"
    exit 2
}

missing=
need() { # COMMAND WHAT
    command -v "$1" >/dev/null 2>&1 || missing="$missing${missing:+; }$1, $2"
}

# Proves the crates that the archive stands on, and then the archive's own, and compiles it.
prove() {
    mkdir -p target
    say "first the library is proved, which takes minutes from nothing and less where it was proved before; a line for each crate"
    say "what the prover says goes to $log; the day that is shown at the end is recorded in examples/demo.txt"
    sh tests/built.sh power_policy 2>&1 | tee "$log" | grep --line-buffered -a -E '^(crate |rt: )' >&2 || true
    [ -f "$lib/libpower_policy.a" ] || stop "the library is not proved: see $log"
}

packets=
if [ "${1:-}" = --packets ]; then
    packets=$1
    shift
fi
usage="usage: demo.sh [--packets] [SEED], a number"
[ $# -le 1 ] || stop "$usage"
case ${1:-} in *[!0-9]*) stop "$usage" ;; esac
if [ ! -f "$lib/libpower_policy.a" ]; then
    [ -z "${POWER_POLICY_LIB:-}" ] || stop "no libpower_policy.a in $lib"
    need rt "the Rattle toolchain, which proves and compiles the library (README.md says which)"
fi
need cargo "Rust with edition 2024, which compiles the demonstration"
need cc "a C compiler, by which cargo links (Debian: build-essential)"
[ -z "$missing" ] || stop "missing on the PATH: $missing"

[ -f "$lib/libpower_policy.a" ] || prove
export POWER_POLICY_LIB="$lib" CARGO_TARGET_DIR="$PWD/target/rust"
cd rust
cargo build --offline --locked --release --quiet -p demo
exec "$CARGO_TARGET_DIR/release/demo" ${packets:+"$packets"} "$@"
