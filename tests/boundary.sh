#!/bin/bash
# usage: boundary.sh
#
# Tests the C functions of libpower_policy.a from Rust (rust/boundary). The archive is in target/staticlib or where POWER_POLICY_LIB says. The original
# Rust is compared where its sources stand (../shared/docs/src, or POWER_POLICY_RUST). Each command counts as one
# test; its own line says how many cases it compared. Its last line is 'N passed, M failed'.
set -u
cd "$(dirname "$0")/.." || exit 2
. tests/lib.sh
src=${POWER_POLICY_RUST:-../shared/docs/src}
export POWER_POLICY_LIB=$lib CARGO_TARGET_DIR=$PWD/target/rust

if [ ! -f "$lib/libpower_policy.a" ] || ! (cd rust && cargo build --offline --locked --release --quiet -p boundary) >"$work/log" 2>&1; then
    cat "$work/log"
    fail "nothing is tested: no archive in $lib, or it does not link"
    finish
fi
boundary=target/rust/release/boundary
tested "refusals" $boundary refusals
for seed in 1 2 3 4; do tested "random calls, seed $seed" $boundary random $seed 1000000; done
tested "takes against the model" $boundary model 1 200000
# Every byte read or written outside what is lent, and every byte used that nobody wrote, under valgrind.
command -v valgrind >/dev/null || echo "valgrind is not installed: the next two tests fail"
watched="valgrind -q --error-exitcode=9 $boundary --exact"
tested "random calls under valgrind" $watched random 5 200000
tested "takes against the model under valgrind" $watched model 2 20000
if [ -d "$src" ]; then
    if rust/build-overlay.sh && (cd rust && cargo build --offline --locked --release --quiet -p oracle); then
        tested "the original, exhaustive" $boundary original exhaustive
        for seed in 1 2; do tested "the original, random events, seed $seed" $boundary original random $seed 300000; done
    else
        fail "the original Rust at $src is not built"
    fi
else
    echo "the original Rust is not at $src: not compared in this run"
fi

finish
