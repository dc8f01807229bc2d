#!/bin/sh
# usage: against-rust.sh
#
# Compares the port with the original Rust, where its sources stand beside the repository (../shared/docs/src, or
# POWER_POLICY_RUST). Needs the programs that tests/built.sh puts in target/bin. Where the sources are not there it says so: the
# stored answers have then been replayed by `rt ci` all the same.
# Its last line is 'N passed, M failed'.
set -u
cd "$(dirname "$0")/.." || exit 2
. tests/lib.sh
src=${POWER_POLICY_RUST:-../shared/docs/src}
if [ ! -d "$src" ]; then
    echo "the original Rust is not at $src: not compared in this run"
    finish
fi
if ! command -v cargo >/dev/null; then
    fail "no cargo: the original Rust at $src cannot be built"
    finish
fi

none_differ() { # PROGRAM FILE
    "target/bin/$1" <"$2" | tee "$work/said"
    grep -q -E '^[1-9][0-9]* vectors, 0 differ$' "$work/said"
}

runs_agree() { # WORDS: the runs of the service that the oracle is asked for
    rust/run-oracle.sh service "$@" | target/bin/replay_service | tee "$work/said"
    grep -q -E '^[1-9][0-9]* vectors, 0 differ$' "$work/said"
}

test_that "the stand-ins and the driver do what they say" rust/check-oracle.sh
rust/run-oracle.sh interface sample >"$work/interface" && rust/run-oracle.sh records sample >>"$work/interface"
test_that "the stored answers are those of the Rust and of the reading of SHP-8 to SHP-10" cmp "$work/interface" crates/replay/stdin
rust/run-oracle.sh interface full >"$work/full"
test_that "every transition on the whole grid" none_differ replay "$work/full"
rust/run-oracle.sh records full >"$work/full"
test_that "every record with a byte changed, every flag byte, rows short and long" none_differ replay "$work/full"
rust/run-oracle.sh service sample-stream >"$work/runs"
test_that "the stored runs are those of the Rust" cmp "$work/runs" crates/replay_service/stdin
test_that "every event of small worlds, every order done and failed" runs_agree exhaustive
for seed in 1 2 3; do
    test_that "a million random events of up to 16 ports and 8 chargers, seed $seed" runs_agree stream "$seed" 1000000
done

finish
