#!/bin/bash
# usage: speed.sh [EVENTS]
#
# Packets a second of `follow` against the model's `follow`, on one stream: picture 0 and EVENTS events (1,000,000 if not given) without an error, each
# applied at once. Then the same of as many packets that are refused at their first byte, which leaves framing and a line: the difference is
# reading a packet, taking it and the rest of its line. Both read the same file and write to /dev/null, in turn, five times each; the least user time
# of each counts, so that time in the system's calls does not. Needs target/bin/follow and cargo.
set -eu
cd "$(dirname "$0")/.."
events=${1:-1000000}
export CARGO_TARGET_DIR=$PWD/target/rust
(cd rust && cargo build --offline --locked --profile timed --quiet -p link-model)
model=target/rust/timed/model
work=$(mktemp -d)
trap 'rm -rf "$work"' EXIT
TIMEFORMAT=%U
least() { sort -n "$1" | head -n 1; }
both() { # FILE: user seconds of `follow` and of the model
    rm -f "$work/ours" "$work/model"
    for _ in 1 2 3 4 5; do
        { time target/bin/follow <"$1" >/dev/null; } 2>>"$work/ours"
        { time $model follow <"$1" >/dev/null; } 2>>"$work/model"
    done
    echo "$(least "$work/ours") $(least "$work/model")"
}
$model gen-events 1 "$events" >"$work/applied"
perl -e 'print "\x06\x02\0\0\0\0\0", "\x01\x03" x $ARGV[0]' "$events" >"$work/refused"
awk -v n="$events" -v applied="$(both "$work/applied")" -v refused="$(both "$work/refused")" 'BEGIN {
    split(applied, a, " "); split(refused, r, " ")
    printf "%d events: follow %.2f s, %.2f million packets a second; model %.2f s, %.2f million; ratio %.2f\n", n, a[1], n / a[1] / 1e6, a[2], n / a[2] / 1e6, a[1] / a[2]
    printf "refused at the first byte: follow %.2f s; model %.2f s\n", r[1], r[2]
    t = a[1] - r[1]; m = a[2] - r[2]
    printf "reading and taking: follow %.2f s, %.2f million packets a second; model %.2f s, %.2f million; ratio %.2f\n", t, n / t / 1e6, m, n / m / 1e6, t / m }'
