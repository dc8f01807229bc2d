#!/bin/sh
# usage: demo.sh
#
# Runs the demonstration and compares what it prints with examples/demo.txt, and the packets that its link handed over with examples/day.packets. Runs it
# over the links of 200 other seeds: it ends with 1 if the desk shows a number with other content than the console held at it. Hands the packets to the
# program `follow`: it shows what the desk of the demonstration shows. The archive is in target/staticlib or where POWER_POLICY_LIB says. Needs cargo, and
# target/bin/follow (sh tests/built.sh follow).
# Its last line is 'N passed, M failed'.
set -u
cd "$(dirname "$0")/.." || exit 2
. tests/lib.sh
export POWER_POLICY_LIB="$lib" CARGO_TARGET_DIR="$PWD/target/rust"
demo=$CARGO_TARGET_DIR/release/demo

default_day() {
    sh ./demo.sh >"$work/default"
}

day_packets() {
    sh ./demo.sh --packets >"$work/day.packets"
}

# The lines of `follow` on a stream of packets.
followed() { # PACKETS
    target/bin/follow <"$1" 2>&1
}

# What the desk shows after each letter that it takes, as `follow` writes it: number, state, port and mW. The desk's columns follow the last bar. A letter that is
# lost or delayed, and a step without one, is not taken.
desk_lines() { # TABLE
    sed -n -E 's/.*\| [ep][0-9]+( late| again)? +\| //p' "$1" |
        awk '{ print $2, $1, $3, $3 == "-" ? "-" : $4 }'
}

# `follow` and the desk of the demonstration show the same, letter by letter.
follow_agrees() { # SEED
    "$demo" "$1" >"$work/table" && desk_lines "$work/table" >"$work/desk" || return 1
    "$demo" --packets "$1" >"$work/packets" && followed "$work/packets" | sed -e 1d -e 's/^[0-9]* //' >"$work/follow" || return 1
    [ -s "$work/desk" ] && diff "$work/desk" "$work/follow"
}

follow_agrees_on_all() {
    for seed in 237 1000 1001 1002 1003 1004 1005 1006 1007 1008 1009; do
        follow_agrees "$seed" || { echo "seed $seed"; return 1; }
    done
}

recorded_lines() {
    followed examples/day.packets >"$work/day.txt" && diff examples/day.txt "$work/day.txt"
}

finds_others() {
    (cd rust && cargo test --offline --locked --release --quiet -p demo)
}

# Each line has at most 150 characters.
narrow() { # FILE
    awk 'length($0) > 150 { print FILENAME ": line " FNR " is too wide"; wide = 1 } END { exit wide }' "$1"
}

# All of these days are shown right, and each time that the desk was lost is explained.
other_seeds() {
    bad=0
    seed=1000
    while [ "$seed" -lt 1200 ]; do
        if ! "$demo" "$seed" >"$work/$seed" || ! narrow "$work/$seed" || grep 'not explained' "$work/$seed" ||
            ! grep -q '^At the end the desk shows what the console holds' "$work/$seed"; then
            tail -n 8 "$work/$seed"
            echo "seed $seed"
            bad=1
        fi
        seed=$((seed + 1))
    done
    return "$bad"
}

# The days are not all alike: among them the desk waits, is lost in both ways, and drops what is old.
differ() {
    for pattern in 'waits for' 'LOST: e[0-9]* failed' 'LOST: e[0-9]* over' 'BACK by p' 'level by e' 'level by p' 'dropped' 'too old for it'; do
        cat "$work"/1[01]?? | grep -q "$pattern" || { echo "none has: $pattern"; return 1; }
    done
}

if [ ! -f "$lib/libpower_policy.a" ]; then
    echo "no archive in $lib"
    echo "0 passed, 1 failed"
    exit 1
fi
test_that "the demonstration is built and runs" default_day
test_that "it prints what is recorded" diff examples/demo.txt "$work/default"
test_that "no line is over 150 characters" narrow "$work/default"
test_that "the packets that its link handed over are written" day_packets
test_that "they are those that are recorded" cmp examples/day.packets "$work/day.packets"
test_that "follow writes on them what is recorded" recorded_lines
test_that "follow shows what the desk of the demonstration shows, eleven seeds" follow_agrees_on_all
test_that "other content at the desk is found" finds_others
test_that "200 other seeds: the desk shows what the console held" other_seeds
test_that "these seeds have everything that a link does to a desk" differ

finish
