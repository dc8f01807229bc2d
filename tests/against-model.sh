#!/bin/bash
# usage: against-model.sh
#
# Compares `follow` with the plain model in rust/model, which was written from the requirements alone. Needs the program `follow` that tests/built.sh puts in
# target/bin, and cargo. Each set of packets is made by the model's generators and handed to both. (The follower's whole state after each packet is compared
# through the C functions, by `boundary model`.)
# Writes a line for each set, then how many packets were compared and, last, 'N passed, M failed'.
set -u
cd "$(dirname "$0")/.." || exit 2
passed=0
failed=0
packets=0
if ! command -v cargo >/dev/null; then
    echo "no cargo: the model is not built, and nothing is compared"
    echo "0 passed, 1 failed"
    exit 1
fi
work=$(mktemp -d)
trap 'rm -rf "$work"' EXIT
if ! (cd rust && cargo build --offline --locked --release -p link-model) >"$work/log" 2>&1; then
    cat "$work/log"
    echo "the model is not built"
    echo "0 passed, 1 failed"
    exit 1
fi
model=target/rust/release/model
follow=target/bin/follow

ok() { passed=$((passed + 1)); }
bad() { # WHAT
    failed=$((failed + 1))
    echo "DIFFERS: $1"
}

# The lines for the stream in $work/in; counts its packets.
lines() { # WHAT
    $follow <"$work/in" >"$work/ours" 2>"$work/err"
    $model follow <"$work/in" >"$work/model"
    local n
    n=$(($(wc -l <"$work/model") - 1))
    packets=$((packets + n))
    if cmp "$work/ours" "$work/model" >"$work/log" 2>&1 && [ ! -s "$work/err" ] && [ "$n" -ge 0 ]; then ok; else
        cat "$work/log" "$work/err"
        bad "$1: lines"
    fi
}

from_model() { # GENERATOR..
    $model "$@" >"$work/in"
    lines "$*"
}

# Bytes given in hex.
bytes() { # HEX
    local s=""
    for b in $1; do s="$s\\x$b"; done
    printf "$s" >"$work/in"
}

before=$packets
for seed in 1 2 3 4 5 6 7 8; do from_model gen-packets $seed 2000; done
echo "valid packets and pictures, seeds 1 to 8: $((packets - before))"

before=$packets
for seed in 1 2 3 4; do from_model gen-damaged $seed 400; done
echo "cut at every byte, longer by one, every byte replaced by 0, 1, 127, 128, 255 and its neighbours, seeds 1 to 4: $((packets - before))"

before=$packets
from_model gen-short
$model gen-short all >"$work/in"
lines "gen-short all"
echo "all strings of 1 to 3 bytes: $((packets - before))"

before=$packets
for seed in 1 2 3 4 5 6 7 8 9 10; do from_model gen-takes $seed 20000; done
for seed in $(seq 11 110); do from_model gen-takes "$seed" 400; done
echo "lists with loss, repeats, reordering and damage, seeds 1 to 110: $((packets - before))"

# The framing: every beginning of the example, every byte of it replaced, and lengths that are refused.
before=$packets
example=crates/follow/stdin
size=$(wc -c <$example)
for n in $(seq 0 "$size"); do
    head -c "$n" $example >"$work/in"
    lines "the first $n bytes of the example"
done
for place in $(seq 0 $((size - 1))); do
    for value in 00 01 7f 80 ff; do
        { head -c "$place" $example && printf "\\x$value" && tail -c +$((place + 2)) $example; } >"$work/in"
        lines "the example with byte $place $value"
    done
done
for hex in "" "00" "00 01" "41" "40" "41 01" "80" "80 00" "80 01" "ff" "c1 00" "ff ff" "ff ff ff" "ff ff ff ff" "ff ff ff ff ff" "ff ff ff ff 0f" "ff ff ff ff 10" \
    "80 80 80 80 80" "80 80 80 80 01" "80 80 80 80 00" "80 80 80 80 80 01" "81 80 00" "01" "01 02" "01 03 01" "01 03 00" "01 03 41" "01 03 80 00" "01 03 80" "05 01 03 07 01" \
    "01 02 01 02 01 02" "06 02 00 00 00 00 00 06" "06 02 00 00 00 00 00 00 06 02 00 00 00 00 00"; do
    bytes "$hex"
    lines "input $hex"
done
for length in $(seq 1 70); do
    { printf "\\x$(printf %x "$length")" && head -c "$length" /dev/zero && printf '\x06\x02\0\0\0\0\0'; } >"$work/in"
    lines "a packet of $length zeros and another"
done
echo "framing: $((packets - before)) lines for inputs cut, changed and ill-formed"

# Input in pieces, and output to a pipe.
$model gen-takes 7 20000 >"$work/in"
$model follow <"$work/in" >"$work/model"
{ head -c 5 "$work/in" && sleep 0.1 && tail -c +6 "$work/in" | head -c 100000 && sleep 0.1 && tail -c +100006 "$work/in"; } | $follow | cat >"$work/ours"
if cmp "$work/ours" "$work/model"; then ok; else bad "input in pieces through a pipe"; fi

echo "$packets lines compared"
echo "$passed passed, $failed failed"
[ "$failed" -eq 0 ]
