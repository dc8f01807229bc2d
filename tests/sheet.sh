#!/bin/bash
# usage: sheet.sh
#
# What the program `sheet` writes: the page on standard output, refused packets on standard error. The pages of the example (PRG-7) stand here; every other
# stream is also handed to the plain model in rust/model, which was written from the requirements alone, and both outputs are compared: the example cut at and
# changed in every byte, a recorded stream, lengths that are ill-formed, random streams with damaged packets. Then what no contract speaks of: a standard
# error or output that takes no more, a standard input that cannot be read or comes in pieces, arguments. Its exit status is always 0.
# Needs target/bin/sheet (sh tests/built.sh sheet) and cargo. Writes a line for each test that fails, how many streams of each kind were compared and, last,
# 'N passed, M failed'.
set -u
cd "$(dirname "$0")/.." || exit 2
. tests/lib.sh
sheet=target/bin/sheet
model=target/rust/release/model
if [ ! -x "$sheet" ]; then
    fail "$sheet is not there: sh tests/built.sh sheet"
    finish
fi
if ! needs cargo "sheet against the model" || ! (cd rust && cargo build --offline --locked --release --quiet -p link-model) >"$work/log" 2>&1; then
    cat "$work/log"
    fail "the model is not built"
    finish
fi

# The program has ended with status 0, and these files are the same.
same() { # WHAT STATUS (EXPECTED FOUND)..
    local what=$1 differ=
    [ "$2" -eq 0 ] || differ="status $2"
    shift 2
    while [ $# -gt 0 ]; do
        cmp -s "$1" "$2" || differ="$differ
$(diff -a "$1" "$2" | head -n 8)"
        shift 2
    done
    if [ -z "$differ" ]; then
        passed=$((passed + 1))
    else
        fail "$what: $differ"
    fi
}

# Both outputs for the stream in $work/in are the model's.
compared() { # WHAT
    $model sheet <"$work/in" >"$work/page" 2>"$work/refused"
    $sheet <"$work/in" >"$work/out" 2>"$work/err"
    same "$1" $? "$work/page" "$work/out" "$work/refused" "$work/err"
    streams=$((streams + 1))
    lines=$((lines + $(wc -l <"$work/refused")))
}

# Says how many streams were compared since the last.
say() { # WHAT
    echo "$1: $streams streams, $lines lines of refused packets"
    streams=0
    lines=0
}
streams=0
lines=0

from_model() { # GENERATOR..
    $model "$@" >"$work/in"
    compared "$*"
}

# Writes bytes given in hex.
bytes() { # HEX..
    # shellcheck disable=SC2059 # the format is made of the bytes
    printf "$(printf '\\x%s' "$@")"
}

# Writes a page by its figures.
page() { # NUMBER STATE PORT MILLIVOLTS MILLIAMPS TRACKED
    local name
    for name in number state port millivolts milliamps "tracked ports"; do
        printf '%-20s%20s\n' "$name" "$1"
        shift
    done
}

: >"$work/none"

# ---- the example

start="06 02 00 00 00 00 00"
held="05 01 02 00 00 00"
connected="0D 01 01 00 02 01 02 01 A0 9C 01 B8 17 02"
failed_event="05 01 03 07 01 00"

shows() { # FIGURES PACKET..
    local figures=$1
    shift
    # shellcheck disable=SC2048,SC2086 # figures and bytes are words
    { page $figures >"$work/page"; [ $# -eq 0 ] || bytes $*; } >"$work/in"
    $sheet <"$work/in" >"$work/out" 2>"$work/err"
    same "the page after $# takes of the example" $? "$work/page" "$work/out" "$work/none" "$work/err"
    compared "the model's page after $# takes of the example"
}
shows "- lost - - - -"
shows "0 level - - - -" "$start"
shows "0 waiting - - - -" "$start" "$held"
shows "2 level 1 20000 3000 -" "$start" "$held" "$connected"
shows "2 level 1 20000 3000 -" "$start" "$held" "$connected" "$connected"
shows "- lost - - - -" "$start" "$held" "$connected" "$connected" "$failed_event"
cp "$work/in" "$work/example"
size=$(wc -c <"$work/example")
echo 47 >"$work/expected"
echo "$size" >"$work/found"
same "the example has 47 bytes" 0 "$work/expected" "$work/found"
for n in $(seq 0 "$size"); do
    head -c "$n" "$work/example" >"$work/in"
    compared "the first $n bytes of the example"
done
for place in $(seq 0 $((size - 1))); do
    for value in 00 01 7f 80 ff; do
        { head -c "$place" "$work/example" && bytes $value && tail -c +$((place + 2)) "$work/example"; } >"$work/in"
        compared "the example with byte $place $value"
    done
done
say "the example after each take, cut at every byte, every byte replaced"

# ---- recorded and random streams

recorded=examples/day.packets
for n in $(seq 0 "$(wc -c <$recorded)"); do
    head -c "$n" $recorded >"$work/in"
    compared "the first $n bytes of $recorded"
done
say "a recorded stream and its beginnings"

for hex in "00" "00 01" "41" "40" "41 01" "80" "80 00" "80 01" "ff" "c1 00" "ff ff ff ff" "ff ff ff ff ff" "ff ff ff ff 0f" "ff ff ff ff 10" "80 80 80 80 01" \
    "01" "01 02" "01 03 01" "01 03 00" "01 03 41" "01 03 80 00" "01 03 80" "05 01 03 07 01"; do
    # shellcheck disable=SC2086 # bytes are words
    bytes $hex >"$work/in"
    compared "input $hex"
    # shellcheck disable=SC2086 # bytes are words
    bytes $start $connected $hex $start >"$work/in"
    compared "input $hex between packets"
done
for length in $(seq 1 70); do
    # shellcheck disable=SC2086 # bytes are words
    { bytes "$(printf %x "$length")" && head -c "$length" /dev/zero && bytes $start; } >"$work/in"
    compared "a packet of $length zeros and another"
done
say "lengths, well-formed and not"

for seed in $(seq 1 60); do from_model gen-takes "$seed" $((5 * seed)); done
for seed in 1 2 3 4; do from_model gen-takes $seed 20000; done
say "lists with loss, repeats, reordering and damage"
for seed in $(seq 1 40); do from_model gen-packets "$seed" $((1 + 3 * seed)); done
for seed in $(seq 1 10); do from_model gen-damaged "$seed" $((2 * seed)); done
from_model gen-short
say "valid packets, all damages of some, all short ones"

# ---- input, output and arguments

# shellcheck disable=SC2086 # bytes are words
bytes 01 03 $start 01 03 41 >"$work/bad" # two packets of kind 3 and a length of 65
printf '1 refused 32\n3 refused 32\n4 refused 32\n' >"$work/bad-lines"
page 0 level - - - - >"$work/bad-page"

dd if="$work/bad" bs=1 2>"$work/dd" | $sheet >"$work/out" 2>"$work/err"
same "a byte at a time, through a pipe" $? "$work/bad-page" "$work/out" "$work/bad-lines" "$work/err"
$model gen-takes 7 20000 >"$work/in"
$model sheet <"$work/in" >"$work/page" 2>"$work/refused"
{ head -c 5 "$work/in" && sleep 0.1 && tail -c +6 "$work/in" | head -c 100000 && sleep 0.1 && tail -c +100006 "$work/in"; } | $sheet 2>"$work/err" | cat >"$work/out"
same "a long stream in pieces through a pipe" "${PIPESTATUS[1]}" "$work/page" "$work/out" "$work/refused" "$work/err"

# A refused length ends it, though its input stays open.
mkfifo "$work/fifo"
timeout 10 $sheet <"$work/fifo" >"$work/out" 2>"$work/err" &
program=$!
exec 3>"$work/fifo"
cat "$work/bad" >&3
wait "$program"
same "a refused length while the input stays open" $? "$work/bad-page" "$work/out" "$work/bad-lines" "$work/err"
exec 3>&-

# With arguments, an empty one too, nothing is read or written.
printf 'sheet: takes no arguments; packets come on standard input\n' >"$work/arguments"
for argument in "$work/example" --help ''; do
    { $sheet "$argument" >"$work/out" 2>"$work/err"; status=$?; cat >"$work/rest"; } <"$work/example"
    same "an argument ($argument)" "$status" "$work/none" "$work/out" "$work/arguments" "$work/err" "$work/example" "$work/rest"
done

printf 'sheet: standard input cannot be read\n' >"$work/unread"
$sheet <"$work" >"$work/out" 2>"$work/err"
same "a standard input that cannot be read" $? "$work/none" "$work/out" "$work/unread" "$work/err"

$sheet <"$work/bad" >"$work/out" 2>&-
same "a closed standard error" $? "$work/bad-page" "$work/out"
printf 'sheet: standard output takes no more\n' >"$work/unwritten"
cat "$work/bad-lines" "$work/unwritten" >"$work/bad-unwritten"
$sheet <"$work/example" 2>"$work/err" >&-
same "a closed standard output" $? "$work/unwritten" "$work/err"
if [ -c /dev/full ]; then
    $sheet <"$work/bad" >"$work/out" 2>/dev/full
    same "a full standard error" $? "$work/bad-page" "$work/out"
    $sheet <"$work/bad" 2>"$work/err" >/dev/full
    same "a full standard output" $? "$work/bad-unwritten" "$work/err"
    $sheet <"$work/bad" >/dev/full 2>&1
    same "both full" $?
fi

finish
