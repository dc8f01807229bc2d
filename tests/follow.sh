#!/bin/sh
# usage: follow.sh
#
# What the program `follow` does with its input and output, which no contract speaks of: nothing on standard error where all goes well, a message where standard
# output takes no more or standard input cannot be read or there are arguments, the same lines however the input comes in, and each line before the next
# packet is waited for. Needs target/bin/follow (sh tests/built.sh follow).
# Writes a line for each test that fails and, last, 'N passed, M failed'.
set -u
cd "$(dirname "$0")/.." || exit 2
follow=target/bin/follow
if [ ! -x "$follow" ]; then
    echo "$follow is not there: sh tests/built.sh follow"
    echo "0 passed, 1 failed"
    exit 1
fi
work=$(mktemp -d)
trap 'rm -rf "$work"' EXIT
passed=0
failed=0
same() { # WHAT EXPECTED FOUND
    if cmp -s "$2" "$3"; then
        passed=$((passed + 1))
    else
        failed=$((failed + 1))
        echo "FAILED: $1"
        diff "$2" "$3" | head -5
    fi
}
: >"$work/none"
printf 'follow: standard output takes no more\n' >"$work/unwritten"
printf 'follow: standard input cannot be read\n' >"$work/unread"

"$follow" <crates/follow/stdin >"$work/out" 2>"$work/err"
same "the lines of the example" crates/follow/stdout "$work/out"
same "nothing on standard error" "$work/none" "$work/err"

# a byte at a time, through a pipe
dd if=crates/follow/stdin bs=1 2>"$work/dd" | "$follow" >"$work/out" 2>"$work/err"
same "the same lines through a pipe" crates/follow/stdout "$work/out"
same "nothing on standard error through a pipe" "$work/none" "$work/err"

# an end within a packet: a line for it, and no message
head -c 5 crates/follow/stdin | "$follow" >"$work/out" 2>"$work/err"
printf 'take shown state port mw\n1 refused 30\n' >"$work/cut"
same "an end within a packet" "$work/cut" "$work/out"
same "nothing on standard error at an end within a packet" "$work/none" "$work/err"

# more than one reading's worth: pictures 0 to 127, a thousand times
i=0
while [ "$i" -lt 128 ]; do
    printf '\006\002\'"$(printf %03o "$i")"'\000\000\000\000'
    i=$((i + 1))
done >"$work/pictures"
for _ in 1 2 3 4 5 6 7 8; do cat "$work/pictures"; done >"$work/long"
"$follow" <"$work/long" >"$work/out" 2>"$work/err"
awk 'BEGIN { print "take shown state port mw"; for (k = 1; k <= 1024; k++) print k, (k < 128 ? k - 1 : 127), "level - -" }' >"$work/expected"
same "a long stream, and more lines than are collected at once" "$work/expected" "$work/out"
same "nothing on standard error after a long stream" "$work/none" "$work/err"
{ cat "$work/long"; printf '\101'; } | "$follow" >"$work/out" 2>"$work/err"
echo "1025 refused 32" >>"$work/expected"
same "a long stream that a refused length stops" "$work/expected" "$work/out"
same "nothing on standard error after a refused length" "$work/none" "$work/err"

# with arguments, an empty one too, nothing is read or written
printf 'follow: takes no arguments; packets come on standard input\n' >"$work/arguments"
for argument in crates/follow/stdin --help ''; do
    { "$follow" "$argument" >"$work/out" 2>"$work/err"; cat >"$work/rest"; } <crates/follow/stdin
    same "nothing is written with an argument ($argument)" "$work/none" "$work/out"
    same "the message about an argument ($argument)" "$work/arguments" "$work/err"
    same "nothing is read with an argument ($argument)" crates/follow/stdin "$work/rest"
done

# A desk at the other end of two pipes: 3 is the program's input, 4 its output. A line that does not come within ten seconds is missing.
mkfifo "$work/in" "$work/lines"
found() { timeout 10 dd bs=65536 count=1 <&4 2>"$work/dd"; }
"$follow" <"$work/in" >"$work/lines" 2>"$work/err" &
program=$!
exec 3>"$work/in" 4<"$work/lines"
found >"$work/first"
head -c 7 crates/follow/stdin >&3
found >"$work/second"
head -c 13 crates/follow/stdin | tail -c 6 >&3
found >"$work/third"
tail -c 34 crates/follow/stdin >&3
found >"$work/fourth"
[ ! -r /proc/self/io ] || writes=$(sed -n 's/^syscw: //p' "/proc/$program/io")
exec 3>&-
found >"$work/fifth"
exec 4<&-
wait "$program"
sed -n 1p crates/follow/stdout >"$work/expected"
same "the header before the first packet" "$work/expected" "$work/first"
sed -n 2p crates/follow/stdout >"$work/expected"
same "a line before the next packet" "$work/expected" "$work/second"
sed -n 3p crates/follow/stdout >"$work/expected"
same "the next line before the one after it" "$work/expected" "$work/third"
sed -n 4,6p crates/follow/stdout >"$work/expected"
same "the lines of packets that come together" "$work/expected" "$work/fourth"
if [ -r /proc/self/io ]; then
    echo 1 >"$work/expected"
    echo "$((writes <= 4))" >"$work/few"
    same "the header and three writes: one for packets that come together" "$work/expected" "$work/few"
fi
same "nothing at the end of the input" "$work/none" "$work/fifth"
same "nothing on standard error between packets" "$work/none" "$work/err"

# The reader goes away after the header, and no signal says so: the program ends at its next write, though its input stays open.
for packets in pictures long; do
    (
        trap '' PIPE
        exec timeout 10 "$follow" <"$work/in" >"$work/lines" 2>"$work/err"
    ) &
    program=$!
    exec 3>"$work/in" 4<"$work/lines"
    found >"$work/first"
    exec 4<&-
    cat "$work/$packets" >&3
    wait "$program"
    echo "$?" >"$work/status"
    exec 3>&-
    same "an output that nobody reads any more ($packets)" "$work/unwritten" "$work/err"
    echo 0 >"$work/expected"
    same "an end at once where nobody reads any more ($packets)" "$work/expected" "$work/status"
done

if [ -c /dev/full ]; then
    "$follow" <crates/follow/stdin >/dev/full 2>"$work/err"
    same "a full standard output" "$work/unwritten" "$work/err"
    head -c 5 crates/follow/stdin | "$follow" 2>"$work/err" >/dev/full
    same "a full standard output, a cut input" "$work/unwritten" "$work/err"
fi
"$follow" <"$work" >"$work/out" 2>"$work/err"
same "a standard input that cannot be read" "$work/unread" "$work/err"

echo "$passed passed, $failed failed"
[ "$failed" -eq 0 ]
