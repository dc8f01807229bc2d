#!/bin/sh
# usage: check-times.sh [COMMIT [CRATE..]]
#        check-times.sh --log FILE
#
# Proves each crate of a commit (HEAD, if none is given) from nothing and tries its must-fail edits, as the gate does, in a clone under a temporary folder: `rt ci NAME` for one crate after the
# other, in the order of crates.txt, or for these CRATEs. Writes the seconds of each crate and of its edits, with the sums, as a table for docs/BENCHMARKS.md. rt itself prints no seconds, so
# each of its lines gets the second in which it came; that goes to target/check-times.log, and rt's own lines go to standard error. An edit's own seconds are not told apart.
# What `rt ci` has proved it keeps, and proves no second time: so each root file of the clone gets a comment of this run, and each crate is proved once, and taken as it was proved by those above.
# With --log the seconds are those of such a log, of one that is cut off too.
# RT_JOBS=1 has one prover run at a time, so that none waits for another.
# The exit status is 0 only if all was proved and refused, and the log has the end of each `rt ci`.
set -u
usage() {
    echo "usage: check-times.sh [COMMIT [CRATE..]] or check-times.sh --log FILE" >&2
    exit 2
}

# Reads the log. A crate's functions stand in the line before its own that begins with `logic=proved`. A crate is begun when those below it are there; its edits begin where it is proved, and
# have ended where the next line comes after the one that says that they are tried.
tables() { # FILE
    awk '
        { at = $1; sub(/^[0-9]+ /, "") }
        /^check-times: / { name = $2; crates[++n] = name; began = at; tries = 0; functions = ""; next }
        /^logic=proved functions=[0-9]+ / { split($2, part, "="); functions = part[2] }
        /^rt: [A-Za-z0-9_]+ (proved$|is kept: )/ {
            if ($2 != name) began = at
            else if ($3 == "proved") { check[name] = at - began; has[name] = functions; proved = at }
            else check[name] = "kept"
        }
        /^rt: [A-Za-z0-9_]+ NOT PROVED/ { if ($2 == name) check[name] = "not proved"; bad = 1 }
        tries && /^rt: (must-fail |.* must-fail edits were tried by an earlier run)/ { sum[name] = at - proved; tries = 0 }
        /^rt: [A-Za-z0-9_]+: trying its must-fail edits / { if ($2 == name ":") tries = 1 }
        /^rt: must-fail [^ ]+: / {
            of = $3
            sub(/\/.*/, "", of)
            if (of == name) {
                count[name]++
                m++
                if ($0 !~ /: refused, as it must be/) { other[++k] = substr($0, 5); bad = 1 }
            }
        }
        /^rt: [A-Za-z0-9_]+ ran[ ,]/ { if ($2 == name) program[name] = " (program)" }
        /^rt: FAILED:/ { other[++k] = substr($0, 5); bad = 1 }
        /^[0-9]+ passed, [0-9]+ failed/ { ended[name] = 1 }
        END {
            print "| crate | functions | check, s | must-fail edits | in sum, s |"
            print "|---|---|---|---|---|"
            for (i = 1; i <= n; i++) {
                name = crates[i]
                print "| `" name "`" program[name] " | " has[name] " | " check[name] " | " count[name] + 0 " | " sum[name] " |"
                functionsAll += has[name]
                checkAll += check[name]
                sumAll += sum[name]
                if (!(name in ended)) { other[++k] = "The log has no end of rt ci " name "."; bad = 1 }
                if (check[name] !~ /^[0-9]+$/) bad = 1
            }
            print "| all | " functionsAll + 0 " | " checkAll + 0 " | " m + 0 " | " sumAll + 0 " |"
            print ""
            print n + 0 " crates and " m + 0 " edits: " checkAll + 0 " s and " sumAll + 0 " s, " checkAll + sumAll " s in sum."
            for (i = 1; i <= k; i++) print other[i]
            exit (bad || !n)
        }' "$1"
}

case ${1:-HEAD} in
--log)
    if [ $# -ne 2 ] || [ ! -r "$2" ]; then usage; fi
    tables "$2"
    exit
    ;;
-*) usage ;;
esac
cd "$(dirname "$0")/.." || exit 2
commit=$(git rev-parse --verify --quiet "${1:-HEAD}^{commit}") || usage
[ $# -eq 0 ] || shift
work=$(mktemp -d) || exit 2
trap 'rm -rf "$work"' EXIT
git clone --quiet --no-checkout . "$work/clone" && git -C "$work/clone" checkout --quiet --detach "$commit" || exit 2
mkdir -p target
log=$PWD/target/check-times.log
: >"$log"
cd "$work/clone" || exit 2
# shellcheck disable=SC2046 # the names are words
[ $# -gt 0 ] || set -- $(sed -n 's/^\([a-z][a-z0-9_]*\)[^:#]*:.*/\1/p' crates.txt)
began=$(date +%s)
for file in crates/*/src/lib.rt crates/*/src/main.rt; do
    [ ! -f "$file" ] || printf '\n// Timed at %s.\n' "$began" >>"$file"
done
unset CI
for name in "$@"; do
    echo "$(date +%s) check-times: $name" >>"$log"
    rt ci "$name" 2>&1 | while IFS= read -r line; do
        echo "$(date +%s) $line" >>"$log"
        case $line in 'rt: '* | logic=*) echo "$line" >&2 ;; esac
    done
done
took=$(($(date +%s) - began))
tables "$log"
status=$?
echo "The whole of it: $took s, at commit $commit."
exit $status
