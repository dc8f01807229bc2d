# What the test scripts share. A script goes to the repository's root and sources it:
#
#     cd "$(dirname "$0")/.." || exit 2
#     . tests/lib.sh
#
# It then has
#   lib       the folder of libpower_policy.a, target/staticlib or where POWER_POLICY_LIB says, from the root of the file system
#   work      a folder of its own, which is removed at the script's end
#   passed, failed
#             how many tests have passed and failed
# and the functions below. For sh and bash.
# shellcheck shell=sh
lib=${POWER_POLICY_LIB:-target/staticlib}
case $lib in /*) ;; *) lib=$PWD/$lib ;; esac
passed=0
failed=0
work=$(mktemp -d) || exit 2
trap 'rm -rf "$work"' EXIT

# Counts one test as passed, and says so.
pass() { # WHAT
    passed=$((passed + 1))
    echo "ok: $1"
}

# Counts one test as failed, and says so.
fail() { # WHAT
    failed=$((failed + 1))
    echo "FAILED: $1"
}

# Runs a command that counts as one test. What it writes is shown if it fails.
test_that() { # WHAT COMMAND..
    what=$1
    shift
    if "$@" >"$work/log" 2>&1; then
        pass "$what"
    else
        cat "$work/log"
        fail "$what"
    fi
}

# Runs a command whose last line is 'N passed, M failed', which counts as one test: it passes if M is 0 and N is not.
tested() { # WHAT COMMAND..
    what=$1
    shift
    "$@" >"$work/log" 2>&1
    status=$?
    line=$(tail -n 1 "$work/log" | sed -nE 's/^([0-9]+) passed, ([0-9]+) failed$/\1 \2/p')
    if [ "$status" -eq 0 ] && [ "${line#* }" = 0 ] && [ "${line% *}" -gt 0 ]; then
        pass "$what: ${line% *} cases"
    else
        grep -E '^(FAILED|and |boundary:)' "$work/log" || tail -n 20 "$work/log"
        fail "$what: ${line:-no count} (cases that passed and failed)"
    fi
}

# Whether a program is there; one that is not counts as a failed test, with one line that says so.
needs() { # PROGRAM WHAT-FOR
    command -v "$1" >/dev/null || {
        fail "$1 is not here: $2 not tested"
        return 1
    }
}

# Ends the script with the sum as its last line, and status 0 only if nothing failed.
finish() {
    echo "$passed passed, $failed failed"
    [ "$failed" -eq 0 ]
    exit
}
