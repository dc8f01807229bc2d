#!/bin/bash
# usage: run.sh [--hold RATIO] [ROUNDS [PREFIX]]
#
# Builds and runs the program of this folder with these arguments, then prints the size of the archive: all of it, and what a link keeps that calls the
# service's functions alone, or the follower's. The archive is in target/staticlib or where POWER_POLICY_LIB says. The original Rust is timed where its
# sources stand (../shared/docs/src beside the repository, or POWER_POLICY_RUST).
set -eu
cd "$(dirname "$0")/../.."
root=$PWD
lib=${POWER_POLICY_LIB:-target/staticlib}
case $lib in /*) ;; *) lib=$root/$lib ;; esac
src=${POWER_POLICY_RUST:-../shared/docs/src}
case $src in /*) ;; *) src=$root/$src ;; esac
export POWER_POLICY_LIB=$lib CARGO_TARGET_DIR=$root/target/rust
features=
if [ -d "$src" ]; then
    POWER_POLICY_RUST=$src rust/build-overlay.sh
else
    features="--no-default-features --features archive"
    echo "the original Rust is not at $src: not timed in this run"
fi
# shellcheck disable=SC2086 # the features are words
(cd rust && cargo run --offline --locked --profile timed --quiet -p speed $features -- "$@")

# Code, constants and data; the archive has a section for each function.
sizes() { # WHAT FILE
    size -A "$2" | awk -v what="$1" '$1 ~ /^\.text/ { code += $2 } $1 ~ /^\.rodata/ { constants += $2 } $1 ~ /^\.(data|bss|tdata|tbss)/ { data += $2 }
        END { printf "size, %s: %d bytes of code, %d of constants, %d of data\n", what, code, constants, data }'
}
work=$(mktemp -d)
trap 'rm -rf "$work"' EXIT
kept() { # WHAT FUNCTION..
    local what=$1
    shift
    ld -r --gc-sections -e "power_policy_$1" "${@/#/-upower_policy_}" -o "$work/kept.o" "$lib/libpower_policy.a"
    sizes "$what" "$work/kept.o"
}
sizes "the archive" "$lib/libpower_policy.a"
kept "the service alone" start open answer order write_packet write_picture
kept "the follower alone" follower_start follower_take follower_shown follower_consumer follower_tracked follower_write_page
