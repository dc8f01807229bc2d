#!/bin/sh
# usage: built.sh [NAME..]
#
# Proves and builds the programs, and the archive of the C functions, and puts them where the tests and README.md look for them: the programs in target/bin, and
# libpower_policy.a in target/staticlib. With names, these alone. What is built and has not changed is only copied.
set -eu
cd "$(dirname "$0")/.."
mkdir -p target/bin target/staticlib
[ $# -gt 0 ] || set -- power_policy follow sheet replay replay_service
for name in "$@"; do
    if [ "$name" = power_policy ]; then
        (cd crates/power_policy && rt lib)
        cp crates/power_policy/out/libpower_policy.a target/staticlib/
    else
        (cd "crates/$name" && rt run) <"crates/$name/stdin" >/dev/null
        cp "crates/$name/out/$name" target/bin/
    fi
done
