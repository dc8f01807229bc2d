#!/bin/sh
# usage: examples.sh
#
# Compiles the header as C99, C11 and C++ with every warning an error, and runs tests/header.c, which tries its inline functions. Then builds the
# examples in C and in Rust against libpower_policy.a, runs them and compares what they print with what is recorded. The archive is in target/staticlib
# or where POWER_POLICY_LIB says; POWER_POLICY_LDLIBS has what else C is to be linked with. Needs a C compiler (CC, by default cc) and cargo; without a
# C++ compiler (CXX, by default c++) it says that C++ was not tried. Its last line is 'N passed, M failed'.
set -u
cd "$(dirname "$0")/.." || exit 2
. tests/lib.sh
cc=${CC:-cc}
cxx=${CXX:-c++}
warnings="-Wall -Wextra -Wpedantic -Wconversion -Wsign-conversion -Werror"

# Compiles one file by a compiler's command, links it with the archive and runs it.
runs() { # FILE OUTPUT COMPILER..
    file=$1
    output=$2
    shift 2
    # shellcheck disable=SC2086 # the warnings and libraries are words
    "$@" -O2 $warnings -Iinclude -c "$file" -o "$work/object.o" &&
        "$cc" "$work/object.o" "$lib/libpower_policy.a" ${POWER_POLICY_LDLIBS:-} -o "$work/program" &&
        "$work/program" >"$output"
}

header_as() { # COMPILER..
    runs tests/header.c "$work/header" "$@" || {
        cat "$work/header"
        return 1
    }
}

in_rust() { # EXAMPLE
    (cd rust/power_policy && POWER_POLICY_LIB=$lib cargo --offline run --release --quiet --example "$1") >"$work/rust"
}

test_that "the archive is there" test -f "$lib/libpower_policy.a"
test_that "the header in C99" header_as "$cc" -std=c99
test_that "the header in C11" header_as "$cc" -std=c11
if command -v "$cxx" >/dev/null; then
    test_that "the header in C++" header_as "$cxx" -x c++ -std=c++11
else
    echo "$cxx is not here: the header was not compiled as C++"
fi
test_that "the example in C is built and runs" runs examples/event.c "$work/c" "$cc" -std=c99
test_that "the example in C prints what is recorded" diff examples/event.txt "$work/c"
test_that "the example in Rust is built and runs" in_rust event
test_that "the example in Rust prints what is recorded" diff examples/event.txt "$work/rust"
test_that "the example of a driver behind a mutex is built and runs" in_rust driver
test_that "this example prints what is recorded" diff examples/driver.txt "$work/rust"

finish
