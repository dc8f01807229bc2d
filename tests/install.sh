#!/bin/sh
# usage: install.sh
#
# Installs the library into a folder of its own (make install) and builds and runs projects of somebody else against it: in C by pkg-config and by
# CMake, and in Rust by the path to rust/power_policy. Tries what cargo says without the archive and for another machine, and that uninstall leaves
# nothing. The archive is in target/staticlib or where POWER_POLICY_LIB says; POWER_POLICY_LDLIBS has what else C is to be linked with. Needs make, a C
# compiler (CC, by default cc), pkg-config, cmake and cargo; what is missing counts as failed. Its last line is 'N passed, M failed'.
set -u
cd "$(dirname "$0")/.." || exit 2
. tests/lib.sh
cc=${CC:-cc}
prefix=$work/prefix
version=$(sed -n 's/^#define POWER_POLICY_VERSION "\(.*\)"$/\1/p' include/power_policy.h)
unset CMAKE_PREFIX_PATH PKG_CONFIG_PATH

cat >"$work/wanted" <<'END'
connect port 0, 60000 mW
wait 800 ms
closed after 2 orders
END
cat >"$work/files" <<'END'
include/power_policy.h
lib/cmake/power_policy/power_policy-config-version.cmake
lib/cmake/power_policy/power_policy-config.cmake
lib/libpower_policy.a
lib/pkgconfig/power_policy.pc
share/doc/power_policy/NOTICE
END

# Installs or uninstalls, as a user who says where.
made() { # install|uninstall VARIABLE=VALUE..
    make --silent "$@" POWER_POLICY_LIB="$lib"
}

# The files of a folder are those that an install writes.
has_files() { # FOLDER
    (cd "$1" && find . -type f | sed 's/^\.\///' | LC_ALL=C sort) | diff "$work/files" -
}

has_none() { # FOLDER
    [ -z "$(find "$1" -type f)" ] && [ ! -d "$1/lib/cmake/power_policy" ] && [ ! -d "$1/share/doc/power_policy" ]
}

packaged() { # FOLDER WORD..: what pkg-config says of the library installed there
    folder=$1
    shift
    PKG_CONFIG_PATH=$folder/lib/pkgconfig pkg-config "$@" power_policy
}

has_version() {
    [ -n "$version" ] && [ "$(packaged "$prefix" --modversion)" = "$version" ]
}

prints_wanted() { # PROGRAM
    "$1" >"$work/printed"
    status=$?
    diff "$work/wanted" "$work/printed" && [ "$status" -eq 0 ]
}

by_pkg_config() { # FOLDER
    # shellcheck disable=SC2046,SC2086 # flags and libraries are words
    (cd "$work/c" && "$cc" -Wall -Werror $(packaged "$1" --cflags) main.c $(packaged "$1" --libs) ${POWER_POLICY_LDLIBS:-} -o by_pkg_config) &&
        prints_wanted "$work/c/by_pkg_config"
}

configured() { # VERSION
    cmake -S "$work/c" -B "$work/c/build-$1" -DCMAKE_PREFIX_PATH="$prefix" -DCMAKE_C_STANDARD_LIBRARIES="${POWER_POLICY_LDLIBS:-}" -DWANTED="$1"
}

by_cmake() {
    configured "${version%.*}" && cmake --build "$work/c/build-${version%.*}" && prints_wanted "$work/c/build-${version%.*}/foreign"
}

# A version that is not there, earlier or later, is not found.
finds_no_other() {
    for other in 0.0 "${version%.*}.99" 99.0; do
        configured "$other" >"$work/said" 2>&1
        if ! grep -q "compatible with requested version \"$other\"" "$work/said"; then
            cat "$work/said"
            return 1
        fi
    done
}

foreign_cargo() { # FOLDER WORD..: cargo in the foreign project, with the archive of that folder
    folder=$1
    shift
    (cd "$work/rust" && POWER_POLICY_LIB=$folder CARGO_TARGET_DIR=$work/rust/target cargo --offline "$@")
}

by_cargo() {
    foreign_cargo "$prefix/lib" build --quiet && prints_wanted "$work/rust/target/debug/foreign"
}

# A build fails, and says why in one line.
says() { # TEXT COMMAND..
    text=$1
    shift
    if "$@" >"$work/said" 2>&1; then
        echo "it was built"
        return 1
    fi
    cat "$work/said"
    [ "$(grep -c "^error: power_policy@.*: .*$text" "$work/said")" -eq 1 ] && ! grep -q 'ld: ' "$work/said"
}

mkdir "$work/c" "$work/rust" "$work/rust/src"
cp tests/foreign/main.c tests/foreign/CMakeLists.txt "$work/c"
cp tests/foreign/main.rs "$work/rust/src"
cat >"$work/rust/Cargo.toml" <<END
[package]
name = "foreign"
version = "0.1.0"
edition = "2024"

[dependencies]
power_policy = { path = "$PWD/rust/power_policy" }
END

test_that "the archive is there" test -f "$lib/libpower_policy.a"
if needs make "install"; then
    test_that "make install" made install PREFIX="$prefix"
    test_that "it writes archive, header, both packages and the licence" has_files "$prefix"
fi
if needs pkg-config "a project by pkg-config"; then
    test_that "pkg-config has the header's version" has_version
    test_that "a project in C by pkg-config" by_pkg_config "$prefix"
fi
if needs cmake "a project by CMake"; then
    test_that "a project in C by CMake" by_cmake
    test_that "CMake finds no other version" finds_no_other
fi
if needs cargo "a project by cargo"; then
    test_that "a project in Rust by cargo" by_cargo
    test_that "without the archive cargo says what is missing" says "$work/nowhere/libpower_policy.a is not there" foreign_cargo "$work/nowhere" build
    test_that "for another machine cargo says so" says "is for x86-64 Linux, and this is built for aarch64-unknown-linux-gnu" \
        foreign_cargo "$prefix/lib" build --target aarch64-unknown-linux-gnu
fi
if needs make "uninstall"; then
    test_that "make uninstall" made uninstall PREFIX="$prefix"
    test_that "it leaves nothing" has_none "$prefix"
    test_that "make install for a package" made install PREFIX=/usr DESTDIR="$work/stage"
    test_that "it writes under DESTDIR alone" has_files "$work/stage/usr"
    needs pkg-config "what was moved" && test_that "what was moved is found" by_pkg_config "$work/stage/usr"
fi

finish
