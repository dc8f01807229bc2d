#!/bin/sh
# usage: rust-packages.sh
#
# Looks over the Rust packages of rust/: the layout of every file (rustfmt), the lints of every package (clippy, no warning is let pass) and
# the packages' own tests. The archive is in target/staticlib or where POWER_POLICY_LIB says. What stands on the original Rust is looked over
# where its sources are (../shared/docs/src, or POWER_POLICY_RUST). The own tests of oracle are run by rust/check-oracle.sh, those of demo by
# tests/demo.sh.
# Where rustfmt or clippy is not installed it says so and counts nothing for it. Needs cargo. Its last line is 'N passed, M failed'.
set -u
cd "$(dirname "$0")/.." || exit 2
. tests/lib.sh
src=${POWER_POLICY_RUST:-../shared/docs/src}
export POWER_POLICY_LIB="$lib" CARGO_TARGET_DIR="$PWD/target/rust"

# A crate root of the original names modules that stand elsewhere, so it is read alone.
layout() {
    find rust -name '*.rs' ! -path 'rust/stand-ins/power-policy-*/src/lib.rs' -exec rustfmt --edition 2024 --check {} + &&
        for root in rust/stand-ins/power-policy-*/src/lib.rs; do
            rustfmt --edition 2024 --check <"$root" || return 1
        done
}

# The original's own two packages are taken as they are.
lints() {
    # shellcheck disable=SC2086 # the choice is words
    (cd rust && cargo clippy --offline --locked --quiet --release --workspace --all-targets --no-deps \
        --exclude power-policy-interface --exclude power-policy-service $choice -- -D warnings)
}

own_tests() { # PACKAGE [CHOICE..]
    (cd rust && cargo test --offline --locked --quiet --release -p "$@")
}

if [ -d "$src" ]; then
    rust/build-overlay.sh || exit 2
    choice=
else
    echo "the original Rust is not at $src: what stands on it is not looked over in this run"
    choice="--exclude oracle --exclude original --no-default-features --features archive"
fi
if rustfmt --version >/dev/null 2>&1; then
    test_that "the layout of every Rust file" layout
else
    echo "rustfmt is not installed: the layout of the Rust files is not looked at"
fi
if cargo clippy --version >/dev/null 2>&1; then
    test_that "the lints of every package" lints
else
    echo "clippy is not installed: the lints of the Rust packages are not looked at"
fi
for package in link-model plain power_policy; do
    test_that "the own tests of $package" own_tests "$package"
done
test_that "the own tests of speed" own_tests speed --no-default-features --features archive

finish
