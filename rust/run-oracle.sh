#!/bin/sh
# usage: run-oracle.sh ARGUMENTS
#
# Lays out the overlay, builds the oracle in target/rust and runs it with the arguments. The original
# sources are found as build-overlay.sh finds them.
set -eu

here=$(cd "$(dirname "$0")" && pwd)
CARGO_TARGET_DIR=$(dirname "$here")/target/rust
export CARGO_TARGET_DIR

"$here/build-overlay.sh"
cargo build --offline --locked --release --quiet --manifest-path "$here/Cargo.toml" -p oracle
exec "$CARGO_TARGET_DIR/release/oracle" "$@"
