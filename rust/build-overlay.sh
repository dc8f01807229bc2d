#!/bin/sh
# usage: build-overlay.sh [SRC [OUT]]
#
# Lays out in OUT what the packages power-policy-interface and power-policy-service of rust/stand-ins are
# compiled from: each original file of SRC at its path, unchanged, and the stand-ins for the files of
# these two that SRC does not have.
# SRC: the folder of the original sources; by default POWER_POLICY_RUST, else ../shared/docs/src
#      beside the repository.
# OUT: by default target/rust-overlay in the repository.
set -eu

fail() {
    echo "build-overlay: $*" >&2
    exit 1
}

here=$(cd "$(dirname "$0")" && pwd)
root=$(dirname "$here")
stand_ins=$here/stand-ins
src=${1:-${POWER_POLICY_RUST:-$root/../shared/docs/src}}
out=${2:-$root/target/rust-overlay}

[ -d "$src" ] || fail "no original sources at $src (give their folder as the first argument or in POWER_POLICY_RUST)"
src=$(cd "$src" && pwd)

# The originals, all of them compiled.
originals='
power-policy-interface/src/capability.rs
power-policy-interface/src/charger/event.rs
power-policy-interface/src/charger/mod.rs
power-policy-interface/src/psu/event.rs
power-policy-interface/src/psu/mod.rs
power-policy-interface/src/service/event.rs
power-policy-interface/src/service/mod.rs
power-policy-service/src/service/config.rs
power-policy-service/src/service/consumer.rs
power-policy-service/src/service/customization.rs
power-policy-service/src/service/mod.rs
power-policy-service/src/service/provider.rs
power-policy-service/src/service/registration.rs
'
ours=$(cd "$stand_ins" && find power-policy-* -name '*.rs')

for file in $originals; do
    [ -f "$src/$file" ] || fail "the original $file is not in $src"
done
# A stand-in is for a file that cannot be had.
for file in $(cd "$stand_ins" && find . -type f | sed 's|^\./||'); do
    [ ! -e "$src/$file" ] || fail "$file is in $src and has a stand-in too"
done

# Only a folder that this script made is changed.
mark=.power-policy-overlay
[ ! -e "$out" ] || [ -e "$out/$mark" ] || fail "$out is there and was not made by this script"
mkdir -p "$out"
: >"$out/$mark"

# A file is written only where it differs, and then anew: cargo goes by the times of files, and those
# of SRC may be older than the last build from another SRC.
place() { # folder, path below it
    if ! cmp -s "$1/$2" "$out/$2"; then
        mkdir -p "$out/$(dirname "$2")"
        cp "$1/$2" "$out/$mark.new"
        mv -f "$out/$mark.new" "$out/$2"
    fi
}

for file in $ours; do
    place "$stand_ins" "$file"
done
for file in $originals; do
    place "$src" "$file"
done

for file in $(cd "$out" && find . ! -type d | sed 's|^\./||'); do
    case " $mark "$(echo $ours $originals)" " in
    *" $file "*) ;;
    *) rm -f "$out/$file" ;;
    esac
done
