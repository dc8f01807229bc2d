#!/bin/sh
# usage: more-edits.sh
#
# Tries the must-fail edits of tests/edits: a second and third wrong answer for the functions of the crates that take longest to prove. They are kept out of the gate
# for its time alone, and are like those of crates/*/must-fail: the prover must refuse each, and each broken function by a goal of its own.
# Writes a line for each function that is not refused and, last, 'N passed, M failed'.
cd "$(dirname "$0")/.." || exit 2
exec tests/must-fail-log.sh tests/edits/*/*.edit
