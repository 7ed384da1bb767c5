#!/bin/sh
# The program in README is an example of the Rust crate. Last line: 'N passed, M failed'.
. "$(dirname "$0")/lib/start.sh"
. tests/lib/blocks.sh

block README.md 'Keep records' 3 >"$work/program"
holds 'the program of README is not rust/hostpath/examples/records.rs' cmp "$work/program" rust/hostpath/examples/records.rs

echo "$passed passed, $failed failed"
[ "$failed" -eq 0 ]
