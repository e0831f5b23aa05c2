#!/usr/bin/env bash
# The Rust crate's tests pass, those in its documentation too, and its example prints what was worked out without the archive.
source "$(dirname "$0")/common.bash"
tests=41 # in the sources 3, levels 5, refusals 9, roll 4, stack 2, turn 4, documentation 14

quiet in_plq test
passed "$tests"
in_plq run --example journey >"$dir/out" </dev/null || fail "the Rust example failed"
same tests/journey-slip.txt "$dir/out"
echo "rust: $tests tests passed, the example prints what it should"
