#!/usr/bin/env bash
# The C example is built and run by the one line that the guides give, and prints what was worked out without the archive.
source "$(dirname "$0")/common.bash"

grep -rhosE 'gcc .*examples/journey\.c.*' README.md docs examples | sort -u >"$dir/line"
[ "$(wc -l <"$dir/line")" -eq 1 ] || fail "the guides give not one line: $(cat "$dir/line")"
quiet gcc -std=c99 -pedantic -Wall -Wextra -Werror -fsyntax-only -Iinclude examples/journey.c
bash "$dir/line" >"$dir/out" </dev/null || fail "the line of the guides failed: $(cat "$dir/line")"
same tests/journey.txt "$dir/out"
echo "journey: the C example prints what it should"
