#!/usr/bin/env bash
# The second program makes the cases of crates/cases and the slips of crates/slips_table anew, and its answers are those that
# the proved calls were held to.
source "$(dirname "$0")/common.bash"

quiet in_second run --bin cases -- "$dir"
same "$dir/cases.bin" crates/cases/stdin
same "$dir/expected.txt" crates/cases/stdout
cat "$dir/words"
quiet in_second run --bin slips -- "$dir"
same "$dir/stdin" crates/slips_table/stdin
same "$dir/stdout" crates/slips_table/stdout
cat "$dir/words"
