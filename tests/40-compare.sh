#!/usr/bin/env bash
# The archive and the second program agree on a large number of random calls; the counts of what was met are shown.
source "$(dirname "$0")/common.bash"

in_second run --bin compare </dev/null
case $? in
0) ;;
4) fail "the archive and the second program agree, but the run met too few cases of some kind" ;;
*) fail "the archive and the second program differ, or one of them did not run" ;;
esac

# a run that is too small says which quota it misses, and does not speak of a difference
in_second run --bin compare -- 1000 >"$dir/small" 2>&1 </dev/null
[ $? -eq 4 ] || fail "a small run ends with another status: $(cat "$dir/small")"
grep -q '^compare: 1000 cases agree$' "$dir/small" || fail "a small run does not say that it agrees"
grep -q '^compare: calls: line met [0-9]* times, not [0-9]*$' "$dir/small" || fail "a small run names no quota"
! grep -q 'differs' "$dir/small" || fail "a small run speaks of a difference"
