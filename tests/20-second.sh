#!/usr/bin/env bash
# The second program's own tests pass, among them that the table of slips is the one drawn, that the reference gives the lines
# of the independent table, and that sums may not wrap.
source "$(dirname "$0")/common.bash"
tests=41 # in the sources 34, agree 4, slips_table 3

quiet in_second test
passed "$tests"
echo "second: $tests tests passed"
