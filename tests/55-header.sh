#!/usr/bin/env bash
# A program that uses all of include/plq.h is built as C and as C++, clean of warnings, and finds what was worked out by hand.
source "$(dirname "$0")/common.bash"
archive=target/staticlib/libplq.a
flags=(-pedantic -Wall -Wextra -Werror -Iinclude)

names include/plq.h >"$dir/declared" || fail "include/plq.h declares nothing"
names tests/header.c >"$dir/used" || fail "tests/header.c uses nothing"
unused=$(comm -23 "$dir/declared" "$dir/used") || fail "comm failed"
[ -z "$unused" ] || fail "tests/header.c does not use" $unused

quiet gcc -std=c99 "${flags[@]}" tests/header.c "$archive" -o "$dir/as-c"
quiet g++ -std=c++11 -Wold-style-cast "${flags[@]}" -x c++ tests/header.c -x none "$archive" -o "$dir/as-c++"
for program in as-c as-c++; do
  "$dir/$program" >"$dir/out" </dev/null || fail "$program: $(cat "$dir/out")"
  echo "header: $program, $(wc -l <"$dir/declared") names, $(cat "$dir/out")"
done
