#!/usr/bin/env bash
# The archive is built, has the functions that include/plq.h declares and no other, and wants nothing but two of C's.
source "$(dirname "$0")/common.bash"
archive=target/staticlib/libplq.a

# symbols KIND: what nm says of the archive's symbols of that kind
symbols() { nm -g "$1" "$archive" >"$dir/nm" || fail "nm $1 failed on $archive"; }

quiet tools/archive
functions include/plq.h >"$dir/declared" || fail "include/plq.h declares no function"
symbols --defined-only
awk 'NF == 3 { print $3 }' "$dir/nm" | sort >"$dir/defined"
same "$dir/declared" "$dir/defined"
symbols --undefined-only
awk '$1 == "U" { print $2 }' "$dir/nm" | sort >"$dir/wanted"
printf 'memcpy\nmemset\n' >"$dir/allowed"
[ -z "$(comm -23 "$dir/wanted" "$dir/allowed")" ] || fail "the archive wants $(tr '\n' ' ' <"$dir/wanted")"
echo "archive: $(wc -l <"$dir/defined") functions, $(stat -c %s "$archive") bytes"
