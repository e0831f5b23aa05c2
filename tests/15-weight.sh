#!/usr/bin/env bash
# What the archive takes of a meter's memory, in bytes on x86-64. It builds nothing: it weighs what 10-archive.sh built. A table
# of the 1,024 parities of binomials is to stay out. As data it is far above what below_data leaves. The compiler once made it into
# code that wrote it on the stack, of 3,782 bytes: below_encoder and below_code leave less room than that, for encode and for any call.
# A landing that adds calls, or makes one longer, weighs again and raises below_code and below_data, with the same slack.
source "$(dirname "$0")/common.bash"
archive=target/staticlib/libplq.a
below_data=1430    # 1,414 and a constant of 16
below_code=33054   # 31,548 and a slack of 1,506
below_encoder=2158 # 2,096 and a slack of 62

# weighed FILE: its sections and their sizes
weighed() { size -A "$1" >"$dir/sections" || fail "size failed on $1"; }

# bytes NAMES: those of the sections whose names fit; a name may have blanks in it
bytes() { awk -v names="$1" '$1 ~ names { n += $(NF - 1) } END { print n + 0 }' "$dir/sections"; }

# below LIMIT FOUND WHAT: there is some of it, and less than the limit
below() {
  [ "$2" -gt 0 ] || fail "there is no $3"
  [ "$2" -lt "$1" ] || fail "there are $2 bytes of $3; below $1 are allowed"
}

weighed "$archive"
data=$(bytes '^[.](data|rodata|bss|tdata|tbss)')
code=$(bytes '^[.]text')
below "$below_data" "$data" "data in the archive"
below "$below_code" "$code" "code in the archive"

# the code that a program which only encodes is linked with
quiet ld -r --gc-sections -e plq_encode -o "$dir/encoder.o" --whole-archive "$archive"
weighed "$dir/encoder.o"
encoder=$(bytes '^[.]text')
below "$below_encoder" "$encoder" "code in the encoder"
echo "weight: $data bytes of data and $code of code in the archive, $encoder of code in its encoder"
