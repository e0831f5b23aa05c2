#!/usr/bin/env bash
# The script rollread prints the line of each slip of a roll and then that of a refusal, if one ends the walk; the program itself
# does so wherever a roll is cut, however it comes in, and in less memory than the roll has.
source "$(dirname "$0")/common.bash"
rollread=$PWD/rollread program=$PWD/crates/rollread/out/rollread
line='0 2 | 1 2 2 1 | 1 0 1 0'
count=0

same slipread rollread # one text under two names
quiet "$rollread" /dev/null
quiet "$rollread" --help
grep -q 'each slip of the roll' "$dir/words" || fail 'rollread --help does not speak of rolls'

# run COMMAND..: what it wrote and said, and its status
run() { "$@" >"$dir/out" 2>"$dir/err"; status=$?; }
met() { fail "$1: status $status, wrote '$(head -n 4 "$dir/out")', said '$(head -n 4 "$dir/err")', expected $2"; }

# expect NAME LINE..: the last run wrote these lines and said nothing
expect() {
  printf '%s' "${@:2}" >"$dir/expected"
  if [ "$status" -ne 0 ] || [ -s "$dir/err" ] || ! cmp -s "$dir/expected" "$dir/out"; then met "$1" "'${*:2}'"; fi
  count=$((count + 1))
}

# troubled NAME STATUS WORDS [TEXT]: the last run said WORDS, and wrote TEXT or nothing
troubled() {
  if [ "$status" -ne "$2" ] || ! grep -qF "$3" "$dir/err" || [ "$(cat "$dir/out")" != "${4-}" ]; then met "$1" "$2 and '$3'"; fi
  count=$((count + 1))
}

example() { printf '\020\203\006\033\163\270'; }
three() { example; example; example; }
three >"$dir/day.roll"
# bytewise: the example three times, each byte for itself
bytewise() { for code in {,,}{020,203,006,033,163,270}; do printf '%b' "\\0$code"; sleep 0.02; done; }

# What comes in
run "$rollread" <"$dir/day.roll"; expect 'the example three times' "$line"$'\n'{,,}
run "$rollread" "$dir/day.roll"; expect 'a file' "$line"$'\n'{,,}
run "$rollread" </dev/null; expect 'nothing'
run "$rollread" < <(head -c 17 "$dir/day.roll"); expect 'a cut roll' "$line"$'\n'{,} '10 0'$'\n'
run "$rollread" < <(example; printf 'noise'; example); expect 'noise between' "$line"$'\n' '11 0'$'\n'
run "$rollread" < <(printf '\034\000\000'; three); expect 'noise in front' '1 0'$'\n'
run "$rollread" < <(three; printf '\020'); expect 'noise behind' "$line"$'\n'{,,} '10 0'$'\n'
run "$rollread" < <(printf '\020\001\000\000'; example); expect 'a slip that is refused' '6 1'$'\n' "$line"$'\n'
run "$rollread" < <(printf '\020\000\000\021\020\203\007\033\163\270'; example)
expect 'slips with bits of spare and fill set' '13 0'$'\n'{,} "$line"$'\n'
# both editions in one roll: the example and the smallest slip in edition 2, whole, with zero bits set, and cut to three bytes
newer() { printf '\040\201\201\200\033\163\270'; }
run "$rollread" < <(example; newer; printf '\040\000\000\000\020'; example)
expect 'both editions' "$line"$'\n'{,} '0 0 | 1 | 0'$'\n' "$line"$'\n'
run "$rollread" < <(newer; printf '\040\000\000\177\020'; newer)
expect 'a slip with its seven zero bits set' "$line"$'\n' '13 0'$'\n' "$line"$'\n'
run "$rollread" < <(newer; example; printf '\040\000\000'); expect 'three bytes of edition 2' "$line"$'\n'{,} '10 0'$'\n'
run "$rollread" < <(newer; printf '\060\000\000'; example); expect 'edition 3' "$line"$'\n' '11 0'$'\n'
run "$rollread" < <(example; yes); expect 'a slip and endless noise' "$line"$'\n' '11 0'$'\n'
# the script's head gathers what comes in, so the program itself gets these too
for reader in "$rollread" "$program"; do
  run "$reader" < <(example | head -c 2; sleep 0.2; example | tail -c 4); expect 'a roll that comes in parts' "$line"$'\n'
  run "$reader" < <(bytewise); expect 'byte by byte' "$line"$'\n'{,,}
done
# noise that is longer than what is read of it: no more is wanted, also where the caller ignores a broken pipe
{ example; head -c 1000000 /dev/zero; } >"$dir/noise.roll"
run "$rollread" "$dir/noise.roll"; expect 'a slip and long noise' "$line"$'\n' '11 0'$'\n'
(trap '' PIPE; exec "$rollread" "$dir/noise.roll" >"$dir/out" 2>"$dir/err"); status=$?
expect 'the same with a broken pipe ignored' "$line"$'\n' '11 0'$'\n'
run "$rollread" "$dir/day.roll" /dev/null - < <(example; printf '\020')
expect 'several' "$dir/day.roll: $line"$'\n'{,,} "standard input: $line"$'\n' 'standard input: 10 0'$'\n'

# What cannot be read or written
run "$rollread" "$dir/no-file"; troubled 'a missing file' 2 "rollread: $dir/no-file cannot be read: "
run "$rollread" "$dir"; troubled 'a folder' 2 "rollread: $dir cannot be read: "
run "$rollread" <&-; troubled 'a closed input' 2 'rollread: standard input cannot be read: '
"$rollread" <"$dir/day.roll" >/dev/full 2>"$dir/err"; status=$?; : >"$dir/out"
troubled 'a full disk' 1 'rollread: the line could not be written'

# The program itself: a roll that is cut at each place
for size in {0..18}; do
  run "$program" < <(head -c "$size" "$dir/day.roll")
  lines=()
  for ((i = 0; i < size / 6; i++)); do lines+=("$line"$'\n'); done
  ((size % 6 == 0)) || lines+=('10 0'$'\n')
  expect "a roll cut to $size bytes" ${lines[@]+"${lines[@]}"}
done

# repeat COUNT FILE: the file so many times
repeat() { yes "$2" | head -n "$1" | xargs cat; }

# walks NAME ROLL: the program writes $dir/lines for this roll, from a file and from a pipe that delivers parts
walks() {
  "$program" <"$2" >"$dir/out" || fail "$1: the program failed"
  same "$dir/lines" "$dir/out"
  dd if="$2" bs=1000 status=none | "$program" >"$dir/out" || fail "$1, by a pipe: the program failed"
  same "$dir/lines" "$dir/out"
  count=$((count + 2))
}

# The buffer has 65,536 bytes: 16,384 slips of 4 bytes fill it, and then the roll ends. A byte less, a byte more, and a full
# buffer that ends within a slip: all have the lines of the whole slips and then 10
printf '\020\000\000\020' >"$dir/least" # m 2, r 1, k 1, the point 0 and the symbol 1
repeat 16384 "$dir/least" >"$dir/full.roll"
[ "$(wc -c <"$dir/full.roll")" -eq 65536 ] || fail 'the full roll has another length'
yes '0 0 | 1 | 0' | head -n 16384 >"$dir/lines"; walks 'a full buffer' "$dir/full.roll"
echo '10 0' >>"$dir/lines"
{ cat "$dir/full.roll"; printf '\020'; } >"$dir/cut.roll"; walks 'a full buffer and a byte' "$dir/cut.roll"
{ yes '0 0 | 1 | 0' | head -n 16383; echo '10 0'; } >"$dir/lines"
head -c -1 "$dir/full.roll" >"$dir/cut.roll"; walks 'a buffer less a byte' "$dir/cut.roll"
{ echo "$line"; yes '0 0 | 1 | 0' | head -n 16382; echo '10 0'; } >"$dir/lines"
{ example; head -c 65530 "$dir/full.roll"; } >"$dir/cut.roll"; walks 'a full buffer that ends within a slip' "$dir/cut.roll"

# The longest slip has 484 bytes; all points of this one are 0, which is refused with 6. Behind 197 bytes the first buffer ends
# with 483 of it, so a program that goes on with less in sight than the longest slip refuses it with 10
{ printf '\050\167\200\200'; head -c 480 /dev/zero; } >"$dir/longest" # 0010 10 000 11101111 00000001 0000000
printf '\040\000\000\000\020' >"$dir/newer"                         # the smallest slip of edition 2
{ repeat 48 "$dir/least"; cat "$dir/newer"; repeat 300 "$dir/longest"; } >"$dir/window.roll"
[ "$(wc -c <"$dir/window.roll")" -eq $((197 + 300 * 484)) ] || fail 'the roll of longest slips has another length'
[ $(((65536 - 197) % 484)) -eq 483 ] || fail 'the first buffer does not end a byte before a slip does'
{ yes '0 0 | 1 | 0' | head -n 49; yes '6 1' | head -n 300; } >"$dir/lines"; walks 'the longest slip less a byte in sight' "$dir/window.roll"

# 13 MB: the longest slip, the example, and so on; then a byte too few. The program has less memory than the roll
{ cat "$dir/longest"; example; } >"$dir/pair"
pairs=26624 # of 490 bytes
repeat "$pairs" "$dir/pair" | head -c -1 >"$dir/long.roll"
[ "$(wc -c <"$dir/long.roll")" -eq $((pairs * 490 - 1)) ] || fail 'the long roll has another length'
for ((i = 0; i < pairs - 1; i++)); do printf '6 1\n%s\n' "$line"; done >"$dir/lines"
printf '6 1\n10 0\n' >>"$dir/lines"
(ulimit -v 8192 && "$program" <"$dir/long.roll" >"$dir/out") || fail 'a long roll: the program failed'
same "$dir/lines" "$dir/out"
run "$rollread" "$dir/long.roll"; same "$dir/lines" "$dir/out"
echo "rollread: $((count + 2)) rolls answered, the longest of $(wc -c <"$dir/long.roll") bytes"
