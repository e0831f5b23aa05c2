#!/usr/bin/env bash
# The script slipread answers whatever comes in with one line, status 0 and, once it is built, no other word; and it says in
# words, with another status, what could not be read, written or built.
source "$(dirname "$0")/common.bash"
slipread=$PWD/slipread
line='0 2 | 1 2 2 1 | 1 0 1 0'
count=0

quiet "$slipread" --help
quiet "$slipread" /dev/null
mkdir "$dir/tmp" "$dir/files"

# run WORDS..: its folder for temporary files is looked at in the end
run() { TMPDIR=$dir/tmp "$slipread" "$@" >"$dir/out" 2>"$dir/err"; status=$?; }
met() { fail "$1: status $status, wrote '$(cat "$dir/out")', said '$(head -n 4 "$dir/err")', expected $2"; }

# expect NAME TEXT: the last run wrote this and said nothing
expect() {
  if [ "$status" -ne 0 ] || [ -s "$dir/err" ] || ! printf '%s\n' "$2" | cmp -s - "$dir/out"; then met "$1" "'$2'"; fi
  count=$((count + 1))
}

# troubled NAME STATUS WORDS [TEXT]: the last run said WORDS, and wrote TEXT or nothing
troubled() {
  if [ "$status" -ne "$2" ] || ! grep -qF "$3" "$dir/err" || [ "$(cat "$dir/out")" != "${4-}" ]; then met "$1" "$2 and '$3'"; fi
  count=$((count + 1))
}

# soon COMMAND..: it succeeds within 20 seconds
soon() {
  for _ in {1..200}; do if "$@"; then return; else sleep 0.1; fi; done
  return 1
}

example() { printf '\020\203\006\033\163\270'; }
example >"$dir/files/today.slip"

# What comes in
run < <(example); expect 'the example' "$line"
run </dev/null; expect 'nothing' '10 0'
run < <(example | head -c 3); expect 'half a slip' '10 0'
run < <(example; example); expect 'two slips' '12 0'
run < <(printf '\020\203\007\033\163\270'); expect 'the example with its spare bit set' '13 0'
run < <(printf '\020\000\000\020'); expect 'the smallest slip' '0 0 | 1 | 0'
run < <(printf '\020\000\000\021'); expect 'the smallest slip with a bit of its fill set' '13 0'
run < <(printf '\040\201\201\200\033\163\270'); expect 'the example in edition 2' "$line"
run < <(printf '\040\201\201\201\033\163\270'); expect 'the example in edition 2 with a zero bit set' '13 0'
run < <(printf '\040\201\201'); expect 'three bytes of edition 2' '10 0'
run < <(printf '\040\000\000\000\020'); expect 'the smallest slip of edition 2' '0 0 | 1 | 0'
run < <(printf '\060\000\000\000\020'); expect 'edition 3' '11 0'
run < <(printf 'no slip at all'); expect 'noise' '11 0'
run < <(printf '\035\377\000noise'); expect 'noise with the edition of a slip' '1 0'
run </dev/zero; expect 'endless zeros' '11 0'
run < <(yes); expect 'endless noise' '11 0'
run < <(example; cat /dev/zero); expect 'a slip and endless zeros' '12 0'
run < <(example | head -c 2; sleep 1; example | tail -c 4); expect 'a slip that comes in parts' "$line"

# The longest slip of each edition, worked out here: m 8, r 1, k 2, the points 0, 1, .. and the message 5 1. Sums are bitwise, so
# the row has 5 ^ x at the point x. All odd chunks but the first are damaged, the most that can be mended: 63 is 128 - 2 over 2,
# and 119 is 240 - 2 over 2. Headers: edition, field, r - 1, n' - 1, k - 1, zero bits
byte() { local code; printf -v code '\\0%03o' "$1"; printf '%b' "$code"; }
damaged() { (($1 % 2 == 1 && $1 > 1)); }
longest() { # HEADER POINTS
  local x
  printf '%b' "$1"
  for ((x = 0; x < $2; x++)); do byte "$x"; done
  for ((x = 0; x < $2; x++)); do if damaged "$x"; then byte $((5 ^ x ^ 200)); else byte $((5 ^ x)); fi; done
}
depths() { for ((x = 0; x < $1; x++)); do if damaged "$x"; then printf ' 1'; else printf ' 0'; fi; done; }
# ends NAME FILE SIZE LINE: the slip has so many bytes and gives this line, and with a byte more or less it does not
ends() {
  [ "$(wc -c <"$2")" -eq "$3" ] || fail "$1 has not $3 bytes"
  run "$2"; expect "$1" "$4"
  run < <(cat "$2"; printf '\000'); expect "$1 and a byte" '12 0'
  run < <(cat "$2" /dev/zero); expect "$1 and endless zeros" '12 0'
  run < <(head -c -1 "$2"); expect "$1 less a byte" '10 0'
}
longest '\0030\0177\0002' 128 >"$dir/files/old.slip"          # 0001 10 000 1111111 0000001 0
longest '\0050\0167\0200\0200' 240 >"$dir/files/longest.slip" # 0010 10 000 11101111 00000001 0000000
ends 'the longest slip of edition 1' "$dir/files/old.slip" 259 "0 63 | 5 1 |$(depths 128)"
ends 'the longest slip' "$dir/files/longest.slip" 484 "0 119 | 5 1 |$(depths 240)"

# Files, from another folder and under odd names
cd "$dir/files" || exit 2
for name in 'of two words.slip' $'of two\nlines.slip' -n --; do cp today.slip "./$name"; done
run today.slip; expect 'a file' "$line"
run 'of two words.slip'; expect 'a name with spaces' "$line"
run $'of two\nlines.slip'; expect 'a name with a newline' "$line"
run -n; expect 'a name that begins with -' "$line"
run -- --; expect 'a name behind --' "$line"
run - <today.slip; expect 'the input by its name' "$line"
run today.slip 'of two words.slip' $'of two\nlines.slip' - </dev/null
expect 'several' "today.slip: $line
of two words.slip: $line
\$'of two\\nlines.slip': $line
standard input: 10 0"
run today.slip <&-; expect 'a file and a closed input' "$line"
for twice in '- -' '- /dev/stdin'; do
  # shellcheck disable=SC2086
  run $twice < <(example; sleep 0.2)
  troubled "the input as $twice" 2 'slipread: standard input cannot be read: it was read before' "standard input: $line"
done
run today.slip no-file today.slip
troubled 'one of several missing' 2 'slipread: no-file cannot be read: ' "today.slip: $line
today.slip: $line"
run no-file; troubled 'a missing file' 2 'slipread: no-file cannot be read: '
run .; troubled 'a folder' 2 'slipread: . cannot be read: '
run <.; troubled 'a folder as input' 2 'slipread: standard input cannot be read: '
run <&-; troubled 'a closed input' 2 'slipread: standard input cannot be read: '
run /proc/self/mem; troubled 'a file that opens and fails' 2 'slipread: /proc/self/mem cannot be read: '
"$slipread" no-file >"$dir/out" 2>/dev/full; status=$?; echo none >"$dir/err"; troubled 'no room for words' 2 none
cd "$OLDPWD" || exit 2

# What cannot be written. A limit on the size of files stands for a disk that is nearly full: 9 bytes are left
wrote() { status=$?; : >"$dir/out"; }
example | "$slipread" >/dev/full 2>"$dir/err"; wrote; troubled 'a full disk' 1 'slipread: the line could not be written'
example | "$slipread" >&- 2>"$dir/err"; wrote; troubled 'a closed output' 1 'slipread: the line could not be written'
head -c 65527 /dev/zero >"$dir/disk"
(trap '' XFSZ; ulimit -f 64; example | "$slipread" >>"$dir/disk" 2>"$dir/err"); wrote
[ "$(tail -c 9 "$dir/disk")" = '0 2 | 1 2' ] || fail 'the disk was not nearly full'
troubled 'a disk nearly full' 1 'slipread: the line could not be written'

# Links, and CDPATH, which a plain cd would follow and print
mkdir "$dir/links"
ln -s "$slipread" "$dir/links/reader"
ln -s links/reader "$dir/link"
example | "$dir/link" >"$dir/out" 2>"$dir/err"; status=$?; expect 'a link to a link' "$line"
example | (cd .. && CDPATH=$PWD "${slipread#"$PWD"/}" >"$dir/out" 2>"$dir/err"); status=$?; expect 'CDPATH' "$line"

# The program's file is gone
two_lines() { [ "$(wc -l <"$dir/err")" -eq 2 ] || met "$1" 'two lines of words'; }
rm crates/slipread/out/slipread
example | "$slipread" >"$dir/out" 2>"$dir/err"; status=$?
two_lines 'the program was removed'; troubled 'the program was removed' 0 'slipread: proving and building the program' "$line"

# What else a build can do: a copy of the script beside the program, and a stand-in for rt that does what its file says. As under rt, its
# words go to standard error, and what the program writes when rt runs it is no line
tools=$dir/tools small=$dir/small/slipread
mkdir -p "$tools" "$dir/small/crates/slipread"
for tool in bash cat dirname env flock head mktemp readlink rm sed setsid tail wc; do ln -s "$(command -v "$tool")" "$tools"; done
cp slipread "$small"
cp crates/slipread/out/slipread "$dir/built"
small() { PATH=$tools "$small" "$@" >"$dir/out" 2>"$dir/err"; status=$?; }
stand_in() { printf '%s\n' '#!/bin/sh' "PATH=$PATH" "dir=$dir" '[ "$*" = run ] && echo "10 0" || exit' 'exec >&2' "$@" >"$tools/rt" && chmod +x "$tools/rt"; }
small "$dir/files/today.slip"; troubled 'no toolchain' 3 'slipread: the Rattle toolchain is missing'
mv "$tools/wc" "$dir"; small "$dir/files/today.slip"; troubled 'no wc' 3 'slipread: there is no wc on the PATH'; mv "$dir/wc" "$tools"
TMPDIR=$dir/none small "$dir/files/today.slip"; troubled 'no temporary folder' 3 'slipread: no temporary folder could be made in '

mkfifo "$dir/go"
exec 8<>"$dir/go"
# shellcheck disable=SC2016
stand_in 'read -r go <"$dir/go"' "seq -f 'fn f%g: proved' 259" 'mkdir -p out && cp "$dir/built" out/slipread'
rm "$dir/err"
(small "$dir/files/today.slip"; exit "$status") &
soon grep -qs 'some minutes' "$dir/err" || fail 'a first build: no word before it ends'
echo >&8
wait $!
status=$?
two_lines 'a first build'; troubled 'a first build' 0 'slipread: built in ' "$line"
echo >&8
small "$dir/files/today.slip"; two_lines 'a later build'; troubled 'a later build' 0 'slipread: built in ' "$line"
stand_in 'echo why' 'exit 1'
small "$dir/files/today.slip"; troubled 'a failed build' 3 'why'
# shellcheck disable=SC2016
stand_in 'mkdir "$dir/busy" && sleep 0.2 && rmdir "$dir/busy"'
for i in 1 2 3 4; do (small "$dir/files/today.slip"; echo "$status" >"$dir/ended.$i") & done
wait
[ "$(cat "$dir"/ended.*)" = $'0\n0\n0\n0' ] || fail "four at once: statuses $(cat "$dir"/ended.* | tr '\n' ' ')"

stand_in 'exit 0'
words=$(trap '' XFSZ; ulimit -f 0; PATH=$tools "$small" "$dir/files/today.slip" 2>&1); status=$?
printf '%s\n' "$words" >"$dir/err"; : >"$dir/out"; troubled 'no room to hold the line' 1 'slipread: no room to hold the line'
touch "$dir/files/secret" && chmod 0 "$dir/files/secret" && chmod 755 "$dir" "$tools" && chmod -R a+rX "$dir/small"
nobody=()
[ "$(id -u)" -ne 0 ] || nobody=(setpriv --reuid=65534 --regid=65534 --clear-groups)
PATH=$tools:$PATH "${nobody[@]}" "$small" "$dir/files/secret" >"$dir/out" 2>"$dir/err"; status=$?
troubled 'a file without permission' 2 "slipread: $dir/files/secret cannot be read: "

# Links beside the script: its program is that of the first name that is one
ln -s slipread "$dir/small/reader"
ln -s small/reader "$dir/desk"
cp slipread "$dir/small/copy"
for small in "$dir/small/reader" "$dir/desk"; do
  small "$dir/files/today.slip"; expect "the link $small" "$line"
done
small=$dir/small/copy; small "$dir/files/today.slip"; troubled 'a copy under another name' 3 'copy: there is no program of this name'
small=$dir/small/slipread

# A signal ends a build with all that it started, so that the next run need not wait for the lock
# shellcheck disable=SC2016
stand_in 'sleep 100 &' 'echo >"$dir/building"' 'wait'
PATH=$tools TMPDIR=$dir/tmp "$small" "$dir/files/today.slip" >"$dir/out" 2>"$dir/err" &
soon test -e "$dir/building" || fail 'a signal in a build: it does not begin'
kill -TERM $!
wait $!
status=$?
[ "$status" -eq 143 ] || met 'a signal in a build' '143'
soon flock -n "$dir/small" true || fail 'a signal in a build: what it started still runs'
stand_in 'exit 0'

# Programs that do not do their part: what they wrote is no line
program() { printf '%s\n' '#!/bin/sh' "$@" >"$dir/small/crates/slipread/out/slipread"; }
program 'exit 5'; small "$dir/files/today.slip"; troubled 'a program that fails' 3 'slipread: the program failed with status 5'
for wrote in '' '0 2 | 1 2' '0 2\n0 2\n' '0 2\n0 2' '\n0 2'; do
  program "printf '$wrote'"; small "$dir/files/today.slip"
  troubled "a program that writes '$wrote'" 3 'slipread: the program failed: its line is missing or cut'
done

# The guide has a phrase for all words that the script says, and no other; three places say the same of status 3
# shellcheck disable=SC2016
sed -n '/^## Words/,$p' docs/clerk.md | sed -n 's/^| \(`[^|]*\)|.*/\1/p' | grep -oE '`[^`]+`' | tr -d '`' >"$dir/phrases"
grep -oE "say ['\"].*" slipread >"$dir/said"
! grep -vFf "$dir/phrases" "$dir/said" || fail 'docs/clerk.md does not have the words above'
[ "$(wc -l <"$dir/said")" -ge 12 ] || fail "the script says only $(wc -l <"$dir/said") things"
while IFS= read -r phrase; do
  grep -qF -- "$phrase" "$dir/said" || fail "docs/clerk.md has '$phrase', which the script does not say"
done <"$dir/phrases"
for file in slipread README.md docs/clerk.md; do
  tr '\n' ' ' <"$file" | grep -qF 'the program could not be built or run' || fail "$file has other words for status 3"
done

# Nothing stays behind, on a signal neither: no temporary file, and no reader that waits for the input
left_over() { [ -z "$(ls -A "$dir/tmp")" ] || fail "temporary files stay behind: $(ls "$dir/tmp")"; }
left_over
mkfifo "$dir/wait"
TMPDIR=$dir/tmp "$slipread" "$dir/wait" >"$dir/out" 2>"$dir/err" &
waits() { compgen -G "$dir/tmp/*/line" >/dev/null; }
soon waits || fail 'a signal: the script does not wait for its input'
kill -TERM $!
wait $!
status=$?
[ "$status" -eq 143 ] || met 'a signal' '143'
left_over
# shellcheck disable=SC2016
! timeout 1 bash -c ': >"$1"' - "$dir/wait" || fail 'a signal: a reader still waits'
echo "slipread: $count inputs answered"
