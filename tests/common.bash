# What the tests share: the root as the folder, a temporary directory, and words that come only with a failure.
set -uo pipefail
cd "$(dirname "${BASH_SOURCE[0]}")/.." || exit 2
dir=$(mktemp -d) || exit 2
trap 'rm -rf "$dir"' EXIT
# the archive under test is the one that is built here, whatever the caller links elsewhere
unset PLQ_LIB_DIR

fail() {
  printf '%s\n' "$*" >&2
  exit 1
}

# quiet COMMAND..: run it; what it wrote is shown only if it fails
quiet() {
  "$@" >"$dir/words" 2>&1 </dev/null && return
  cat "$dir/words" >&2
  fail "failed: $*"
}

# same EXPECTED FOUND: the two files are equal, byte for byte
same() {
  cmp "$1" "$2" && return
  diff --text "$1" "$2" | head -n 20 >&2
  fail "$1 and $2 differ"
}

# code_of FILE: a C file without its comments and strings; macros stand as they are written
code_of() { gcc -w -fpreprocessed -dD -E -P "$1" | sed 's/"[^"]*"//g'; }

# names FILE, functions FILE: the names of plq in a C file, and those before a bracket in small letters, one to a line.
# The header's guard and the helpers of its macros, which end in _, are no names for a caller
names() { code_of "$1" | grep -owE '(plq|PLQ)_[A-Za-z0-9_]*[A-Za-z0-9]' | grep -vx PLQ_H | sort -u; }
functions() { code_of "$1" | grep -oE '\bplq_[a-z0-9_]+\(' | tr -d '(' | sort -u; }

# passed COUNT: in what `quiet` ran last, so many tests passed and none was left out
passed() {
  local found
  found=$(grep -oE '[0-9]+ passed' "$dir/words" | awk '{ sum += $1 } END { print sum + 0 }')
  [ "$found" -eq "$1" ] || fail "$found tests passed, and $0 says that there are $1"
  ! grep -E '[1-9][0-9]* (ignored|filtered out)' "$dir/words" || fail "a test was left out"
}

# in_second WORDS.., in_plq WORDS..: cargo in that package, with no network
in_second() { cargo "$1" --release --offline --locked --quiet --manifest-path second/Cargo.toml "${@:2}"; }
in_plq() { cargo "$1" --offline --locked --quiet --manifest-path rust/plq/Cargo.toml "${@:2}"; }
