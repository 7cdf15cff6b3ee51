#!/usr/bin/env bash
# Renews release/ behind a gate that passed: tools/release.sh LOG [FOLDER]. LOG is what `rt ci` printed, and FOLDER the
# checkout that it ran in, or this one. Behind a gate the programs that it proved and ran lie there, as crates/NAME/out/NAME:
# `rt ci` puts away what it found in out/, and leaves what it built (by LLVM; NAME.by-rattle is the other compiler's). The
# sources there and here have to be the same, and each program earlier than the end of the log and, unless the log says that
# it is kept of an earlier gate, later than its sources. Writes the programs and release/README.md, which names the last
# commit of this checkout: let it be the one of the gate.
# `tools/release.sh check` changes nothing: status 0 where the sums in release/README.md are those of the sources here and of
# the programs, else 1, and it says what differs.
top="$(cd "$(dirname "${BASH_SOURCE[0]}")/.." && pwd)" || exit 1
. "$top/release/start.sh" || exit 1
crates=(swallow_main swallow_lab swallow_look)

fail() {
  echo "release: $*" >&2
  exit 1
}

check() {
  local current=0
  for crate in "${crates[@]}"; do
    name_program "$crate"
    sum_sources "$crate" || fail "the sources of $crate can't be read"
    compare_shipped || { echo "release: $differs" >&2; current=1; }
  done
  return "$current"
}

# Fails unless the program of $crate in the checkout $1 is, as far as can be seen, what the gate built of the sources here.
look_at() {
  local made="$1/crates/$crate/out/$crate" newer
  [ -x "$made" ] || fail "there is no $made, as a gate that passed leaves one"
  [ "$(top="$1" sum_of_places "${places[@]}")" = "$sources" ] || fail "the sources of $crate in $1 aren't those here"
  # A program that an earlier gate built here is older than the sources of a new checkout: the log says that they are the same.
  if ! grep -q "^rt: $crate is kept: " "$log"; then
    newer=$(cd "$1" && find "${places[@]}" -newer "$made" -print -quit) || fail "the sources in $1 can't be read"
    [ -z "$newer" ] || fail "$newer was changed after $made was built"
  fi
  [ ! "$made" -nt "$log" ] || fail "$made was built after the gate of $log"
}

# The least C library that has all that the programs call.
least_glibc() {
  objdump -T "$@" | grep -o 'GLIBC_[0-9][0-9.]*' | sort -uV | tail -n 1 | sed 's/GLIBC_//'
}

page() {
  cat << PAGE
# The proved programs, for x86-64 Linux

\`./swallow\`, \`./swallow_lab\` and \`./swallow_look\` start these where the sources are still those that they were built from
([start.sh](start.sh)); each with the word \`build\` proves and builds it again, and compares byte for byte. \`tools/release.sh\` writes
this page and the programs, behind a gate that passed, and \`tools/release.sh check\` says whether they are those of the sources.

| Program | The sum of its sources | Its own sha256 |
|---|---|---|
$rows

| Of all | |
|---|---|
| Commit | $commit |
| Kit | $kit |
| Last line of the gate | $last |
| Least glibc | $least |
| Processor | $processor |
| Written | $(date -u +%Y-%m-%d) |

The sum of the sources is the sha256 of a list: for each file of crates.txt, HANDLES, and src, specs and proofs of the crates
that the program is made of, sorted by name as bytes, the line that \`sha256sum\` prints for it at the top of the repository.
PAGE
}

if [ "$*" = check ]; then
  check
  exit
fi
[ "$#" -eq 1 ] || [ "$#" -eq 2 ] || fail "give the log of a gate, and the folder where it ran, or the word check"
log=$1
folder=$(cd "${2:-$top}" && pwd) || fail "there is no folder $2"
last=$(tail -n 1 "$log") || fail "there is no log $log"
[[ "$last" =~ ^[1-9][0-9]*" passed, 0 failed"$ ]] || fail "the gate of $log didn't pass: its last line is '$last'"
kit=$(rt version) && [[ "$kit" == *"$logic" ]] || fail "rt is of ${kit:-no kit}, and not of one with $logic"
commit=$(git -C "$top" rev-parse HEAD) || fail "no commit can be named"
[ -z "$(git -C "$top" status --porcelain -- crates crates.txt HANDLES)" ] || fail "some source isn't in the commit $commit"
made=() rows=""
for crate in "${crates[@]}"; do
  name_program "$crate"
  sum_sources "$crate" || fail "the sources of $crate can't be read"
  look_at "$folder"
  made+=("$folder/crates/$crate/out/$crate")
  rows+="${rows:+$'\n'}| $name | \`$sources\` | \`$(sum_of "${made[-1]}")\` |"
done
least=$(least_glibc "${made[@]}")
[ -n "$least" ] || fail "objdump tells no version of the C library"
processor=$(grep -o ' cpu=x86-64[^ ]*' "$log" | sort -u)
[[ "$processor" =~ ^" cpu="[^$'\n']+$ ]] || fail "the log doesn't name one processor: $processor"
processor=${processor# cpu=}
for at in "${!crates[@]}"; do
  name_program "${crates[at]}"
  cp "${made[at]}" "$shipped.new" && chmod 755 "$shipped.new" && mv "$shipped.new" "$shipped" || fail "$shipped can't be written"
done
page > "$top/release/README.md" || fail "release/README.md can't be written"
check && echo "release/ has the programs of $commit: $last"
