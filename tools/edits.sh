#!/usr/bin/env bash
# Tries the edits of edits/NAME/: of the crates that the words name, or of each whose line in edits/tried.txt doesn't hold, since
# its stamp is another or not all of its edits were refused (edits/README.md), those with few edits first. With --list it only
# says which lines don't hold, and its status is 0 if all do. Each crate is tried in a copy of it and of the
# libraries below it, with what is kept of their proofs in out/; what isn't is proved there first. Prints what rt says,
# and writes the crate's line. Status 0 where each edit that was tried is refused. RT is the command, or rt.
top="$(cd "$(dirname "${BASH_SOURCE[0]}")/.." && pwd)" || exit 1
. "$top/release/start.sh" || exit 1
rt=${RT:-rt}
tried="$top/edits/tried.txt"

fail() {
  echo "edits: $*" >&2
  exit 1
}

# Sets `stamp` to the sum over all that decides what becomes of the crate's edits. All are read at once.
declare -A stamps
stamp_of() {
  local name value
  if [ "${#stamps[@]}" -eq 0 ]; then
    while read -r name value; do
      stamps[$name]=$value
    done < <(python3 "$top/tools/stamps.py")
  fi
  stamp=${stamps[$1]}
  [ -n "$stamp" ] || fail "the files of $1 can't be read"
}

# How many edits a crate has, and its name.
counts() {
  local folder
  for folder in "$top"/edits/*/; do
    echo "$(find "$folder" -maxdepth 1 -name '*.edit' | wc -l) $(basename "$folder")"
  done
}

# Whether the crate's line has this stamp, and all of its edits were refused.
holds() {
  awk -v crate="$1" -v stamp="$stamp" '$1 == crate && $2 == stamp && $5 == $6 { found = 1 } END { exit !found }' "$tried" 2> /dev/null
}

# A copy of the crate and of the libraries below it, with the crate's edits of edits/ alone.
copy_to() {
  local made=$1 crate part
  cp "$top/HANDLES" "$made/" || return 1
  for crate in $(below "$2"); do
    grep "^${crate}[ :]" "$top/crates.txt" >> "$made/crates.txt" || return 1
    mkdir -p "$made/crates/$crate/out" || return 1
    for part in src specs proofs out/rlib; do
      [ ! -d "$top/crates/$crate/$part" ] || cp -r --reflink=auto "$top/crates/$crate/$part" "$made/crates/$crate/$part" || return 1
    done
  done
  mkdir "$made/crates/$2/must-fail" && cp "$top/edits/$2"/*.edit "$made/crates/$2/must-fail/"
}

# Tries the edits of one crate, and writes its line.
try_crate() (
  made=$(mktemp -d) || exit 1
  trap 'rm -rf "$made"' EXIT
  copy_to "$made" "$1" || fail "$1 can't be copied"
  count=$(find "$made/crates/$1/must-fail" -name '*.edit' | wc -l)
  echo "== $1: $count edits"
  (cd "$made" && "$rt" must-fail "$1") 2>&1 < /dev/null | tee "$made/said"
  # A library that isn't proved, or a want of memory: nothing was tried.
  [ "$(grep -c "must-fail $1/" "$made/said")" -ge "$count" ] || fail "not every edit of $1 was tried"
  refused=$(grep -c "must-fail $1/.*: refused, as it must be" "$made/said")
  { grep -v "^$1 " "$tried"; echo "$1 $stamp ${version%% *} $(date -u +%Y-%m-%d) $count $refused"; } 2> /dev/null | LC_ALL=C sort > "$made/tried"
  cp "$made/tried" "$tried" || fail "edits/tried.txt can't be written"
  [ "$refused" -eq "$count" ]
)

list=0
[ "$*" != --list ] || { list=1; set --; }
[ "$*" != --stale ] || set --
[ "$list" -eq 1 ] || { version=$("$rt" version) && [[ "$version" == *"$logic" ]]; } || fail "rt is of ${version:-no kit}, and not of one with $logic"
names=("$@")
if [ "$#" -eq 0 ]; then
  mapfile -t names < <(counts | sort -n | cut -d ' ' -f 2)
fi
wrong=0
for name in "${names[@]}"; do
  [ -n "$(find "$top/edits/$name" -maxdepth 1 -name '*.edit' 2> /dev/null)" ] || fail "edits/$name has no edit"
  [ -n "$(below "$name")" ] || fail "crates.txt has no crate $name"
  stamp_of "$name"
  [ "$#" -eq 0 ] && holds "$name" && continue
  if [ "$list" -eq 1 ]; then
    echo "stale: $name"
    wrong=1
  else
    try_crate "$name" || wrong=1
  fi
done
[ "$list" -eq 0 ] || [ "$wrong" -eq 1 ] || echo "nothing is stale"
exit "$wrong"
