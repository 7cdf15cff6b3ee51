#!/usr/bin/env bash
# Ends the program by its process id in the middle of runs, 200 times or as often as the first word says, with as
# many workers as the second word says, or one. Each run has a number of its own, above those before it.
# Each act of a run reads 1.1, adds 1 and writes the sum to 1.1 and to 1.2. After each kill the pages of the
# file that have a gated decision to commit are counted, and then a run that reads both objects is begun:
# both have to be that count. The reading run withdraws its act, so it adds no such page. A fresh folder is
# taken once fewer than 1,000 pages are blank. It is the program that ./swallow starts.
top="$(cd "$(dirname "${BASH_SOURCE[0]}")/.." && pwd)" || exit 1
work=$(mktemp -d) || exit 1
trap 'rm -rf "$work"' EXIT
. "$top/release/start.sh" && find_program swallow_main || exit 1
kills=${1:-200}
workers=${2:-1}
folder="$work/data"
medium="$folder/repository-1-0"

run=0
act='act broker 1 home 1 timeout 5 tries 3\n'
for _ in $(seq 180); do
  printf "${act}read a 1.1\nlet s = given(a, 0) + 1\nwrite 1.1 s\nwrite 1.2 s\ndone\n"
done > "$work/adds"
printf "${act}read a 1.1\nread b 1.2\nwithdraw\ndone\n" > "$work/reads"

# A plan of these acts, with the next run number.
plan() {
  run=$((run + 1))
  { printf 'swallow plan 1\nrun %d\nrepositories 1\nbrokers 1\n' "$run"; cat "$1"; } > "$work/plan"
}

# The first 17 bytes of each page that isn't blank, a line each.
pages() {
  [ -f "$medium" ] &&
    perl -e 'open F, "<:raw", $ARGV[0] or exit 1; while (read F, $page, 4096) { print unpack("H34", $page), "\n" if $page =~ /[^\0]/ }' "$medium"
}

# How many of these pages there are.
used() {
  wc -l < "$work/pages"
}

before=0 between=0 after=0 fresh=0
for kill in $(seq "$kills"); do
  pages > "$work/pages"
  if [ "$(used)" -gt 3096 ]; then
    rm -rf "$folder"
    fresh=$((fresh + 1))
  fi
  # Of a fresh folder the run is ended early, at times before it has a page.
  most=600
  [ -f "$medium" ] || most=40
  plan "$work/adds"
  "$program" "$folder" run --workers "$workers" < "$work/plan" > "$work/report" &
  process=$!
  sleep "$(printf '0.%03d' $((RANDOM % most)))"
  kill -9 "$process" 2> /dev/null
  wait "$process" 2> /dev/null
  # A page of a decision to commit: gate, format, length 12, whole effects, Decide, a stamp, Committed.
  pages > "$work/pages"
  committed=$(grep -c '^a502000c0004[0-9a-f]\{20\}01' "$work/pages")
  if [ "$(used)" -eq 0 ]; then
    before=$((before + 1))
  elif [ -s "$work/report" ]; then
    after=$((after + 1))
  else
    between=$((between + 1))
  fi
  plan "$work/reads"
  "$program" "$folder" run --workers "$workers" < "$work/plan" > "$work/read" || { echo "kill $kill: status $?"; cat "$work/read"; exit 1; }
  value=$committed
  [ "$committed" -eq 0 ] && value=nothing
  if ! grep -qx "read 1.1 $value" "$work/read" || ! grep -qx "read 1.2 $value" "$work/read"; then
    echo "kill $kill: $committed decisions to commit, but:"
    cat "$work/read"
    exit 1
  fi
done
echo "kills $kills: before the first page $before, in the run $between, behind its end $after; fresh folders $fresh"
