#!/usr/bin/env bash
# Times a watch that advances from nothing, one that advances twice, and the map as of a time above all, over 1,000, 10,000 and
# 100,000 marks of 1,000 objects and over 100,000 marks of one: half of the marks are versions and half Settles. Each figure is the
# processor time of a run, as the mean of ten; that of a program which only makes the marks is taken off. The program
# (bench/swallow_bench) is built first.
top="$(cd "$(dirname "${BASH_SOURCE[0]}")/.." && pwd)" || exit 1
made="$(mktemp -d)" || exit 1
trap 'rm -r "$made"' EXIT
. "$top/bench/checked.sh" && bench_program swallow_bench || exit 1
cc -O2 -o "$made/measure" "$top/bench/measure.c" || exit 1

# Microseconds of the processor for a run with these words.
microseconds() {
  local TIMEFORMAT='%3U %3S' spent user system
  spent=$({ time for _ in {1..10}; do
    "$bench" watches "$@" > /dev/null || exit 1
  done; } 2>&1) || exit 1
  read -r user system <<< "$spent"
  echo $(((10#${user/./} + 10#${system/./}) * 100))
}

# Megabytes of a run with these words.
megabytes() {
  "$made/measure" "$made/used" "$bench" watches "$@" > /dev/null || exit 1
  awk '{ printf "%.1f", $2 / 1024 }' "$made/used"
}

echo "marks  objects  microseconds: advance, twice, as of  MB: marks, advance, as of"
for row in "500 1000" "5000 1000" "50000 1000" "50000 1"; do
  read -r attempts objects <<< "$row"
  room="$(megabytes marks "$attempts" "$objects") $(megabytes advance "$attempts" "$objects") $(megabytes asof "$attempts" "$objects")"
  for turn in 1 2 3; do
    base=$(microseconds marks "$attempts" "$objects") || exit 1
    advance=$(microseconds advance "$attempts" "$objects") || exit 1
    twice=$(microseconds again "$attempts" "$objects") || exit 1
    asof=$(microseconds asof "$attempts" "$objects") || exit 1
    echo "$((2 * attempts))  $objects  $((advance - base)) $((twice - base)) $((asof - base))  $room"
  done
done
uptime >&2
