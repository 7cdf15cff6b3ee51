#!/usr/bin/env bash
# Times the reading of the durable logs off traces over 16 nodes, of up to a million entries, in which
# each broker carries out no act, 125 or 1,249 (eight entries an act) and then asks again at each tick.
# Each line is the processor time of a run, as the mean of ten, the making of the trace and the start of
# the program included, and what that is for each entry. The program (bench/swallow_bench) is built first.
top="$(cd "$(dirname "${BASH_SOURCE[0]}")/.." && pwd)" || exit 1
. "$top/bench/checked.sh" && bench_program swallow_bench || exit 1

# Microseconds of the processor for a run with so many entries, and so many acts of each broker.
microseconds() {
  local TIMEFORMAT='%3U %3S' spent user system
  spent=$({ time for _ in {1..10}; do
    "$bench" traces "$1" "$2" > /dev/null || exit 1
  done; } 2>&1) || exit 1
  read -r user system <<< "$spent"
  echo $(((10#${user/./} + 10#${system/./}) * 100))
}

echo "entries  acts of each  microseconds  nanoseconds an entry"
for size in "100000 0" "1000000 0" "100000 125" "1000000 1249" "10000 125" "100000 1249"; do
  read -r entries acts <<< "$size"
  for turn in 1 2 3; do
    whole=$(microseconds "$entries" "$acts") || exit 1
    echo "$entries  $acts  $whole  $((whole * 1000 / entries))"
  done
done
uptime >&2
