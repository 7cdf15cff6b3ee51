#!/usr/bin/env bash
# Times hearing 100,000 moments with 16 unknown commit records beside 10, 1,000 and 100,000 decided
# ones. The program (bench/swallow_bench) is built first. The time to make the records is taken off.
top="$(cd "$(dirname "${BASH_SOURCE[0]}")/.." && pwd)" || exit 1
. "$top/bench/checked.sh" && bench_program swallow_bench || exit 1

# Nanoseconds of one run with so many decided records and moments.
nanoseconds() {
  local begin end
  begin=$(date +%s%N)
  "$bench" records "$1" "$2" > /dev/null || exit 1
  end=$(date +%s%N)
  echo $((end - begin))
}

echo "decided  nanoseconds per moment"
for decided in 10 1000 100000; do
  for turn in 1 2 3; do
    base=$(nanoseconds "$decided" 1) || exit 1
    all=$(nanoseconds "$decided" 100001) || exit 1
    echo "$decided  $(((all - base) / 100000))"
  done
done
uptime >&2
