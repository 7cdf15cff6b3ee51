#!/usr/bin/env bash
# Times replaying marks of histories over 64 objects and over one: 3,000, 30,000 and 99,999 marks, of
# which a third are versions, a third Settles and a third Stretches. The program (bench/swallow_bench) is built first.
top="$(cd "$(dirname "${BASH_SOURCE[0]}")/.." && pwd)" || exit 1
. "$top/bench/checked.sh" && bench_program swallow_bench || exit 1

# Milliseconds of one run with so many attempts and objects.
milliseconds() {
  local begin end
  begin=$(date +%s%N)
  "$bench" histories "$1" "$2" > /dev/null || exit 1
  end=$(date +%s%N)
  echo $(((end - begin) / 1000000))
}

echo "marks  objects  milliseconds"
for attempts in 1000 10000 33333; do
  for objects in 64 1; do
    echo "$((3 * attempts))  $objects  $(milliseconds "$attempts" "$objects")"
  done
done
uptime >&2
