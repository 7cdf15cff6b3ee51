#!/usr/bin/env bash
# Times the flight with 10,000, 100,000 and a million messages, each of which is sent and taken, with
# ticks and holds between. The program (bench/swallow_bench) is built first.
top="$(cd "$(dirname "${BASH_SOURCE[0]}")/.." && pwd)" || exit 1
. "$top/bench/checked.sh" && bench_program swallow_bench || exit 1

# Nanoseconds of one run with so many messages.
nanoseconds() {
  local begin end
  begin=$(date +%s%N)
  "$bench" flights "$1" > /dev/null || exit 1
  end=$(date +%s%N)
  echo $((end - begin))
}

echo "messages  nanoseconds per message"
for messages in 10000 100000 1000000; do
  for turn in 1 2 3; do
    all=$(nanoseconds "$messages") || exit 1
    echo "$messages  $((all / messages))"
  done
done
uptime >&2
