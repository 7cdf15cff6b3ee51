#!/usr/bin/env bash
# Times a broker that carries out acts, each request answered at once, and then opens its log again:
# 100, 1,000 and 10,000 acts of one write, and one act of 100, 1,000 and 9,980 writes. Each line is the
# processor time of a run, as the mean of twenty, the start of the program included, and what that is
# for each message that the broker takes. The program (bench/swallow_bench) is built first.
top="$(cd "$(dirname "${BASH_SOURCE[0]}")/.." && pwd)" || exit 1
. "$top/bench/checked.sh" && bench_program swallow_bench || exit 1

# Microseconds of the processor for a run with so many acts, each of so many times so many writes.
microseconds() {
  local TIMEFORMAT='%3U %3S' spent user system
  spent=$({ time for _ in {1..20}; do
    "$bench" brokers "$1" "$2" "$3" > /dev/null || exit 1
  done; } 2>&1)
  read -r user system <<< "$spent"
  echo $(((10#${user/./} + 10#${system/./}) * 50))
}

# A broker takes a Begun and a Decided for each act, and a Stored for each write.
line() {
  local whole messages=$(($1 * ($2 * $3 + 2)))
  whole=$(microseconds "$1" "$2" "$3")
  echo "$1  $(($2 * $3))  $whole  $((whole * 1000 / messages))"
}

echo "acts  writes of each  microseconds  nanoseconds a message"
for acts in 100 1000 10000; do
  line "$acts" 1 1
done
for writes in 10 100 998; do
  line 1 10 "$writes"
done
uptime >&2
