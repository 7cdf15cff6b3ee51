#!/usr/bin/env bash
# Times a million statements, carried out by scripts of 100, 1,000 and 10,000 each, and prints the
# time per statement; then times parsing one line of 10, 100 and 1,000 KB, and prints the time per
# byte. The program (bench/swallow_bench) is built first.
top="$(cd "$(dirname "${BASH_SOURCE[0]}")/.." && pwd)" || exit 1
. "$top/bench/checked.sh" && bench_program swallow_bench || exit 1

echo "statements  nanoseconds per statement"
for size in 100 1000 10000; do
  for turn in 1 2 3; do
    begin=$(date +%s%N)
    "$bench" scripts statements "$size" > /dev/null || exit 1
    end=$(date +%s%N)
    awk "BEGIN { printf \"%-10d  %.0f\n\", $size, ($end - $begin) / 1000000 }"
  done
done

echo "line         KB    nanoseconds per byte"
for what in parentheses digits spaces comment; do
  for size in 10000 100000 1000000; do
    begin=$(date +%s%N)
    "$bench" scripts "$what" 1 > /dev/null || exit 1
    middle=$(date +%s%N)
    "$bench" scripts "$what" "$size" > /dev/null || exit 1
    end=$(date +%s%N)
    awk "BEGIN { printf \"%-11s  %-4d  %.1f\\n\", \"$what\", $size / 1000, ($end - $middle - ($middle - $begin)) / $size }"
  done
done
uptime >&2
