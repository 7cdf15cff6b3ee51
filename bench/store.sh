#!/usr/bin/env bash
# Times a store of effects of 19 bytes: adding 16 a call to a medium in memory and to one over a file,
# and opening a file of 4,096 full pages beside a C program that reads the same file. The program
# (bench/swallow_bench) is built first.
top="$(cd "$(dirname "${BASH_SOURCE[0]}")/.." && pwd)" || exit 1
made="$(mktemp -d)" || exit 1
trap 'rm -r "$made"' EXIT
. "$top/bench/checked.sh" && bench_program swallow_bench || exit 1
cc -O2 -o "$made/store" "$top/bench/store.c" || exit 1

cc -O2 -o "$made/measure" "$top/bench/measure.c" || exit 1

# Runs the words, and prints seconds and the most memory in MB.
measured() {
  "$made/measure" "$made/used" "$@" > /dev/null || exit 1
  awk '{ printf "%s s  %.1f MB\n", $1, $2 / 1024 }' "$made/used"
}

echo "adding 16 effects a call to a medium in memory"
for calls in 1 1562 3125 6250; do
  echo "  $calls calls   $(measured "$bench" stores memory "$calls" 16)"
done
echo "adding 16 effects a call to a medium over a file"
for calls in 0 1024 2048 4096; do
  mkdir "$made/$calls"
  echo "  $calls calls   $(measured "$bench" stores "$made/$calls" "$calls" 16)"
done
mkdir "$made/full"
echo "filling 4,096 pages with 215 effects each   $(measured "$bench" stores "$made/full" 4096 215)"
echo "opening them: 880,640 effects"
for turn in 1 2 3; do
  echo "  store   $(measured "$bench" stores "$made/full" 0 1)"
  echo "  C       $(measured "$made/store" "$made/full")"
done
uptime >&2
