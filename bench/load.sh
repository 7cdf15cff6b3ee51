#!/usr/bin/env bash
# The generated load of 1,000 acts (or as many as the first word says) with four workers: by the laboratory over media in memory of 8,192 pages, with losses and
# without, and by the program over files of as many pages, and with one worker. Prints seconds and the most memory. Both are those that ./swallow and ./swallow_lab start.
top="$(cd "$(dirname "${BASH_SOURCE[0]}")/.." && pwd)" || exit 1
made="$(mktemp -d)" || exit 1
trap 'rm -r "$made"' EXIT
. "$top/release/start.sh" && find_program swallow_lab || exit 1
lab="$program"
find_program swallow_main || exit 1
cc -O2 -o "$made/measure" "$top/bench/measure.c" || exit 1
count=${1:-1000}
words="--ticks 100000 --messages 1000000"
printf 'swallow load 7 %d\nacts %d open 0\nsum 64000\n' "$count" $((count + 1)) > "$made/wanted"

# Runs the words, and prints seconds and the most memory in MB.
measured() {
  "$made/measure" "$made/used" "$@" > "$made/written" || { cat "$made/written"; exit 1; }
  cmp -s "$made/wanted" "$made/written" || { cat "$made/written"; exit 1; }
  awk '{ printf "%s s  %.1f MB\n", $1, $2 / 1024 }' "$made/used"
}

for workers in 1 4; do
  for lose in 0 5; do
    echo "in memory, $workers workers, lose $lose   $(measured "$lab" --pages 8192 --lose $lose --stop 0 --words "load 7 $count --workers $workers $words")"
  done
done
for workers in 1 4; do
  rm -rf "$made/data"
  mkdir "$made/data"
  for node in $(seq 8); do
    truncate -s $((4096 * 8192)) "$made/data/repository-$node-0" "$made/data/broker-$node-0"
  done
  # shellcheck disable=SC2086
  echo "over files, $workers workers   $(measured "$program" "$made/data" load 7 "$count" --workers $workers $words)"
done
uptime >&2
