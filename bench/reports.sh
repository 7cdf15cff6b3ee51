#!/usr/bin/env bash
# Times the report of a run by its logs: of 100, 1,000 and 10,000 acts of eight brokers, each of which
# reads an object and writes it. Each line is what a run of the program takes that makes the plan and the
# logs alone, and what one takes that tells the run besides, in seconds and kilobytes. The program
# (bench/swallow_bench) is built first.
top="$(cd "$(dirname "${BASH_SOURCE[0]}")/.." && pwd)" || exit 1
made="$(mktemp -d)" || exit 1
trap 'rm -rf "$made"' EXIT
cc -O2 -o "$made/measure" "$top/bench/measure.c" || exit 1
. "$top/bench/checked.sh" && bench_program swallow_bench || exit 1

# Seconds and the most kilobytes of a run with so many acts that is told so often.
measured() {
  "$made/measure" "$made/used" "$bench" reports "$@" > /dev/null || exit 1
  cat "$made/used"
}

echo "acts  seconds without  kilobytes without  seconds told  kilobytes told"
for acts in 100 1000 10000; do
  for turn in 1 2 3; do
    read -r bare room _ <<< "$(measured "$acts" 0)"
    read -r told most _ <<< "$(measured "$acts" 1)"
    echo "$acts  $bare  $room  $told  $most"
  done
done
uptime >&2
