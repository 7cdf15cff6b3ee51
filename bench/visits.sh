#!/usr/bin/env bash
# Times 1,200,000 visits of the shared wire with 1, 2 and 4 threads beside the same work under std's
# Mutex, in one run. The program (bench/wire_bench) is built first, and the Rust one with rustc.
top="$(cd "$(dirname "${BASH_SOURCE[0]}")/.." && pwd)" || exit 1
made="$(mktemp -d)" || exit 1
trap 'rm -r "$made"' EXIT
. "$top/bench/checked.sh" && bench_program wire_bench || exit 1
rustc -O -o "$made/visits" "$top/bench/visits.rs" || exit 1

# Seconds of one run: its program and its word.
seconds() {
  local begin end
  begin=$(date +%s%N)
  "$@" > "$made/count" || exit 1
  end=$(date +%s%N)
  awk "BEGIN { printf \"%.3f\", ($end - $begin) / 1000000000 }"
}

echo "threads  wire_lock  std Mutex  (seconds for 1,200,000 visits)"
for threads in 1 2 4; do
  for turn in 1 2 3; do
    echo "$threads        $(seconds "$bench" "$threads")      $(seconds "$made/visits" "$threads")"
  done
done
uptime >&2
