#!/usr/bin/env bash
# Times a million visits of the lock with 1, 2 and 4 threads beside the same work under std's Mutex,
# in one run. The program (bench/lock_bench) is built first, and the Rust one with rustc.
top="$(cd "$(dirname "${BASH_SOURCE[0]}")/.." && pwd)" || exit 1
made="$(mktemp -d)" || exit 1
trap 'rm -r "$made"' EXIT
. "$top/bench/checked.sh" && bench_program lock_bench || exit 1
rustc -O -o "$made/mutex" "$top/bench/mutex.rs" || exit 1

# Seconds of one run: its program and its word.
seconds() {
  local begin end
  begin=$(date +%s%N)
  "$@" > "$made/count" || exit 1
  end=$(date +%s%N)
  awk "BEGIN { printf \"%.3f\", ($end - $begin) / 1000000000 }"
}

echo "threads  seat_lock  std Mutex  (seconds for a million visits)"
for threads in 1 2 4; do
  for turn in 1 2 3; do
    echo "$threads        $(seconds "$bench" "$threads")      $(seconds "$made/mutex" "$threads")"
  done
done
uptime >&2
