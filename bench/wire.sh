#!/usr/bin/env bash
# Times the wire over sixteen repositories and sixteen brokers with 10,000, 100,000 and a million entries,
# two messages for each eight of them, beside a plain Rust program that keeps the same queues, in one
# run. The program (bench/swallow_bench) is built first, and the Rust one with
# rustc.
top="$(cd "$(dirname "${BASH_SOURCE[0]}")/.." && pwd)" || exit 1
made="$(mktemp -d)" || exit 1
trap 'rm -r "$made"' EXIT
. "$top/bench/checked.sh" && bench_program swallow_bench || exit 1
rustc -O -o "$made/wire" "$top/bench/wire.rs" || exit 1

# Nanoseconds of one run: its program and its words. Both programs have to send as many messages.
nanoseconds() {
  local begin end
  begin=$(date +%s%N)
  "$@" > "$made/sent" || exit 1
  end=$(date +%s%N)
  echo $((end - begin))
}

echo "entries  wire_core  plain Rust  (nanoseconds an entry, with the start of the program)"
for entries in 10000 100000 1000000; do
  for turn in 1 2 3; do
    proved=$(nanoseconds "$bench" wires "$entries") || exit 1
    cp "$made/sent" "$made/proved"
    plain=$(nanoseconds "$made/wire" "$entries") || exit 1
    cmp -s "$made/sent" "$made/proved" || { echo "they sent different messages" >&2; exit 1; }
    echo "$entries  $((proved / entries))  $((plain / entries))"
  done
done
uptime >&2
