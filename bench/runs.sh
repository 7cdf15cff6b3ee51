#!/usr/bin/env bash
# Runs of the program over files. Processor time an act, for 1,000 acts and for 10,000 (or as often as the two
# first words say) of one broker over one repository; syncs an act, beside SQLite's for the same changes (a write-
# ahead log, every commit synced), counted by strace where that is there; and a plan of eight brokers, each with a
# repository of its own, with 1, 2 and 4 workers. It is the program that ./swallow starts.
top="$(cd "$(dirname "${BASH_SOURCE[0]}")/.." && pwd)" || exit 1
work=$(mktemp -d) || exit 1
trap 'rm -rf "$work"' EXIT
. "$top/release/start.sh" && find_program swallow_main || exit 1
few=${1:-1000}
many=${2:-10000}

# A plan of so many acts of so many brokers, each of which adds 1 to one of 64 objects of its broker's repository.
plan() {
  printf 'swallow plan 1\nrun 1\nrepositories %d\nbrokers %d\n' "$2" "$2"
  awk -v acts="$1" -v nodes="$2" 'BEGIN {
    for (i = 0; i < acts; i++) {
      n = i % nodes + 1
      printf "act broker %d home %d timeout 5 tries 3\nread a %d.%d\nwrite %d.%d given(a, 0) + 1\ndone\n", n, n, n, i % 64, n, i % 64
    }
  }'
}

# A folder whose files have room for so many acts of each of so many nodes.
folder() {
  rm -rf "$work/data"
  mkdir "$work/data"
  for node in $(seq "$2"); do
    truncate -s $((4096 * (5 * $1 + 100))) "$work/data/repository-$node-0" "$work/data/broker-$node-0"
  done
}

TIMEFORMAT='%R %U %S'
echo "acts     seconds  processor seconds  microseconds of processor an act"
for acts in "$few" "$many"; do
  plan "$acts" 1 > "$work/plan"
  folder "$acts" 1
  { time "$program" "$work/data" run --messages 1000000 < "$work/plan" > "$work/report"; } 2> "$work/time" || exit 1
  grep -q "acts $acts committed $acts " "$work/report" || { tail -n 2 "$work/report"; exit 1; }
  awk -v acts="$acts" '{ printf "%-8d %7.2f  %17.2f  %d\n", acts, $1, $2 + $3, ($2 + $3) * 1000000 / acts }' "$work/time"
done

cat > "$work/changes.py" <<'P'
import sqlite3, sys
base = sqlite3.connect(sys.argv[1], isolation_level=None)
base.execute("pragma journal_mode = wal")
base.execute("pragma synchronous = full")
base.execute("create table objects (number integer primary key, value integer)")
for i in range(int(sys.argv[2])):
    base.execute("begin immediate")
    row = base.execute("select value from objects where number = ?", (i % 64,)).fetchone()
    base.execute("insert or replace into objects values (?, ?)", (i % 64, (row[0] if row else 0) + 1))
    base.execute("commit")
P
plan "$few" 1 > "$work/plan"
folder "$few" 1
echo "$few acts or commits: seconds, syncs"
if command -v strace > /dev/null; then
  count() { strace -f -c -e trace=fsync,fdatasync -o "$work/calls" "$@" > /dev/null && awk '/sync$/ { n += $4 } END { printf "%d\n", n }' "$work/calls"; }
  echo "swallow: $(count "$program" "$work/data" run --messages 1000000 < "$work/plan") syncs"
  echo "SQLite:  $(count python3 "$work/changes.py" "$work/counted.db" "$few") syncs"
fi
folder "$few" 1
{ time "$program" "$work/data" run --messages 1000000 < "$work/plan" > /dev/null; } 2> "$work/time"
echo "swallow: $(cut -d' ' -f1 "$work/time") s"
{ time python3 "$work/changes.py" "$work/timed.db" "$few"; } 2> "$work/time"
echo "SQLite:  $(cut -d' ' -f1 "$work/time") s"

echo "workers  seconds of $few acts of eight brokers, each with a repository of its own"
plan "$few" 8 > "$work/plan"
for workers in 1 2 4; do
  folder "$few" 8
  { time "$program" "$work/data" run --messages 1000000 --workers "$workers" < "$work/plan" > "$work/report"; } 2> "$work/time"
  grep -q "acts $few committed $few " "$work/report" || { tail -n 2 "$work/report"; exit 1; }
  printf '%-8d %s\n' "$workers" "$(cut -d' ' -f1 "$work/time")"
done
echo "load: $(cut -d' ' -f1-3 /proc/loadavg)" >&2
