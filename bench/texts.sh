#!/usr/bin/env bash
# Long texts over files: what one text of 40,960 bytes costs in pages, writes and syncs, and 1,000 acts (or as many as the
# first word says) that each write a text of 61,440 bytes to one of 64 objects, beside SQLite's commits of the same texts (a
# write-ahead log, every commit synced). Writes and syncs are counted by strace where that is there. It is the
# program that ./swallow starts.
top="$(cd "$(dirname "${BASH_SOURCE[0]}")/.." && pwd)" || exit 1
work=$(mktemp -d) || exit 1
trap 'rm -rf "$work"' EXIT
. "$top/release/start.sh" && find_program swallow_main || exit 1
acts=${1:-1000}

head='swallow plan 1\nrun 1\nrepositories 1\nbrokers 1\n'
act='act broker 1 home 1 timeout 5 tries 3\n'

# An act that doubles a text so often, and writes it to this object.
writes() {
  printf "${act}let t = \"%s\"\nrepeat %d\nlet t = t & t\nend\nwrite 1.%d t\nprint len(t)\ndone\n" "$1" "$2" "$3"
}

{ printf "$head"; writes 0123456789 12 1; } > "$work/one"
sixty=$(printf '0123456789%.0s' 1 2 3 4 5 6)
{ printf "$head"; for i in $(seq "$acts"); do writes "$sixty" 10 $((i % 64)); done; } > "$work/many"

mkdir "$work/one.d"
if command -v strace > /dev/null; then
  strace -f -c -e trace=pwrite64,fsync,fdatasync -o "$work/calls" "$program" "$work/one.d" run < "$work/one" > "$work/report" || exit 1
  grep -qx 'print 40960' "$work/report" || { head -c 400 "$work/report"; exit 1; }
  awk '/pwrite64$/ { w += $4 } /sync$/ { s += $4 } END { printf "a text of 40,960 bytes: %d writes, %d syncs, both nodes and the making of their files with them\n", w, s }' "$work/calls"
fi
[ -s "$work/report" ] || "$program" "$work/one.d" run < "$work/one" > "$work/report" || exit 1
echo "pages of the repository: $(perl -e 'local $/ = \4096; open F, "<", $ARGV[0]; while (<F>) { $n++ if substr($_, 0, 1) eq "\xa5" } print $n' "$work/one.d/repository-1-0")"

mkdir "$work/data"
truncate -s $((4096 * (24 * acts + 100))) "$work/data/repository-1-0" "$work/data/broker-1-0"
TIMEFORMAT='%R %U %S'
{ time "$program" "$work/data" run --messages 1000000 < "$work/many" > "$work/report"; } 2> "$work/time" || exit 1
grep -aq "^totals acts $acts committed $acts " "$work/report" || { grep -a '^totals' "$work/report"; exit 1; }
awk -v acts="$acts" '{ printf "swallow: %d acts in %.2f s, %d microseconds of processor an act\n", acts, $1, ($2 + $3) * 1000000 / acts }' "$work/time"
echo "report: $(stat -c %s "$work/report") bytes"

cat > "$work/changes.py" <<'P'
import sqlite3, sys
base = sqlite3.connect(sys.argv[1], isolation_level=None)
base.execute("pragma journal_mode = wal")
base.execute("pragma synchronous = full")
base.execute("create table objects (number integer primary key, value text)")
text = "0123456789" * 6144
for i in range(int(sys.argv[2])):
    base.execute("begin immediate")
    base.execute("insert or replace into objects values (?, ?)", (i % 64, text))
    base.execute("commit")
P
{ time python3 "$work/changes.py" "$work/timed.db" "$acts"; } 2> "$work/time" || exit 1
awk -v acts="$acts" '{ printf "SQLite: %d commits in %.2f s, %d microseconds of processor a commit\n", acts, $1, ($2 + $3) * 1000000 / acts }' "$work/time"
echo "load: $(cut -d' ' -f1-3 /proc/loadavg)" >&2
