#!/usr/bin/env bash
# What an act costs, against the bounds that were set, all in one run: beside a plain Rust program of the same rules
# over the same pages (peer.rs), beside a C program that makes the same syncs (syncs.c), over syncs of a
# millisecond with one and four workers (slow.c), the laboratory's load with losses, ten times as many acts, opening
# 100,000 effects (full.py), and memory. It is the programs that ./swallow and ./swallow_lab start.
top="$(cd "$(dirname "${BASH_SOURCE[0]}")/.." && pwd)" || exit 1
work=$(mktemp -d) || exit 1
memory=$(mktemp -d -p /dev/shm) || exit 1
trap 'rm -rf "$work" "$memory"' EXIT
. "$top/release/start.sh" && find_program swallow_lab || exit 1
lab="$program"
find_program swallow_main || exit 1
rustc --edition 2021 -O -o "$work/peer" "$top/bench/peer.rs" && cc -O2 -o "$work/syncs" "$top/bench/syncs.c" &&
  cc -O2 -shared -fPIC -o "$work/slow.so" "$top/bench/slow.c" && cc -O2 -o "$work/measure" "$top/bench/measure.c" || exit 1
few=${1:-1000}
many=$((few * 10))
turns=${2:-5}

plan() {
  printf 'swallow plan 1\nrun 1\nrepositories %d\nbrokers %d\n' "$2" "$2"
  awk -v acts="$1" -v nodes="$2" 'BEGIN {
    for (i = 0; i < acts; i++) {
      n = i % nodes + 1
      printf "act broker %d home %d timeout 1000 tries 3\nread a %d.%d\nwrite %d.%d given(a, 0) + 1\ndone\n", n, n, n, i % 64, n, i % 64
    }
  }'
}

# An empty folder $1 with files of room for $2 acts of each of $3 nodes.
folder() {
  rm -rf "$1"
  mkdir "$1"
  for node in $(seq "$3"); do
    truncate -s $((4096 * (5 * $2 + 100))) "$1/repository-$node-0" "$1/broker-$node-0"
  done
}

# Runs the words with the input $1: seconds, and processor seconds of the program and the system.
TIMEFORMAT='%R %U %S'
timed() {
  local input=$1
  shift
  { time "$@" < "$input" > "$work/report" 2> "$work/said"; } 2> "$work/time" || { tail -n 2 "$work/report"; exit 1; }
  awk '{ print $1, $2 + $3 }' "$work/time"
}

# The least of the second column ($1 2) or the first ($1 1) of the lines that come in.
least() {
  sort -g -k "$1,$1" | head -n 1 | cut -d' ' -f"$1"
}

run() {
  timed "$1" "$program" "$2" run --messages 1000000 "${@:3}"
}

plan "$few" 1 > "$work/few"
plan "$many" 1 > "$work/many"
plan "$few" 8 > "$work/eight"

echo "microseconds of processor an act, files in memory, least of $turns"
for name in few many; do
  acts=${!name}
  for turn in $(seq "$turns"); do
    folder "$memory/data" "$acts" 1
    run "$work/$name" "$memory/data" >> "$work/ours-$name"
    grep -q "acts $acts committed $acts " "$work/report" || exit 1
    cp "$work/report" "$work/ours"
    folder "$memory/data" "$acts" 1
    timed "$work/$name" "$work/peer" "$memory/data" >> "$work/theirs-$name"
    cmp "$work/ours" "$work/report" || exit 1
  done
  ours=$(least 2 < "$work/ours-$name") theirs=$(least 2 < "$work/theirs-$name")
  awk -v acts="$acts" -v ours="$ours" -v theirs="$theirs" 'BEGIN { printf "%-8d swallow %.0f, peer %.0f: %.2f times (wanted: 1.5)\n", acts, ours * 1e6 / acts, theirs * 1e6 / acts, ours / theirs }'
done
awk -v few="$(least 2 < "$work/ours-few")" -v many="$(least 2 < "$work/ours-many")" 'BEGIN { printf "ten times as many acts: %.2f times as much each (wanted: 1.1)\n", many / few / 10 }'

# The instructions of the words with the input $1, by callgrind: the same whatever else the machine does. Each byte
# that the C library moves with one string instruction would count as one, so it is told to use others.
counted() {
  GLIBC_TUNABLES=glibc.cpu.x86_rep_stosb_threshold=1000000000:glibc.cpu.x86_rep_movsb_threshold=1000000000 \
    valgrind --tool=callgrind --callgrind-out-file=/dev/null "${@:2}" < "$1" 2>&1 > /dev/null | awk '/Collected/ { print $4 }'
}

if command -v valgrind > /dev/null; then
  echo "instructions of an act of a read and a write, opening (a run of one act over the same files) apart"
  plan 1 1 > "$work/one"
  for name in one few; do
    folder "$memory/data" "$few" 1
    counted "$work/$name" "$program" "$memory/data" run --messages 1000000 > "$work/count-ours-$name"
    folder "$memory/data" "$few" 1
    counted "$work/$name" "$work/peer" "$memory/data" > "$work/count-theirs-$name"
  done
  awk -v acts="$few" -v o1="$(cat "$work/count-ours-one")" -v o="$(cat "$work/count-ours-few")" -v t1="$(cat "$work/count-theirs-one")" -v t="$(cat "$work/count-theirs-few")" 'BEGIN {
    ours = (o - o1) / (acts - 1); theirs = (t - t1) / (acts - 1)
    printf "swallow %.0f, peer %.0f: %.2f times (wanted: 2.0); one act with opening: swallow %.0f, peer %.0f\n", ours, theirs, ours / theirs, o1, t1 }'
fi

echo "seconds over a disk, least of $turns"
for turn in $(seq "$turns"); do
  folder "$work/data" "$few" 1
  run "$work/few" "$work/data" >> "$work/disk-ours"
  folder "$work/data" "$few" 1
  timed /dev/null "$work/syncs" "$work/data" "$few" >> "$work/disk-theirs"
done
awk -v ours="$(least 1 < "$work/disk-ours")" -v theirs="$(least 1 < "$work/disk-theirs")" 'BEGIN { printf "swallow %.2f, its syncs alone %.2f: %.2f times (wanted: 1.3)\n", ours, theirs, ours / theirs }'

echo "seconds of eight brokers and eight repositories, syncs of a millisecond"
for workers in 1 2 4; do
  folder "$memory/data" "$few" 8
  LD_PRELOAD="$work/slow.so" SYNC=1000 run "$work/eight" "$memory/data" --workers "$workers" > "$work/eight-$workers"
  echo "$workers workers $(cut -d' ' -f1 "$work/eight-$workers")"
done
awk -v one="$(cut -d' ' -f1 "$work/eight-1")" -v four="$(cut -d' ' -f1 "$work/eight-4")" 'BEGIN { printf "four workers %.2f times as fast as one (wanted: 2.5)\n", one / four }'

echo "seconds of the laboratory's load of 1,001 acts, one message in five lost, least of $turns"
for workers in 1 4; do
  for turn in $(seq "$turns"); do
    timed /dev/null "$lab" --pages 8192 --lose 5 --stop 0 --words "load 7 1000 --workers $workers --ticks 100000 --messages 1000000" >> "$work/load-$workers"
  done
  echo "$workers workers $(least 1 < "$work/load-$workers")"
done

echo "opening 100,000 effects, least of $turns"
rm -rf "$memory/data"
mkdir "$memory/data"
python3 "$top/bench/full.py" "$memory/data/repository-1-0" 100000
for turn in $(seq "$turns"); do
  timed /dev/null "$program" "$memory/data" history 1.7 >> "$work/opening"
done
echo "$(least 1 < "$work/opening") s, $(least 2 < "$work/opening") of processor (wanted: 0.1)"

folder "$memory/data" "$many" 1
"$work/measure" "$work/used" "$program" "$memory/data" run --messages 1000000 < "$work/many" > "$work/report"
echo "memory of a run of $many acts: $(awk '{ printf "%.1f", $2 / 1024 }' "$work/used") MB (wanted: 40)"
uptime
