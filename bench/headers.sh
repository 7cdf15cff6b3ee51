#!/usr/bin/env bash
# Times histories in version storage: 33,333 attempts, 100,000 effects, over one object, 64 and 10,000. The table is made
# over a medium in memory, and beside it histories that keep all in memory; then 100,000 reads see the newest version of
# their object, 1 and 8 versions back. Over a file it counts the pages that 1,000 such reads read. The program
# (bench/swallow_bench) is built first.
top="$(cd "$(dirname "${BASH_SOURCE[0]}")/.." && pwd)" || exit 1
made="$(mktemp -d)" || exit 1
trap 'rm -r "$made"' EXIT
. "$top/bench/checked.sh" && bench_program swallow_bench || exit 1
cc -O2 -o "$made/measure" "$top/bench/measure.c" || exit 1

# Milliseconds, megabytes and reading calls of a run with these words.
measured() {
  "$made/measure" "$made/used" "$bench" headers "$@" > /dev/null || exit 1
  awk '{ printf "%d %.1f %d", $1 * 1000, $2 / 1024, $3 }' "$made/used"
}

attempts=33333
echo "objects  kept  made in ms  MB  nanoseconds a read: newest, 1 back, 8 back"
for objects in 1 64 10000; do
  for place in memory plain; do
    reads=100000
    # Each read of histories in memory goes over the versions of its object.
    [ "$place$objects" = plain1 ] && reads=1000
    read -r base room _ <<< "$(measured "$place" "$attempts" "$objects" 0 0)"
    line="$objects  $place  $base  $room "
    for back in 0 1 8; do
      [ $((back * objects)) -lt "$attempts" ] || continue
      read -r all _ <<< "$(measured "$place" "$attempts" "$objects" "$reads" "$back")"
      line="$line $(((all - base) * 1000000 / reads))"
    done
    echo "$line"
  done
done

echo "objects  versions back  pages a read, over a file"
attempts=10000
for objects in 1 64 1000; do
  mkdir "$made/$objects"
  measured "$made/$objects" "$attempts" "$objects" 0 0 > /dev/null
  read -r _ _ base <<< "$(measured "$made/$objects" "$attempts" "$objects" 0 0)"
  for back in 0 1 8; do
    read -r _ _ all <<< "$(measured "$made/$objects" "$attempts" "$objects" 1000 "$back")"
    echo "$objects  $back  $(awk "BEGIN { print ($all - $base) / 1000 }")"
  done
done
uptime >&2
