#!/usr/bin/env bash
# Refuses each allocation of a run in turn (refuse.c), and runs again over the media that were handed back (torture/memory): one act;
# two brokers, of which one is refused a write; one act whose repository stops in the middle of a page; and three acts
# over three repositories. The program is built with checks of each index and sum (checked.sh). Prints for each run how many
# allocations it has, and what came of those that were refused: status 0, the report as if none had been; 7, memory is wanting; 9, a medium or the sink
# in memory failed; 8, the program itself gave up. In 0, 7 and 9 the second run had its finals. Each other end is told. The first run
# is then made by the proved program over files, once for each allocation, and each time again with all memory: how often each
# status came is told, and where the second run hadn't its acts. The word says how many processes share the numbers, or 1.
top="$(cd "$(dirname "${BASH_SOURCE[0]}")/.." && pwd)" || exit 1
made="$(mktemp -d)" || exit 1
trap 'rm -rf "$made"' EXIT
. "$top/bench/checked.sh" || exit 1
build_checked memory "$made" quick || exit 1
. "$top/release/start.sh" && find_program swallow_main || exit 1
cc -O2 -Wall -shared -fPIC -o "$made/refuse.so" "$top/torture/refuse.c" || exit 1
count=${1:-1}

# Each number from $2 to $3 by steps of $4, each in a run of $1: a line each with its number, status and what was written.
refused() {
  local number said
  for ((number = $2; number <= $3; number += $4)); do
    said=$(env -i LD_PRELOAD="$made/refuse.so" REFUSED="$number" timeout 60 "$made/program" < "$1" 2>&1)
    echo "$number $? ${said//$'\n'/ }"
  done
}

wrong=0
# The run of a plan with these words, as often as it has allocations.
run() {
  local most first
  { echo "$2"; cat "$3"; } > "$made/input"
  most=$(sed '1s/^/first /' "$made/input" | env -i LD_PRELOAD="$made/refuse.so" COUNTED=1 "$made/program" 2>&1 | tail -n 1)
  for ((first = 1; first <= count; first++)); do
    refused "$made/input" "$first" "$most" "$count" > "$made/ends-$first" &
  done
  wait
  sort -n "$made"/ends-* > "$made/ends"
  rm "$made"/ends-*
  echo "$1: $most allocations, $(awk '{ ends[$2]++ } END { for (end in ends) print "status " end ": " ends[end] }' "$made/ends" | sort | paste -s -d ' ')"
  grep -v '^[0-9]* [0789] ' "$made/ends" | cut -c 1-2000 && wrong=1
  [ "$(wc -l < "$made/ends")" -eq "$most" ] || wrong=1
}

act='act broker 1 home 1 timeout 5 tries 3\n'
printf "swallow plan 1\nrun 1\nrepositories 1\nbrokers 2\n${act}write 1.1 5\ndone\nact broker 2 home 1 timeout 5 tries 3\nread a 1.1\ndone\n" > "$made/two"
run "one act" plain "$top/examples/first.plan"
run "two brokers" held "$made/two"
run "a torn page" torn "$top/examples/first.plan"
# Sums, since what each object comes to may not hang on which attempt is first.
printf "swallow plan 1\nrun 1\nrepositories 3\nbrokers 2\n" > "$made/three"
for act in '1 home 1 1.1 2.1 1' '2 home 3 2.1 3.1 10' '1 home 2 1.1 3.1 100'; do
  read -r broker _ home one other more <<< "$act"
  printf 'act broker %s home %s timeout 5 tries 9\nread a %s\nread b %s\nwrite %s given(a, 0) + %s\nwrite %s given(b, 0) + %s\ndone\n' \
    "$broker" "$home" "$one" "$other" "$one" "$more" "$other" "$more" >> "$made/three"
done
run "three repositories" plain "$made/three"

# The program over a folder, with what is set before it.
over() {
  env -i "$@" "$program" "$made/folder" run < "$top/examples/first.plan"
}
"$program" "$made/plain" run < "$top/examples/first.plan" | grep -v '^wire' > "$made/acts"
most=$(over LD_PRELOAD="$made/refuse.so" COUNTED=1 2>&1 > /dev/null | tail -n 1)
for ((number = 1; number <= most; number++)); do
  rm -rf "$made/folder"
  over LD_PRELOAD="$made/refuse.so" REFUSED="$number" > /dev/null 2>&1
  status=$?
  again=$(over 2>&1)
  second=$?
  grep -v '^wire' <<< "$again" | cmp -s - "$made/acts" && [ "$second" -eq 0 ] || echo "$number: status $status, and then $second: $again"
  echo "$status" >> "$made/statuses"
done > "$made/told"
echo "over files: $most allocations, $(sort "$made/statuses" | uniq -c | awk '{ print "status " $2 ": " $1 }' | paste -s -d ' ')"
cat "$made/told"
[ -s "$made/told" ] && wrong=1
exit "$wrong"
