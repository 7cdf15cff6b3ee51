#!/usr/bin/env bash
# What a run leaves in doubt, over files: after examples/homes.plan, and after as many acts as the first word says
# (1,000) that write at one repository and are decided at another, `asof`, `audit`, `watch` and `retire` answer for each
# repository; and a repository learns all of it in one append. Ends with a count, and with status 0 where all were right.
top="$(cd "$(dirname "${BASH_SOURCE[0]}")/.." && pwd)" || exit 1
work=$(mktemp -d -p /dev/shm) || exit 1
trap 'rm -rf "$work"' EXIT
. "$top/release/start.sh" && find_program swallow_main || exit 1
acts=${1:-1000}
right=0 wrong=0

# Whether what was wanted came: what it is, what came, what was wanted.
is() {
  if [ "$2" == "$3" ]; then
    right=$((right + 1))
  else
    wrong=$((wrong + 1))
    echo "WRONG $1: '$2', and not '$3'"
  fi
}

# The text and the status of a call over the folder $1.
told() {
  "$program" "$work/$1" "${@:2}" 2>> "$work/said"
  echo "status $?"
}

# The pages of a file that are written to their end: their first byte is the gate.
gated() {
  python3 - "$1" << 'P'
import sys
pages = open(sys.argv[1], "rb").read()
print(sum(pages[at] == 0xA5 for at in range(0, len(pages), 4096)))
P
}

"$program" "$work/homes" run < "$top/examples/homes.plan" > "$work/report" 2>> "$work/said"
is "the run of examples/homes.plan" $? 0
# Worked out from the scripts: act 3, at 2.1.2, takes 30 from 1.1 and gives them to 3.1.
is "the map of 1" "$(told homes asof 1 9)" "$(printf 'asof repository 1 mark 9.1.1/1\nvalue 1.1 70\nstatus 0')"
is "the map of 2" "$(told homes asof 2 9)" "$(printf 'asof repository 2 mark 9.1.1/1\nvalue 2.1 100\nstatus 0')"
is "the map of 3" "$(told homes asof 3 9)" "$(printf 'asof repository 3 mark 9.1.1/1\nvalue 3.1 130\nstatus 0')"
for repository in 1 2 3; do
  is "what is undecided in $repository" "$(told homes audit "$repository.1" | grep -c undecided)" 0
  is "a watch of $repository" "$(told homes watch "$repository" sum | tail -n 1)" "status 0"
  is "a retirement of $repository" "$(told homes retire "$repository" 9 | tail -n 1)" "status 0"
done

# One broker, whose acts write blindly at repository 2 and are decided at repository 1: each costs repository 2 one page,
# and no read tells it how any of them was decided.
awk -v acts="$acts" 'BEGIN {
  print "swallow plan 1\nrun 1\nrepositories 2\nbrokers 1"
  for (i = 1; i <= acts; i++) printf "act broker 1 home 1 timeout 1000 tries 3\nwrite 2.%d %d\ndone\n", i, i
}' > "$work/plan"
mkdir "$work/many"
for name in repository-1-0 repository-2-0 broker-1-0; do
  truncate -s $((4096 * (6 * acts + 200))) "$work/many/$name"
done
"$program" "$work/many" run --messages 1000000 < "$work/plan" > "$work/report" 2>> "$work/said"
is "the run of $acts acts" $? 0
is "what is undecided after it" "$(told many audit 2.1 | grep -c undecided)" 0
is "the values after it" "$(told many asof 2 1099511627775 | grep -c '^value ')" "$acts"
pages=$(gated "$work/many/repository-2-0")
# A Learn has 12 bytes: its byte, the stamp in 10 bytes, and how it was decided. Its effects follow one another in pages of 4,091 bytes.
learns=$(((acts + 4091 / 12 - 1) / (4091 / 12)))
is "the pages of repository 2" "$pages" "$((acts + learns))"
# The same plan again settles nothing: all is known.
"$program" "$work/many" run --messages 1000000 < "$work/plan" > "$work/report" 2>> "$work/said"
is "the same plan again" $? 0
is "the pages of repository 2 after that" "$(gated "$work/many/repository-2-0")" "$pages"

echo "$right right, $wrong wrong: $acts acts cost repository 2 $pages pages, of which $learns say how they were decided"
[ "$wrong" -eq 0 ]
