#!/usr/bin/env bash
# Runs plans of 30, 100 and 300 acts of ten statements each, every run on a fresh folder, and prints acts
# per second and the memory of the run beside the size of its plan. It is the program that ./swallow starts.
top="$(cd "$(dirname "${BASH_SOURCE[0]}")/.." && pwd)" || exit 1
work=$(mktemp -d) || exit 1
trap 'rm -rf "$work"' EXIT
. "$top/release/start.sh" && find_program swallow_main || exit 1
cc -O2 -o "$work/measure" "$top/bench/measure.c" || exit 1

plan() {
  printf 'swallow plan 1\nrun 1\nrepositories 1\nbrokers 1\n'
  awk -v acts="$1" 'BEGIN {
    for (i = 1; i <= acts; i++) {
      print "act broker 1 home 1 timeout 5 tries 3"
      print "read a 1." i % 64
      print "read b 1." (i + 7) % 64
      print "let s = given(a, 0) + given(b, 0)"
      print "let s = s mod 1000 + 1"
      print "write 1." i % 64 " s"
      print "if s > 500"
      print "write 1." (i + 7) % 64 " s - 500"
      print "end"
      print "let t = text(s)"
      print "print t"
      print "write 1." (i + 13) % 64 " t & \"!\""
      print "write 1." (i + 13) % 64 " len(t)"
      print "done"
    }
  }'
}

echo "acts    milliseconds  acts per second  plan bytes  memory bytes  ratio"
for acts in 30 100 300; do
  plan "$acts" > "$work/plan"
  for turn in 1 2 3; do
    rm -rf "$work/data"
    begin=$(date +%s%N)
    "$program" "$work/data" run < "$work/plan" > "$work/report" || exit 1
    end=$(date +%s%N)
    rm -rf "$work/data"
    "$work/measure" "$work/used" "$program" "$work/data" run < "$work/plan" > /dev/null || exit 1
    read -r _ kilobytes < "$work/used"
    size=$(wc -c < "$work/plan")
    awk "BEGIN { t = ($end - $begin) / 1000000; printf \"%-6d  %12.1f  %15.0f  %10d  %12d  %5.1f\\n\", $acts, t, $acts * 1000 / t, $size, $kilobytes * 1024, $kilobytes * 1024 / $size }"
  done
done
uptime >&2
