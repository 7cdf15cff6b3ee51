#!/usr/bin/env bash
# What `./swallow test` runs, with no toolchain: the sums of release/, all examples and what the pages show (docs.sh), whether
# docs/CRATES.md is what the sources give (crates.sh) and what the pages cite is there (names.sh), the remedies that they give
# (remedies.sh), what the starter prints (prompt.sh), the system's mistakes (real.sh), 20 kills (kills.sh), 200 power cuts
# (cuts.sh), kills and cuts of settles (settles.sh), and sessions with kills (session.sh), some of them side by side. What
# can't be run here is skipped, with the reason. Its last line is `N passed, M failed`, and its status 0 if nothing failed.
top="$(cd "$(dirname "${BASH_SOURCE[0]}")/.." && pwd)" || exit 1
. "$top/release/start.sh" || exit 70
work=$(mktemp -d) || exit 1
trap 'rm -rf "$work"' EXIT
passed=0 failed=0

# Whether a command is there; else says what is skipped for want of it.
has() {
  command -v "$1" > /dev/null && return
  echo "skipped: $2 ($1 isn't here)"
  return 1
}

# A part that runs beside others: its name, and its command.
begin() {
  { "${@:2}" > "$work/$1" 2>&1; echo $? > "$work/$1.status"; } &
}

# Counts such a part by `N right, M wrong` in its last lines, or else as N by its status.
count() {
  local name=$1 by_status=$2 line right wrong
  line=$(grep '^[0-9]* right, [0-9]* wrong' "$work/$name" | tail -n 1)
  if [ -n "$line" ]; then
    right=${line%% right*} wrong=${line#*right, } wrong=${wrong%% wrong*}
  elif [ "$(cat "$work/$name.status")" -eq 0 ]; then
    right=$by_status wrong=0
  else
    right=0 wrong=1
  fi
  passed=$((passed + right)) failed=$((failed + wrong))
  if [ "$wrong" -ne 0 ]; then grep -v "^$line\$" "$work/$name" | tail -n 20; fi
  echo "$name: $right passed, $wrong failed"
}

# No program is built here, which would take hours.
for crate in swallow_main swallow_lab swallow_look; do
  name_program "$crate"
  sum_sources "$crate" || exit 70
  { compare_shipped && runs_shipped; } || is_built && continue
  [ -n "$differs" ] || differs="release/$name can't run on this system"
  say "$differs; './$name build' proves and builds one"
  exit 70
done

kills="" cuts="" sessions=""
has python3 "sessions, and kills of them" && sessions=50
has perl "the system's mistakes, and 20 kills" && kills=20
if has strace "power cuts" && has python3 "power cuts"; then
  if strace -o /dev/null true 2> /dev/null; then cuts=100; else echo "skipped: power cuts (strace may not trace here)"; fi
fi
begin sums "$top/tools/release.sh" check
begin pages "$top/tools/docs.sh"
begin crates "$top/tools/crates.sh" check
begin names "$top/tools/names.sh"
begin remedies "$top/tools/remedies.sh"
begin prompt "$top/tools/prompt.sh"
[ -z "$kills" ] || begin system "$top/torture/real.sh" 1
[ -z "$cuts" ] || begin cuts "$top/torture/cuts.sh" "$cuts"
[ -z "$cuts" ] || begin settles "$top/torture/settles.sh" 20
[ -z "$kills" ] || begin kills "$top/torture/kills.sh" "$kills"
[ -z "$sessions" ] || begin sessions "$top/torture/session.sh" "$sessions" 20
wait
count sums 1
count pages 1
count crates 1
count names 1
count remedies 1
count prompt 1
grep '^skipped' "$work/prompt"
if [ -n "$kills" ]; then
  grep 'left out\|^skip' "$work/system" | sed 's/^/system: /'
  count system 1
  count kills "$kills"
fi
[ -z "$cuts" ] || count cuts $((2 * cuts))
[ -z "$cuts" ] || count settles 40
[ -z "$sessions" ] || count sessions $((sessions + 20))
echo "$passed passed, $failed failed"
[ "$failed" -eq 0 ]
