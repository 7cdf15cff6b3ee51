#!/usr/bin/env bash
# Brings about what COMMANDS and OPERATIONS have a remedy for, and carries the remedy out. What is wanted is worked out by
# hand from these pages. (docs.sh runs the remedies that the pages show as sessions, storage.sh those for lost volumes and
# files that grow, real.sh those for the system's refusals.) It ends with a count, and with status 0 if all was right.
top="$(cd "$(dirname "${BASH_SOURCE[0]}")/.." && pwd)" || exit 1
work=$(mktemp -d -p /dev/shm 2> /dev/null || mktemp -d) || exit 1
trap 'rm -rf "$work"' EXIT
cd "$work" || exit 1
right=0 wrong=0
shopt -s lastpipe # so that a check at the end of a pipe counts

# Runs `swallow WORD ..` with standard input: it has to have this status, and to print this text on one of its outputs.
check() {
  local what=$1 status=$2 text=$3 got
  timeout 120 "$top/swallow" "${@:4}" > said 2>&1
  got=$?
  if [ "$got" -ne "$status" ]; then
    echo "WRONG $what: status $got, and not $status: $(tail -n 2 said)"
  elif ! grep -qF -- "$text" said; then
    echo "WRONG $what: no '$text' in: $(tail -n 5 said)"
  else
    right=$((right + 1))
    return
  fi
  wrong=$((wrong + 1))
}

# The plan of a run, over so many repositories, of these acts: each the words after `act`, then its statements, each after `;`.
plan() {
  printf 'swallow plan 1\nrun %s\nrepositories %s\nbrokers 3\n' "$1" "$2"
  shift 2
  printf '%s\n' "$@" | sed 's/^/act /; s/; */\n/g; s/$/\ndone/'
}

write='broker 1 home 1 timeout 5 tries 3; write 1.1 10'
other='broker 1 home 1 timeout 5 tries 3; write 1.1 20'

# When a run is refused.
plan 1 1 "$write" | check "a first run" 0 "final 1.1 10" refused run
plan 1 1 "$other" | check "another plan of the run" 2 "swallow: other plan act 1" refused run
plan 2 1 "$other" | check "its number raised" 0 "final 1.1 20" refused run
plan 1 1 "$write" | check "an older run" 2 "swallow: old run 2" refused run
plan 3 1 "$write" | check "its number raised above" 0 "final 1.1 10" refused run
plan 4 1 "$other" > next.plan
cat next.plan - <<< "act broker 1 home 1 timeout 5 tries 3 clok 9" | check "a line that isn't in the language" 2 "swallow: plan line 8 act" refused run
check "it left the folder as it was" 0 "final 1.1 20" refused run < next.plan

# Totals and the archive: undecided, last clock, a damaged volume of totals.
for folder in settled again below; do
  check "a run that is cut off" 5 "committed 1 withdrawn 0 failed 0 refused 0 expired 0 spent 0 open 1" "$folder" run --messages 17 < "$top/examples/settle/two.plan"
  check "its map" 8 "swallow: undecided 2.1 1.1.1/2" "$folder" asof 2 9
  check "its retirement" 8 "swallow: undecided 2.1 1.1.1/2" "$folder" retire 2 9
done
check "a settle" 0 "repository 2 committed 1 aborted 0 open 0" settled settle 2
check "the map after a settle" 0 "value 2.1 100" settled asof 2 9
check "the plan again" 0 "open 0" again run < "$top/examples/settle/two.plan"
check "the map after it" 0 "value 2.1 100" again asof 2 9
check "a map below the attempt" 0 "asof repository 2 mark 1.1.1/1" below asof 2 1
check "a retirement after a settle" 0 "retired repository 2 volume 1" settled retire 2 9

plan 1 1 "broker 1 home 1 timeout 5 tries 1 clock 1099511627775; write 1.1 1" | check "an act with the last clock" 0 "committed 1" last run
check "a snapshot above it" 8 "swallow: last clock" last snapshot
check "a snapshot with a clock" 0 "snapshot mark 9.1.1/1" last snapshot 9

plan 1 1 "$write" "$other" | check "two versions" 0 "committed 2" totals run
check "their total" 0 "total 1.1 2.1.1/1 30" totals watch 1 sum
printf '\377' | dd of=totals/repository-1-1002 bs=1 seek=5 conv=notrunc 2> /dev/null
check "a damaged volume of totals" 6 "down watch 1 damaged 0" totals watch 1 sum
rm totals/repository-1-1002
check "the totals again over an empty file" 0 "total 1.1 2.1.1/1 30" totals watch 1 sum

# After a run that was cut off: the home isn't among the repositories that settle.
plan 1 3 "broker 1 home 3 timeout 1000 tries 3; write 1.1 5" | check "a run that stops before its decision" 5 "open 1" home run --messages 5
check "a settle without the home" 5 "open 1.1 1.1.3/1 home 3" home settle 2
check "a settle with it" 5 "open 1.1 1.1.3/1 deadline" home settle 3

# When a node is down: damage and a copy, a full file and more pages.
plan 1 1 "$write" | check "a run to copy" 0 "final 1.1 10" copied run
cp -a copied copy
printf '\377' | dd of=copied/repository-1-0 bs=1 seek=5 conv=notrunc 2> /dev/null
check "a damaged page" 6 "down repository 1 damaged 0" copied history 1.1
rm -r copied && cp -a copy copied
check "the copy in its place" 0 "version 1.1.1/1 committed 10" copied history 1.1
mkdir full && truncate -s $((4096 * 3)) full/repository-1-0
plan 1 1 "$write" "$other" > two.plan
check "a full file" 6 "down repository 1 full 3" full run < two.plan
truncate -s $((4096 * 60000)) full/repository-1-0
check "the plan again, with 60,000 pages" 0 "final 1.1 20" full run < two.plan

# When a retirement is refused; after one, an act with one try.
check "a retirement" 0 "retired repository 1 volume 1 mark 5.1.1/1" totals retire 1 5
check "the same again" 8 "swallow: old mark 5.1.1/1" totals retire 1 5
check "a retirement at a greater clock" 0 "retired repository 1 volume 2 mark 6.1.1/1" totals retire 1 6
once='home 1 timeout 5 tries 1'
plan 2 1 "broker 2 $once; read x 1.1" | check "a read with one try, below the mark" 0 "refused later-read 1.1 6.1.1/1" totals run
plan 3 1 "broker 2 $once clock 7; read x 1.1" | check "one above it" 0 "committed 1" totals run
plan 4 1 "broker 3 home 1 timeout 5 tries 2; write 1.1 1" | check "a write with two tries, below a version and the mark" 0 "refused 1" totals run
plan 5 1 "broker 2 home 1 timeout 5 tries 1 clock 8; write 1.1 1" | check "a write above it" 0 "final 1.1 1" totals run

# What a report can't know: a broker's file that was lost.
plan 1 1 "$write" | check "a run whose broker is lost" 0 "final 1.1 10" broker run
rm broker/broker-1-0
plan 2 1 "$other" | check "its acts stay open" 5 "open 1" broker run --ticks 5
plan 3 1 "broker 1 home 1 timeout 5 tries 3 clock 9; write 1.1 20" | check "an act with a greater clock" 0 "final 1.1 20" broker run

# Warnings, each of a plan in a file, and what to do so that there is none. Runs `swallow WORD ..` with the plan of the lines
# on standard input: its status, and all that standard error has.
says() {
  local what=$1 status=$2 text=$3 got
  cat > given.plan
  timeout 120 "$top/swallow" "${@:4}" < given.plan > said 2> error
  got=$?
  if [ "$got" -eq "$status" ] && [ "$(cat error)" = "$text" ]; then
    right=$((right + 1))
  else
    echo "WRONG $what: status $got, and not $status; says '$(cat error)', and not '$text'"
    wrong=$((wrong + 1))
  fi
}

unset="swallow: warning: line 7: 'balanse' is set nowhere in its script, so its value is nothing"
plan 1 1 'broker 1 home 1 timeout 5 tries 3; read balance 1.1; write 1.1 balanse' | says "a misspelt name" 0 "$unset" warned run
plan 1 1 'broker 1 home 1 timeout 5 tries 3; read balance 1.1; write 1.1 balanse' | says "the same with --quiet" 0 "" warned run --quiet
plan 2 1 'broker 1 home 1 timeout 5 tries 3; read balance 1.1; write 1.1 balance' | says "the name as it is" 0 "" warned run
plan 3 1 'broker 1 home 1 timeout 5 tries 3; write 1.1 given(given(balanse, nothing), nothing)' | says "a name that is meant to be nothing" 0 "" warned run
plan 4 1 'broker 1 home 1 timeout 5 tries 3; let a = "balanse" & "\""; repeat len(a); let b1 = given(b1, 0) + 1; end; write 1[b1] a' |
  says "texts, words of the language and names that are set" 0 "" warned run
opens='home 1 timeout 5 tries 3; write 1.1 100' adds='home 1 timeout 5 tries 3; read a 1.1; write 1.1 given(a, 0) + 1'
order="swallow: warning: act 1 (broker 1) writes 1.1, and act 2 (broker 2) reads it: they run at the same time. For an order, give both to one broker, or take two runs"
plan 1 1 "broker 1 $opens" "broker 2 $adds" | says "an order that isn't kept" 0 "$order" order run
plan 2 1 "broker 1 $opens" "broker 1 $adds" | says "one broker" 0 "" order run
check "its order" 0 "final 1.1 101" order run < given.plan
plan 3 1 "broker 1 $opens" | says "two runs: the first" 0 "" order run
plan 4 1 "broker 2 ${adds/tries 3/tries 3 clock 9}" | says "two runs: the second" 0 "" order run
check "their order" 0 "final 1.1 101" order run < given.plan
plan 5 1 "broker 1 $adds" "broker 2 $adds" | says "acts that read what they write" 0 "" order run
plan 1 1 "broker 1 $opens" | says "a folder to retire" 0 "" mark run
: | says "a retirement above all clocks" 0 "swallow: warning: clock 9 is above all that the folder has (2 is enough). Each try below it will be refused at repository 1" mark retire 1 9
plan 1 1 "broker 1 $opens" | says "another folder to retire" 0 "" enough run
: | says "a retirement at the clock that is enough" 0 "" enough retire 1 2
plan 2 1 "broker 1 $adds" | says "a run after it" 0 "" enough run
check "it isn't refused" 0 "committed 1 withdrawn 0 failed 0 refused 0" enough run < given.plan

# An overflow: other rules still work.
plan 1 1 'broker 1 home 1 timeout 5 tries 3; write 1.1 9223372036854775807' 'broker 1 home 1 timeout 5 tries 3; write 1.1 1' |
  check "two large versions" 0 "committed 2" large run
check "their sum" 8 "swallow: overflow 1.1 2.1.1/1" large watch 1 sum
check "their count" 0 "total 1.1 2.1.1/1 2" large watch 1 count
check "the last one" 0 "total 1.1 2.1.1/1 1" large watch 1 last

# Votes: two members down, and back.
echo "swallow votes 1
poll 1.1.1 timeout 5 commit" > polls
mkdir -p votes/repository-1-1010 votes/repository-2-1010
check "a poll with two members down" 6 "poll 1 1.1.1 open" votes votes --ticks 5 < polls
rmdir votes/repository-1-1010 votes/repository-2-1010
check "the same input again" 0 "poll 1 1.1.1 committed" votes votes < polls

echo "$right right, $wrong wrong"
[ "$wrong" -eq 0 ]
