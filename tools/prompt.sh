#!/usr/bin/env bash
# What a person reads: help, which word of a command line or which line of a plan is faulty and what was expected there, and at
# a terminal usage and what a run waits for.
# The terminal is that of `script` (util-linux). It ends with a count, and with status 0 if all was right.
top="$(cd "$(dirname "${BASH_SOURCE[0]}")/.." && pwd)" || exit 1
work=$(mktemp -d) || exit 1
trap 'rm -rf "$work"' EXIT
cd "$work" || exit 1
ln -s "$top/swallow" "$top/swallow_lab" "$top/swallow_look" "$top/examples" .
right=0 wrong=0

# Runs a command, at a terminal if the first word is `terminal`: its status, a part of what it prints, or with `not` what it
# must not print.
check() {
  local how=$1 command=$2 wanted=$3 part=$4 status
  if [ "$how" = terminal ]; then
    timeout 60 script -qec "$command" /dev/null < /dev/null > said 2>&1
  else
    timeout 60 bash -c "$command" > said 2>&1 < /dev/null
  fi
  status=$?
  if [ "$status" -ne "$wanted" ]; then
    echo "WRONG $how '$command': status $status, and not $wanted"
  elif [ "${5-}" = not ] && grep -qF -- "$part" said; then
    echo "WRONG $how '$command': prints '$part'"
  elif [ "${5-}" != not ] && ! grep -qF -- "$part" said; then
    echo "WRONG $how '$command': no '$part' in: $(head -c 300 said)"
  else
    right=$((right + 1))
    return
  fi
  wrong=$((wrong + 1))
}

help='./swallow FOLDER run [OPTIONS] < PLAN'
for words in '' help -h --help 'data --help' 'data run --help' 'data history -h'; do
  check pipe "./swallow $words" 0 "$help"
done
check pipe './swallow_lab' 0 './swallow_lab --pages P'
check pipe './swallow_lab --help' 0 './swallow_lab --pages P'
check pipe './swallow_lab --pages 64 --lose 0 --stop 0 --words --help' 1 'swallow_lab: words'
check pipe './swallow_look -h' 0 './swallow_look FOLDER'
check pipe './swallow --version' 0 'release/swallow: commit'

# Words that aren't a command: in a pipe the program's line and what is wrong, usage too at a terminal.
for words in 'data run my.plan' 'data run --workers=2' 'data history 17.1' 'data help' 'data' 'data asof 1' 'data retire 0 1' 'data RUN'; do
  check pipe "./swallow $words" 1 'swallow: words'
  check pipe "./swallow $words" 1 "aren't a command" not
done
if command -v script > /dev/null; then
  check terminal './swallow data run my.plan' 1 "$help"
  check terminal './swallow data run --workers=2' 1 '--workers W'
  check terminal './swallow data history 17.1' 1 './swallow FOLDER history OBJECT'
  check terminal './swallow data history 17.1' 1 './swallow FOLDER asof' not
  check terminal './swallow data help' 1 './swallow FOLDER asof'
  check terminal './swallow data run < examples/first.plan' 0 'committed 1'
  check terminal './swallow data run < examples/first.plan' 0 'release' not
  check terminal 'head -n 4 examples/first.plan | sed "s/run 1/run 2/" | ./swallow data run && ./swallow data run < examples/first.plan' 2 "raise the number of 'run'"
  check terminal './swallow fresh run' 2 "'run' reads from the terminal"
  check terminal './swallow fresh votes' 2 "'votes' reads from the terminal"
  check terminal './swallow fresh session' 2 'swallow> '
  check terminal './swallow fresh session < examples/sessions/first.session' 2 'swallow> ' not
  check terminal './swallow five run --messages 3 < examples/first.plan' 5 'run the same again'
  check terminal './swallow five run < examples/first.plan' 0 'committed 1'
  check terminal './swallow five replay twice' 1 './swallow FOLDER replay [--values]'
  check terminal './swallow five settle' 1 './swallow FOLDER settle N'
  check terminal 'sed "s/timeout 1 /timeout 1000 /" examples/settle/two.plan | ./swallow doubt run --messages 17; ./swallow doubt settle 2' 5 "each line 'open' says"
  check terminal './swallow doubt settle 2' 5 'run the same again' not
  check terminal 'mkdir -p six/broker-1-0 && ./swallow six run < examples/first.plan' 6 'docs/OPERATIONS.md'
  check terminal './swallow data retire 1 9' 70 "Nothing was done: add '--yes' if this is wanted"
  check terminal './swallow data retire 1 9 --yes && ./swallow data retire 1 9 --yes' 8 "'old mark': take a greater clock"
  check terminal './swallow data retire 1 9 < /dev/null' 8 'swallow: warning: clock 9 is above all'
  check terminal './swallow doubt asof 1 99' 8 "'undecided': 'settle' the repositories"
else
  echo "skipped: a terminal (script isn't here)"
fi

# Compares what a command writes to standard error, and its status, with what is wanted.
said_to() {
  local status
  if [ "$2" -ne "$3" ]; then
    echo "WRONG '$1': status $2, and not $3"
  elif [ "$(cat error)" != "$4" ]; then
    echo "WRONG '$1': says '$(head -c 400 error)', and not '$4'"
  else
    right=$((right + 1))
    return
  fi
  wrong=$((wrong + 1))
}

# Faulty words: which word is wrong, and what was expected there. The program's own line goes to standard output.
object="expected an object, REPOSITORY.NUMBER, with a repository from 1 to 16, such as 1.7"
clock="expected a clock, 1 to 1099511627775"
while IFS='|' read -r words wanted; do
  ./swallow $words > said 2> error < /dev/null
  said_to "$words" $? 1 "swallow: $wanted"
done << TABLE
data|a command is missing after the folder 'data', such as 'run' or 'history 1.7'
data run my.plan|'my.plan': 'run' reads standard input: ./swallow data run < my.plan
data votes my.polls|'my.polls': 'votes' reads standard input: ./swallow data votes < my.polls
data run --workers=2|'--workers=2': write '--workers 2', with a space
data run --tick=5|'--tick=5': write '--ticks 5', with a space
data run --worker 2|'--worker' is no option of 'run': did you mean '--workers'?
data run -w 2|'-w' is no option of 'run'
data run --workers|after '--workers': expected a number of threads, 1 to 16
data run --workers 17|after '--workers': expected a number of threads, 1 to 16, and not '17'
data run --ticks -1|after '--ticks': expected a number of Ticks, 0 to 1000000, and not '-1'
data run --ticks 5 --ticks 6|'--ticks' is given twice
data run --messages 0|after '--messages': expected a number of messages, 1 to 1000000, and not '0'
data votes --workers 2|'--workers': 'votes' has one thread
data load 7|after 'load' a word is missing: expected a number
data load seven 2|'seven': expected a number
data load 7 2 more|'more' is no option of 'load'
data history|after 'history' a word is missing: $object
data history 17.1|'17.1': $object
data history 1|'1': $object
data history 1.7 8|'8': 'history' takes no more words
data audit x.1|'x.1': $object
data RUN|'RUN' is no command: did you mean 'run'?
data histroy 1.7|'histroy' is no command: did you mean 'history'?
data snapshots|'snapshots' is no command: did you mean 'snapshot'?
history 1.7|the folder comes first: ./swallow FOLDER history 1.7
data asof 1|after 'asof' a word is missing: $clock
data asof 0 4|'0': expected the number of a repository, 1 to 16
data asof 1 0|'0': $clock
data retire 1 2 3|'3': 'retire' takes no more words
data watch 1 average|'average': expected a rule: count, sum or last
data snapshot now|'now': $clock
data settle 17|'17': expected how many repositories, 1 to 16
data run --yes|'--yes' is no option of 'run'
data history 17.1 --quiet|'17.1': $object
data --quiet|'--quiet' is no command: expected one of run load session history retire watch asof audit snapshot settle replay votes
TABLE

# Faulty plans: the first faulty line, and what was expected there. It stands in the place of line 6 of this plan, or of another.
plan='swallow plan 1|run 1|repositories 1|brokers 1|act broker 1 home 1 timeout 5 tries 3|write 1.7 10|done'
statement="swallow: expected \`let N = E\`, \`read N O\`, \`write O E\`, \`print E\`, \`if E\`, \`else\`, \`repeat E\`, \`end\` or \`withdraw\`"
act="swallow: expected \`act broker B home H timeout T tries N\`, with \`clock C\` after it or not, and B and H of this plan"
while IFS='|' read -r number line wanted; do
  tr '|' '\n' <<< "$plan" | sed "${number}s/.*/$line/" | ./swallow faulty run > said 2> error
  said_to "plan line $number: $line" $? 2 "swallow: line $number: $line
$wanted"
done << TABLE
1|swallow plan 2|swallow: expected \`swallow plan 1\`, the first line of a plan
2|run 0|swallow: expected \`run N\` with a number from 1 to 4,294,967,295
3|repositories 17|swallow: expected \`repositories R\` with a number from 1 to 16
4|broker 1|swallow: expected \`brokers B\` with a number from 1 to 16
5|act broker 2 home 1 timeout 5 tries 3|$act
6|write 1.7 10 +|$statement
6|wrte 1.7 10|$statement
6|write 1.7 §|swallow: a character or a word here has no meaning in a script
6|write 2.7 10|swallow: a number, a text, a name or an object here is outside its limits, or the plan has no such repository
6|end|swallow: expected \`end\` for each \`if\` and \`repeat\` before \`done\`, and \`else\` once between an \`if\` and its \`end\`
TABLE
check pipe 'head -n 6 examples/first.plan | ./swallow faulty run' 2 'expected `done`, which ends the script of an act'
check pipe 'ls faulty' 2 'faulty'

# What the finals of a report lack: the objects of a repository that the plan doesn't have, and what attempts wrote whose home can't be opened.
two='swallow plan 1|run 1|repositories 2|brokers 1|act broker 1 home 2 timeout 5 tries 3|write 1.5 7|write 2.5 8|done'
tr '|' '\n' <<< "$two" | ./swallow parts run > said 2> error
said_to 'a plan of both repositories' $? 0 ''
cp -r parts whole
tr '|' '\n' <<< 'swallow plan 1|run 2|repositories 1|brokers 1' | ./swallow parts run > said 2> error
said_to 'a plan of one of two repositories' $? 0 "swallow: repository 2 of the folder isn't in this plan, so the finals lack its objects, and may lack what attempts with this home wrote"
rm whole/repository-2-0 && mkdir whole/repository-2-0
tr '|' '\n' <<< "$two" | ./swallow whole run > said 2> error
said_to 'a repository that is no file' $? 6 "swallow: whole/repository-2-0: no regular file
swallow: repository 2 couldn't be opened, so no act was run, and the finals lack what attempts with this home wrote"
if grep '^final' said; then
  echo "WRONG finals though their home can't be opened"
  wrong=$((wrong + 1))
else
  right=$((right + 1))
fi

echo "$right right, $wrong wrong"
[ "$wrong" -eq 0 ]
