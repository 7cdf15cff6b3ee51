#!/usr/bin/env bash
# Runs what the pages show and compares it: every example of examples/ with its report, and every command that
# README, TUTORIAL, LANGUAGE, COMMANDS and OPERATIONS show with its output. `tools/docs.sh PAGE ..` takes these pages
# alone. It ends with a count, and with status 0 if all was right. It is the program that ./swallow starts.
#
# In a page it finds the fenced blocks. Those of one page are run in order in one fresh folder, which has links to
# ./swallow, ./swallow_lab, ./swallow_look and examples/.
#   `$ COMMAND` as first line    a session: what each command prints on both outputs is compared with the lines after it
#   `./swallow` as first line    a list of commands, each with what it does after some spaces: run in order in a folder of
#                                its own, each with status 0, but for `build`, `test` and a `session` without input
#   plan FILE                    the text of a plan, or of polls: compared with FILE, or written to it if there is none
#   part FILE                    lines that are in FILE one after another
#   script, then transcript      a script, run alone as one act; the lines of its attempt
#   results                      `EXPRESSION  => VALUE` or `EXPRESSION  => fails KIND`
#   faults                       `STATEMENT  => KIND`: how a plan with this line is refused
# A block of another kind is an error: nothing is shown that isn't compared. In what is shown ` ..` at the end of a line
# stands for the rest of it, and a line `..` for any lines.
top="$(cd "$(dirname "${BASH_SOURCE[0]}")/.." && pwd)" || exit 1
disk=$(mktemp -d) || exit 1
work=$(mktemp -d -p /dev/shm 2> /dev/null || mktemp -d) || exit 1 # in memory, if that can be: it has to sync nothing
trap 'rm -rf "$work" "$disk"' EXIT
base=$work
right=0 wrong=0 folders=0
seconds=600 # for one command: 500 acts make 7,000 syncs, and a slow disk has them one by one

# Counts one comparison: what it is, what was shown and what came, a file each.
compare() {
  local shown got at=0 from=0 text
  mapfile -t shown < "$2"
  mapfile -t got < "$3"
  while [ "$at" -lt "${#shown[@]}" ]; do
    text=${shown[at]}
    at=$((at + 1))
    if [ "$text" = ".." ]; then
      if [ "$at" -eq "${#shown[@]}" ]; then from=${#got[@]}; continue; fi
      while [ "$from" -lt "${#got[@]}" ] && ! fits "${shown[at]}" "${got[from]}"; do from=$((from + 1)); done
      continue
    fi
    if [ "$from" -ge "${#got[@]}" ] || ! fits "$text" "${got[from]}"; then
      failed "$1" "line $at is shown as '$text', and is '${got[from]-missing}'"
      return 1
    fi
    from=$((from + 1))
  done
  if [ "$from" -lt "${#got[@]}" ]; then
    failed "$1" "a line that isn't shown: '${got[from]}'"
    return 1
  fi
  right=$((right + 1))
}

# Whether a line is as it is shown.
fits() {
  case "$1" in
  *" ..") [[ "$2" == "${1% ..}"* ]] ;;
  *) [ "$1" = "$2" ] ;;
  esac
}

failed() {
  wrong=$((wrong + 1))
  echo "WRONG $1: $2"
}

# Makes a fresh folder to run in, and names it `place`.
new_place() {
  folders=$((folders + 1))
  place="$base/place-$folders"
  mkdir "$place" || exit 1
  ln -s "$top/swallow" "$top/swallow_lab" "$top/swallow_look" "$top/examples" "$place/"
}

# Runs a command in the folder $1; what it prints is in $work/got. What the shell says of a kill isn't the program's.
run() {
  (cd "$1" && timeout "$seconds" bash -c "$2" < /dev/null) > "$work/all" 2>&1
  code=$?
  sed '/^\(bash\|environment\): line [0-9]*: *[0-9]* Killed/d' "$work/all" > "$work/got"
  [ "$code" -ne 124 ] || echo "(ended after $seconds seconds)" >> "$work/got"
}

# ---- pages

# A session: each command with the lines after it.
session() {
  local line command=""
  : > "$work/shown"
  while IFS= read -r line || [ -n "$line" ]; do
    case "$line" in
    "\$ "*)
      [ -z "$command" ] || { run "$place" "$command"; compare "$page: $command" "$work/shown" "$work/got"; }
      command=${line#"\$ "}
      : > "$work/shown"
      ;;
    *) printf '%s\n' "$line" >> "$work/shown" ;;
    esac
  done < "$1"
  run "$place" "$command"
  compare "$page: $command" "$work/shown" "$work/got"
}

# A list of commands.
list() {
  local line command before=$place
  new_place
  while IFS= read -r line; do
    command=${line%%   *}
    case "$command" in "./swallow build" | "./swallow test" | "./swallow data session") continue ;; esac
    run "$place" "$command"
    if [ "$code" -eq 0 ]; then right=$((right + 1)); else failed "$page: $command" "its status is $code"; fi
  done < "$1"
  place=$before
}

plan_file() {
  if [ -e "$place/$2" ]; then
    compare "$page: the text of $2" "$1" "$place/$2"
  else
    cp "$1" "$place/$2"
  fi
}

part_of() {
  local text
  text=$(cat "$1")
  if [[ $'\n'"$(cat "$place/$2")"$'\n' == *$'\n'"$text"$'\n'* ]]; then
    right=$((right + 1))
  else
    failed "$page: a part of $2" "it isn't there"
  fi
}

# The plan of one act with this file as script.
plan_of() {
  printf 'swallow plan 1\nrun 1\nrepositories 16\nbrokers 1\nact broker 1 home 1 timeout 5 tries 1\n'
  cat "$1"
  echo done
}

# Runs such a plan over a folder of its own.
run_script() {
  plan_of "$1" > "$work/plan"
  rm -rf "$work/data"
  run "$work" "'$top/swallow' data run < plan"
}

transcript() {
  run_script "$work/script"
  sed -n '/^try /,/^final \|^totals /p' "$work/got" | grep -v '^final \|^totals ' > "$work/lines"
  compare "$page: the script '$(head -n 1 "$work/script") ..'" "$1" "$work/lines"
}

# Each line of a block with `=>`: its left side, and its right side.
parts() {
  sed -n 's/^\(.*[^ ]\)  *=> *\(.*\)$/\1\t\2/p' "$1"
}

# All expressions of a block go into one plan, an act for each.
results() {
  { printf 'swallow plan 1\nrun 1\nrepositories 1\nbrokers 1\n'
    parts "$1" | while IFS=$'\t' read -r left _; do
      printf 'act broker 1 home 1 timeout 5 tries 1\nprint %s\ndone\n' "$left"
    done; } > "$work/plan"
  rm -rf "$work/data"
  run "$work" "'$top/swallow' data run < plan"
  sed -n 's/^try .* failed line 1 /fails /p; s/^print //p' "$work/got" > "$work/lines"
  parts "$1" | cut -f 2 > "$work/shown"
  paste "$work/shown" "$work/lines" > "$work/pairs"
  local at=0 left want came
  while IFS=$'\t' read -r left want; do
    at=$((at + 1))
    came=$(sed -n "${at}p" "$work/lines")
    if [ "$want" = "$came" ]; then right=$((right + 1)); else failed "$page: $left" "'$want' is shown, and is '$came'"; fi
  done < <(parts "$1")
}

faults() {
  local left want came
  while IFS=$'\t' read -r left want; do
    printf '%b\n' "$left" > "$work/script"
    run_script "$work/script"
    came=$(sed -n 's/^swallow: plan line [0-9]* script //p' "$work/got")
    if [ "$want" = "$came" ]; then right=$((right + 1)); else failed "$page: $left" "'$want' is shown, and is '$(head -n 1 "$work/got")'"; fi
  done < <(parts "$1")
}

# Writes each fenced block of a page to $work/blocks/NUMBER, with its info string in NUMBER.info.
blocks() {
  rm -rf "$work/blocks"
  mkdir "$work/blocks"
  awk -v to="$work/blocks/" '
    /^```/ && !inside { inside = 1; name = sprintf("%s%04d", to, ++count); print substr($0, 4) > (name ".info"); printf "" > name; next }
    /^```/ { inside = 0; close(name); close(name ".info"); next }
    inside { print > name }' "$1"
}

read_page() {
  local block info
  page=$1
  base=$work
  if grep -q KILL "$top/$page"; then base=$disk; fi # a run that is killed must not end before
  new_place
  blocks "$top/$page"
  for block in "$work/blocks/"*.info; do
    read -r info < "$block"
    block=${block%.info}
    case "$info" in
    "plan "*) plan_file "$block" "${info#plan }" ;;
    "part "*) part_of "$block" "${info#part }" ;;
    script) cp "$block" "$work/script" ;;
    transcript) transcript "$block" ;;
    results) results "$block" ;;
    faults) faults "$block" ;;
    *) case "$(head -n 1 "$block")" in
      "\$ "*) session "$block" ;;
      "./swallow "*"   "*) list "$block" ;;
      *) failed "$page" "nothing compares the block that begins '$(head -n 1 "$block")'" ;;
      esac ;;
    esac
  done
}

# ---- examples

# Each plan of examples/ that isn't in a folder of its own, with the report beside it.
plans() {
  local plan name
  for plan in "$top"/examples/*.plan; do
    name=$(basename "$plan" .plan)
    new_place
    case "$name" in
    second) run "$place" "./swallow data run < examples/first.plan" ;;
    down) mkdir "$place/data" && truncate -s 12288 "$place/data/repository-1-0" ;;
    esac
    run "$place" "./swallow data run < examples/$name.plan 2> errors"
    compare "examples/$name.plan" "$top/examples/$name.report" "$work/got"
  done
  run "$top" "./swallow_look crates/swallow_look/data"
  compare "examples/look.html" "$top/examples/look.html" "$work/got"
}

# The calls that the README of a folder of examples lists, in its order: `COMMAND   FILE` or `COMMAND   FILE, and status N`.
calls() {
  local folder=$1 line command report status
  new_place
  while IFS= read -r line; do
    command=$(sed 's/   .*//; s#/tmp/data#data#; s#< \.\./#< examples/#' <<< "$line")
    command=$(sed "s#< \([a-z]*\.\)#< examples/$folder/\1#" <<< "$command")
    report=$(sed 's/^.*   *\([^ ,]*\).*$/\1/; s/,.*//' <<< "$(sed 's/, and.*//' <<< "$line")")
    status=$(sed -n 's/^.*and status \([0-9]*\)$/\1/p' <<< "$line")
    run "$place" "$command 2> errors"
    [ "$code" -eq "${status:-0}" ] || failed "examples/$folder: $command" "its status is $code"
    compare "examples/$folder: $command" "$top/examples/$folder/$report" "$work/got"
  done < <(sed -n '/^```/,/^```/p' "$top/examples/$folder/README.md" | grep '^\./swallow')
}

if [ "$#" -eq 0 ]; then
  plans
  for folder in retire audit snapshot settle votes sessions; do calls "$folder"; done
  set -- README.md docs/TUTORIAL.md docs/LANGUAGE.md docs/COMMANDS.md docs/OPERATIONS.md
fi
for page in "$@"; do read_page "$page"; done
echo "$right right, $wrong wrong"
[ "$wrong" -eq 0 ]
