#!/usr/bin/env bash
# The files of a folder as a person meets them: what is no medium is refused at once by every command,
# files grow when they are opened, a look changes none, and a volume that was lost is noticed, with the
# remedies of docs/OPERATIONS.md. What is wanted is worked out by hand. Ends with a count, and with
# status 0 if all was right. The first word is the number of acts of each plan (1000).
top="$(cd "$(dirname "${BASH_SOURCE[0]}")/.." && pwd)" || exit 1
work=$(mktemp -d) || exit 1
trap 'rm -rf "$work"' EXIT
. "$top/release/start.sh" || exit 1
find_program swallow_look && look="$program" && find_program swallow_main || exit 1
acts=${1:-1000}
right=0 wrong=0

# Whether what was wanted came: what it is, what came, what was wanted.
is() {
  if [ "$2" == "$3" ]; then
    right=$((right + 1))
  else
    wrong=$((wrong + 1))
    echo "WRONG $1: $2, and not $3"
  fi
}

# Whether the file has a line with this in it.
has() {
  if grep -qF -- "$3" "$2"; then
    right=$((right + 1))
  else
    wrong=$((wrong + 1))
    echo "WRONG $1: no '$3' in: $(head -c 300 "$2")"
  fi
}

# A plan: its run number, and how many acts it has, each of which adds 1 to 1.1.
adds() {
  printf 'swallow plan 1\nrun %s\nrepositories 1\nbrokers 1\n' "$1"
  for _ in $(seq "$2"); do
    printf 'act broker 1 home 1 timeout 5 tries 3\nread a 1.1\nlet s = given(a, 0) + 1\nwrite 1.1 s\ndone\n'
  done
}

# A plan that writes a text to 1.1: its run number and the text.
writes() {
  printf 'swallow plan 1\nrun %s\nrepositories 1\nbrokers 1\n' "$1"
  printf 'act broker 1 home 1 timeout 5 tries 3 clock %s\nwrite 1.1 "%s"\ndone\n' "$3" "$2"
}

run() { timeout 300 "$program" "$1" run 2> "$work/err" > "$work/out"; }

# The pages of a file.
pages() { echo $(($(stat -c %s "$1") / 4096)); }

# ---- what is no medium

# Tries all commands that open repository 1 on a folder in which this file can't be taken. None may wait.
refused() {
  local what="$1" folder="$2" name="$3" reason="$4" words
  for words in "run --ticks 100" "history 1.1" "asof 1 9" "audit 1.1" "retire 1 9" "watch 1 sum"; do
    adds 9 1 | timeout 20 "$program" "$folder" $words > "$work/out" 2> "$work/err"
    is "status of $words over $what" "$?" 6
    has "report of $words over $what" "$work/out" "down repository 1 medium"
    has "line of $words over $what" "$work/err" "$folder/$name: $reason"
  done
  timeout 20 "$look" "$folder" > "$work/page" 2> "$work/err"
  is "status of the look over $what" "$?" 0
}

# A folder with a log.
made() {
  adds 1 1 | run "$work/$1"
  is "status of a first run in $1" "$?" 0
}

for name in repository-1-0 repository-1-1; do
  for kind in fifo folder device link dangling socket; do
    made "$kind-$name"
    file="$work/$kind-$name/$name" reason="no regular file"
    rm "$file"
    case $kind in
      fifo) mkfifo "$file" ;;
      folder) mkdir "$file" ;;
      device) mknod "$file" c 1 5 2> /dev/null || { rm -rf "$work/$kind-$name"; continue; } ;;
      link) truncate -s 16777216 "$work/elsewhere" && ln -s "$work/elsewhere" "$file" ;;
      dangling) ln -s "$work/nowhere" "$file" ;;
      socket) python3 -c 'import socket, sys; socket.socket(socket.AF_UNIX).bind(sys.argv[1])' "$file" ;;
    esac
    case $kind in link | dangling) reason="a symbolic link, and no regular file" ;; esac
    refused "a $kind as $name" "$work/$kind-$name" "$name" "$reason"
    has "line of the look over a $kind as $name" "$work/err" "$name"
  done
done
made other-volumes
mkfifo "$work/other-volumes/repository-1-1002" "$work/other-volumes/repository-1-1010"
timeout 20 "$program" "$work/other-volumes" watch 1 sum > "$work/out" 2> "$work/err"
is "status of a watch over a fifo" "$?" 6
has "report of a watch over a fifo" "$work/out" "down watch 1 medium"
has "line of a watch over a fifo" "$work/err" "other-volumes/repository-1-1002: no regular file"
printf 'swallow votes 1\npoll 1.1.1 timeout 5 commit\n' |
  timeout 20 "$program" "$work/other-volumes" votes > "$work/out" 2> "$work/err"
is "status of votes with a fifo for a member" "$?" 0
has "line of votes with a fifo for a member" "$work/err" "other-volumes/repository-1-1010: no regular file"
is "what a dangling link made" "$(ls "$work/nowhere" 2> /dev/null)" ""

# The lock is refused the same way, and named by the medium that was asked for.
made lock
rm "$work/lock/lock" && mkfifo "$work/lock/lock"
refused "a fifo as lock" "$work/lock" repository-1-0 "no regular file"

# ---- files grow

folder="$work/grow"
for turn in 1 2 3; do
  adds "$turn" "$acts" | run "$folder"
  is "status of run $turn of $acts acts" "$?" 0
done
printf 'swallow plan 1\nrun 4\nrepositories 1\nbrokers 1\nact broker 1 home 1 timeout 5 tries 3\nread a 1.1\nwithdraw\ndone\n' | run "$folder"
has "sum of three runs" "$work/out" "read 1.1 $((3 * acts))"
before=$(sha256sum "$folder"/*)
timeout 60 "$program" "$folder" history 1.1 > "$work/out" 2> "$work/err"
timeout 60 "$program" "$folder" audit 1.1 > "$work/out" 2> "$work/err"
"$look" "$folder" > "$work/page" 2> "$work/err"
is "files after looks" "$(sha256sum "$folder"/*)" "$before"

# One plan, called until its status is 0.
folder="$work/plan"
adds 1 $((3 * acts)) > "$work/long"
for turn in 1 2 3; do
  run "$folder" < "$work/long"
  status=$?
  [ "$status" -ne 0 ] || break
  is "status of call $turn of a long plan" "$status" 6
  has "report of call $turn" "$work/out" " full "
  has "line of call $turn" "$work/err" "run the same command again: the file grows when it is opened"
done
is "status of the last call of a long plan" "$status" 0
has "sum of a long plan" "$work/out" "final 1.1 $((3 * acts))"

# Just half full: page 8 of 16 decides.
folder="$work/half"
mkdir "$folder" && truncate -s 65536 "$folder/repository-1-0"
: | timeout 20 "$program" "$folder" history 1.1 > /dev/null 2>&1
is "pages after a look" "$(pages "$folder/repository-1-0")" 16
adds 1 1 | run "$folder"
is "pages of a file that is nearly blank" "$(pages "$folder/repository-1-0")" 16
is "pages of the volume after a short one" "$(pages "$folder/repository-1-1")" 4096

# ---- a volume that is lost

# Volumes 0 to 3: 1.1 is "one" in volume 0, "two" in 1 and "three" in 2, the current one; 3 is spare.
folder="$work/lost"
writes 1 one 1 | run "$folder"
is "status of the first write" "$?" 0
"$program" "$folder" retire 1 2 > "$work/out" 2> "$work/err"
is "status of the first retirement" "$?" 0
writes 2 two 3 | run "$folder"
"$program" "$folder" retire 1 4 > "$work/out" 2> "$work/err"
is "status of the second retirement" "$?" 0
writes 3 three 5 | run "$folder"
is "status of the last write" "$?" 0
"$program" "$folder" audit 1.1 > "$work/audit" 2> "$work/err"
is "status of the audit before" "$?" 0
is "files of the folder" "$(ls "$folder" | tr '\n' ' ')" "broker-1-0 lock repository-1-0 repository-1-1 repository-1-2 repository-1-3 "

# Loses files by the command, and looks for the line. Then puts the copy of the folder back.
cp -a "$folder" "$work/copy"
lost() {
  local what="$1" line="$2" name
  shift 2
  name=${line%% *}
  (cd "$folder" && "$@")
  refused "$what" "$folder" "$name" "$line"
  has "line of the look, $what" "$work/err" "${look_line:-$line}"
  has "page of the look, $what" "$work/page" "can't be read"
  rm -rf "$folder" && cp -a "$work/copy" "$folder"
  "$program" "$folder" audit 1.1 > "$work/out" 2> "$work/err"
  is "status after $what was put back" "$?" 0
  is "audit after $what was put back" "$(cat "$work/out")" "$(cat "$work/audit")"
}
lost "a missing volume 1" "repository-1-1 is missing, and repository-1-2 is there" rm repository-1-1
lost "a missing volume 0" "repository-1-0 is missing, and repository-1-1 is there" rm repository-1-0
lost "a missing volume 2" "repository-1-2 is missing, and repository-1-3 is there" rm repository-1-2
lost "two missing volumes" "repository-1-1 is missing, and repository-1-3 is there" rm repository-1-1 repository-1-2
# Of a file without bytes the look says that it can't be read.
look_line="repository-1-1 is no medium that can be read" lost "an emptied volume 1" "repository-1-1 is blank, and repository-1-2 is there" truncate -s 0 repository-1-1

# A blank file can be read, so the page shows it as blank, and the line alone tells.
rm "$folder/repository-1-1" && truncate -s 16777216 "$folder/repository-1-1"
refused "a blank volume 1" "$folder" repository-1-1 "repository-1-1 is blank, and repository-1-2 is there"
has "line of the look, a blank volume 1" "$work/err" "repository-1-1 is blank, and repository-1-2 is there"
rm -rf "$folder" && cp -a "$work/copy" "$folder"

# The lost file of the copy alone is enough.
rm "$folder/repository-1-1" && cp -a "$work/copy/repository-1-1" "$folder"
"$program" "$folder" audit 1.1 > "$work/out" 2> "$work/err"
is "audit after one file was put back" "$(cat "$work/out")" "$(cat "$work/audit")"

# The spare one is made again.
rm "$folder/repository-1-3"
writes 4 four 7 | run "$folder"
is "status without the spare volume" "$?" 0
is "pages of the spare volume" "$(pages "$folder/repository-1-3")" 4096
rm -rf "$folder" && cp -a "$work/copy" "$folder"

# With no copy of volume 1 the later ones take its place: what is current is there, and "two" is gone
# from the audit.
rm "$folder/repository-1-1"
mv "$folder/repository-1-2" "$folder/repository-1-1" && mv "$folder/repository-1-3" "$folder/repository-1-2"
"$program" "$folder" history 1.1 > "$work/out" 2> "$work/err"
is "status with later volumes moved down" "$?" 0
has "history with later volumes moved down" "$work/out" '"three"'
writes 4 four 7 | run "$folder"
is "status of a write with later volumes moved down" "$?" 0
has "final with later volumes moved down" "$work/out" 'final 1.1 "four"'
"$program" "$folder" audit 1.1 > "$work/out" 2> "$work/err"
is "versions in the audit" "$(grep -c '"one"\|"two"\|"three"\|"four"' "$work/out")" 4

echo "$right right, $wrong wrong"
[ "$wrong" -eq 0 ]
