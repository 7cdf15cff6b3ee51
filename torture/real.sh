#!/usr/bin/env bash
# What no proof speaks of: files, folders and streams as the system has them. Runs the program that ./swallow starts with
# closed streams, two at a time on one folder, over each mistake with a folder or a file (each has to give
# its line on standard error), on a full file system, under a limit on the size of files, and ends it by kills (200, or as often as the first
# word says: see kills.sh). It ends with a count, and with status 0 where all were right. What wants another
# user or a mount is left out, and said, where the system refuses it.
top="$(cd "$(dirname "${BASH_SOURCE[0]}")/.." && pwd)" || exit 1
work=$(mktemp -d) || exit 1
mounted=""
trap '[ -z "$mounted" ] || umount "$mounted"; rm -rf "$work"' EXIT
. "$top/release/start.sh" && find_program swallow_main || exit 1
kills=${1:-200}
right=0 wrong=0 left=0

# Whether what was wanted came: what it is, what came, what was wanted.
is() {
  if [ "$2" == "$3" ]; then
    right=$((right + 1))
  else
    wrong=$((wrong + 1))
    echo "WRONG $1: $2, and not $3"
  fi
}

# Whether the text has a line with this in it.
has() {
  if grep -qF -- "$3" "$2"; then
    right=$((right + 1))
  else
    wrong=$((wrong + 1))
    echo "WRONG $1: no '$3' in: $(head -c 300 "$2")"
  fi
}

skip() {
  left=$((left + 1))
  echo "left out: $*"
}

# The plan in this file with a run number above those before it: milliseconds since the script began.
began=$(date +%s%N)
numbered() {
  sed "2s/.*/run $((($(date +%s%N) - began) / 1000000 + 1))/" "$work/$1"
}

head='swallow plan 1\nrun 1\nrepositories 1\nbrokers 1\n'
act='act broker 1 home 1 timeout 5 tries 3\n'

# A plan of so many acts, each of which adds 1 to 1.1.
adds() {
  printf "$head"
  for _ in $(seq "$1"); do
    printf "${act}read a 1.1\nlet s = given(a, 0) + 1\nwrite 1.1 s\ndone\n"
  done
}
adds 1 > "$work/one"
adds 30 > "$work/adds"
adds 150 > "$work/many"
printf "$head${act}read a 1.1\nwithdraw\ndone\n" > "$work/reads"

# What 1.1 has in this folder, by a run that writes nothing but its own withdrawal.
held() {
  numbered reads | "$program" "$1" run 2> /dev/null | sed -n 's/^read 1\.1 //p'
}

# ---- closed streams

for stream in 0 1 2 "0 1" "1 2" "0 2" "0 1 2"; do
  folder="$work/closed-${stream// /-}"
  numbered adds | "$program" "$folder" run > /dev/null || exit 1
  numbered adds > "$work/again"
  # Opened first, then closed.
  redirected='< "$work/again" > "$work/out" 2> "$work/err"'
  for one in $stream; do
    case $one in
      0) redirected="$redirected <&-" ;;
      1) redirected="$redirected >&-" ;;
      2) redirected="$redirected 2>&-" ;;
    esac
  done
  eval "\"\$program\" \"\$folder\" run $redirected"
  status=$?
  # An empty plan is faulty; where both input and output are closed its line has nowhere to go.
  case " $stream " in
    *" 0 "*) wanted=2 acts=30 ;;
    *" 1 "*) wanted=4 acts=60 ;;
    *) wanted=0 acts=60 ;;
  esac
  is "status with $stream closed" "$status" "$wanted"
  is "acts with $stream closed" "$(held "$folder")" "$acts"
  is "size of the medium with $stream closed" "$(stat -c %s "$folder/repository-1-0")" 16777216
  is "text in the medium with $stream closed" "$(grep -c 'swallow' "$folder/repository-1-0")" 0
done

# ---- two programs at once on one folder

for round in $(seq 15); do
  folder="$work/two-$round"
  numbered one | "$program" "$folder" run > /dev/null || exit 1
  numbered many > "$work/many-1"
  numbered adds > "$work/adds-2"
  "$program" "$folder" run < "$work/many-1" > "$work/out-1" 2> "$work/err-1" &
  first=$!
  "$program" "$folder" run < "$work/adds-2" > "$work/out-2" 2> "$work/err-2"
  two=$?
  wait "$first"
  one=$?
  sum=1
  # One that comes behind the other may have the smaller run number: then it is refused.
  case $one in
    0) sum=$((sum + 150)) ;;
    2) has "line of the first of two" "$work/out-1" "swallow: old run" ;;
    *) has "line of the first of two" "$work/err-1" "locked by another program" ;;
  esac
  case $two in
    0) sum=$((sum + 30)) ;;
    2) has "line of the second of two" "$work/out-2" "swallow: old run" ;;
    *) has "line of the second of two" "$work/err-2" "locked by another program" ;;
  esac
  is "acts of two programs at once" "$(held "$folder")" "$sum"
  rm -rf "$folder"
done

# ---- mistakes with folders and files

# Runs one act in this folder, and looks at the status and the line. The program is begun by the other words.
mistake() {
  local what="$1" folder="$2" reason="$3"
  shift 3
  numbered one > "$work/mistaken"
  "$@" "$program" "$folder" run < "$work/mistaken" > "$work/out" 2> "$work/err"
  is "status of $what" "$?" 6
  has "report of $what" "$work/out" "down repository 1 medium"
  has "line of $what" "$work/err" "swallow: $folder/repository-1-0: $reason"
  # The broker's medium stands in the same folder.
  is "lines of $what" "$(grep -c "repository-1-0" "$work/err")" 1
}

numbered one | "$program" "$work/not/there/yet" run > /dev/null 2> "$work/err"
is "status with parents missing" "$?" 0
is "acts with parents missing" "$(held "$work/not/there/yet")" 1
(cd "$work" && numbered one | "$program" here/too run > /dev/null)
is "status of a relative folder" "$?" 0
is "acts of a relative folder" "$(held "$work/here/too")" 1

# A look makes nothing.
"$program" "$work/nowhere" history 1.1 > "$work/out" 2> "$work/err"
is "status of a look into a missing folder" "$?" 0
has "line of a look into a missing folder" "$work/err" "nowhere/repository-1-0: not there yet"
is "what a look into a missing folder makes" "$(ls -d "$work/nowhere" 2> /dev/null)" ""
"$program" "$work/here/too" history 3.1 > "$work/out" 2> "$work/err"
is "what a look at a missing medium makes" "$(ls "$work/here/too" | grep -c repository-3)" 0

touch "$work/file"
mistake "a file in place of the folder" "$work/file" "Not a directory"
mistake "a file in place of a parent" "$work/file/data" "Not a directory"
mkdir -p "$work/folder/repository-1-0"
mistake "a folder in place of the file" "$work/folder" "no regular file"
mkdir "$work/fifo" && mkfifo "$work/fifo/repository-1-0"
mistake "a fifo in place of the file" "$work/fifo" "no regular file"
mkdir "$work/short" && head -c 100 /dev/zero > "$work/short/repository-1-0"
mistake "a file of 100 bytes" "$work/short" "a file of 100 bytes"
mkdir "$work/long" && truncate -s 4294971392 "$work/long/repository-1-0"
mistake "a file of too many pages" "$work/long" "a file of 4294971392 bytes"
mistake "a name that is too long" "$work/$(printf 'n%.0s' $(seq 300))" "File name too long"
mistake "no name" "" "the folder has no name"
numbered one | "$program" "$work/locked" run > /dev/null || exit 1
exec 9< "$work/locked/repository-1-0"
if flock -n 9; then
  mistake "a locked file" "$work/locked" "locked by another program"
else
  skip "a locked file: flock refuses"
fi
exec 9<&-
is "acts once it isn't locked" "$(held "$work/locked")" 1
# A look shares the lock with other looks, and keeps a run out.
exec 9< "$work/locked/lock"
if flock -s -n 9; then
  "$program" "$work/locked" history 1.1 > "$work/out" 2> "$work/err"
  is "status of a look beside another one" "$?" 0
  is "what a look beside another one says" "$(cat "$work/err")" ""
  mistake "a run beside a look" "$work/locked" "locked by another program"
else
  skip "a look beside another one: flock refuses"
fi
exec 9<&-
exec 9< "$work/locked/lock"
if flock -n 9; then
  "$program" "$work/locked" history 1.1 > "$work/out" 2> "$work/err"
  is "status of a look beside a run" "$?" 6
  has "line of a look beside a run" "$work/err" "locked by another program"
else
  skip "a look beside a run: flock refuses"
fi
exec 9<&-

if setpriv --reuid=65534 --regid=65534 --clear-groups true 2> /dev/null; then
  mkdir -m 755 "$work/others" && chmod 755 "$work"
  shown="setpriv --reuid=65534 --regid=65534 --clear-groups"
  cp "$program" "$work/others/program" && chmod 755 "$work/others/program"
  kept="$program" program="$work/others/program"
  mistake "a folder that may not be written" "$work/others" "Permission denied" $shown
  mistake "a folder that may not be made" "$work/others/data" "Permission denied" $shown
  program="$kept"
else
  skip "no permission: no other user here"
fi

# ---- a full and a read-only file system

mkdir "$work/small"
if mount -t tmpfs -o size=256k tmpfs "$work/small" 2> /dev/null; then
  mounted="$work/small"
  numbered one | "$program" "$work/small" run > /dev/null 2> "$work/err"
  is "status while there is room" "$?" 0
  numbered many | timeout 60 "$program" "$work/small" run > "$work/out" 2> "$work/err"
  is "status of a full file system" "$?" 6
  # The repository's file or the broker's, by which of them came to the end first.
  has "line of a full file system" "$work/err" "-1-0: No space left on device"
  is "lines of a full file system" "$(grep -c "No space left" "$work/err")" 1
  acts=$(grep -c '^try .* committed' "$work/out")
  mount -o remount,size=64m "$work/small"
  # An act that is open by its broker's log may have been committed at its home.
  open=$(grep -c '^try .* open' "$work/out")
  now=$(held "$work/small")
  is "acts of a file system that was full" "$((now >= acts + 1 && now <= acts + 1 + open))" 1
  mount -o remount,ro "$work/small"
  mistake "a read-only file system" "$work/small" "Read-only file system"
  umount "$work/small" && mounted=""
else
  skip "a full and a read-only file system: no mount here"
fi

# ---- a limit on the size of files, as a shell sets one

# The starter has the system answer an error in place of a signal.
(ulimit -f 1024 && trap '' XFSZ && numbered one | timeout 60 "$program" "$work/limit" run > "$work/out" 2> "$work/err")
is "status with a limit on the size of files" "$?" 6
has "line of a limit on the size of files" "$work/err" "swallow: $work/limit/repository-1-0: File too large"
numbered one | "$program" "$work/limit" run > /dev/null 2> "$work/err"
is "status where the limit is gone" "$?" 0
(ulimit -f 1024 && printf "$head" | timeout 60 "$top/swallow" "$work/limited" run > /dev/null 2> "$work/err")
is "status of the starter with a limit on the size of files" "$?" 6

# ---- kills

if "$top/torture/kills.sh" "$kills" > "$work/kills"; then right=$((right + kills)); else wrong=$((wrong + 1)); fi
cat "$work/kills"

echo "$right right, $wrong wrong, $left left out"
[ "$wrong" -eq 0 ]
