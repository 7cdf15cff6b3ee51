# Says which word of a faulty command line is wrong, and what was expected there. The program decides which words are a command;
# this is read only by people. What it says of words that are a command is nothing.
commands="run load session history retire watch asof audit snapshot settle replay votes"

# The word of the list $2 that is nearest to $1, if one is near.
nearest() {
  awk -v word="$1" -v list="$2" '
    function least(a, b) { return a < b ? a : b }
    function distance(a, b,   i, j, d, same) {
      for (i = 0; i <= length(a); i++) d[i, 0] = i
      for (j = 0; j <= length(b); j++) d[0, j] = j
      for (i = 1; i <= length(a); i++)
        for (j = 1; j <= length(b); j++) {
          same = substr(a, i, 1) == substr(b, j, 1) ? 0 : 1
          d[i, j] = least(least(d[i - 1, j] + 1, d[i, j - 1] + 1), d[i - 1, j - 1] + same)
        }
      return d[length(a), length(b)]
    }
    BEGIN {
      count = split(list, names, " "); word = tolower(word); sub(/=.*/, "", word); best = 3
      for (n = 1; n <= count; n++) {
        far = distance(word, names[n])
        if (far < best && far < length(names[n]) - 1) { best = far; found = names[n] }
      }
      print found
    }'
}

# Whether $1 is a number from $2 to $3, without zeros in front.
is_number() {
  [[ "$1" =~ ^(0|[1-9][0-9]{0,12})$ ]] && [ "$1" -ge "$2" ] && [ "$1" -le "$3" ]
}

is_object() {
  [[ "$1" =~ ^[0-9]+\.[0-9]+$ ]] && is_number "${1%.*}" 1 16 && is_number "${1#*.}" 0 4294967295
}

# Whether the word $2 is of the kind $1. Sets `expected` to what this kind is.
is_of() {
  case "$1" in
  object) expected="an object, REPOSITORY.NUMBER, with a repository from 1 to 16, such as 1.7"; is_object "$2" ;;
  repository) expected="the number of a repository, 1 to 16"; is_number "$2" 1 16 ;;
  count) expected="how many repositories, 1 to 16"; is_number "$2" 1 16 ;;
  clock) expected="a clock, 1 to 1099511627775"; is_number "$2" 1 1099511627775 ;;
  rule) expected="a rule: count, sum or last"; [[ "$2" =~ ^(count|sum|last)$ ]] ;;
  values) expected="'--values', or nothing"; [ "$2" = --values ] ;;
  number) expected="a number"; [[ "$2" =~ ^(0|[1-9][0-9]*)$ ]] ;;
  --workers) expected="a number of threads, 1 to 16"; is_number "$2" 1 16 ;;
  --ticks) expected="a number of Ticks, 0 to 1000000"; is_number "$2" 0 1000000 ;;
  --messages) expected="a number of messages, 1 to 1000000"; is_number "$2" 1 1000000 ;;
  esac
}

# Sets `fault` to what is wrong with the options after a command: those that $2 lists, each once, with its number.
option_fault() {
  local command=$1 known=$2 near given=" "
  shift 2
  while [ "$#" -gt 0 ]; do
    if [[ " $known " != *" $1 "* ]]; then
      near=$(nearest "$1" "$known")
      case "$1" in
      --*=*) fault="'$1': write '${near:-${1%%=*}} ${1#*=}', with a space" ;;
      --workers) fault="'--workers': '$command' has one thread" ;;
      -*) fault="'$1' is no option of '$command'${near:+: did you mean '$near'?}" ;;
      *) [ "$command" = load ] || fault="'$1': '$command' reads standard input: ./swallow $folder $command < $1" ;;
      esac
      fault=${fault:-"'$1' is no option of '$command'"}
      return
    fi
    [[ "$given" != *" $1 "* ]] || { fault="'$1' is given twice"; return; }
    given+="$1 "
    is_of "$1" "${2-}" || { fault="after '$1': expected $expected${2+, and not '$2'}"; return; }
    shift 2
  done
}

# Sets `fault` to what is wrong with the words after a command, which are of these kinds; with `?` in front a kind may be missing.
kinds_fault() {
  local command=$1 kinds=$2 kind
  shift 2
  for kind in $kinds; do
    if [ "$#" -eq 0 ]; then
      [[ "$kind" == \?* ]] && continue
      is_of "$kind" ""
      fault="after '$command' a word is missing: expected $expected"
      return
    fi
    is_of "${kind#\?}" "$1" || { fault="'$1': expected $expected"; return; }
    shift
  done
  [ "$#" -eq 0 ] || fault="'$1': '$command' takes no more words"
}

# Sets `fault` to what is wrong with the words: a folder, a command and the command's words.
words_fault() {
  local folder=${1-} command=${2-} near
  fault=""
  [ "$#" -gt 0 ] || return 0
  shift
  if [ "$#" -eq 0 ]; then
    fault="a command is missing after the folder '$folder', such as 'run' or 'history 1.7'"
    return
  fi
  shift
  case "$command" in
  run | session) option_fault "$command" "--workers --ticks --messages" "$@" ;;
  votes) option_fault votes "--ticks --messages" "$@" ;;
  load)
    kinds_fault load "number number" "${@:1:2}"
    [ -n "$fault" ] || option_fault load "--workers --ticks --messages" "${@:3}"
    ;;
  history | audit) kinds_fault "$command" object "$@" ;;
  asof | retire) kinds_fault "$command" "repository clock" "$@" ;;
  watch) kinds_fault watch "repository rule" "$@" ;;
  snapshot) kinds_fault snapshot "?clock" "$@" ;;
  settle) kinds_fault settle count "$@" ;;
  replay) kinds_fault replay "?values" "$@" ;;
  *)
    if [[ " $commands " == *" $folder "* ]]; then
      fault="the folder comes first: ./swallow FOLDER $folder $command"
    else
      near=$(nearest "$command" "$commands")
      fault="'$command' is no command${near:+: did you mean '$near'?}"
      [ -n "$near" ] || fault+=": expected one of $commands"
    fi
    ;;
  esac
}
