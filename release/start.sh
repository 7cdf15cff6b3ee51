# Read by ./swallow, ./swallow_lab, bench/, torture/ and tools/, with the repository's folder as `top`: which proved program is to be started.
# One is where the sum of the sources here and its own sha256 are those noted beside it: first the one of release/, then the
# one that was built here (crates/NAME/out). Else it is built, which proves each crate that it is made of.
logic="logic dac8208d650f15bf" # what the proofs are for: the last words of `rt version`, whatever the kit's name
minutes=150                    # of one processor, for a whole build, as measured (bench/README.md)

say() { echo "swallow: $*" >&2; }

# The crates that a crate of crates.txt stands on, lowest first, and then the crate.
below() {
  awk -v want="$1" '
    function visit(crate,   names, count, i) {
      if (crate in seen || !(crate in libraries)) return
      seen[crate] = 1
      count = split(libraries[crate], names, " ")
      for (i = 1; i <= count; i++) visit(names[i])
      print crate
    }
    { sub(/#.*/, "") }
    match($0, /^[a-z_0-9]+/) && index($0, ":") {
      crate = substr($0, 1, RLENGTH)
      libraries[crate] = substr($0, index($0, ":") + 1)
    }
    END { visit(want) }' "$top/crates.txt"
}

# Sets `places` to all that a program is built from, seen from the top.
find_places() {
  local crate part
  places=(crates.txt HANDLES)
  for crate in $(below "$1"); do
    for part in src specs proofs; do
      [ -d "$top/crates/$crate/$part" ] && places+=("crates/$crate/$part")
    done
  done
}

sum_of() {
  local sum
  sum=$(sha256sum < "$1") && echo "${sum%% *}"
}

# One sum over the names and contents of all files of these places.
sum_of_places() (
  set -o pipefail
  cd "$top" || exit 1
  sum=$(find "$@" ! -type d -print0 | LC_ALL=C sort -z | xargs -0 sha256sum | sha256sum) && echo "${sum%% *}"
)

# Sets `sources` to the sum of a program's sources.
sum_sources() {
  find_places "$1"
  sources=$(sum_of_places "${places[@]}")
}

# What release/README.md notes: the cells of the row with this name.
noted() {
  awk -F ' *[|] *' -v row="$1" '$2 == row { gsub(/`/, ""); print $4 == "" ? $3 : $3 " " $4; exit }' "$top/release/README.md" 2> /dev/null
}

# Whether this system can run the shipped programs: x86-64 Linux, with a C library that is new enough.
runs_shipped() {
  local here least
  [ "$OSTYPE $HOSTTYPE" = "linux-gnu x86_64" ] || return 1
  here=$(getconf GNU_LIBC_VERSION 2> /dev/null) || return 0
  least=$(noted "Least glibc")
  printf '%s\n' "$least" "${here#glibc }" | sort -CV
}

# Names the program of a crate, in release/ and as it is built here.
name_program() {
  crate=$1
  name=${1%_main}
  shipped="$top/release/$name"
  built="$top/crates/$crate/out/$crate"
  record="$top/crates/$crate/out/built"
}

# Sets `program` to the one that was chosen before, where nothing has changed since that the choice hangs on: no source, nothing
# of release/ and no program has another path, size, number or time. Sets `key` to what stands for all that, or to nothing.
recall() {
  local known choice memory seen=("${places[@]}" release) file
  for file in "$built" "$record"; do
    [ ! -e "$file" ] || seen+=("${file#"$top/"}")
  done
  memories=("$top/crates/$crate/out/choice")
  [ -z "${XDG_CACHE_HOME:-${HOME:-}}" ] || memories+=("${XDG_CACHE_HOME:-$HOME/.cache}/swallow/${top//\//%}%$crate")
  key=$(
    set -o pipefail
    cd "$top" || exit 1
    { echo "$HOSTNAME $OSTYPE $HOSTTYPE $top" && find "${seen[@]}" ! -type d -printf '%p %s %i %T@ %C@\n'; } 2> /dev/null | sha256sum
  ) || key=""
  key=${key%% *}
  for memory in "${memories[@]}"; do
    { read -r known choice < "$memory"; } 2> /dev/null && [ "$known" = "$key" ] || continue
    case "$choice" in
    shipped) program=$shipped && return ;;
    built) program=$built && return ;;
    esac
  done
  return 1
}

# Keeps the choice in the crate's out/ or, where that can't be written, in the user's cache, or nowhere.
remember() {
  local memory
  [ -n "$key" ] || return 0
  for memory in "${memories[@]}"; do
    { mkdir -p "${memory%/*}" && echo "$key $1" > "$memory.$$" && mv -f "$memory.$$" "$memory"; } 2> /dev/null && return
  done
  return 0
}

# Sets `differs` to why the program of release/ isn't the one of these sources, or to nothing where it is.
compare_shipped() {
  local of own
  differs=""
  read -r of own <<< "$(noted "$name")"
  if [ ! -x "$shipped" ]; then
    differs="there is no program release/$name"
  elif [ "$of" != "$sources" ]; then
    differs="the sources of release/$name have the sum ${of:-of none}, and those here $sources"
  elif [ "$(sum_of "$shipped")" != "$own" ]; then
    differs="release/$name hasn't the sum that release/README.md has for it"
  fi
  [ -z "$differs" ]
}

# Whether the program that was built here is the one of these sources.
is_built() {
  local of own
  [ -x "$built" ] && { read -r of own < "$record"; } 2> /dev/null && [ "$of" = "$sources" ] && [ "$(sum_of "$built")" = "$own" ]
}

# How many crates to prove at a time: one for each processor, as far as there are 3 GB for each.
places_for_proofs() {
  local cores memory
  cores=$(nproc)
  memory=$(awk '/^MemAvailable/ { print int($2 / 3000000) }' /proc/meminfo)
  [ "$memory" -ge "$cores" ] && memory=$cores
  [ "$memory" -ge 1 ] && echo "$memory" || echo 1
}

# Proves the crates below the program side by side, each as soon as those that it stands on are proved, and then the
# program, and links it.
prove_and_link() {
  local total at_once line count=0 log="${built%/*}/build.log"
  total=$(below "$crate" | wc -l)
  at_once=$(places_for_proofs)
  say "building the program proves the $total crates that it is made of: about $minutes minutes of one processor," \
    "here $at_once crates at a time. What is proved is kept, after an interrupt too."
  cd "$top/crates/$crate" || return 1
  rt all check --jobs "$at_once" 2>&1 | tee "$log" | while read -r line; do
    case "$line" in
    "== summary") ;;
    "== "*) count=$((count + 1)) && say "$count of $total ${line#== }, after $SECONDS s" ;;
    esac
  done
  if [ "${PIPESTATUS[0]}" -ne 0 ]; then
    tail -n 30 "$log" >&2
    say "not every crate is proved: crates/$crate/out/build.log says why"
    return 1
  fi
  rm -f "$built"
  rt run -- . >> "$log" 2>&1
  [ -x "$built" ] && return
  tail -n 30 "$log" >&2
  say "the program isn't linked: crates/$crate/out/build.log says why"
  return 1
}

# Builds the program of these sources, and notes their sum beside it.
build() {
  local before=$sources version
  command -v rt > /dev/null || { say "rt, the command of a kit with $logic, isn't on the path"; return 1; }
  version=$(rt version < /dev/null)
  [[ "$version" == *"$logic" ]] || { say "rt is of ${version:-no kit}, and the proofs are for $logic"; return 1; }
  { mkdir -p "${record%/*}" && rm -f "$record" && : > "${record%/*}/build.log"; } 2> /dev/null ||
    { say "crates/$crate/out can't be written"; return 1; }
  (prove_and_link) < /dev/null || { say "not built, so nothing was run"; return 1; }
  sum_sources "$crate" || return 1
  [ "$sources" = "$before" ] || { say "a source was changed during the build: build once more"; return 1; }
  echo "$sources $(sum_of "$built")" > "$record"
}

# Sets `program` to the program of a crate that is to be started, which is built where there is none.
find_program() {
  name_program "$1"
  find_places "$crate"
  recall && return
  sum_sources "$crate" || { say "the sources can't be read"; return 1; }
  if compare_shipped; then
    program=$shipped
    runs_shipped && remember shipped && return
    differs="release/$name wants x86-64 Linux with glibc $(noted "Least glibc") or a later one"
  fi
  program=$built
  is_built && remember built && return
  [ ! -e "$shipped" ] || say "$differs, so the program has to be built ('git status' shows what was changed here, 'git checkout .' takes it back)"
  build
}

# Builds the program here, whatever is there, and says whether it is that of release/: status 0 where it is, 1 where it isn't.
build_and_compare() {
  name_program "$1"
  sum_sources "$crate" || { say "the sources can't be read"; return 70; }
  build || return 70
  if cmp -s "$built" "$shipped"; then
    say "the same program: release/$name, byte for byte"
    return 0
  fi
  compare_shipped || say "$differs"
  [ ! -e "$shipped" ] || say "another program than release/$name: $(rt version) built it here, $(noted Kit) there"
  return 1
}

# Whether the words ask for help: there are none, or the last one is `--help` or `-h`, or `help` alone. No command has such words.
asks_for_help() {
  [ "$#" -ne 0 ] || return 0
  case "${!#}" in
  help) [ "$#" -eq 1 ] ;;
  --help | -h) [ "$#" -eq 1 ] || [ "${@: -2:1}" != --words ] ;;
  *) return 1 ;;
  esac
}

# The lines of the help on a command of the program, and on its options; or on all commands if there is no such command.
say_usage() {
  local lines
  . "$top/release/help.sh"
  if lines=$("help_$crate" | grep -F "./$name FOLDER $1 "); then
    [[ "$lines" != *OPTIONS* ]] || lines+=$'\n'$("help_$crate" | grep '^--')
  else
    lines=$("help_$crate" | grep -F "./$name ")
  fi
  say "these words aren't a command; './$name --help' has more:"
  echo "$lines" >&2
}

# Starts the program for somebody who reads standard error, and says what it waits for and what to do about its status.
start_before_a_reader() {
  local status
  case "$crate ${2-}" in
  "swallow_main run" | "swallow_main votes") [ ! -t 0 ] || say "'$2' reads from the terminal. Control-D ends the input; '< FILE' takes a file" ;;
  "swallow_main session") [ ! -t 0 ] || say "type 'swallow session 1', 'repositories 1' and 'brokers 1', then acts, and 'go' to run them. Control-D ends the session" ;;
  esac
  "$program" "$@"
  status=$?
  case "$status ${2-}" in
  1\ *) say_usage "${2-}" ;;
  "2 votes") say "'votes line L': the first line that isn't in the format (docs/COMMANDS.md, Votes)" ;;
  "2 session") say "each line 'swallow: session line L KIND' says at which line of the input, and what is wrong there (docs/COMMANDS.md)" ;;
  2\ *) say "for 'other plan' and 'old run': raise the number of 'run' in the plan's second line, or take another folder (docs/COMMANDS.md)" ;;
  "5 settle") say "each line 'open' says what it waits for: a deadline in seconds since 1970, or a home that isn't among these repositories (docs/COMMANDS.md)" ;;
  "5 session") say "an act has no outcome: send it in a batch again; '--ticks' and '--messages' set when a batch ends without an outcome (docs/COMMANDS.md)" ;;
  5\ *) say "run the same again; '--ticks' and '--messages' set when a run ends without an outcome (docs/COMMANDS.md)" ;;
  6\ *)
    say "'medium': see the file's own line, and run the same again. 'damaged': put back a copy of the folder. 'full': run the same again, or give the file pages by 'truncate -s' (docs/OPERATIONS.md)"
    ;;
  "8 retire") say "'undecided': 'settle' the repositories, or take a clock that isn't above the attempt's. 'old mark': take a greater clock. 'last volume': this repository can't be retired any more" ;;
  "8 asof" | "8 snapshot") say "'undecided': 'settle' the repositories, or take a clock that isn't above the attempt's. 'last clock': give a clock" ;;
  "8 replay") say "a file was damaged, lost or put in from elsewhere: docs/OPERATIONS.md, 'What replay finds', says what to do" ;;
  "8 watch") say "'overflow': the sum isn't a number of 64 bits. Other rules still work" ;;
  8\ *) say "docs/COMMANDS.md says for each line what to do" ;;
  126\ *) return ;;
  esac
  exit "$status"
}

# Takes the starter's own words off the end of `words`: `--quiet`, and `--yes` of a retirement.
take_own_words() {
  quiet="" yes=""
  while [ "${#words[@]}" -gt 2 ]; do
    case "${words[-1]} ${words[1]}" in
    "--quiet "*) quiet=1 ;;
    "--yes retire") yes=1 ;;
    *) return ;;
    esac
    unset 'words[-1]'
  done
}

# Starts the program of a crate with the words after it. Some words are the starter's: those that ask for help, `build` or
# `--version` alone, and `--quiet` and `--yes` at the end.
start() {
  local words=("${@:2}") quiet yes
  if asks_for_help "${words[@]}"; then
    name_program "$1"
    . "$top/release/help.sh" && "help_$1"
    exit
  fi
  if [ "${#words[@]}" -eq 1 ]; then
    case "${words[0]}" in
    build) build_and_compare "$1"; exit ;;
    --version) . "$top/release/help.sh" && tell_version "$1"; exit ;;
    esac
  fi
  find_program "$1" || exit 70
  if [ "$1" = swallow_main ]; then
    take_own_words
    . "$top/release/words.sh"
    words_fault "${words[@]}"
    if [ -n "$fault" ]; then
      say "$fault"
    elif [ -z "$quiet" ]; then
      case "${words[1]}" in
      run | retire) . "$top/release/warnings.sh" && { warn_of "${words[@]}" || exit 70; } ;;
      esac
    fi
  fi
  trap '' XFSZ # the program gets a limit on the size of files as an error of its write
  [ ! -t 2 ] || start_before_a_reader "${words[@]}"
  shopt -s execfail
  exec "$program" "${words[@]}"
  say "$program can't be started"
  exit 70
}
