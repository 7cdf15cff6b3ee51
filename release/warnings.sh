# Read by start.sh: warns on standard error, before the program starts, of what a command would do in silence. What the program
# does stays the same. A plan is read only if standard input is a file, by its name in /proc, so that the program reads it from
# the beginning. `--quiet` as last word drops all warnings.

# What a plan has: a name that its script uses and never sets, and an object that an act of one broker writes without reading
# it, while an act of another broker reads it. Of each, the first in the plan.
plan_warnings() {
  LC_ALL=C awk '
    BEGIN {
      count = split("let read write print if else end repeat withdraw and or not mod nothing len text given done", word, " ")
      for (at = 1; at <= count; at++) reserved[word[at]] = 1
    }
    # The names that an expression uses, but for those that `given` has a default for.
    function use(text) {
      gsub(/given *\( */, "?(", text)
      gsub(/[?]\([a-z][a-z0-9_]*/, "?(", text)
      while (match(text, /[a-z][a-z0-9_]*/)) {
        name = substr(text, RSTART, RLENGTH)
        text = substr(text, RSTART + RLENGTH)
        if (!(name in reserved) && !(name in used)) { used[name] = NR; order[++names] = name }
      }
    }
    # What an act has used and not set, and which objects it has read and written.
    function finish(   at, object) {
      for (at = 1; at <= names && unset == ""; at++)
        if (!(order[at] in set)) unset = "line " used[order[at]] ": \047" order[at] "\047 is set nowhere in its script, so its value is nothing"
      for (object in wrote) if (!(object in looked) && !((object, broker) in writer)) { writer[object, broker] = acts; objects[object] = 1 }
      for (object in looked) if (!(object in own) && !((object, broker) in reader)) reader[object, broker] = acts
      for (object in wrote) mine[broker, object] = 1
      split("", used); split("", set); split("", wrote); split("", looked); split("", own); split("", order); names = 0
    }
    { sub(/\r$/, ""); sub(/^ +/, "") }
    NR <= 4 || /^#/ || /^$/ { next }
    !inside && /^act broker [0-9]+ / { inside = 1; acts++; broker = $3; next }
    !inside { exit }
    /^done *$/ { inside = 0; finish(); next }
    {
      line = $0
      gsub(/"([^"\\]|\\.)*"/, "0", line)
      kind = line; sub(/[^a-z].*/, "", kind)
      rest = substr(line, length(kind) + 1)
      sub(/^ +/, "", rest)
      if (kind == "let" || kind == "read") {
        name = rest; sub(/[^a-z0-9_].*/, "", name)
        set[name] = 1
        rest = substr(rest, length(name) + 1)
      }
      if (match(rest, /^ *[0-9]+\.[0-9]+/) && (kind == "read" || kind == "write")) {
        object = substr(rest, 1, RLENGTH); gsub(/ /, "", object)
        if (kind == "write") wrote[object] = 1
        else if (!(object in wrote)) { looked[object] = 1; if ((broker, object) in mine) own[object] = 1 }
      }
      use(rest)
    }
    END {
      if (unset != "") print unset
      for (object in objects) for (one = 1; one <= 16; one++) for (other = 1; other <= 16; other++) {
        if (one == other || !((object, one) in writer) || !((object, other) in reader)) continue
        rank = writer[object, one] * 10001 + reader[object, other]
        if (first != "" && rank >= least) continue
        least = rank
        first = "act " writer[object, one] " (broker " one ") writes " object ", and act " reader[object, other] " (broker " other ") reads it: they run at the same time. For an order, give both to one broker, or take two runs"
      }
      if (first != "") print first
    }' "$1"
}

# Whether a retirement is above all clocks of the folder. Then `enough` is the least clock above them.
is_above_all() {
  local mark
  mark=$("$program" "$1" snapshot 2> /dev/null | sed -n 1p) # it has ended, and holds no lock
  [[ "$mark" =~ ^"snapshot mark "([0-9]+)[.] ]] || return 1
  enough=${BASH_REMATCH[1]}
  [ "$2" -gt "$enough" ]
}

# Warns of what the words $@ would do. Status 1 if they need `--yes`, which is in `yes`.
warn_of() {
  local text enough
  case "${2-}" in
  run)
    [ -f /dev/stdin ] || return 0
    while IFS= read -r text; do say "warning: $text"; done < <(plan_warnings /proc/self/fd/0 2> /dev/null)
    ;;
  retire)
    [ "$#" -eq 4 ] && is_above_all "$1" "$4" || return 0
    text="clock $4 is above all that the folder has ($enough is enough). Each try below it will be refused at repository $3"
    if [ -t 0 ] && [ -z "$yes" ]; then
      say "$text. Nothing was done: add '--yes' if this is wanted"
      return 1
    fi
    [ -n "$yes" ] || say "warning: $text"
    ;;
  esac
  return 0
}
