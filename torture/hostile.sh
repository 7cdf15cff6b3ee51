#!/usr/bin/env bash
# Spoils plans, media that runs left, and messages, and gives each to the public call that reads it. The words are
# a seed, how many plans, sets of media and messages, and how many processes share them: 7, 800, 200, 4,000 and 1 unless
# given. The program (torture/hostile) isn't proved: it and the libraries below it are built with checks of each index and
# sum, and with HOW=whole of each access (checked.sh). Prints how often each answer came, and how much processor each kind
# took; a wrong one is told with its seed and its number, by which it can be tried alone: torture/hostile.sh SEED KIND NUMBER.
# A crash and a hang are told with their block of numbers.
top="$(cd "$(dirname "${BASH_SOURCE[0]}")/.." && pwd)" || exit 1
made="$(mktemp -d)" || exit 1
trap 'rm -rf "$made"' EXIT
. "$top/bench/checked.sh" || exit 1
build_checked hostile "$made" "${HOW:-quick}" || exit 1
seed=${1:-7}
processes=1
mkdir "$made/cases" "$made/ends" || exit 1

# So many cases of a kind from a number on, as the input of one process.
cases() {
  { echo "$1 $seed $2 $3"; cat "$top"/examples/*.plan; } > "$made/cases/$1-$2"
}

# So many cases of a kind, $3 at most in a process.
kind() {
  local first
  for ((first = 0; first < $2; first += $3)); do
    cases "$1" "$first" $(($2 - first < $3 ? $2 - first : $3))
  done
}

if [ "$#" -eq 3 ]; then
  cases "$2" "$3" 1
else
  processes=${5:-1}
  kind plans "${2:-800}" 1000
  kind pages "${3:-200}" 250
  # A case of messages has sixteen.
  kind messages $((${4:-4000} / 16)) 2000
fi

# One block, for at most ten minutes of processor: what it says, its status, and the seconds that it took.
cat > "$made/block" <<'B'
#!/usr/bin/env bash
cd "$1" && ulimit -t 600 || exit 1
block=$(basename "$2")
TIMEFORMAT="$block %U"
{ time env -i ./program < "$2" > "ends/$block.said" 2> "ends/$block.how"; } 2> "ends/$block.time"
echo "$?" > "ends/$block.status"
B
chmod +x "$made/block"
find "$made/cases" -type f | sort -V | xargs -P "$processes" -n 1 "$made/block" "$made"

cd "$made/ends" || exit 1
awk '/^(plans|pages|messages) [0-9]+ / { kind = $1; count = $2; sub(/^[a-z]+ [0-9]+ /, ""); sums[kind ": " $0] += count }
  END { for (name in sums) print sums[name], name }' ./*.said | sort -k2,2 -k1,1nr
awk '{ sub(/-.*/, "", $1); sums[$1] += $2 } END { for (kind in sums) print kind ": " sums[kind] " seconds of processor" }' ./*.time
wrong=0
for status in ./*.status; do
  if [ "$(cat "$status")" -ne 0 ]; then
    wrong=1
    echo "$(basename "$status" .status): status $(cat "$status")"
    grep -A 12 '^wrong ' "${status%.status}.said"
    head -n 40 "${status%.status}.how"
  fi
done
exit "$wrong"
