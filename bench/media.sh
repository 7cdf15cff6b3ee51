#!/usr/bin/env bash
# Times writes and syncs of pages of FileMedium beside a C program that writes and syncs the same
# pages, in one run. The program (bench/swallow_bench) is built first.
top="$(cd "$(dirname "${BASH_SOURCE[0]}")/.." && pwd)" || exit 1
made="$(mktemp -d)" || exit 1
trap 'rm -r "$made"' EXIT
pages=${1:-2000}
. "$top/bench/checked.sh" && bench_program swallow_bench || exit 1
cc -O2 -o "$made/media" "$top/bench/media.c" || exit 1

# Seconds of one run over a folder of its own: the folder's name, the program and its first words.
seconds() {
  local begin end folder="$made/$1"
  mkdir -p "$folder"
  begin=$(date +%s%N)
  "${@:2}" "$folder" "$pages" > "$made/count" || exit 1
  end=$(date +%s%N)
  awk "BEGIN { printf \"%.3f\", ($end - $begin) / 1000000000 }"
}

echo "turn  FileMedium  C  ratio  (seconds for $pages pages)"
for turn in 1 2 3 4 5; do
  ours=$(seconds "rattle-$turn" "$bench" media) || exit 1
  theirs=$(seconds "c-$turn" "$made/media") || exit 1
  echo "$turn     $ours       $theirs  $(awk "BEGIN { printf \"%.2f\", $ours / $theirs }")"
done
