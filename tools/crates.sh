#!/usr/bin/env bash
# Writes docs/CRATES.md: of each crate what its sources say it is, what each file of its specs/ defines, and its laws.
# `tools/crates.sh check` changes nothing: its status is 0 if the page is what the sources give, and it shows the
# differences if not. It needs no toolchain.
#
# The layers and their order are those of crates.txt. What is said of a crate is the first sentence of the `//!` lines
# of its src/lib.rt (of src/main.rt, if it has no lib.rt), what is said of a file of specs/ the first sentence of the
# comment at its top. Laws are the public functions of src/*laws.rt, and others whose doc comment begins with `A law:`;
# what is said of a law is the first sentence of that comment.
top="$(cd "$(dirname "${BASH_SOURCE[0]}")/.." && pwd)" || exit 1
cd "$top" || exit 1
page=docs/CRATES.md

# The first sentence of the comment lines at the top of a file, which begin with $1.
says() {
  awk -v mark="$1" '
    index($0, mark) == 1 { line = substr($0, length(mark) + 2); text = text == "" ? line : text " " line; next }
    { exit }
    END { at = match(text, /[.]( |$)/); print at ? substr(text, 1, at) : text }' "$2"
}

# The laws of the source files given, one a line: name, tab, what is said of it.
laws() {
  awk '
    FNR == 1 { doc = ""; named = FILENAME ~ /laws[.]rt$/ }
    /^\/\/\/ / { line = substr($0, 5); doc = doc == "" ? line : doc " " line; next }
    /^pub fn / && (named || doc ~ /^A law:/) {
      name = $3; sub(/[<(].*/, "", name)
      sub(/^A law: /, "", doc)
      at = match(doc, /[.:]( |$)/)
      print name "\t" toupper(substr(doc, 1, 1)) substr(doc, 2, (at ? at - 1 : length(doc)) - 1) "."
    }
    /^[^ \/]/ { doc = "" }' "$@"
}

# Breaks lines at 100 characters, with the indent of list entries.
wrap() {
  awk '{
    indent = match($0, /^- /) ? "  " : ""; line = ""
    count = split($0, words, " ")
    for (at = 1; at <= count; at++) {
      if (line != "" && length(line) + 1 + length(words[at]) > 100) { print line; line = indent words[at] }
      else line = line == "" ? words[at] : line " " words[at]
    }
    print line
  }'
}

write() {
  local line name source file law text
  echo "# Crates"
  echo
  echo "tools/crates.sh writes this page from the first lines of the sources, and \`./swallow test\` compares" \
    "it with them. Nothing here is written by hand, and its words don't count among those of the pages." \
    "[ARCHITECTURE](ARCHITECTURE.md) explains the layers; which crates each crate names is in" \
    "[crates.txt](../crates.txt)." | wrap
  while IFS= read -r line; do
    case "$line" in
    "# NAME:"* | "") ;;
    "# "*) text=${line#"# "}; printf '\n## %s\n' "${text^}" ;;
    *)
      name=${line%%[: ]*}
      source=crates/$name/src/lib.rt
      [ -e "$source" ] || source=crates/$name/src/main.rt
      printf '\n**%s**: ' "$name"
      says '//!' "$source"
      echo
      for file in crates/"$name"/specs/*.antt; do
        [ "$(basename "$file")" != Lib.antt ] && [ -e "$file" ] || continue
        text=$(says '--' "$file")
        echo "- \`$(basename "$file" .antt)\`${text:+: $text}"
      done
      while IFS=$'\t' read -r law text; do
        echo "- law \`$law\`: $text"
      done < <(laws crates/"$name"/src/*.rt)
      ;;
    esac
  done < crates.txt | wrap | cat -s
}

case "${1-}" in
"") write > "$page.new" && mv "$page.new" "$page" ;;
check)
  if write | diff "$page" -; then
    echo "docs/CRATES.md is what the sources give"
  else
    echo "docs/CRATES.md isn't what the sources give: tools/crates.sh writes it again"
    exit 1
  fi
  ;;
*) echo "tools/crates.sh [check]"; exit 1 ;;
esac
