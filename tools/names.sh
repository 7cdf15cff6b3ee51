#!/usr/bin/env bash
# Whether what the pages cite is there: each link with its heading, each file and folder that a page names, and in PROOF
# and PROMISE each name of a clause, definition or law. It ends with a count, and with status 0 if nothing is missing.
# It says nothing of whether a name means what the page says of it.
top="$(cd "$(dirname "${BASH_SOURCE[0]}")/.." && pwd)" || exit 1
cd "$top" || exit 1
export LC_ALL=C
work=$(mktemp -d) || exit 1
trap 'rm -rf "$work"' EXIT
right=0 wrong=0
pages=(README.md docs/*.md crates/*/data/README.md bench/README.md torture/README.md tools/README.md edits/README.md examples/README.md examples/*/README.md release/README.md)

check() {
  if [ "$1" -eq 0 ]; then right=$((right + 1)); else wrong=$((wrong + 1)); echo "WRONG $2"; fi
}

# The anchors of a page's headings, one a line.
anchors() {
  sed -n '/^```/,/^```/d; s/^##* //p' "$1" | tr 'A-Z' 'a-z' | sed "s/[^a-z0-9 _-]//g; s/ /-/g"
}

# Links to places in the repository.
for page in "${pages[@]}"; do
  folder=$(dirname "$page")
  while IFS= read -r link; do
    case "$link" in http*) continue ;; esac
    file=${link%%#*} anchor=""
    [ "$link" = "$file" ] || anchor=${link#*#}
    target=$folder/$file
    [ -n "$file" ] || target=$page
    [ -e "$target" ]
    check "$?" "$page: the link $link leads to no file"
    if [ -n "$anchor" ] && [ -f "$target" ]; then
      anchors "$target" | grep -qxF -- "$anchor"
      check "$?" "$page: the link $link leads to no heading"
    fi
  done < <(grep -oE '\]\([^) ]+\)' "$page" | sed 's/^](//; s/)$//')
done

# Files and folders by their paths: below crates/ where the first part of the path is a crate.
cited() {
  grep -ohE '(^|[^A-Za-z0-9_./-])(crates/[a-z_]+|[a-z_]+)/(src|specs|proofs|must-fail)/[A-Za-z_0-9/]+([.](rt|antt|edit))?' "$@" | sed 's/^[^A-Za-z_]//'
  grep -ohE '(^|[^A-Za-z0-9_/])(bench|torture|tools|edits|examples|release|docs)/[A-Za-z_0-9/]+([.][a-z]+)*' "$@" | sed 's/^[^A-Za-z_]//'
}
while IFS= read -r path; do
  found=1
  for base in "" crates/; do
    for end in "" .rt .antt .edit; do [ ! -e "$base$path$end" ] || found=0; done
  done
  check "$found" "a page names $path"
done < <(cited README.md docs/[A-BD-Z]*.md docs/CALLING.md docs/COMMANDS.md bench/README.md torture/README.md tools/README.md | grep -vE '/[A-Z]+([./]|$)' | sort -u)

# Names in the sources.
cat crates/*/src/*.rt crates/*/specs/*.antt | tr -cs 'A-Za-z0-9_' '\n' | sort -u > "$work/words"
ls crates >> "$work/words"
sort -u "$work/words" -o "$work/words"
for page in docs/PROOF.md docs/PROMISE.md; do
  sed '/^```/,/^```/d' "$page" | grep -oE '`[A-Za-z_]+`' | tr -d '`' | sort -u > "$work/names"
  right=$((right + $(comm -12 "$work/names" "$work/words" | wc -l)))
  while IFS= read -r name; do check 1 "$page: no source has the name $name"; done < <(comm -23 "$work/names" "$work/words")
done

echo "$right right, $wrong wrong"
[ "$wrong" -eq 0 ]
