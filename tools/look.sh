#!/usr/bin/env bash
# tools/look.sh PROGRAM DIR OUT: the page of the folder DIR by the program (crates/swallow_look/out/swallow_look), and what a
# browser shows of it: OUT/page.html, and OUT/light-1280.png, light-400.png, dark-1280.png, dark-400.png, with Debian's chromium.
# A page of 400 pixels is shown in a frame, since a window can't be that narrow.
set -euo pipefail
program=$1 dir=$2 out=$3 height=${4:-1400}
mkdir -p "$out"
"$program" "$dir" > "$out/page.html"
page="$(readlink -f "$out")/page.html"
frame="$(readlink -f "$out")/frame.html"
echo "<body style='margin:0'><iframe src='file://$page' style='border:0;width:400px;height:${height}px'></iframe>" > "$frame"
# shot FILE SCHEME WIDTH PAGE: 0 is dark, 1 is light.
shot() {
  chromium --headless --no-sandbox --disable-gpu --hide-scrollbars --blink-settings=preferredColorScheme="$2" \
    --window-size="$3,$height" --screenshot="$out/$1.png" "file://$4" > /dev/null 2>&1
}
shot light-1280 1 1280 "$page"
shot dark-1280 0 1280 "$page"
shot light-400 1 400 "$frame"
shot dark-400 0 400 "$frame"
rm "$frame"
