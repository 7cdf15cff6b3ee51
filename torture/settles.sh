#!/usr/bin/env bash
# Kills and power cuts of `settle`: as many images as the first word says (200) of what a power cut inside a settle may leave, and as
# many settles that are ended by their process ids, each of which has to settle again (settles.py says how). It is the
# program that ./swallow starts.
top="$(cd "$(dirname "${BASH_SOURCE[0]}")/.." && pwd)" || exit 1
work=$(mktemp -d -p /dev/shm) || exit 1
trap 'rm -rf "$work"' EXIT
. "$top/release/start.sh" && find_program swallow_main || exit 1
python3 "$top/torture/settles.py" "$program" "$work" "${1:-200}" "${2:-1}" || { cp -r "$work/wrong" /tmp/ 2> /dev/null; exit 1; }
