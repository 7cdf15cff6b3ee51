#!/usr/bin/env bash
# Power cuts of the whole system: runs are recorded by strace, and as many images of all their files as the first
# word says (5,000) are made of what a cut at one instant may leave, with one worker and as many with four; each is
# opened again twice and judged (cuts.py says how). It is the program that ./swallow starts.
top="$(cd "$(dirname "${BASH_SOURCE[0]}")/.." && pwd)" || exit 1
work=$(mktemp -d -p /dev/shm) || exit 1
trap 'rm -rf "$work"' EXIT
. "$top/release/start.sh" && find_program swallow_main || exit 1
images=${1:-5000}
for workers in 1 4; do
  python3 "$top/torture/cuts.py" "$program" "$work" "$images" "$workers" "${2:-1}" || { cp -r "$work/wrong" /tmp/; exit 1; }
done
uptime >&2
