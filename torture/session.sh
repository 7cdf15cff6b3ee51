#!/usr/bin/env bash
# Tries sessions of the program that ./swallow starts (session.py): torture/session.sh [SESSIONS [KILLS]]
top="$(cd "$(dirname "${BASH_SOURCE[0]}")/.." && pwd)" || exit 1
exec python3 "$top/torture/session.py" "$top/swallow" "${1:-1000}" "${2:-200}"
