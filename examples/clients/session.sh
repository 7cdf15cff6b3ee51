#!/bin/bash
# A session from a shell: sends batches to ./swallow, and writes the answer to each. From the top of the repository:
#     examples/clients/session.sh FOLDER
coproc SESSION { ./swallow "$1" session; }
printf 'swallow session 1\nrepositories 1\nbrokers 1\n' >&"${SESSION[1]}"

# Sends a batch of one act with this script, and writes the answer, which ends with a line `wire` or `swallow:`.
act() {
    printf 'act broker 1 home 1 timeout 1000 tries 100\n%s\ndone\ngo\n' "$1" >&"${SESSION[1]}"
    local line
    while IFS= read -r line <&"${SESSION[0]}"; do
        printf '%s\n' "$line"
        case $line in 'wire '* | 'swallow: '*) return ;; esac
    done
}

act 'write 1.1 41'
act $'read x 1.1\nwrite 1.1 x + 1\nprint x + 1'
act 'reed x 1.1'
exec {SESSION[1]}>&-
wait "$SESSION_PID"
