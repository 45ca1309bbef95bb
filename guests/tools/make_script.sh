#!/usr/bin/env bash
# make_script.sh NM IMAGE FILE: the script in FILE, with each word @NAME or @NAME+0xN of its lines `poke` as the address of that
# global symbol of IMAGE, and N bytes after it.
set -euo pipefail
declare -A address
while read -r value _ name; do
    address[$name]=$value
done < <("$1" -g "$2")
while read -ra words; do
    if [ "${words[0]:-}" = poke ]; then
        for at in 1 2; do
            [[ ${words[at]} == @* ]] || continue
            IFS=+ read -r name offset <<< "${words[at]#@}"
            [ -n "${address[$name]:-}" ] || { echo "no symbol $name in $2" >&2; exit 1; }
            words[at]=$(printf '0x%x' $((0x${address[$name]} + ${offset:-0})))
        done
    fi
    echo "${words[*]}"
done < "$3"
