#!/usr/bin/env bash
# run.sh EVENTS PROGRAM...: builds the guests of this folder, and tells how many million turns a second each PROGRAM makes on
# each, by processor time, less that of the same words with no event: the best of three rounds, in which the programs
# take turns. The first PROGRAM measures the policies. A PROGRAM may hold options, split at spaces. Where a guest ends before
# EVENTS, or where the times can't be told apart, that is said in place of a number.
here=$(cd "$(dirname "$0")" && pwd) || exit 1
events=$1
shift
built=$(mktemp -d)
trap 'rm -rf "$built"' EXIT
make -s -C "$here/.." BUILT="$built" speed || exit 1
cd "$built" || exit 1
TIMEFORMAT='%U %S'

# The processor time of a run in seconds.
seconds() {
    # shellcheck disable=SC2086
    { time $1 run "$2.elf" "$2.policy" none none "$3" none > out 2> /dev/null; } 2>&1 | awk '{ print $1 + $2 }'
}

# Whether a guest still runs after all events.
goes_on() {
    # shellcheck disable=SC2086
    $1 run "$2.elf" "$2.policy" none none "$3" none 2> /dev/null | tail -n 1 | grep -qx 'verdict ended'
}

for guest in traps tables four_harts; do
    harts=1
    [ $guest = four_harts ] && harts=4
    # shellcheck disable=SC2086
    $1 measure $guest.policy $guest.elf 64 $harts 0x80000000,0x80000100 none > /dev/null || exit 1
    echo $guest
    # shellcheck disable=SC2086
    goes_on "$1" $guest "$events" || { echo "    ends before $events events: fewer tell its speed"; continue; }
    for _ in 1 2 3; do
        number=0
        for program; do
            number=$((number + 1))
            echo "$number $(seconds "$program" $guest "$events") $(seconds "$program" $guest 0)"
        done
    done | awk -v events="$events" '
        !($1 in best) || $2 - $3 < best[$1] { best[$1] = $2 - $3 }
        END {
            for (i = 1; i in best; i++)
                if (best[i] > 0) printf "    program %d: %.1f million turns a second\n", i, events / best[i] / 1e6
                else printf "    program %d: too few events to tell\n", i
        }'
done
