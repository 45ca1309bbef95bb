#!/usr/bin/env bash
# check.sh exact|kinds|seeds|write SECVISOR [FOLDER [GUEST...]]: measures and runs the guests that build.sh made in FOLDER,
# all or those named.
#   exact  policies, words of `measure` and output are the stored ones, byte for byte; takes the packages named in
#          docs/LINUX.md
#   kinds  notes and verdict are the stored ones but for turns, harts, addresses and pages; for other packages
#          Both also type into the guest `disk`, as a person does, and replay that.
#   seeds  the boots on one and on four harts end with a shutdown under four other seeds
#   write  stores policies, words and output
set -uo pipefail
here=$(cd "$(dirname "$0")" && pwd)
# e2fsck and debugfs lie where a user's shell doesn't look.
export PATH=$PATH:/usr/sbin
expected=$here/expected
what=${1:-}
program=$(command -v "${2:-secvisor}") || { echo "no program ${2:-secvisor}"; exit 2; }
program=$(realpath "$program")
cd "${3:-$here/out}" || exit 2
guests=" ${*:4} "
failed=0

fail() {
    echo "$1"
    failed=1
}

# wanted NAME: all guests are, or those that were named.
wanted() {
    [ "$guests" = '  ' ] || [[ $guests == *" $1 "* ]]
}

# What a run's notes, verdict and saved disk say, without numbers that another build changes.
kinds() {
    sed -nE '/^(demote|denied gpa|load|unload|retire|verdict|file system:|written:) / {
        s/ (hart|turn) [0-9]+//g
        s/0x[0-9a-f]{16}/ADDRESS/g
        p
    }' "$1"
}

measure_all() {
    while read -r policy words; do
        wanted "${policy%.policy}" || continue
        # shellcheck disable=SC2086
        "$program" $words > /dev/null || fail "$policy: status $?"
    done < measure.txt
}

# run_guest COMMAND NAME DISK SCRIPT: its output; the disk of a guest under `vrun` is saved, and looked at.
run_guest() {
    local saved=none status
    [ "$1" = vrun ] && saved=$2.saved
    "$program" "$1" "$2.elf" "$2.policy" "$3" "$4" 2000000000 "$saved"
    status=$?
    [ "$saved" = none ] || look_at "$saved"
    echo "status $status"
}

# look_at DISK: whether its file system is sound, and the file that Linux wrote.
look_at() {
    e2fsck -fn "$1" > /dev/null 2>&1
    echo "file system: $?"
    echo "written: $(debugfs -R 'cat written' "$1" 2> /dev/null)"
}

# compare NAME: the output against the stored one, in the way that was asked for.
compare() {
    case $what in
    exact) cmp "$1.txt" "$expected/$1.txt" && cmp "$1.policy" "$expected/$1.policy" ;;
    kinds) diff <(kinds "$1.txt") <(kinds "$expected/$1.txt") ;;
    write) mkdir -p "$expected" && cp "$1.txt" "$1.policy" "$expected" ;;
    esac
}

run_all() {
    while read -r name _ _ _ _ disk script command; do
        wanted "$name" || continue
        run_guest "$command" "$name" "$disk" "$script" > "$name.txt"
        if compare "$name"; then echo "$name: $(grep ^verdict "$name.txt")"; else fail "$name differs"; fi
    done < <(grep -v '^#' "$here/guests.txt")
}

# Lines that are typed into a live run, each at the prompt, are answered as those of the script are; and `vrun` replays what
# happened, up to the saved disk.
type_lines() {
    wanted disk || return
    "$here/../tools/type_lines.py" '# ' "$program" vlive disk.elf disk.policy root.disk 4000000000 typed.script \
        < "$here/disk.txt" > typed.txt || fail "typed: status $?"
    "$program" vrun disk.elf disk.policy root.disk typed.script 4294967296 typed.saved | cmp - typed.txt || fail "typed differs"
    look_at typed.saved >> typed.txt
    diff <(kinds typed.txt) <(kinds "$expected/disk.txt") || fail "typed ends otherwise"
    echo "typed: $(grep ^verdict typed.txt)"
}

run_seeds() {
    for name in boot four; do
        wanted "$name" || continue
        for seed in 2 3 4 5; do
            run_guest run "$name" none "auto:$seed" > "$name.$seed.txt"
            if tail -2 "$name.$seed.txt" | tr '\n' ' ' | grep -qx 'verdict shutdown status 0 '; then
                echo "$name auto:$seed: $(grep ^turns "$name.$seed.txt")"
            else
                fail "$name auto:$seed: $(tail -2 "$name.$seed.txt" | head -1)"
            fi
        done
    done
}

case $what in
exact)
    diff measure.txt "$expected/measure.txt" || fail "measure.txt differs"
    measure_all
    run_all
    type_lines
    ;;
kinds)
    measure_all
    run_all
    type_lines
    ;;
seeds)
    measure_all
    run_seeds
    ;;
write)
    measure_all
    run_all
    cp measure.txt "$expected"
    ;;
*)
    echo "check.sh exact|kinds|seeds|write SECVISOR [FOLDER [GUEST...]]"
    failed=2
    ;;
esac
exit $failed
