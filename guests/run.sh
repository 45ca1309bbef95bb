#!/usr/bin/env bash
# run.sh policies|expected|check SECVISOR: writes the stored policies, or the stored output of all runs, or compares both
# with what the program makes in a copy of the folder.
cd "$(dirname "$0")" || exit 1
what=$1
program=$(command -v "${2:-secvisor}") || exit 1
program=$(realpath "$program")
crate=$(realpath ../crates/test_runs)
copy=$(mktemp -d)
trap 'rm -rf "$copy"' EXIT
cp "$crate"/data/* "$copy"
cd "$copy" || exit 1
failed=0

# Makes every policy anew.
measure_all() {
    while read -r policy words; do
        rm -f "$policy"
        # shellcheck disable=SC2086
        "$program" $words > /dev/null || { echo "failed $words"; failed=1; }
    done < <(grep -v '^#' policies.txt)
}

# Makes every policy anew, and prints of each what the crate prints of it.
compare_all() {
    while read -r policy words; do
        rm -f "$policy"
        # shellcheck disable=SC2086
        "$program" $words > /dev/null
        if cmp -s "$policy" "$crate/data/$policy"; then
            echo "policy $policy ok"
        else
            echo "policy $policy differs"
        fi
    done < <(grep -v '^#' policies.txt)
}

# Prints of each run what the crate prints of it.
run_all() {
    while read -r name words; do
        # shellcheck disable=SC2086
        "$program" $words > run.out
        echo "guest $name status $?"
        cat run.out
    done < <(grep -v '^#' runs.txt)
}

case $what in
policies)
    measure_all
    [ $failed = 0 ] && cp ./*.policy "$crate"/data/
    ;;
expected)
    { run_all; compare_all; } > expected
    sed -n '/^== /,$p' "$crate"/stdout > cases
    cat expected cases > "$crate"/stdout
    ;;
check)
    { run_all; compare_all; } > expected
    diff expected <(sed '/^== /,$d' "$crate"/stdout) && echo "same runs and policies" || failed=1
    ;;
*)
    echo "run.sh policies|expected|check SECVISOR"
    failed=2
    ;;
esac
exit $failed
