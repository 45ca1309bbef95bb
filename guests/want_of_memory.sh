#!/usr/bin/env bash
# want_of_memory.sh SECVISOR: makes a run that prints, one that loads a module and one that ends with a stop want memory
# at one allocation after another. Each must end with status 6 and a beginning of its output, or as it ends else. It is
# no part of the gate; it needs a C compiler.
program=$(realpath "$(command -v "${1:-secvisor}")") || exit 1
here=$(realpath "$(dirname "$0")")
folder=$(mktemp -d)
trap 'rm -rf "$folder"' EXIT
cd "$folder" || exit 1
cp "$here"/../crates/test_runs/data/* .
cc -shared -fPIC -O2 -o fail.so "$here/tools/fail_allocation.c" -ldl || exit 1
failed=0

# The run of a guest with each of its allocations failing in turn, until there is none left.
try() {
    local words number=0 status whole_status
    words=$(grep "^$1 " runs.txt | cut -d ' ' -f 2-)
    # shellcheck disable=SC2086
    "$program" $words > whole
    whole_status=$?
    while :; do
        number=$((number + 1))
        rm -f told
        # shellcheck disable=SC2086
        FAIL_ALLOCATION=$number FAIL_ALLOCATION_TOLD=told LD_PRELOAD=./fail.so "$program" $words > out
        status=$?
        [ -e told ] || break
        if [ $status = 6 ] && cmp -s out <(head -c "$(stat -c %s out)" whole); then continue; fi
        if [ $status = $whole_status ] && cmp -s out whole; then continue; fi
        echo "$1: allocation $number: status $status"
        failed=1
    done
    echo "$1: $((number - 1)) allocations"
}

for guest in greeting loader store; do
    try $guest
done
exit $failed
