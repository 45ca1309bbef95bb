#!/usr/bin/env bash
# build.sh [FOLDER]: makes every guest of guests.txt in FOLDER (out/ beside this file) from nothing but the packages that
# guests/linux/build.sh names. There are four kernels: `strict`, `loose` and `open` for the dump test, and `torture`. FOLDER then
# holds NAME.elf and NAME.cpio, and measure.txt with the words of each `measure`.
# JOBS is how many compilers run at once.
set -euo pipefail
here=$(cd "$(dirname "$0")" && pwd)
linux=$here/../linux
tools=$here/../tools
out=$(realpath -m "${1:-$here/out}")
source=$out/linux-source-6.1

# shellcheck source=SCRIPTDIR/../linux/kernel.sh
. "$linux/kernel.sh"

# build_kernel NAME FLAGS OPTIONS...: the kernel NAME, with these options over those of guests/linux.
build_kernel() {
    configure "$out/$1" "$linux/kernel.config" "${@:3}"
    kernel_make "$out/$1" KCFLAGS="$2" vmlinux
    "${CROSS_COMPILE}objcopy" -O binary "$out/$1/vmlinux" "$out/$1/Image"
}

build_programs() {
    make -s -C "$linux/user" SOURCE="$source" OUT="$out"
    make -s -C "$linux/user" SOURCE="$source" OUT="$out" VPATH="$here/user" "$out/provoke"
}

# guest NAME KERNEL HARTS COMMANDS ARGUMENTS: its image and its line of measure.txt.
guest() {
    local words
    "$tools/make_archive.py" "$out/$1.cpio" "init=$out/shell" "bin/mount=$out/mount" "bin/provoke=$out/provoke" \
        "etc/commands=$here/commands/$4"
    words=$("$tools/make_image.py" "$out/$2/vmlinux" "$out/$1.elf" --virtual 0xffffffff80000000 --physical 0x80200000 \
        --trap-entry handle_exception --hart-entry secondary_start_sbi --init __init_text_begin __init_text_end \
        --harts "$3" --archive "$out/$1.cpio" --arguments "earlycon=sbi console=hvc0 lpj=100000${5:+ $5}")
    echo "$1.policy measure $1.policy $1.elf $words" >> "$out/measure.txt"
}

mkdir -p "$out"
unpack "$linux/kernel.patch" "$here/kernel.patch"
build_kernel strict "" "$here/lkdtm.config" "$here/strict.config"
build_kernel loose "" "$here/lkdtm.config" "$here/loose.config"
build_kernel open -DSECVISOR_ALL_EXECUTABLE "$here/lkdtm.config" "$here/loose.config"
build_kernel torture "" "$here/torture.config"
build_programs
: > "$out/measure.txt"
grep -v '^#' "$here/guests.txt" | while read -r name kernel harts commands arguments; do
    guest "$name" "$kernel" "$harts" "$commands" "$arguments"
done
