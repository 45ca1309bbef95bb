#!/usr/bin/env bash
# unpatched.sh FOLDER: makes FOLDER/unpatched.elf, a kernel of Debian's source without the patch and with what writes
# instructions after the boot, and FOLDER/unpatched.txt with the words of its `measure`. It needs what build.sh needs. What
# breaks this kernel under SecVisor, all of it in one run:
#   secvisor survey unpatched.elf unpatched.policy none auto:1 100000000
# JOBS is how many compilers run at once.
set -euo pipefail
here=$(cd "$(dirname "$0")" && pwd)
tools=$here/../tools
out=$(realpath -m "${1:-$here/out}")
source=$out/unpatched/linux-source-6.1
kernel=$out/unpatched/kernel

# shellcheck source=SCRIPTDIR/kernel.sh
. "$here/kernel.sh"

mkdir -p "$out/unpatched"
unpack
configure "$kernel" "$here/kernel.config" "$here/unpatched.config"
kernel_make "$kernel" vmlinux modules_prepare
cp "$kernel/vmlinux.symvers" "$kernel/Module.symvers"
mkdir -p "$out/unpatched/modules"
cp "$here/modules/hello.c" "$out/unpatched/modules"
echo "obj-m := hello.o" > "$out/unpatched/modules/Kbuild"
kernel_make "$kernel" M="$out/unpatched/modules" modules
make -s -C "$here/user" SOURCE="$source" OUT="$out"
"$tools/make_archive.py" "$out/unpatched.cpio" "init=$out/shell" "etc/commands=$here/commands/unpatched" \
    "lib/hello.ko=$out/unpatched/modules/hello.ko"
words=$("$tools/make_image.py" "$kernel/vmlinux" "$out/unpatched.elf" --virtual 0xffffffff80000000 --physical 0x80200000 \
    --trap-entry handle_exception --hart-entry secondary_start_sbi --init __init_text_begin __init_text_end \
    --harts 1 --archive "$out/unpatched.cpio" --arguments "earlycon=sbi console=hvc0 lpj=100000")
echo "unpatched.policy measure unpatched.policy unpatched.elf $words" > "$out/unpatched.txt"
