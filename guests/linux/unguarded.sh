#!/usr/bin/env bash
# unguarded.sh NAME [FOLDER]: runs a guest's kernel, modules and programs under QEMU, without SecVisor. The kernel finds no
# calls about modules there, so it makes none. Debian: apt-get install qemu-system-misc opensbi
set -euo pipefail
here=$(cd "$(dirname "$0")" && pwd)
cd "${2:-$here/out}"
harts=$(awk -v name="$1" '$1 == name { print $2 }' "$here/guests.txt")
riscv64-linux-gnu-objcopy -O binary kernel/vmlinux kernel/Image
exec qemu-system-riscv64 -machine virt -smp "$harts" -m 64M -nographic -no-reboot -kernel kernel/Image \
    -initrd "$1.cpio" -append "earlycon=sbi console=hvc0 lpj=100000" < /dev/null
