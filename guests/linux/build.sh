#!/usr/bin/env bash
# build.sh [FOLDER]: makes every guest of guests.txt in FOLDER (out/ beside this file) from nothing but Debian 12's packages:
#   apt-get install linux-source-6.1 gcc-riscv64-linux-gnu linux-libc-dev-riscv64-cross make gcc flex bison bc xz-utils patch \
#     python3 e2fsprogs
# FOLDER then holds NAME.elf, the modules, disks and script, and measure.txt with the words of each `measure`. There are two
# kernels: `kernel`, and `kernel_virtio` with the drivers of a virtio disk, which the guests under `vrun` and `vlive` have.
# JOBS is how many compilers run at once.
set -euo pipefail
here=$(cd "$(dirname "$0")" && pwd)
tools=$here/../tools
out=$(realpath -m "${1:-$here/out}")
source=$out/linux-source-6.1
kernel=$out/kernel
kernel_virtio=$out/kernel_virtio
modules=$out/modules

# shellcheck source=SCRIPTDIR/kernel.sh
. "$here/kernel.sh"

# Makers of file systems lie where a user's shell doesn't look.
export PATH=$PATH:/usr/sbin

build_kernels() {
    configure "$kernel" "$here/kernel.config"
    kernel_make "$kernel" vmlinux modules_prepare
    cp "$kernel/vmlinux.symvers" "$kernel/Module.symvers"
    configure "$kernel_virtio" "$here/kernel.config" "$here/virtio.config"
    kernel_make "$kernel_virtio" vmlinux modules_prepare
    cp "$kernel_virtio/vmlinux.symvers" "$kernel_virtio/Module.symvers"
}

build_modules() {
    rm -rf "$modules"
    mkdir -p "$modules"
    cp -r "$here"/modules/* "$source"/fs/autofs "$source"/fs/configfs "$modules"
    cp "$source"/fs/binfmt_script.c "$source"/lib/crypto/aes.c "$modules"
    (cd "$source/lib" && cp bch.c crc-itu-t.c crc7.c percpu_test.c test_hexdump.c test_uuid.c "$modules")
    # Warnings name their file, in data whose length stands in the text: without the folder's name.
    kernel_make "$kernel" M="$modules" CONFIG_AUTOFS_FS=m CONFIG_CONFIGFS_FS=m KCFLAGS="-fmacro-prefix-map=$modules/=" modules
    cp "$modules"/*.ko "$modules"/*/*.ko "$out"
    "$here/change_module.py" "$out/hello.ko" byte "$out/hello_byte.ko"
    "$here/change_module.py" "$out/hello.ko" call "$out/hello_call.ko"
    # `hello` for the other kernel, which has it on its disk.
    mkdir -p "$modules/virtio"
    cp "$here/modules/hello.c" "$modules/virtio"
    echo 'obj-m := hello.o' > "$modules/virtio/Kbuild"
    kernel_make "$kernel_virtio" M="$modules/virtio" KCFLAGS="-fmacro-prefix-map=$modules/virtio/=" modules
    mkdir -p "$out/virtio"
    cp "$modules/virtio/hello.ko" "$out/virtio"
}

# The kernel's addresses that an attacker knows; a disk of code, `li a0, 666; ret` over and over; the keys of the shell.
build_others() {
    make -s -C "$here/user" SOURCE="$source" OUT="$out"
    "${CROSS_COMPILE}nm" "$kernel/vmlinux" | sed -nE 's/ [Tt] (set_memory_rw|set_memory_x|sys_getppid)$/ \1/p' > "$out/symbols"
    for _ in {1..128}; do printf '\023\005\240\051\147\200\000\000'; done > "$out/code.disk"
    mapfile -t keys < "$here/keys.txt"
    "$tools/make_keys.py" 52000000 8000000 "${keys[@]}" > "$out/keys.script"
    # A console with an interrupt answers at once.
    mapfile -t keys < "$here/disk.txt"
    "$tools/make_keys.py" --auto 60000000 2000000 "${keys[@]}" > "$out/disk.script"
}

# symbol NAME: its virtual address in the kernel.
symbol() {
    "${CROSS_COMPILE}nm" "$kernel/vmlinux" | sed -nE "s/^([0-9a-f]+) [A-Za-z] $1\$/0x\1/p"
}

# poke_script ADDRESS VALUE: a boot, then a write of an attacker's device to the eight bytes that have this virtual address.
poke_script() {
    printf 'auto 52000000\npoke 0x%x 0x%x\nauto 2000000000\n' $((($1 - 0xffffffff80000000 + 0x80200000) & ~7)) "$2"
}

# It writes `li a0, 666` over a system call, and another system call into the table of them.
build_pokes() {
    local getppid=173
    poke_script "$(symbol sys_getppid)" 0x29a0051300000013 > "$out/poke_text.script"
    poke_script $(($(symbol sys_call_table) + 8 * getppid)) "$(symbol sys_getpid)" > "$out/poke_table.script"
}

# make_disk DISK SIZE INODES: a small file system, the same bytes each time, with what `debugfs` is told on standard input.
make_disk() {
    local id=53656356-6973-4f72-8000-000000000001
    export E2FSPROGS_FAKE_TIME=1767225600
    rm -f "$1"
    truncate -s "$2" "$1"
    mke2fs -q -F -t ext2 -b 1024 -N "$3" -m 0 -I 128 -O none,filetype -U "$id" -E hash_seed="$id",nodiscard "$1" 2> /dev/null
    debugfs -w -f - "$1" > /dev/null 2>&1
}

# put FOLDER NAME FILE: what tells `debugfs` to write a file.
put() {
    printf 'cd %s\nwrite %s %s\n' "$1" "$3" "$2"
}

# One with a file, and one that is the root of a guest.
build_disks() {
    echo "a file of the host" > "$out/greeting"
    chmod 644 "$out/greeting" "$here/commands/disk" "$out/virtio/hello.ko"
    put / greeting "$out/greeting" | make_disk "$out/virtio.disk" 64K 16
    {
        printf 'mkdir %s\n' dev proc sys etc sbin bin lib
        put /sbin init "$out/shell"
        put /bin mount "$out/mount"
        put /bin umount "$out/mount"
        put /etc commands "$here/commands/disk"
        put /lib hello.ko "$out/virtio/hello.ko"
        put / greeting "$out/greeting"
    } | make_disk "$out/root.disk" 512K 32
}

# guest NAME HARTS COMMANDS APPROVED OTHERS DISK COMMAND: its image for COMMAND, run or vrun, and its line of measure.txt.
guest() {
    local name=$1 harts=$2 commands=$3 approved=${4//,/ } others=${5//,/ } files=() objects=() names=() module
    local image=$kernel programs=("bin/attack=$out/attack" "etc/symbols=$out/symbols") virtio=() folder='' root=''
    local archive=(--archive "$out/$name.cpio")
    if [ "$7" = vrun ]; then
        image=$kernel_virtio
        programs=("bin/mount=$out/mount" "bin/umount=$out/mount")
        virtio=(--virtio)
        folder=virtio/
    fi
    if [ "$6" = root.disk ]; then
        archive=()
        root=' root=/dev/vda rw'
    fi
    [ "$approved" = - ] && approved=
    [ "$others" = - ] && others=
    for module in $approved; do
        objects+=("$folder$module.ko")
        names+=("${module//-/_}")
    done
    for module in $approved $others; do
        files+=("lib/$module.ko=$out/$module.ko")
    done
    [ -n "$root" ] || "$tools/make_archive.py" "$out/$name.cpio" "init=$out/shell" "${programs[@]}" "etc/commands=$here/commands/$commands" \
        "${files[@]}"
    local list
    list=$(IFS=,; echo "${names[*]}")
    local words
    words=$("$tools/make_image.py" "$image/vmlinux" "$out/$name.elf" --virtual 0xffffffff80000000 --physical 0x80200000 \
        --trap-entry handle_exception --hart-entry secondary_start_sbi --init __init_text_begin __init_text_end \
        --harts "$harts" "${archive[@]}" "${virtio[@]}" \
        --arguments "earlycon=sbi console=hvc0 lpj=100000${list:+ module.secvisor=$list}$root")
    echo "$name.policy measure $name.policy $name.elf $words ${objects[*]}" | sed 's/ $//' >> "$out/measure.txt"
}

mkdir -p "$out"
unpack "$here/kernel.patch"
build_kernels
build_modules
build_others
build_pokes
build_disks
: > "$out/measure.txt"
grep -v '^#' "$here/guests.txt" | while read -r name harts commands approved others disk _ command; do
    guest "$name" "$harts" "$commands" "$approved" "$others" "$disk" "$command"
done
