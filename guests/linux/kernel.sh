# What every build of a kernel has in common, for build.sh here and in guests/suites, which sets `source`, the folder of the
# kernel's source, and `tools`.
# JOBS is how many compilers run at once.

# Each call of the kernel's make needs these, one without them would configure it for this machine. The last five make
# the same bytes of every build.
export ARCH=riscv CROSS_COMPILE=riscv64-linux-gnu-
export LOCALVERSION="" KBUILD_BUILD_USER=secvisor KBUILD_BUILD_HOST=guest KBUILD_BUILD_VERSION=1
export KBUILD_BUILD_TIMESTAMP='2026-01-01 00:00:00 UTC'
# shellcheck disable=SC2154
export PYTHONPATH=$tools PYTHONDONTWRITEBYTECODE=1

# kernel_make FOLDER WORDS...: the kernel's make, for the kernel in FOLDER.
kernel_make() {
    # shellcheck disable=SC2154
    make -s -j"${JOBS:-$(nproc)}" -C "$source" O="$1" "${@:2}"
}

# unpack PATCH...: Debian's source with these changes.
unpack() {
    local change
    [ -e "$source/.patched" ] && return
    rm -rf "$source"
    tar -C "$(dirname "$source")" -xJf /usr/src/linux-source-6.1.tar.xz
    for change in "$@"; do
        patch -s -d "$source" -p1 < "$change"
    done
    touch "$source/.patched"
}

# options FILE...: what each option is to be; the last line about one holds.
options() {
    cat "$@" | awk '
        /^CONFIG_/ { split($0, part, "="); line[part[1]] = $0 }
        /^# CONFIG_/ { line[$2] = $0 }
        END { for (name in line) print line[name] }'
}

# configure FOLDER OPTIONS...: a kernel with the options of these files.
configure() {
    local folder=$1 option
    mkdir -p "$folder"
    kernel_make "$folder" tinyconfig > /dev/null
    cat "${@:2}" >> "$folder/.config"
    kernel_make "$folder" olddefconfig 2> /dev/null
    options "${@:2}" | while read -r option; do
        grep -qxF "$option" "$folder/.config" || { echo "not held: $option"; exit 1; }
    done
}
