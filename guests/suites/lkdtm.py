#!/usr/bin/env python3
"""lkdtm.py SECVISOR [FOLDER]: the permission and control-flow triggers of Linux's dump test, each in a run of its own, with
strict kernel memory permissions, without them, and with all of the kernel's memory executable, under SecVisor and under QEMU
alone; prints the table of docs/LINUX.md.

FOLDER is where build.sh made the guests. Under SecVisor all runs of a kernel go on from one snapshot, and the trigger is
typed into its shell; under QEMU each is a boot whose shell begins with it. The output of each run stays in FOLDER. The
status is 1 where a promised trigger comes through under SecVisor."""
import argparse
import concurrent.futures
import os
import re
import subprocess
import sys

HERE = os.path.dirname(os.path.abspath(__file__))
TOOLS = os.path.join(HERE, '..', 'tools')
TRIGGERS = ['EXEC_DATA', 'EXEC_STACK', 'EXEC_KMALLOC', 'EXEC_VMALLOC', 'EXEC_RODATA', 'EXEC_USERSPACE', 'EXEC_NULL',
            'WRITE_KERN', 'WRITE_RO', 'WRITE_RO_AFTER_INIT', 'WRITE_OPD', 'ACCESS_USERSPACE', 'ACCESS_NULL',
            'CFI_FORWARD_PROTO', 'CFI_BACKWARD']
# Code integrity speaks of what runs in kernel mode and of the bytes of approved code, and of nothing else.
PROMISED = {'EXEC_DATA', 'EXEC_STACK', 'EXEC_KMALLOC', 'EXEC_VMALLOC', 'EXEC_RODATA', 'EXEC_USERSPACE', 'EXEC_NULL',
            'WRITE_KERN'}
KERNELS = ('strict', 'loose', 'open')
# Events to the shell; events for a trigger, in which Linux tells of a stall; the same in seconds.
BOOT, MOST = 60_000_000, 300_000_000
QEMU_SECONDS = 30


def script(lines):
    """A boot, then these lines typed at once, then time to answer them."""
    keys = [f'key {byte}' for line in lines for byte in (line + '\n').encode()]
    return '\n'.join([f'auto {BOOT}', *keys, f'auto {MOST}', ''])


def command(words, out, seconds=None):
    """Runs a command in the folder; its output as text, which is kept under the name `out`."""
    try:
        done = subprocess.run(words, stdin=subprocess.DEVNULL, stdout=subprocess.PIPE, stderr=subprocess.DEVNULL,
                              timeout=seconds)
        text = done.stdout
    except subprocess.TimeoutExpired as late:
        text = (late.stdout or b'') + b'\nlate\n'
    with open(out, 'wb') as file:
        file.write(text)
    return text.decode('utf-8', 'replace').replace('\r', '')


def guarded(secvisor, kernel, trigger):
    """The run of a trigger from the kernel's snapshot."""
    name = f'{kernel}.{trigger}'
    with open(f'{name}.script', 'w') as file:
        file.write(script([f'provoke {trigger}', 'poweroff']))
    words = [secvisor, 'resume', f'{kernel}.snap', f'{kernel}.policy', f'{name}.script', str(BOOT + MOST), 'none']
    return command(words, f'{name}.secvisor')


def unguarded(kernel, trigger):
    """The same kernel and programs under QEMU, without SecVisor."""
    name = f'{kernel}.{trigger}'
    with open(f'{name}.commands', 'w') as file:
        file.write(f'mount debugfs /sys/kernel/debug debugfs\nprovoke {trigger}\npoweroff\n')
    subprocess.run([os.path.join(TOOLS, 'make_archive.py'), f'{name}.cpio', 'init=shell', 'bin/mount=mount',
                    'bin/provoke=provoke', f'etc/commands={name}.commands'], check=True)
    return command(['qemu-system-riscv64', '-machine', 'virt', '-m', '64M', '-nographic', '-no-reboot', '-kernel',
                    f'{kernel}/Image', '-initrd', f'{name}.cpio', '-append', 'earlycon=sbi console=hvc0 lpj=100000'],
                   f'{name}.qemu', QEMU_SECONDS)


# What the kernel prints, and what is said of it here.
TELLING = [('XFAIL', 'no such descriptors here'), ('FAIL: func returned', 'the code ran'), ('survived bad read', 'read'),
           ('survived bad write', 'written'), ("wasn't overwritten", 'but as it was'),
           ('survived mismatched', 'called'), ('return address was redirected', 'redirected'),
           ('manipulation failed', 'the test finds no return address'), ('Oops', 'oops'),
           ('unhandled signal 11', 'signal 11 to the process'),
           ('detected stall|self-detected stall', 'endless faults, a stall'), ('Kernel panic', 'panic')]


def linux_says(text):
    """What the kernel says of the trigger: its refusal, or what went through."""
    begun = text.partition('Performing direct entry')[2]
    said = [words for pattern, words in TELLING if re.search(pattern, begun)]
    return ', '.join(said) or ('' if begun else 'no trigger')


def machine_says(text):
    """The verdict or note of the machine that the trigger brought about, or nothing."""
    found = re.search(r'^verdict (stopped \w+)', text, re.M) or re.search(r'^(demote) ', text, re.M)
    return f'`{found[1]}`' if found else ''


def cells(secvisor, kernel, trigger):
    """What comes of a trigger without SecVisor and with it."""
    without, with_it = unguarded(kernel, trigger), guarded(secvisor, kernel, trigger)
    if not re.search('^verdict ', with_it, re.M):
        return linux_says(without), 'no report'
    under = ', '.join(filter(None, (machine_says(with_it), linux_says(with_it))))
    return linux_says(without), 'the same' if under == linux_says(without) else under


def under(row):
    """What came of the trigger under SecVisor, for each kernel; what it says alone where that is the same."""
    return [alone if both == 'the same' else both for alone, both in zip(row[::2], row[1::2])]


def snapshot(secvisor, kernel):
    """The snapshot that all triggers of the kernel go on from, and the policy that it was run by."""
    with open('measure.txt') as file:
        words = next(line.split()[1:] for line in file if line.startswith(f'{kernel}.policy '))
    subprocess.run([secvisor, *words], check=True, stdout=subprocess.DEVNULL)
    with open('boot.script', 'w') as file:
        file.write(script([]))
    said = command([secvisor, 'snap', f'{kernel}.elf', f'{kernel}.policy', 'none', 'boot.script', str(BOOT),
                    f'{kernel}.snap'], f'{kernel}.boot')
    if 'mount /sys/kernel/debug: 0' not in said:
        sys.exit(f'{kernel}: no shell after {BOOT} events')


def main():
    words = argparse.ArgumentParser(description=__doc__)
    words.add_argument('secvisor')
    words.add_argument('folder', nargs='?', default=os.path.join(HERE, 'out'))
    words.add_argument('--only', nargs='*', help='these kernels alone')
    words.add_argument('--jobs', type=int, default=os.cpu_count())
    words = words.parse_args()
    secvisor = os.path.abspath(words.secvisor)
    os.chdir(words.folder)
    kernels = words.only or KERNELS
    for kernel in kernels:
        snapshot(secvisor, kernel)
    print('| Trigger | Promised |' + ''.join(f' `{kernel}` alone | `{kernel}` under SecVisor |' for kernel in kernels))
    print('|---|---|' + '---|---|' * len(kernels))
    runs = [(secvisor, kernel, trigger) for trigger in TRIGGERS for kernel in kernels]
    through = False
    with concurrent.futures.ThreadPoolExecutor(words.jobs) as pool:
        made = pool.map(lambda run: cells(*run), runs)
        for trigger in TRIGGERS:
            row = [cell for _ in kernels for cell in next(made)]
            through |= trigger in PROMISED and any(re.search('ran|written|no report', cell) for cell in under(row))
            print(f'| `{trigger}` | {"yes" if trigger in PROMISED else "no"} | {" | ".join(row)} |', flush=True)
    sys.exit(1 if through else 0)


if __name__ == '__main__':
    main()
