#!/usr/bin/env python3
"""Makes a guest's image of a linked kernel that wants a device tree, and prints the words of `measure` behind its name:
RAM HARTS ENTRIES INIT.

SecVisor's machine boots hart 0 at the image's entry with every register 0, and no loader comes before the kernel. So the
image holds, besides the kernel's sections at their places (text in executable segments, all else in others), a stub at
the start of RAM, which loads the device tree's address into a1 and jumps to the kernel; the device tree in the last
64 KiB of RAM; and the initial file system below it. Its symbol table has the kernel's global and weak symbols, and its functions."""
import argparse
import struct
import sys

import device_tree
import elf_file
from elf_file import PAGE, Segment

RAM = 0x80000000
TREE_ROOM = 0x10000


def stub(tree, kernel):
    """auipc t0, 0; ld a1, 24(t0); ld t1, 32(t0); jr t1; two no-ops; the tree's address; the kernel's."""
    code = struct.pack('<6I', 0x00000297, 0x0182b583, 0x0202b303, 0x00030067, 0x13, 0x13)
    return code + struct.pack('<QQ', tree, kernel)


def data_segment(address, content):
    return Segment(address, address, content, len(content), False)


def overlap(segments):
    """Two segments that touch, if there are any."""
    ordered = sorted(segments, key=lambda segment: segment.physical)
    for first, second in zip(ordered, ordered[1:]):
        if first.end > second.physical:
            return first, second
    return None


def layout(kernel, shift, start, archive, words):
    """The segments of the image."""
    end = RAM + words.ram * PAGE
    tree_at = end - TREE_ROOM
    archive_at = (tree_at - len(archive)) & -PAGE
    place = (archive_at, archive_at + len(archive)) if archive else None
    code = stub(tree_at, start)
    segments = [Segment(RAM, RAM, code, len(code), True)] + kernel.segments(shift)
    if archive:
        segments.append(data_segment(archive_at, archive))
    begin = min(segment.physical for segment in segments[1:]) & -PAGE
    tree = device_tree.machine(words.harts, begin, end - begin, words.arguments, place, words.virtio)
    return segments + [data_segment(tree_at, device_tree.flattened(tree))]


def policy_words(values, shift, words):
    """RAM HARTS ENTRIES INIT: the stub, the addresses of traps, and those at which harts start; whole init pages."""
    entries = [RAM] + [values[name] for name in words.trap_entry] + [values[name] + shift for name in words.hart_entry]
    init = 'none'
    if words.init:
        begin, end = (values[name] for name in words.init)
        init = '0x%x:%d' % (begin + shift, -(-(end - begin) // PAGE))
    return '%d %d %s %s' % (words.ram, words.harts, ','.join('0x%x' % entry for entry in entries), init)


def number(text):
    return int(text, 0)


def parsed(arguments):
    words = argparse.ArgumentParser(description=__doc__)
    words.add_argument('kernel', help='a linked kernel with its symbol table')
    words.add_argument('out')
    words.add_argument('--virtual', type=number, help='the virtual address of the kernel that lies at --physical')
    words.add_argument('--physical', type=number, help='else virtual addresses are physical')
    words.add_argument('--start', help='the symbol that the stub jumps to; else the entry of the file')
    words.add_argument('--trap-entry', action='append', default=[], help='a symbol that stvec leads to')
    words.add_argument('--hart-entry', action='append', default=[], help='a symbol at which further harts start')
    words.add_argument('--init', nargs=2, metavar=('BEGIN', 'END'), help='symbols around the text that is retired')
    words.add_argument('--ram', type=int, default=16384, help='pages of RAM')
    words.add_argument('--harts', type=int, default=1)
    words.add_argument('--archive', help='the initial file system')
    words.add_argument('--arguments', default='', help='the command line of the kernel')
    words.add_argument('--virtio', action='store_true', help='the tree names a virtio disk and the console\'s line, for `vrun` and `vlive`')
    return words.parse_args(arguments)


def main(arguments):
    words = parsed(arguments)
    with open(words.kernel, 'rb') as file:
        kernel = elf_file.ElfFile(file.read())
    archive = b''
    if words.archive:
        with open(words.archive, 'rb') as file:
            archive = file.read()
    shift = (words.physical or 0) - (words.virtual or 0)
    symbols = elf_file.exports(kernel.symbols())
    values = {symbol.name: symbol.value for symbol in symbols}
    names = elf_file.functions(kernel.symbols())
    start = (values[words.start] if words.start else kernel.entry) + shift
    segments = layout(kernel, shift, start, archive, words)
    both = overlap(segments)
    if both:
        sys.exit('segments at 0x%x and 0x%x touch: more RAM?' % (both[0].physical, both[1].physical))
    with open(words.out, 'wb') as out:
        out.write(elf_file.image(RAM, segments, names + symbols))
    print(policy_words(values, shift, words))


if __name__ == '__main__':
    main(sys.argv[1:])
