"""Tests of the makers of guests: python3 -m unittest discover guests/tools"""
import contextlib
import io
import os
import shutil
import struct
import subprocess
import tempfile
import unittest

import device_tree
import elf_file
import make_archive
import make_image
import make_keys
import type_lines
from elf_file import ABSOLUTE, ALLOCATED, EXECUTABLE, GLOBAL, NO_BITS, PAGE, STRING_TABLE, SYMBOL_TABLE, WEAK

HIGH, LOW = 0xffffffff80000000, 0x80200000
WRITABLE = 1


def kernel(entry=HIGH):
    """A linked kernel: text, init text, data and zeros, and symbols of each binding."""
    names = b'\0go\0trap\0hart\0init_begin\0init_end\0copy\0own\0wanted\0'
    symbols = [('go', GLOBAL, 1, HIGH), ('trap', GLOBAL, 1, HIGH + 8), ('hart', GLOBAL, 1, HIGH + 16),
               ('init_begin', GLOBAL, 2, HIGH + PAGE), ('init_end', GLOBAL, 2, HIGH + PAGE + 6),
               ('copy', WEAK, 1, HIGH + 24), ('own', 0, 1, HIGH + 28), ('wanted', GLOBAL, 0, 0)]
    table = bytes(24) + b''.join(
        struct.pack('<IBBHQQ', names.index(b'\0' + name.encode() + b'\0') + 1, binding << 4 | 2, 0, section, value, 4)
        for name, binding, section, value in symbols)
    sections = [  # kind, flags, address, content, length, link
        (1, ALLOCATED | EXECUTABLE, HIGH, b'text' * 8, 32, 0),
        (1, ALLOCATED | EXECUTABLE, HIGH + PAGE, b'begins', 6, 0),
        (1, ALLOCATED | WRITABLE, HIGH + 3 * PAGE, b'data', 4, 0),
        (NO_BITS, ALLOCATED | WRITABLE, HIGH + 3 * PAGE + 16, b'', 5000, 0),
        (1, 0, 0, b'a comment', 9, 0),
        (SYMBOL_TABLE, 0, 0, table, len(table), 7),
        (STRING_TABLE, 0, 0, names, len(names), 0),
    ]
    body, headers = b'', bytes(64)
    for kind, flags, address, content, length, link in sections:
        headers += struct.pack('<IIQQQQIIQQ', 0, kind, flags, address, 64 + len(body), length, link, 0, 1, 24)
        body += content
    head = elf_file.HEADER.pack(b'\x7fELF\x02\x01\x01', 2, 243, 1, entry, 0, 64 + len(body), 0, 64, 56, 0, 64, 8, 7)
    return head + body + headers


def segments_of(image):
    """(flags, virtual, physical, content, length) of an image's program headers."""
    count, = struct.unpack_from('<H', image, 56)
    found = []
    for n in range(count):
        _, flags, offset, virtual, physical, held, length, _ = elf_file.PROGRAM.unpack_from(image, 64 + 56 * n)
        found.append((flags, virtual, physical, image[offset:offset + held], length))
    return found


class Segments(unittest.TestCase):
    def test_one_kind_within_a_page_is_one_segment(self):
        text, data = elf_file.ElfFile(kernel()).segments(LOW - HIGH)
        self.assertEqual((text.virtual, text.physical, text.length, text.executable), (HIGH, LOW, PAGE + 6, True))
        self.assertEqual(text.content, (b'text' * 8).ljust(PAGE, b'\0') + b'begins')
        self.assertEqual((data.physical, data.content, data.length, data.executable), (LOW + 3 * PAGE, b'data', 5016, False))

    def test_content_behind_zeros(self):
        first = elf_file.Segment(0, 0, b'ab', 10, False)
        self.assertEqual(elf_file._joined(first, 12, b'c', 1), elf_file.Segment(0, 0, b'ab' + bytes(10) + b'c', 13, False))

    def test_no_elf(self):
        for data in (b'MZ' + bytes(62), b'\x7fELF\x01\x01' + bytes(58)):
            with self.assertRaises(ValueError):
                elf_file.ElfFile(data)


class Exports(unittest.TestCase):
    def test_weak_is_global_local_and_undefined_are_none(self):
        found = elf_file.exports(elf_file.ElfFile(kernel()).symbols())
        self.assertEqual([symbol.name for symbol in found], ['go', 'trap', 'hart', 'init_begin', 'init_end', 'copy'])
        self.assertEqual({(symbol.binding, symbol.section) for symbol in found}, {(GLOBAL, ABSOLUTE)})

    def test_an_image_holds_them(self):
        found = elf_file.exports(elf_file.ElfFile(kernel()).symbols())
        self.assertEqual(elf_file.ElfFile(elf_file.image(0, [], found)).symbols()[1:], found)


class Trees(unittest.TestCase):
    def test_header_and_structure(self):
        flat = device_tree.flattened({'a': 1, 'b': {'c': 'x', 'a': None}})
        magic, total, structure, strings, reserved = struct.unpack_from('>5I', flat)
        self.assertEqual((magic, total, reserved), (0xd00dfeed, len(flat), 40))
        self.assertEqual(flat[strings:], b'a\0c\0')
        self.assertEqual(struct.unpack_from('>6I', flat, structure), (1, 0, 3, 4, 0, 1))
        self.assertEqual(flat[structure + 24:strings],
                         b'\0\0\0\1b\0\0\0' b'\0\0\0\3\0\0\0\2\0\0\0\2x\0\0\0' b'\0\0\0\3\0\0\0\0\0\0\0\0'
                         b'\0\0\0\2\0\0\0\2\0\0\0\x09')

    def test_machine(self):
        tree = device_tree.machine(4, LOW, 0x3e00000, 'console=hvc0', (0x83fe0000, 0x83fe1234))
        self.assertEqual(tree['memory@80200000']['reg'], [0, 0x80200000, 0, 0x3e00000])
        self.assertEqual(tree['chosen']['linux,initrd-end'], [0, 0x83fe1234])
        self.assertEqual([tree['cpus']['cpu@%d' % hart]['reg'] for hart in range(4)], [0, 1, 2, 3])
        self.assertNotIn('cpu@1', device_tree.machine(1, LOW, PAGE, '')['cpus'])
        self.assertFalse([name for name in tree if name.startswith(('virtio', 'console'))])

    def test_a_virtio_disk_and_the_console_have_the_external_interrupt_of_the_first_hart(self):
        tree = device_tree.machine(2, LOW, PAGE, '', virtio=True)
        disk, console = tree['virtio_mmio@10001000'], tree['console@10000000']
        self.assertEqual((disk['compatible'], disk['reg']), ('virtio,mmio', [0, 0x10001000, 0, 0x1000]))
        self.assertEqual((console['compatible'], console['reg']), ('secvisor,console', [0, 0x10000000, 0, 0x1000]))
        for device in disk, console:
            self.assertEqual(device['interrupts-extended'],
                             [tree['cpus']['cpu@0']['interrupt-controller']['phandle'], 9])
        self.assertNotIn('phandle', tree['cpus']['cpu@1']['interrupt-controller'])

    @unittest.skipUnless(shutil.which('dtc'), 'without dtc')
    def test_the_compiler_of_trees_makes_the_same_bytes_of_it(self):
        place = (0x83fe0000, 0x83fe1234)
        flat = device_tree.flattened(device_tree.machine(4, LOW, 0x3e00000, 'console=hvc0', place, virtio=True))
        source = subprocess.run(['dtc', '-q', '-I', 'dtb', '-O', 'dts'], input=flat, capture_output=True, check=True).stdout
        again = subprocess.run(['dtc', '-q', '-I', 'dts', '-O', 'dtb'], input=source, capture_output=True, check=True).stdout
        self.assertEqual(again, flat)


class Archives(unittest.TestCase):
    def test_members(self):
        made = make_archive.archive([('init', b'#!'), ('lib/deep/m.ko', b'12345')])
        names, at = [], 0
        while True:
            fields = [int(made[at + 6 + 8 * n:at + 14 + 8 * n], 16) for n in range(13)]
            name = made[at + 110:at + 109 + fields[11]].decode()
            if name == 'TRAILER!!!':
                break
            begin = (at + 110 + fields[11] + 3) & -4
            names.append((name, fields[1], made[begin:begin + fields[6]]))
            at = (begin + fields[6] + 3) & -4
        folders = [(name, 0o40755, b'') for name in ('dev', 'proc', 'sys', 'tmp', 'lib', 'lib/deep')]
        self.assertEqual(names, folders + [('dev/console', 0o20600, b''), ('init', 0o100755, b'#!'),
                                           ('lib/deep/m.ko', 0o100755, b'12345')])


class Images(unittest.TestCase):
    def made(self, *words):
        """(printed words, image) of the command over the kernel above."""
        with tempfile.TemporaryDirectory() as folder:
            names = [os.path.join(folder, name) for name in ('kernel', 'image', 'archive')]
            for name, content in ((names[0], kernel()), (names[2], b'archive')):
                with open(name, 'wb') as file:
                    file.write(content)
            printed = io.StringIO()
            with contextlib.redirect_stdout(printed):
                make_image.main([names[0], names[1], '--archive', names[2], *words])
            with open(names[1], 'rb') as file:
                return printed.getvalue(), file.read()

    def test_words_and_places(self):
        words, image = self.made('--virtual', hex(HIGH), '--physical', hex(LOW), '--trap-entry', 'trap', '--hart-entry',
                                 'hart', '--init', 'init_begin', 'init_end', '--ram', '1024', '--harts', '2')
        self.assertEqual(words, '1024 2 0x80000000,0xffffffff80000008,0x80200010 0x80201000:1\n')
        found = segments_of(image)
        self.assertEqual([(flags, physical) for flags, _, physical, _, _ in found],
                         [(5, 0x80000000), (5, LOW), (6, LOW + 3 * PAGE), (6, 0x803ef000), (6, 0x803f0000)])
        self.assertEqual(struct.unpack_from('<Q', image, 24), (0x80000000,))
        self.assertEqual(found[0][3][24:], struct.pack('<QQ', 0x803f0000, LOW))
        self.assertEqual(found[3][3], b'archive')
        self.assertEqual(found[4][3][:4], b'\xd0\x0d\xfe\xed')

    def test_without_init_text_and_from_another_start(self):
        words, image = self.made('--virtual', hex(HIGH), '--physical', hex(LOW), '--start', 'hart')
        self.assertEqual(words, '16384 1 0x80000000 none\n')
        self.assertEqual(segments_of(image)[0][3][32:], struct.pack('<Q', LOW + 16))

    def test_too_little_ram(self):
        with self.assertRaisesRegex(SystemExit, 'more RAM'):
            self.made('--virtual', hex(HIGH), '--physical', hex(LOW), '--ram', '531')

    def test_the_stub(self):
        auipc, first, second, jump = struct.unpack_from('<4I', make_image.stub(0, 0))
        self.assertEqual((auipc, jump), (5 << 7 | 0x17, 6 << 15 | 0x67))
        self.assertEqual(first, 24 << 20 | 5 << 15 | 3 << 12 | 11 << 7 | 3)
        self.assertEqual(second, 32 << 20 | 5 << 15 | 3 << 12 | 6 << 7 | 3)


class Keys(unittest.TestCase):
    def test_script(self):
        step = 'turn 0 20000\ntick 20000'
        self.assertEqual(make_keys.script(40_000, 20_000, ['a', '']), [step, step, 'key 97', 'key 10', step, 'key 10', step])
        self.assertEqual(make_keys.script(40, 20, [''], make_keys.drawn), ['auto 40', 'key 10', 'auto 20'])


class Typing(unittest.TestCase):
    def test_each_line_is_typed_at_its_prompt(self):
        shell = 'while printf "# " && read line; do echo "got $line"; [ "$line" = end ] && exit 5; done'
        out = io.BytesIO()
        self.assertEqual(type_lines.type_lines(['sh', '-c', shell], b'# ', [b'one', b'end'], out), 5)
        self.assertEqual(out.getvalue(), b'# got one\n# got end\n')


if __name__ == '__main__':
    unittest.main()
