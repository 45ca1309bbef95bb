"""Flattened device trees, and the tree of SecVisor's machine."""
import struct

MAGIC, VERSION, COMPATIBLE_VERSION = 0xd00dfeed, 17, 16
BEGIN_NODE, END_NODE, PROPERTY, END = 1, 2, 3, 9
CONSOLE, VIRTIO, DEVICE_LENGTH = 0x10000000, 0x10001000, 0x1000
EXTERNAL_INTERRUPT = 9
FIRST_HART = 1      # the name of its interrupts in the tree


def flattened(tree):
    """The bytes of a tree: a dictionary in which a node is a dictionary, and the value of a property a text, a number,
    a list of numbers (32 bits each), or None where the name alone counts."""
    structure, strings, places = bytearray(), bytearray(), {}

    def place(name):
        if name not in places:
            places[name] = len(strings)
            strings.extend(name.encode() + b'\0')
        return places[name]

    def put(name, node):
        structure.extend(struct.pack('>I', BEGIN_NODE) + _padded(name.encode() + b'\0'))
        for key, value in node.items():
            if not isinstance(value, dict):
                content = _content(value)
                structure.extend(struct.pack('>III', PROPERTY, len(content), place(key)) + _padded(content))
        for key, value in node.items():
            if isinstance(value, dict):
                put(key, value)
        structure.extend(struct.pack('>I', END_NODE))

    put('', tree)
    structure += struct.pack('>I', END)
    begin = 40 + 16     # header, and an empty list of reserved memory
    total = begin + len(structure) + len(strings)
    header = struct.pack('>10I', MAGIC, total, begin, begin + len(structure), 40, VERSION, COMPATIBLE_VERSION, 0,
                         len(strings), len(structure))
    return header + bytes(16) + bytes(structure) + bytes(strings)


def _padded(content):
    return content + bytes(-len(content) % 4)


def _content(value):
    if value is None:
        return b''
    if isinstance(value, str):
        return value.encode() + b'\0'
    cells = [value] if isinstance(value, int) else value
    return struct.pack('>%dI' % len(cells), *cells)


def wide(*numbers):
    """Numbers of 64 bits as cells."""
    return [cell for number in numbers for cell in (number >> 32, number & 0xffffffff)]


def machine(harts, begin, length, arguments, archive=None, virtio=False):
    """The tree of a machine with RAM from `begin` on; `archive` is the begin and end of the initial file system, and with
    `virtio` the disk is a virtio device, whose line is the external interrupt of the first hart, as is the console's.

    Time runs at 10 MHz: at about one tick a turn, a hart then spends a few turns in a hundred on its timer at 100 Hz."""
    chosen = {'bootargs': arguments}
    if archive:
        chosen['linux,initrd-start'], chosen['linux,initrd-end'] = wide(archive[0]), wide(archive[1])
    processors = {'#address-cells': 1, '#size-cells': 0, 'timebase-frequency': 10_000_000}
    for hart in range(harts):
        processors['cpu@%d' % hart] = {
            'device_type': 'cpu', 'compatible': 'riscv', 'reg': hart, 'status': 'okay',
            'riscv,isa': 'rv64ima', 'mmu-type': 'riscv,sv39',
            'interrupt-controller': {'#interrupt-cells': 1, 'interrupt-controller': None, 'compatible': 'riscv,cpu-intc'},
        }
    tree = {
        '#address-cells': 2, '#size-cells': 2, 'compatible': 'secvisor,guest', 'model': 'SecVisor guest',
        'chosen': chosen,
        'memory@%x' % begin: {'device_type': 'memory', 'reg': wide(begin, length)},
        'cpus': processors,
    }
    if virtio:
        processors['cpu@0']['interrupt-controller']['phandle'] = FIRST_HART
        for name, compatible, place in ('virtio_mmio', 'virtio,mmio', VIRTIO), ('console', 'secvisor,console', CONSOLE):
            tree['%s@%x' % (name, place)] = {
                'compatible': compatible, 'reg': wide(place, DEVICE_LENGTH),
                'interrupts-extended': [FIRST_HART, EXTERNAL_INTERRUPT],
            }
    return tree
