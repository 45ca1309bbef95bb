"""ELF files for 64 bits, little-endian: what a kernel or an object holds, and images of segments."""
import struct
from typing import NamedTuple

PAGE = 4096
ALLOCATED, EXECUTABLE = 2, 4
SYMBOL_TABLE, STRING_TABLE, RELOCATIONS, NO_BITS = 2, 3, 4, 8
LOCAL, GLOBAL, WEAK = 0, 1, 2
FUNCTION = 2
PROGRAM_BITS = 1
ABSOLUTE = 0xfff1

HEADER = struct.Struct('<16sHHIQQQIHHHHHH')
PROGRAM = struct.Struct('<IIQQQQQQ')
SECTION = struct.Struct('<IIQQQQIIQQ')
SYMBOL = struct.Struct('<IBBHQQ')
RELOCATION = struct.Struct('<QQq')


class Section(NamedTuple):
    name: int
    kind: int
    flags: int
    address: int
    offset: int
    length: int
    link: int
    info: int
    alignment: int
    entry_length: int


class Symbol(NamedTuple):
    name: str
    binding: int
    kind: int
    section: int
    value: int
    size: int


class Segment(NamedTuple):
    virtual: int
    physical: int
    content: bytes      # the rest of the length is zeros
    length: int
    executable: bool

    @property
    def end(self):
        return self.physical + self.length


class ElfFile:
    """A file with section headers: a linked kernel, or an object."""

    def __init__(self, data):
        header = HEADER.unpack_from(data)
        if header[0][:6] != b'\x7fELF\x02\x01':
            raise ValueError('no ELF file for 64 bits, little-endian')
        self.data, self.entry, table, count, self.names = data, header[4], header[6], header[12], header[13]
        self.sections = [Section(*SECTION.unpack_from(data, table + SECTION.size * n)) for n in range(count)]

    def content(self, section):
        """The section's bytes in the file."""
        if section.kind == NO_BITS:
            return b''
        return self.data[section.offset:section.offset + section.length]

    def text_at(self, strings, offset):
        """The text at an offset of a section of strings."""
        content = self.content(self.sections[strings])
        return content[offset:content.index(b'\0', offset)].decode()

    def section_name(self, section):
        return self.text_at(self.names, section.name)

    def symbols(self):
        """The symbols, in the file's order."""
        table = next(section for section in self.sections if section.kind == SYMBOL_TABLE)
        strings = self.content(self.sections[table.link])
        found = []
        for name, info, _, section, value, size in SYMBOL.iter_unpack(self.content(table)):
            text = strings[name:strings.index(b'\0', name)].decode()
            found.append(Symbol(text, info >> 4, info & 15, section, value, size))
        return found

    def segments(self, shift):
        """The sections that take memory, neighbours of one kind together, each `shift` above its virtual address.

        They are taken one by one, since linked kernels mix text and data in one program header."""
        taken = sorted((s for s in self.sections if s.flags & ALLOCATED and s.length), key=lambda s: s.address)
        found = []
        for section in taken:
            executable = bool(section.flags & EXECUTABLE)
            last = found[-1] if found else None
            if last and last.executable == executable and section.address - last.virtual - last.length < PAGE:
                found[-1] = _joined(last, section.address, self.content(section), section.length)
            else:
                found.append(Segment(section.address, section.address + shift, self.content(section),
                                     section.length, executable))
        return found


def _joined(segment, address, content, length):
    """The segment with a section behind it."""
    bytes_of_both = segment.content
    if content:
        bytes_of_both += bytes(address - segment.virtual - len(segment.content)) + content
    return segment._replace(content=bytes_of_both, length=address - segment.virtual + length)


def exports(symbols):
    """The defined global symbols as an image's table has them.

    Weak symbols are written as global ones: `measure` takes the names that modules want from global symbols alone, and
    once a kernel is linked a weak symbol is its one definition."""
    return [symbol._replace(binding=GLOBAL, section=ABSOLUTE)
            for symbol in symbols if symbol.binding in (GLOBAL, WEAK) and symbol.section]


def functions(symbols):
    """The functions that their file alone sees, for the names of addresses."""
    return [symbol._replace(section=ABSOLUTE)
            for symbol in symbols if symbol.binding == LOCAL and symbol.kind == FUNCTION and symbol.section]


def _section_of(segments, symbol):
    """The section of the segment that the symbol lies in, after the tables of symbols and strings."""
    for number, segment in enumerate(segments, 3):
        if segment.virtual <= symbol.value < segment.virtual + segment.length:
            return number
    return symbol.section


def image(entry, segments, symbols):
    """A kernel image: program headers, the segments' bytes, each a section too, and a symbol table, local symbols first."""
    first = -(-(HEADER.size + PROGRAM.size * len(segments)) // PAGE) * PAGE
    programs, body, contents = bytearray(), bytearray(), bytearray()
    for segment in segments:
        contents += SECTION.pack(0, PROGRAM_BITS, ALLOCATED | (EXECUTABLE if segment.executable else 1), segment.virtual,
                                 first + len(body), len(segment.content), 0, 0, 1, 0)
        programs += PROGRAM.pack(1, 5 if segment.executable else 6, first + len(body), segment.virtual, segment.physical,
                                 len(segment.content), segment.length, PAGE)
        body += segment.content + bytes(-len(segment.content) % 16)
    table, strings = bytearray(SYMBOL.size), bytearray(1)
    for symbol in symbols:
        table += SYMBOL.pack(len(strings), symbol.binding << 4 | symbol.kind, 0, _section_of(segments, symbol),
                             symbol.value, symbol.size)
        strings += symbol.name.encode() + b'\0'
    place = first + len(body)
    local = 1 + sum(symbol.binding == LOCAL for symbol in symbols)
    sections = bytes(SECTION.size)
    sections += SECTION.pack(0, SYMBOL_TABLE, 0, 0, place, len(table), 2, local, 8, SYMBOL.size)
    sections += SECTION.pack(0, STRING_TABLE, 0, 0, place + len(table), len(strings), 0, 0, 1, 0)
    sections += contents
    strings += bytes(-(len(table) + len(strings)) % 16)
    header = HEADER.pack(b'\x7fELF\x02\x01\x01', 2, 243, 1, entry, HEADER.size, place + len(table) + len(strings), 0,
                         HEADER.size, PROGRAM.size, len(segments), SECTION.size, 3 + len(segments), 0)
    return (header + programs).ljust(first, b'\0') + body + table + strings + sections
