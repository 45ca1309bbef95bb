#!/usr/bin/env python3
"""Writes crates/test_runs/data/text.txt: for each word of the other vectors that is an instruction the text that GNU objdump
(riscv64-linux-gnu-objdump of binutils 2.40) prints of it, in the form of the crate rv64_encode::text. Run by hand, at the top of the repository.

The two differ in four ways, which are evened out here: a tab parts mnemonic and operands; a target is an address; a fence has its
sets; and objdump names more registers than the supervisor's."""

import re
import subprocess
import sys
import tempfile

DATA = "crates/test_runs/data/"
SUPERVISOR = {0x100: "sstatus", 0x104: "sie", 0x105: "stvec", 0x106: "scounteren", 0x140: "sscratch", 0x141: "sepc",
              0x142: "scause", 0x143: "stval", 0x144: "sip", 0x180: "satp", 0xC01: "time"}


def words():
    """The words of the vectors that have a row in the instruction table, each once, ascending."""
    found = set()
    for name in ("alu.txt", "flow.txt", "mem.txt", "decode.txt", "worked_alu.txt", "worked_flow.txt", "worked_decode.txt"):
        for line in open(DATA + name):
            if line.startswith("#"):
                continue
            columns = line.split("|")
            if "decode" in name and columns[1].strip() == "None":
                continue
            found.add(int(line.split()[0], 16))
    return sorted(found)


def disassembled(all_words):
    """What objdump prints of each word: they are assembled first, so that it knows of the hypervisor's instructions."""
    with tempfile.TemporaryDirectory() as folder:
        source, made = folder + "/words.s", folder + "/words.o"
        with open(source, "w") as file:
            file.write("".join(f".insn {word:#010x}\n" for word in all_words))
        subprocess.run(["riscv64-linux-gnu-as", "-march=rv64imah_zicsr_zifencei", "-o", made, source], check=True)
        listing = subprocess.run(["riscv64-linux-gnu-objdump", "-d", "-z", "-M", "no-aliases", made], check=True,
                                 capture_output=True, text=True).stdout
    for line in listing.splitlines():
        match = re.match(r"\s*([0-9a-f]+):\s+([0-9a-f]{8})\s+(.*)", line)
        if match:
            yield int(match.group(1), 16), int(match.group(2), 16), match.group(3)


def evened(address, word, text):
    text = re.sub(r"\s*(#|<).*", "", text).strip()
    mnemonic, _, operands = text.partition("\t")
    if word & 0x7F == 0x0F:
        return "fence" if word >> 12 & 7 == 0 else "fence.i"
    if mnemonic == "jal" or word & 0x7F == 0x63:
        front, _, target = operands.rpartition(",")
        offset = int(target, 16) - address
        offset = (offset + 2**63) % 2**64 - 2**63
        return f"{mnemonic} {front},.{offset:+d}"
    if mnemonic.startswith("csrr"):
        rd, _, source = operands.split(",")
        number = word >> 20
        return f"{mnemonic} {rd},{SUPERVISOR.get(number, hex(number))},{source}"
    return f"{mnemonic} {operands}" if operands else mnemonic


def main():
    all_words = words()
    lines = [f"{word:08x} | {evened(address, word, text)}" for address, word, text in disassembled(all_words)]
    if len(lines) != len(all_words):
        sys.exit(f"{len(all_words)} words, {len(lines)} lines")
    with open(DATA + "text.txt", "w") as out:
        out.write("# word | text of the instruction   (GNU objdump 2.40, evened out by guests/tools/instruction_texts.py)\n")
        out.write("\n".join(lines) + "\n")


main()
