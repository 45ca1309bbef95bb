#!/usr/bin/env python3
"""Counts the lines of the project by what they are part of, without blanks and comments: Rust code, contracts (with what
tells the prover how to go), definitions (`specs/`) and proofs (`proofs/`). Crates are put together by the headings of
`crates.txt`. With `--crates` each crate has a line too; `--check` compares the numbers of README.md, which may
differ by 5 in 100."""
import pathlib
import re
import sys

TOP = pathlib.Path(__file__).resolve().parent.parent
MONITOR, HARDWARE = 'SecVisor, the monitor', 'The hardware: processor, memory, devices'
KINDS = ['code', 'contracts', 'definitions', 'proofs']
CONTRACT = re.compile(r'ghost\b|requires\b|ensures\b|#!?\[tactic\b|where ghost\b')


def families():
    """The crates of each heading (##) of crates.txt."""
    found = {}
    for line in (TOP / 'crates.txt').read_text().splitlines():
        if line.startswith('## '):
            heading = line[3:]
            found[heading] = []
        elif line and not line.startswith('#'):
            found[heading].append(line.split(':')[0].split()[0])
    return found


def rust_lines(text):
    """The lines of code, and those of contracts: what begins as one goes on until its brackets are closed."""
    code = contract = depth = 0
    for line in text.splitlines():
        line = line.split('//')[0].strip()
        if not line:
            continue
        if depth > 0 or CONTRACT.match(line):
            contract += 1
            depth += sum(map(line.count, '([{')) - sum(map(line.count, ')]}'))
        else:
            code += 1
    return code, contract


def logic_lines(folder):
    return sum(1 for file in folder.rglob('*.antt') for line in file.read_text().splitlines() if line.split('--')[0].strip())


def count(crate):
    folder = TOP / 'crates' / crate
    rust = [rust_lines(file.read_text()) for file in (folder / 'src').rglob('*.rt')]
    return [sum(code for code, _ in rust), sum(contract for _, contract in rust),
            logic_lines(folder / 'specs'), logic_lines(folder / 'proofs')]


def check(counts, groups):
    """Whether the page's numbers are these: the monitor, the machine, proofs, contracts, and code in all."""
    page = ' '.join((TOP / 'README.md').read_text().split())
    shown = re.search(r'the monitor has ([\d,]+) of code, the machine that it guards ([\d,]+);.*the proofs have ([\d,]+), and '
                      r'([\d,]+) of contracts, for ([\d,]+) of code', page)
    own = [sum(counts[crate][0] for crate in groups[title]) for title in (MONITOR, HARDWARE)]
    own += [sum(number[at] for number in counts.values()) for at in (3, 1, 0)]
    if shown and all(abs(int(text.replace(',', '')) - number) * 20 <= number for text, number in zip(shown.groups(), own)):
        return 0
    print('README.md: monitor, machine, proofs, contracts, code: ' + ', '.join(f'{number:,}' for number in own))
    return 1


def main():
    groups = families()
    counts = {crate: count(crate) for members in groups.values() for crate in members}
    if '--check' in sys.argv[1:]:
        return check(counts, groups)
    print(f'{"":50}' + ''.join(f'{kind:>13}' for kind in KINDS))
    for title, members in groups.items():
        print(f'{title:50}' + ''.join(f'{sum(counts[crate][at] for crate in members):13,}' for at in range(len(KINDS))))
        for crate in members if '--crates' in sys.argv[1:] else []:
            print(f'    {crate:46}' + ''.join(f'{number:13,}' for number in counts[crate]))
    print(f'{"all":50}' + ''.join(f'{sum(own[at] for own in counts.values()):13,}' for at in range(len(KINDS))))
    return 0


if __name__ == '__main__':
    sys.exit(main())
