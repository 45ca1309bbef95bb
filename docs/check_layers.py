#!/usr/bin/env python3
"""The table of layers in docs/ARCHITECTURE.md is made from crates.txt: a row for each heading (##), with its crates in their
order. Without words it compares the two, prints the first difference and ends with status 1 where there is one; with `--write`
it writes the table. `--on CRATE ..` prints what these crates stand on, but for what another of these stands on."""
import pathlib
import sys

TOP = pathlib.Path(__file__).resolve().parent.parent
PAGE = TOP / 'docs/ARCHITECTURE.md'
HEAD = ['| Family | Crates |', '|---|---|']


def layers():
    """The lines of crates.txt in order: a layer's heading, or a crate with the libraries that it names."""
    for line in (TOP / 'crates.txt').read_text().splitlines():
        if line.startswith('## '):
            yield line[3:], None
        elif line and not line.startswith('#'):
            crate, names = line.split(':')
            yield crate.split()[0], names.split()


def below(own, crate):
    """All crates that a crate stands on, through others too."""
    found = set()
    for name in own[crate]:
        found |= {name} | below(own, name)
    return found


def stands_on(crate):
    named = {crate: names for crate, names in layers() if names is not None}
    own = {crate: [name for name in names if name in named] for crate, names in named.items()}
    return [name for name in own[crate] if not any(name in below(own, other) for other in own[crate])]


def table():
    rows = []
    for name, names in layers():
        if names is None:
            rows.append((name, []))
        else:
            rows[-1][1].append(f'`{name}`')
    return HEAD + [f'| {title} | {", ".join(crates)} |' for title, crates in rows]


def main(words):
    if words[:1] == ['--on']:
        for crate in words[1:]:
            print(f'{crate}: {" ".join(stands_on(crate))}')
        return 0
    lines, page = table(), PAGE.read_text().splitlines()
    first = page.index(HEAD[0])
    last = next(place for place in range(first, len(page)) if not page[place].startswith('|'))
    if words == ['--write']:
        PAGE.write_text('\n'.join(page[:first] + lines + page[last:]) + '\n')
        return 0
    for want, got in zip(lines + [''], page[first:last] + ['']):
        if want != got:
            print(f'docs/ARCHITECTURE.md has\n  {got}\nby crates.txt it is\n  {want}')
            return 1
    return 0


if __name__ == '__main__':
    sys.exit(main(sys.argv[1:]))
