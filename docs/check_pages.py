#!/usr/bin/env python3
"""Checks what the pages name, in seconds: each link and each path leads to a file, those of a crate (`crate/specs/FILE`) too,
each name of code (a law, a clause, a function, a type) occurs in that crate, or anywhere where no crate is named, and each
block of definitions (```antt) stands in `specs/` line by line. Prints what is missing; status 1 where something is."""
import pathlib
import re
import sys

TOP = pathlib.Path(__file__).resolve().parent.parent
PAGES = [TOP / name for name in ('README.md', 'CONTRIBUTING.md', 'SECURITY.md', 'CHANGELOG.md', 'guests/README.md')]
PAGES += sorted((TOP / 'docs').glob('*.md'))
ENDINGS = {'.rt', '.antt', '.edit', '.txt', '.cases', '.py', '.sh', '.c', '.h', '.S', '.patch', '.ld', ''}
# These name what Linux has.
OF_LINUX = {'LINUX.md', 'PORTING.md'}
# A name of the VIRTIO standard, which the code doesn't use.
OF_STANDARDS = {'VIRTQ_AVAIL_F_NO_INTERRUPT'}
# Names of the library, and stand-ins of the recipes.
OF_LIBRARY = {'MODULE', 'std'}
LINK = re.compile(r'\]\(([^)#\s]+)(?:#[^)]*)?\)')
CODE = re.compile(r'(?<!`)`([^`\n]+)`(?!`)')
# A name with an underscore, or with a capital letter inside.
NAME = re.compile(r'[A-Za-z][A-Za-z0-9]*(?:_[A-Za-z0-9]+)+|[A-Z][a-z0-9]+(?:[A-Z][A-Za-z0-9]*)+')
PATH = re.compile(r'(?:crates|docs|guests|\.ci)/[\w./-]+')
OF_CRATE = re.compile(r'(\w+)/((?:specs|src|proofs|must-fail)(?:/[\w./-]+)?)')
SCOPED = re.compile(r'(\w+)::((?:\w+::)*)(\w+)')


def words_of(files):
    """All words of some files, and their names."""
    found = set()
    for file in files:
        found |= set(re.findall(r'\w+', file.read_text(errors='replace')))
        found |= {file.stem, file.name}
    return found


def code_files(folder):
    return [file for file in folder.rglob('*') if file.is_file() and file.suffix in ENDINGS and 'out' not in file.parts]


def crates():
    lines = (TOP / 'crates.txt').read_text().splitlines()
    return {line.split(':')[0].split()[0] for line in lines if line and not line.startswith('#')}


def leads_to_a_file(path):
    """A path of the repository, one whose ending is left off, one of a crate that it calls NAME, or one that `rt` makes."""
    whole = TOP / path
    return whole.exists() or any(whole.parent.glob(whole.name + '.*')) or 'NAME' in path or '/out/' in path


def missing(page, listed, words, everywhere):
    """What a page names that isn't there, each with its line."""
    for number, line in enumerate(page.read_text().splitlines(), 1):
        for link in LINK.findall(line):
            if '://' not in link and not (page.parent / link).exists():
                yield number, f'link {link}'
        for code in CODE.findall(line):
            if PATH.fullmatch(code):
                if not leads_to_a_file(code):
                    yield number, f'path {code}'
                continue
            of_crate = OF_CRATE.fullmatch(code)
            if of_crate:
                if of_crate[1] != 'NAME' and not leads_to_a_file(f'crates/{code}'):
                    yield number, f'path {code}'
                continue
            scoped = SCOPED.fullmatch(code)
            if scoped and page.name not in OF_LINUX and scoped[1] not in OF_LIBRARY:
                known = words.get(scoped[1], everywhere)
                if scoped[3] not in known or scoped[1] not in listed | everywhere:
                    yield number, f'{scoped[3]} in {scoped[1]}'
            elif page.name not in OF_LINUX and NAME.fullmatch(code) and code not in listed | everywhere | OF_STANDARDS:
                yield number, f'name {code}'


def quoted_lines(page):
    """The lines of a page's blocks of definitions, each with its number."""
    inside = False
    for number, line in enumerate(page.read_text().splitlines(), 1):
        if line.startswith('```'):
            inside = line == '```antt'
        elif inside:
            yield number, line


def main():
    listed = crates()
    words = {crate: words_of(code_files(TOP / 'crates' / crate)) for crate in listed}
    everywhere = words_of(code_files(TOP / 'guests')) | {path.name for path in (TOP / 'docs').iterdir()}
    everywhere |= words_of([TOP / 'crates.txt']).union(*words.values())
    definitions = {line for file in (TOP / 'crates').glob('*/specs/**/*.antt') for line in file.read_text().splitlines()}
    status = 0
    for page in PAGES:
        if page.exists():
            found = list(missing(page, listed, words, everywhere))
            found += [(number, f'line {line}') for number, line in quoted_lines(page) if line not in definitions]
            for number, what in found:
                print(f'{page.relative_to(TOP)}:{number}: {what}')
                status = 1
    return status


if __name__ == '__main__':
    sys.exit(main())
