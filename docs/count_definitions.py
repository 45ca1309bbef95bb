#!/usr/bin/env python3
"""Counts the lines of definitions that a reader of laws has to believe: from the contracts of the named functions along the
`use` lines of each specification, definition by definition, with the Rust types that they name. Imports, blanks and
comments aren't counted, nor the library's own words.

  count_definitions.py [--files] NAME ..   the lines, by files too: a CRATE with all its laws, a CRATE::FUNCTION, a definition
                                           CRATE.specs.FILE.NAME
  count_definitions.py [--files]           the three reading lists of DEFINITIONS.md
  count_definitions.py --check             whether that page has these numbers; status 1 where it hasn't"""
import functools
import pathlib
import re
import sys

TOP = pathlib.Path(__file__).resolve().parent.parent
WORD = re.compile(r"[^\s(){}\[\],;.:→×⊎≡≤<>=+*∷λ«»|&?!'\"]+")
USE = re.compile(r'^(?:pub )?use (?:«?Rattle»?\.)([\w.«»+]+?)\.?(?:\{([^}]*)\})?(?: as (\w+))?$')
HEAD = re.compile(r'^(?:(?:abbrev|unfoldable|opaque) )*(?:pub )?(record|data)? ?([^\s(:]+)')

LISTS = [
    ('the laws of the guarantee', ['laws_guarantee/lib']),
    ('`run` and `vrun` with their laws', [
        'cli_plans.specs.CommandLine.run_judged', 'cli_plans.specs.Plans.run_plan', 'laws_program.specs.ProgramLaw.GuardedRun',
        'laws_program.specs.Starts.IsMeasuredStart', 'laws_guarantee/lib', 'laws_simulation/invariants']),
    ('all commands with all laws of the program', [
        'secvisor_cli', 'cli_live', 'cli_snap', 'cli_trials', 'cli_survey', 'laws_guarantee/lib', 'laws_simulation/invariants',
        'laws_program']),
]


def code(line):
    return line.split('--')[0].rstrip()


class Spec:
    """A file of definitions: what it imports, and its declarations by name, each with its lines."""

    def __init__(self, path):
        self.path, self.uses, self.own = path, {}, {}
        name, kept = None, []
        for line in map(code, path.read_text().splitlines()):
            if not line:
                continue
            use = USE.match(line)
            if use:
                for word in filter(None, map(str.strip, (use[2] or '').split(','))):
                    given, _, other = word.partition(' as ')
                    self.uses[other or given] = (use[1], given)
                if use[3]:
                    self.uses[use[3]] = (use[1], None)
                continue
            if line.startswith(('pub mod', 'mod ')):
                continue
            if not line[0].isspace() and line[0] not in ')]}':
                head = HEAD.match(line)
                name = head[2]
            self.own.setdefault(name, []).append(line)
        # what a record or an enumeration makes stands for it
        self.makes = {}
        for name, lines in self.own.items():
            if re.match(r'(pub )?data ', lines[0]):
                for line in lines[1:]:
                    made = re.match(r'\s+(\S+) :', line)
                    if made:
                        self.makes[made[1]] = name


@functools.cache
def spec(path):
    return Spec(path)


@functools.cache
def rust_files(crate):
    return sorted((TOP / 'crates' / crate / 'src').glob('**/*.rt'))


@functools.cache
def rust_type(crate, name):
    """The file and the lines of a struct, an enum or an alias of a crate."""
    for path in rust_files(crate):
        lines, depth, inside = [], 0, False
        for line in path.read_text().splitlines():
            text = line.split('//')[0].rstrip()
            if not inside and re.search(rf'\b(struct|enum|type) {name}\b', text):
                inside = True
            if inside and text.strip() and not text.strip().startswith('#'):
                lines.append(text)
                depth += text.count('{') - text.count('}')
                if depth <= 0 and (text.endswith((';', '}')) or '}' in text):
                    return path, lines
    return None, []


def spec_of(module):
    """The file of a module of specifications, or a Rust type: (file, None), (None, (crate, type))."""
    parts = module.replace('«', '').replace('»', '').split('.')
    crate = parts[0]
    if not (TOP / 'crates' / crate).is_dir() or len(parts) < 3 or parts[1] != 'specs':
        return None, None
    if parts[2] == 'declared':
        last = [part for part in parts[3:] if part != 'TheVariants']
        return None, (crate, last[-1])
    path = TOP / 'crates' / crate / 'specs' / ('/'.join(parts[2:]) + '.antt')
    return (path, None) if path.is_file() else (None, None)


def follow(todo):
    """All definitions that the first ones lead to: by file, with their names; and Rust types."""
    done = set()
    while todo:
        at = todo.pop()
        if at in done:
            continue
        done.add(at)
        kind, where, name = at
        if kind == 'rust':
            path, lines = rust_type(where, name)
            words = set(re.findall(r'\b[A-Z]\w+', '\n'.join(lines)))
            if path:
                uses = dict((word, crate) for crate, some in re.findall(r'use (\w+)::([^;]+);', path.read_text())
                            for word in re.findall(r'\w+', some))
                for word in words - {name}:
                    crate = uses.get(word, where)
                    crate = where if crate in ('crate', 'super', 'self') else crate
                    if (TOP / 'crates' / crate).is_dir() and rust_type(crate, word)[0]:
                        todo.append(('rust', crate, word))
            continue
        found = spec(where)
        for word in set(WORD.findall('\n'.join(found.own.get(name, [])))):
            word = found.makes.get(word, word)
            if word in found.own:
                todo.append(('spec', where, word))
            elif word in found.uses:
                todo += led(*found.uses[word])
        text = '\n'.join(found.own.get(name, []))
        for alias in set(re.findall(r'\b(\w+)\.', text)) & set(found.uses):
            todo += led(*found.uses[alias])
    return done


def led(module, name):
    path, rust = spec_of(module)
    if rust:
        return [('rust', *rust)]
    if not path:
        return []
    found = spec(path)
    name = found.makes.get(name, name)
    return [('spec', path, name)] if name in found.own else []


def starts(law):
    """A definition by its name, or what the contract of a function, or of each law of a crate or of one module of it, names."""
    if '.' in law:
        return led(*law.rsplit('.', 1))
    place, _, name = law.partition('::')
    crate, _, room = place.partition('/')
    todo = []
    for path in rust_files(crate):
        if room and path.relative_to(TOP / 'crates' / crate / 'src').parts[0].removesuffix('.rt') != room:
            continue
        text = path.read_text()
        uses = {}
        for module, words in re.findall(r'^ghost use Rattle\.([\w.]+)\.\{([^}]*)\};', text, re.M):
            for word in words.split(','):
                given, _, other = word.strip().partition(' as ')
                uses[other or given] = (module, given)
        for function, contract in re.findall(r'^pub fn (\w+)(.*?)^\{', text, re.M | re.S):
            contract = re.sub(r'//.*', '', contract)
            if name and function != name or not name and not function.startswith(('law_', 'secvisor')):
                continue
            for word in set(WORD.findall(contract)) & set(uses):
                todo += led(*uses[word])
    return todo


def count(laws):
    """The lines by file."""
    lines = {}
    for kind, where, name in follow([at for law in laws for at in starts(law)]):
        path, own = rust_type(where, name) if kind == 'rust' else (where, spec(where).own.get(name, []))
        if path:
            lines[path] = lines.get(path, 0) + len(own)
    return lines


def check():
    """The lists whose number the page has otherwise."""
    page = (TOP / 'docs/DEFINITIONS.md').read_text()
    wrong = [f'{title}: {sum(count(laws).values()):,}' for title, laws in LISTS
             if f'| {title} | {sum(count(laws).values()):,} |' not in page]
    print(''.join(f'docs/DEFINITIONS.md: {line}\n' for line in wrong), end='')
    return 1 if wrong else 0


def main(words):
    if words == ['--check']:
        return check()
    files = '--files' in words
    words = [word for word in words if word != '--files']
    for title, laws in [(' '.join(words), words)] if words else LISTS:
        lines = count(laws)
        print(f'{sum(lines.values()):6,} {title}')
        for path, number in sorted(lines.items()) if files else []:
            print(f'{number:10,} {path.relative_to(TOP)}')
    return 0


if __name__ == '__main__':
    sys.exit(main(sys.argv[1:]))
