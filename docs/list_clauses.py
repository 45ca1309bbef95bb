#!/usr/bin/env python3
"""Lists what contracts say.

  list_clauses.py CRATE ..   each public function of the crates: its first sentence, and the names of its clauses
  list_clauses.py --laws     theorems, by the first sentence of their docstrings, as docs/PROVED.md has them: all but those that
                             README.md names, and steps
  list_clauses.py --steps    the laws that are only steps of others
  list_clauses.py --write    writes the theorems into docs/PROVED.md
  list_clauses.py --check    compares them with docs/PROVED.md, and whether each clause that the page names in brackets after
                             a crate is one of that crate's; status 1 where something differs"""
import functools
import pathlib
import re
import sys

TOP = pathlib.Path(__file__).resolve().parent.parent
PAGE = TOP / 'docs/PROVED.md'
README = TOP / 'README.md'
BEGIN, END = '<!-- made by docs/list_clauses.py --write -->', '<!-- up to here -->'
CLAUSE = re.compile(r'^\s*(?:ensures|requires)(?: (\w+))? \{', re.M)
# Crates whose laws are lemmas on keys, caches and answers.
LEMMAS = re.compile(r'monitor_|live_keys|gstage_')
# Laws that are steps of others, that a listed contract says too, or that say of another command what a listed one says.
STEPS = set("""
    law_protected law_ended law_runs law_frame law_guest_view
    law_attempts law_walks_inside
    law_quiet law_exit law_again law_tables law_clear
    law_harts law_hart_in law_no_entry law_order law_loaded law_loading law_flat_start law_image_start law_virtio_start
    law_resumed law_alike law_keeps law_keepable law_saved_form law_counted law_kind
    law_resumed_start law_boot_digests law_snap_accepted law_snap_read law_snap_continues
    law_starts law_measured law_guaranteed law_snap_and_resume
    law_moves_on law_pass_sound law_surveyed law_hw_pass law_passes_on law_row
    law_plain_texts law_bound_within_limits law_bound_in_text law_exports_of_names law_block law_counts
    law_reaches law_saved_resumes law_saved_accepted law_resumed_goes_on law_snap_file
    law_live_ends law_snap_ends law_resume_ends law_show_ends
    law_write_keeps_tables law_mask law_fields_right law_accepted_segments law_text_in_ram
    law_grows law_pass law_same_run law_walks_apart law_plain_frames law_long_frames law_noise law_due law_make_ends
    """.split())


def crates():
    lines = (TOP / 'crates.txt').read_text().splitlines()
    return [line.split(':')[0].split()[0] for line in lines if line and not line.startswith('#')]


def files(crate):
    found = sorted((TOP / 'crates' / crate / 'src').rglob('*.rt'))
    return sorted(found, key=lambda file: file.name != 'lib.rt')


def functions(crate):
    """The public functions of a crate in their order: name, docstring, names of what they ensure."""
    for file in files(crate):
        doc, name, clauses, depth = [], None, [], 0
        for line in map(str.strip, file.read_text().splitlines()):
            if name:
                clauses += re.findall(r'^ensures(?: (\w+))? \{', line)
                if line.endswith('{') or line == '{}':
                    yield name, ' '.join(doc), clauses
                    doc, name, clauses = [], None, []
            elif depth or line.startswith('#['):
                depth += sum(map(line.count, '([{')) - sum(map(line.count, ')]}'))
            elif line.startswith('///'):
                doc.append(line[3:].strip())
            elif re.match(r'pub fn \w+', line):
                name = re.match(r'pub fn (\w+)', line)[1]
                if line.endswith('{'):
                    yield name, ' '.join(doc), []
                    doc, name = [], None
            else:
                doc = []


@functools.cache
def clause_names(crate):
    """The names of all clauses of a crate, and of the facts that its records have."""
    return {name for file in files(crate) for name in CLAUSE.findall(file.read_text())} | \
        set(re.findall(r'\bpub (\w+) :', ' '.join(file.read_text() for file in (TOP / 'crates' / crate / 'specs').rglob('*.antt'))))


def first_sentence(doc):
    return re.split(r'(?<=\.) (?=[A-Z])', doc)[0]


def laws(crate):
    return [(name, doc) for name, doc, _ in functions(crate) if name.startswith('law_')]


def theorems():
    """The lines of the page: a crate's name, then its laws."""
    left_out = STEPS | set(re.findall(r'`(law_\w+)`', README.read_text()))
    for crate in crates():
        listed = [] if LEMMAS.match(crate) else [(name, doc) for name, doc in laws(crate) if name not in left_out]
        if listed:
            yield f'**`{crate}`**'
            yield ''
            for name, doc in listed:
                yield f'- `{name}`: {first_sentence(doc)}'
            yield ''


def parts(page):
    """What stands before the made part of the page, the made part, and what stands after it."""
    lines = page.splitlines()
    first, last = lines.index(BEGIN), lines.index(END)
    return lines[:first + 1], lines[first + 1:last], lines[last:]


def wrong_clauses(page):
    """Names in brackets after a crate's name that no contract of that crate has."""
    listed, crate = set(crates()), None
    for number, line in enumerate(page.splitlines(), 1):
        head = re.match(r'\*\*`(\w+)(?:::\w+)?`\*\*', line)
        if head and head[1] in listed:
            crate = head[1]
        for named in re.findall(r'\[((?:`\w+`(?:, )?)+)\]', line):
            for name in re.findall(r'`(\w+)`', named):
                if crate and name not in clause_names(crate):
                    yield f'docs/PROVED.md:{number}: clause {name} of {crate}'


def main(words):
    if words == ['--laws']:
        print('\n'.join(theorems()))
    elif words == ['--steps']:
        for crate in crates():
            for name, doc in laws(crate):
                if LEMMAS.match(crate) or name in STEPS:
                    print(f'{crate}::{name}: {first_sentence(doc)}')
    elif words == ['--write']:
        before, _, after = parts(PAGE.read_text())
        PAGE.write_text('\n'.join(before + list(theorems()) + after) + '\n')
    elif words == ['--check']:
        page = PAGE.read_text()
        wrong = list(wrong_clauses(page))
        if parts(page)[1] != list(theorems()):
            wrong.append('docs/PROVED.md: the theorems differ from the docstrings or README; --write makes them anew')
        print('\n'.join(wrong), end='\n' if wrong else '')
        return 1 if wrong else 0
    else:
        for crate in words:
            for name, doc, clauses in functions(crate):
                print(f'{crate}::{name} [{", ".join(clause or "its one ensures" for clause in clauses)}]: {first_sentence(doc)}')
    return 0


if __name__ == '__main__':
    sys.exit(main(sys.argv[1:]))
