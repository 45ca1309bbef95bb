#!/usr/bin/env python3
"""litmus.py SECVISOR FOLDER [--linux SOURCE] [--seeds N] [--reversed]: litmus tests on four harts, against sequential
consistency.

Makes guests in FOLDER of the shapes of shapes.txt, once for each kind of access, and of the litmus tests of the Linux source
at SOURCE; computes for each test the outcomes that sequential consistency allows, by trying every order; runs each guest
under the schedules auto:1 to auto:N and bursts:1 to bursts:N; and prints, for each test, how many of its outcomes were
reached: by auto without gaps, auto with gaps, bursts without and bursts with. An outcome outside the allowed ones is
printed, and the status is 1.
Debian: apt-get install gcc-riscv64-unknown-elf, and linux-source-6.1 for SOURCE."""
import argparse
import collections
import concurrent.futures
import glob
import os
import re
import subprocess
import sys

import litmus_test
import outcomes

HERE = os.path.dirname(os.path.abspath(__file__))
COMMON = os.path.join(HERE, '..', '..', 'common')
HARTS, ROUNDS = 4, 8
# In even rounds nothing stands between the accesses, in odd ones a gap of some turns.
VARIANTS = ('tight', 'gaps')
KINDS = {'PLAIN': 'Loads and stores', 'ATOMIC': 'AMO', 'RESERVED': 'LR and SC'}
SCHEDULES = ('auto', 'bursts')
FLAGS = ('-march=rv64ima_zicsr_zifencei -mabi=lp64 -mcmodel=medany -mno-relax -msmall-data-limit=0 -Os -Wall -Wno-unused '
         '-ffreestanding -fno-builtin -fno-tree-loop-distribute-patterns -fno-asynchronous-unwind-tables -fno-pic '
         '-fno-stack-protector -fno-ident -nostdlib -static '
         '-Wl,-n,--no-relax,--build-id=none,--strip-debug,--discard-all').split()
# How an access is made, in the place of READ_ONCE and WRITE_ONCE of litmus.h.
ACCESSES = {
    'PLAIN': '',
    'ATOMIC': '#undef READ_ONCE\n#undef WRITE_ONCE\n'
              '#define READ_ONCE(place) ({ gap(); add_word(place_of(place), 0); })\n'
              '#define WRITE_ONCE(place, value) ({ gap(); (void)swap_word(place_of(place), value); })\n',
    'RESERVED': '#undef READ_ONCE\n#undef WRITE_ONCE\n'
                '#define READ_ONCE(place) ({ gap(); reserve_word(place_of(place)); })\n'
                '#define WRITE_ONCE(place, value) ({ gap(); (void)exchange_word(place_of(place), value); })\n',
}


def c_kind(kind):
    return kind if kind.endswith('*') else kind + ' '


def thread_code(test, index, thread, variant):
    """A thread as a function: the test's own text, which then says what its registers hold."""
    names = ''.join(f'    {c_kind(kind)}*{name} = &memory{index}[round].{name};\n' for name, kind in test.kinds.items())
    saved = ''.join(f'    out{index}[round].r{thread}_{name} = (u64){name};\n' for name in test.registers[thread])
    return (f'NOINLINE static void test{index}_{thread}_{variant}(u64 round, u64 *state)\n{{\n{names}'
            f'    {{{test.bodies[thread]}\n{saved}    }}\n}}\n')


def test_code(test, index):
    """The memory, registers, first values and printing of a test; both variants of each thread."""
    memory, out = f'memory{index}[round]', f'out{index}[round]'
    places = ''.join(f' {c_kind(kind)}{name};' for name, kind in test.kinds.items())
    registers = ''.join(f' u64 r{thread}_{name};' for thread, names in enumerate(test.registers) for name in names)
    code = [f'static struct {{{places} }} memory{index}[ROUNDS];\n',
            f'static struct {{{registers} u64 none; }} out{index}[ROUNDS];\n']
    for variant in VARIANTS:
        gap = '((void)0)' if variant == 'tight' else 'stand_still(state)'
        code.append(f'#undef gap\n#define gap() {gap}\n')
        code += [thread_code(test, index, thread, variant) for thread in range(len(test.threads))]
    code.append(f'static void test{index}_begin(u64 round)\n{{\n')
    for name, value in test.begin.items():
        code.append(f'    {memory}.{name} = {value if isinstance(value, int) else f"&{memory}.{value}"};\n')
    code.append(f'}}\nstatic void test{index}_print(u64 round)\n{{\n')
    for thread, name in test.seen():
        value = f'{memory}.{name}' if thread is None else f'{out}.r{thread}_{name}'
        code.append(f'    print_value((u64){value}, &{memory});\n')
    return ''.join(code) + '}\n'


PREFIX = '''/* Made by litmus.py. */
#include "litmus.h"
#define HARTS %d
#define ROUNDS %d
#define TESTS %d
static u64 gap_state[HARTS];
/* Between 0 and 15 steps of nothing, drawn anew each time. */
static inline void stand_still(u64 *state)
{
    *state = *state * 6364136223846793005ul + 1442695040888963407ul;
    for (u64 left = *state >> 60; left; left--)
        __asm__ volatile("");
}
/* A number, or for a place of the test its distance from the first, after an `@`. */
static void print_value(u64 value, void *memory)
{
    print_byte(' ');
    if (value >= (u64)memory) {
        print_byte('@');
        value -= (u64)memory;
    }
    put_number(value);
}
'''


def guest_code(tests, kind):
    code = [PREFIX % (HARTS, ROUNDS, len(tests)), ACCESSES[kind]]
    code += [test_code(test, index) for index, test in enumerate(tests)]
    code.append('static const struct {\n    u64 threads;\n    void (*thread[HARTS][2])(u64, u64 *);\n'
                '    void (*begin)(u64), (*print)(u64);\n} tests[TESTS] = {\n')
    for index, test in enumerate(tests):
        threads = ', '.join('{ ' + ', '.join(f'test{index}_{thread}_{variant}' for variant in VARIANTS) + ' }'
                            for thread in range(len(test.threads)))
        code.append(f'    {{ {len(test.threads)}, {{ {threads} }}, test{index}_begin, test{index}_print }},\n')
    return ''.join(code) + '};\n'


class Guest:
    """Tests in one image, each access of one kind."""

    def __init__(self, name, title, tests, kind):
        self.name, self.title, self.tests, self.kind = name, title, tests, kind
        self.allowed = [outcomes.outcomes(test) for test in tests]
        # How often each outcome was seen: by test, schedule and variant.
        self.seen = collections.defaultdict(collections.Counter)
        self.runs = collections.Counter()

    def build(self, secvisor, folder):
        own = os.path.join(folder, self.name)
        os.makedirs(own, exist_ok=True)
        with open(os.path.join(own, 'litmus_guest.h'), 'w') as file:
            file.write(guest_code(self.tests, self.kind))
        self.image, self.policy = os.path.join(own, 'litmus.elf'), os.path.join(own, 'litmus.policy')
        subprocess.run(['riscv64-unknown-elf-gcc', *FLAGS, f'-Wl,-T,{COMMON}/kernel.ld', f'-I{own}', f'-I{HERE}',
                        f'-I{COMMON}', '-o', self.image, f'{COMMON}/start.S', f'{COMMON}/kernel.c', f'{HERE}/harts.c'],
                       check=True)
        subprocess.run([secvisor, 'measure', self.policy, self.image, '256', str(HARTS), '0x80000000,0x80000100', 'none'],
                       check=True, stdout=subprocess.DEVNULL)

    def run(self, secvisor, schedule, seeds):
        """The output of the runs with these seeds, one after the other."""
        loop = ('for seed in $(seq $4 $5); do "$0" run "$1" "$2" none $3:$seed 100000000 none 2> /dev/null; done')
        words = ['bash', '-c', loop, secvisor, self.image, self.policy, schedule, str(seeds[0]), str(seeds[-1])]
        return schedule, subprocess.run(words, check=False, stdout=subprocess.PIPE).stdout.decode()

    def count(self, schedule, text):
        for line in text.splitlines():
            if line.startswith('o '):
                test, number, *values = line.split()[1:]
                outcome = tuple(self.value(self.tests[int(test)], value) for value in values)
                self.seen[int(test), schedule, VARIANTS[int(number) % 2]][outcome] += 1
            elif line.startswith('verdict'):
                self.runs[schedule, line] += 1
            elif line.startswith('turns'):
                turns, beats, ticks = (int(word) for word in re.findall(r'(?:turns|beats|ticks) (\d+)', line))
                self.runs[schedule, 'events'] += turns + beats + ticks

    @staticmethod
    def value(test, text):
        """A value that was printed: a number, or the place at that distance; places have 4 bytes, or 8 for pointers."""
        if text[0] != '@':
            return int(text)
        at = 0
        for name, kind in test.kinds.items():
            size = 8 if kind.endswith('*') else 4
            at = (at + size - 1) // size * size
            if at == int(text[1:]):
                return name
            at += size
        return text


def tests_of_linux(source):
    """The tests of the Linux source, and those that aren't understood, with what isn't."""
    found, left = [], []
    for path in sorted(glob.glob(f'{source}/tools/memory-model/litmus-tests/*.litmus')
                       + glob.glob(f'{source}/Documentation/litmus-tests/*/*.litmus')):
        with open(path) as file:
            text = file.read()
        try:
            found.append(litmus_test.Test(text))
        except litmus_test.Untranslatable as reason:
            left.append((os.path.basename(path).removesuffix('.litmus'), str(reason)))
    return found, left


def tests_of_shapes():
    with open(os.path.join(HERE, 'shapes.txt')) as file:
        return [litmus_test.Test(litmus_test.of_shape(line)) for line in file if line[0] not in '#\n']


def reverse(test):
    """Has each thread of a shape make its accesses in the other order, which the enumerator doesn't know of."""
    for thread, body in enumerate(test.bodies):
        lines = body.split('\n')
        declared = [line for line in lines if line.startswith('\tint')]
        test.bodies[thread] = '\n'.join(declared + [line for line in reversed(lines) if line not in declared])


def reached(guest, index):
    """How many allowed outcomes of a test were reached by each schedule and variant, and the outcomes outside."""
    test, allowed = guest.tests[index], guest.allowed[index]
    seen = {(schedule, variant): set(guest.seen[index, schedule, variant]) for schedule in SCHEDULES for variant in VARIANTS}
    outside = [f'{guest.name} {test.name} {schedule} {variant}: {outcomes.words(test, outcome)}'
               for (schedule, variant), found in seen.items() for outcome in sorted(found - allowed, key=str)]
    return ' '.join(str(len(found & allowed)) for found in seen.values()), outside


def table(guests):
    """Prints the table of guests of the same tests; the outcomes that no order explains."""
    model = any(test.result for test in guests[0].tests)
    heads = ['Test', 'Allowed', *(guest.title for guest in guests), 'Outside'] + (['Linux'] if model else [])
    print('\n| ' + ' | '.join(heads) + ' |\n|' + '---|' * len(heads))
    every = []
    for index, test in enumerate(guests[0].tests):
        found = [reached(guest, index) for guest in guests]
        outside = [line for _, lines in found for line in lines]
        every += outside
        cells = [f'`{test.name}`', str(len(guests[0].allowed[index])), *(numbers for numbers, _ in found), str(len(outside))]
        print('| ' + ' | '.join(cells + ([test.result.lower()] if model else [])) + ' |')
    print()
    for guest in guests:
        for schedule in SCHEDULES:
            verdicts = [f'{number} runs `{verdict}`' for (of, verdict), number in guest.runs.items()
                        if of == schedule and verdict != 'events']
            events = guest.runs[schedule, 'events'] / 1e6
            print(f'{guest.title}, `{schedule}`: {", ".join(verdicts)}, {events:,.0f} million events')
    sys.stdout.flush()
    return every


def run_all(guest, secvisor, words):
    """All runs of a guest."""
    guest.build(secvisor, words.folder)
    seeds = range(1, words.seeds + 1)
    batches = [(schedule, seeds[at:at + 50]) for schedule in SCHEDULES for at in range(0, len(seeds), 50)]
    with concurrent.futures.ThreadPoolExecutor(words.jobs) as pool:
        for made in pool.map(lambda batch: guest.run(secvisor, *batch), batches):
            guest.count(*made)
    print(f'{guest.name}: all runs made', file=sys.stderr)


def main():
    words = argparse.ArgumentParser(description=__doc__)
    words.add_argument('secvisor')
    words.add_argument('folder')
    words.add_argument('--linux', help='the source of Linux')
    words.add_argument('--reversed', action='store_true',
                       help='a trial of this trial: threads make their accesses in reverse order, so outcomes lie outside')
    words.add_argument('--seeds', type=int, default=1000)
    words.add_argument('--jobs', type=int, default=os.cpu_count())
    words = words.parse_args()
    secvisor = os.path.abspath(words.secvisor)
    groups, left = [], []
    if words.linux:
        tests, left = tests_of_linux(words.linux)
        groups.append([Guest('linux', 'Reached', tests, 'PLAIN')])
    groups.append([Guest(f'shapes_{kind.lower()}', title, tests_of_shapes(), kind) for kind, title in KINDS.items()])
    if words.reversed:
        groups = [groups[-1][:1]]
        for test in groups[0][0].tests:
            reverse(test)
    outside = []
    for guests in groups:
        for guest in guests:
            run_all(guest, secvisor, words)
        outside += table(guests)
    for name, reason in left:
        print(f'\n`{name}` isn\'t translated: `{reason}`.')
    wrong = [test.name for guests in groups for guest in guests for test, allowed in zip(guest.tests, guest.allowed)
             if test.result == 'Never' and any(outcomes.holds(test, outcome) for outcome in allowed)]
    for name in wrong:
        print(f'\n{name}: Linux forbids what every order allows')
    for line in outside:
        print(f'\noutside: {line}')
    sys.exit(1 if outside or wrong else 0)


if __name__ == '__main__':
    main()
