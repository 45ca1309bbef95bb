#!/usr/bin/env python3
"""torture.py SECVISOR [FOLDER] [--schedule auto:1]: Linux's checks of its kernel memory, its torture tests of locks and of
RCU, and its unit tests of lib, on four harts, each to its own verdict; prints the table of docs/LINUX.md.

FOLDER is where build.sh made the guests. The output of each run stays in FOLDER as NAME.SCHEDULE.txt. The status is 1 where
a verdict is not the one that is due: the two guests that are named `busted` test a lock and an RCU that are made wrong, and
have to fail."""
import argparse
import concurrent.futures
import os
import re
import subprocess
import sys

HERE = os.path.dirname(os.path.abspath(__file__))
MOST = 4_000_000_000


def guests():
    """The names of guests that run by themselves."""
    with open(os.path.join(HERE, 'guests.txt')) as file:
        words = [line.split() for line in file if line[0] not in '#\n']
    return [word[0] for word in words if word[3] in ('checks', 'wait')]


def said(text):
    """What Linux says of its own tests."""
    found = re.findall(r'Checked W\+X mappings: [^\n]*|rodata_test: [^\n]*|Kernel memory protection [^\n]*', text)
    for kind in ('Writes:', 'Reads :'):
        found += [f'{kind.strip(" :").lower()} {number}' for number in re.findall(kind + r'\s+Total: (\d+)', text)[-1:]]
    found += [f'{number} versions' for number in re.findall(r'torture: rtc: \S+ VER: (\d+)', text)[-1:]]
    found += re.findall(r'End of test: (\w+)', text)[-1:]
    totals = re.findall(r'^# Totals: pass:(\d+) fail:(\d+) skip:(\d+)', text, re.M)
    if totals:
        passed, failed, skipped = (sum(int(number) for number in column) for column in zip(*totals))
        suites, wrong = (len(re.findall(word, text, re.M)) for word in (r'^ok \d+ ', r'^not ok \d+ '))
        found.append(f'{suites} suites ok, {wrong} not; of the cases that they count {passed} passed, {failed} failed, '
                     f'{skipped} skipped')
    return '; '.join(found)


def run(secvisor, schedule, name):
    """A guest's line of the table, and whether its verdict is due."""
    with open('measure.txt') as file:
        words = next(line.split()[1:] for line in file if line.startswith(f'{name}.policy '))
    subprocess.run([secvisor, *words], check=True, stdout=subprocess.DEVNULL)
    kept = f'{name}.{schedule.replace(":", "_")}.txt'
    with open(kept, 'wb') as out:
        child = subprocess.Popen([secvisor, 'run', f'{name}.elf', f'{name}.policy', 'none', schedule, str(MOST), 'none'],
                                 stdin=subprocess.DEVNULL, stdout=out, stderr=subprocess.DEVNULL)
        _, status, used = os.wait4(child.pid, 0)
    with open(kept, errors='replace') as file:
        text = file.read().replace('\r', '')
    counts = re.search(r'^turns (\d+) beats (\d+) keys (\d+) ticks (\d+)', text, re.M).groups()
    events = sum(int(number) for number in counts)
    verdict = re.search(r'^verdict (.*)', text, re.M)[1]
    wrong = re.search('^not ok|W\\+X mappings: failed|test data was', text, re.M)
    due = verdict == 'shutdown' and ('busted' in name) == ('FAILURE' in text) and not wrong
    seconds = used.ru_utime + used.ru_stime
    return f'| `{name}` | {said(text)} | `{verdict}` | {events / 1e6:,.0f} | {seconds:.0f} s |', due


def main():
    words = argparse.ArgumentParser(description=__doc__)
    words.add_argument('secvisor')
    words.add_argument('folder', nargs='?', default=os.path.join(HERE, 'out'))
    words.add_argument('--schedule', default='auto:1')
    words.add_argument('--only', nargs='*', help='these guests alone')
    words.add_argument('--jobs', type=int, default=os.cpu_count())
    words = words.parse_args()
    secvisor = os.path.abspath(words.secvisor)
    os.chdir(words.folder)
    print('| Guest | What Linux says | SecVisor | Million events | Processor time |')
    print('|---|---|---|---|---|')
    all_due = True
    with concurrent.futures.ThreadPoolExecutor(words.jobs) as pool:
        for line, due in pool.map(lambda name: run(secvisor, words.schedule, name), words.only or guests()):
            print(line if due else line + ' not due', flush=True)
            all_due &= due
    sys.exit(0 if all_due else 1)


if __name__ == '__main__':
    main()
