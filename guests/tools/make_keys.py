#!/usr/bin/env python3
"""Prints a script for one hart that types lines.

Time passes by one tick a turn. BOOT turns pass, then each LINE is typed at once, and GAP turns pass behind it; with
--auto these are so many events of `auto`, in which a disk has its beats too. A kernel that polls its console takes a
while to see a key (Linux up to two seconds of its time, 20 million turns), and the console's queue holds 256."""
import argparse

STEP = 20_000


def passing(turns):
    """The lines of a script in which turns and time pass, in steps."""
    return ['turn 0 %d\ntick %d' % (STEP, STEP)] * (turns // STEP)


def drawn(events):
    """The line of a script in which so many events are drawn."""
    return ['auto %d' % events]


def script(boot, gap, lines, pause=passing):
    """The lines of the script."""
    made = pause(boot)
    for line in lines:
        made += ['key %d' % byte for byte in line.encode() + b'\n']
        made += pause(gap)
    return made


def main():
    words = argparse.ArgumentParser(description=__doc__)
    words.add_argument('boot', type=int)
    words.add_argument('gap', type=int)
    words.add_argument('line', nargs='*')
    words.add_argument('--auto', action='store_true')
    words = words.parse_args()
    print('\n'.join(script(words.boot, words.gap, words.line, drawn if words.auto else passing)))


if __name__ == '__main__':
    main()
